/*
 * A loan desk, written from the headers alone, in what C99 and C++ share: it has packets issued and compares each with what building
 * the application by hand gives, and reads every refusal, with what the five lent buffers hold then. Exits with 0 when all is as the
 * header says.
 */
#include <string.h>

#include "hold.h"
#include "wigneld_desk.h"

#if WIGNELD_FORMAT != 4
#error "the records below are of form 4"
#endif

/* Two groups: anyone, and the lender above. */
static const uint8_t groups[2 * WIGNELD_ROW_BYTES] = { 3, 0, 0, 0, 2, 0, 0, 0 };

/* An entry, days that anyone may read and the lender's figure; a rule from a unit to a unit. */
enum { ENTRY = 0, RULE = 3, UNIT = 4, TYPES = 6 };

static const uint8_t types[TYPES * WIGNELD_TYPE_RECORD_BYTES] = {
    WIGNELD_TYPE_PAIR,     0, 0, 0, 0, 0, /* ENTRY */
    WIGNELD_TYPE_NUMBER,   0, 0, 0, 0, 0,
    WIGNELD_TYPE_NUMBER,   1, 1, 0, 0, 0,
    WIGNELD_TYPE_FUNCTION, 0, 0, 0, 0, 0, /* RULE */
    WIGNELD_TYPE_UNIT,     0, 0, 0, 0, 0, /* UNIT */
    WIGNELD_TYPE_UNIT,     0, 0, 0, 0, 0,
};

struct bytes {
    uint8_t at[2 * WIGNELD_MOST_DEPTH * WIGNELD_SCRIPT_RECORD_BYTES];
    size_t length;
};

static void put(struct bytes *script, unsigned kind, unsigned r, unsigned ir, unsigned number)
{
    uint8_t *record = script->at + script->length;

    memset(record, 0, WIGNELD_SCRIPT_RECORD_BYTES);
    record[WIGNELD_AT_KIND] = (uint8_t)kind;
    record[WIGNELD_AT_READERS] = (uint8_t)r;
    record[WIGNELD_AT_INDIRECT] = (uint8_t)ir;
    record[WIGNELD_AT_NUMBER] = (uint8_t)(number & 0xff);
    record[WIGNELD_AT_NUMBER + 1] = (uint8_t)(number >> 8);
    script->length += WIGNELD_SCRIPT_RECORD_BYTES;
}

static struct bytes nothing(void)
{
    struct bytes script;

    memset(&script, 0, sizeof script);
    return script;
}

/* The page of an entry, which readers of this group may make: a day more, and the figure as it is. */
static struct bytes page(unsigned maker)
{
    struct bytes script = nothing();

    put(&script, WIGNELD_KIND_FUNCTION, maker, 0, ENTRY);
    put(&script, WIGNELD_KIND_PAIR, 0, 0, 0);
    put(&script, WIGNELD_KIND_SUM, 0, 0, 0);
    put(&script, WIGNELD_KIND_FIRST_PROJECTION, 0, 0, 0);
    put(&script, WIGNELD_KIND_VARIABLE, 0, 0, 0);
    put(&script, WIGNELD_KIND_LITERAL, 0, 0, 1);
    put(&script, WIGNELD_KIND_SECOND_PROJECTION, 0, 0, 0);
    put(&script, WIGNELD_KIND_VARIABLE, 0, 0, 0);
    return script;
}

/* 41 days and the figure 700; whose the figure is. */
static struct bytes entry_of(unsigned who)
{
    struct bytes entry = nothing();

    put(&entry, WIGNELD_KIND_PAIR, 0, 0, 0);
    put(&entry, WIGNELD_KIND_LITERAL, 0, 0, 41);
    put(&entry, WIGNELD_KIND_LITERAL, who, who, 700);
    return entry;
}

/* An entry whose days only the lender may read. */
static struct bytes closed_entry(void)
{
    struct bytes entry = entry_of(1);

    entry.at[WIGNELD_SCRIPT_RECORD_BYTES + WIGNELD_AT_READERS] = 1;
    return entry;
}

static struct bytes one(unsigned kind, unsigned number)
{
    struct bytes script = nothing();

    put(&script, kind, 0, 0, number);
    return script;
}

static struct bytes unit(void)
{
    return one(WIGNELD_KIND_UNIT, 0);
}

/* Some protects, and a script in them. */
static struct bytes wrapped(unsigned protects, const struct bytes *inside)
{
    struct bytes script = nothing();

    while (protects-- > 0)
        put(&script, WIGNELD_KIND_PROTECT, 0, 0, 0);
    memcpy(script.at + script.length, inside->at, inside->length);
    script.length += inside->length;
    return script;
}

/* A rule that calls itself for ever. */
static struct bytes endless(void)
{
    struct bytes script = one(WIGNELD_KIND_RECURSION, RULE);

    put(&script, WIGNELD_KIND_FUNCTION, 0, 0, UNIT);
    put(&script, WIGNELD_KIND_APPLICATION, 0, 0, 0);
    put(&script, WIGNELD_KIND_VARIABLE, 0, 0, 1);
    put(&script, WIGNELD_KIND_VARIABLE, 0, 0, 0);
    return script;
}

/* A unit that is applied, which has no type. */
static struct bytes untyped(void)
{
    struct bytes script = one(WIGNELD_KIND_APPLICATION, 0);

    put(&script, WIGNELD_KIND_UNIT, 0, 0, 0);
    put(&script, WIGNELD_KIND_UNIT, 0, 0, 0);
    return script;
}

/* What a packet is asked for, and how much of each buffer is lent. */
struct request {
    struct bytes script, entry;
    uint64_t group, budget, profile;
    size_t work, first, scratch, steps, sheet;
};

/* What is lent. What a call keeps shows by the byte that stood there. */
enum { OLD = 0xA5 };
static uint8_t work[WIGNELD_WORK_BYTES + 1], first[WIGNELD_RUN_BYTES + 1], scratch[WIGNELD_RUN_BYTES + 1];
static uint8_t steps[WIGNELD_STEPS_BYTES + 1], sheet[WIGNELD_SHEET_BYTES + 1];

/* What building by hand leaves in its own. */
static uint8_t hand_first[sizeof first], hand_scratch[sizeof scratch], hand_steps[sizeof steps], hand_sheet[sizeof sheet];

static struct request request(const struct bytes *script, const struct bytes *entry)
{
    struct request r;

    memset(&r, 0, sizeof r);
    r.script = *script;
    r.entry = *entry;
    r.budget = 1000;
    r.profile = WIGNELD_PROFILE_NONE;
    r.work = WIGNELD_WORK_BYTES;
    r.first = r.scratch = WIGNELD_RUN_BYTES;
    r.steps = WIGNELD_STEPS_BYTES;
    r.sheet = WIGNELD_SHEET_BYTES;
    return r;
}

static uint64_t packet(const struct request *r)
{
    memset(work, OLD, sizeof work);
    memset(first, OLD, sizeof first);
    memset(scratch, OLD, sizeof scratch);
    memset(steps, OLD, sizeof steps);
    memset(sheet, OLD, sizeof sheet);
    return wigneld_packet(groups, sizeof groups, types, sizeof types, r->script.at, r->script.length, r->entry.at, r->entry.length,
                          r->group, r->budget, r->profile, work, r->work, first, r->first, scratch, r->scratch, steps, r->steps,
                          sheet, r->sheet);
}

static int all(const uint8_t *bytes, size_t length, unsigned byte)
{
    size_t i;

    for (i = 0; i < length; i++)
        if (bytes[i] != byte)
            return 0;
    return 1;
}

/* Whether the lent part of the work buffer is zeros, and what is past it as it was. */
static int cleared(const struct request *r)
{
    return all(work, r->work, 0) && all(work + r->work, sizeof work - r->work, OLD);
}

/* The application's record, the script and the entry, one after the other. */
static struct bytes application(const struct request *r)
{
    struct bytes whole = nothing();

    put(&whole, WIGNELD_KIND_APPLICATION, (unsigned)r->group, 0, 0);
    memcpy(whole.at + whole.length, r->script.at, r->script.length);
    whole.length += r->script.length;
    memcpy(whole.at + whole.length, r->entry.at, r->entry.length);
    whole.length += r->entry.length;
    return whole;
}

/* The application built by hand, checked, and run in buffers as long as the packet's. */
static uint64_t run_by_hand(const struct request *r)
{
    static uint8_t typing[WIGNELD_WORK_BYTES], found[WIGNELD_ANSWER_BYTES];
    struct bytes whole = application(r);
    uint64_t checked = wigneld_check(groups, sizeof groups, types, sizeof types, whole.at, whole.length, typing, sizeof typing, found,
                                     sizeof found);

    HOLD(wigneld_question(checked) == 0);
    memset(hand_first, OLD, sizeof hand_first);
    memset(hand_scratch, OLD, sizeof hand_scratch);
    memset(hand_steps, OLD, sizeof hand_steps);
    return wigneld_run(groups, sizeof groups, types, sizeof types, whole.at, whole.length, r->budget, hand_first, r->first,
                       hand_scratch, r->scratch, hand_steps, r->steps);
}

/* Whether the run's buffers are what the run by hand left, past what was lent too. */
static int ran_alike(void)
{
    return memcmp(first, hand_first, sizeof first) == 0 && memcmp(scratch, hand_scratch, sizeof scratch) == 0;
}

/* A packet that isn't refused: it is what the run and the sheet by hand are. Gives its answer. */
static uint64_t as_by_hand(const struct request *r)
{
    uint64_t answer = packet(r), ran = run_by_hand(r);
    unsigned end = wigneld_run_end(ran);

    HOLD(wigneld_question(answer) == 0 && wigneld_run_end(answer) == end);
    HOLD(end != WIGNELD_END_MAY_NOT && end != WIGNELD_END_WRONG_KIND);
    HOLD(cleared(r) && ran_alike() && memcmp(steps, hand_steps, sizeof steps) == 0);
    if (r->steps == WIGNELD_STEPS_BYTES)
        HOLD(wigneld_run_steps(answer, steps) == wigneld_run_steps(ran, hand_steps));
    memset(hand_sheet, OLD, sizeof hand_sheet);
    if (end == WIGNELD_END_VALUE) {
        uint64_t shown = wigneld_sheet(groups, sizeof groups, types, sizeof types, hand_first,
                                       wigneld_run_count(ran) * WIGNELD_SCRIPT_RECORD_BYTES, r->group, hand_sheet, r->sheet);

        HOLD(wigneld_question(shown) == 0 && wigneld_run_count(answer) == wigneld_count(shown));
    } else
        HOLD(wigneld_run_count(answer) == wigneld_run_count(ran));
    HOLD(memcmp(sheet, hand_sheet, sizeof sheet) == 0);
    return answer;
}

/* A packet for the lender, who sees all of it, and one for anyone. */
static void issued(void)
{
    static const uint8_t for_the_lender[] = {
        WIGNELD_SHEET_PAIR, 0, 0, 0, 0, 0, WIGNELD_SHEET_NUMBER, 0, 0, 0, 42, 0, WIGNELD_SHEET_NUMBER, 1, 1, 0, 700 & 255, 700 >> 8,
    };
    static const uint8_t for_anyone[] = {
        WIGNELD_SHEET_PAIR, 0, 0, 0, 0, 0, WIGNELD_SHEET_NUMBER, 0, 0, 0, 42, 0, WIGNELD_SHEET_CLOSED, 0, 0, 0, 0, 0,
    };
    struct bytes lenders = page(1), anyones = page(0), entry = entry_of(1), open = entry_of(0);
    struct request r = request(&lenders, &entry);
    uint64_t answer;

    r.group = 1;
    answer = as_by_hand(&r);
    HOLD(wigneld_run_end(answer) == WIGNELD_END_VALUE && wigneld_run_count(answer) == 3);
    HOLD(memcmp(sheet, for_the_lender, sizeof for_the_lender) == 0);
    HOLD(all(sheet + sizeof for_the_lender, sizeof sheet - sizeof for_the_lender, OLD));
    r.script = anyones;
    r.group = 0;
    answer = as_by_hand(&r);
    HOLD(wigneld_run_end(answer) == WIGNELD_END_VALUE && memcmp(sheet, for_anyone, sizeof for_anyone) == 0);
    /* An entry that is more open is taken too. */
    r.entry = open;
    answer = as_by_hand(&r);
    HOLD(wigneld_run_count(answer) == 3 && sheet[2 * WIGNELD_SHEET_RECORD_BYTES] == WIGNELD_SHEET_NUMBER);
    /* The script may have to be run before it is a function. */
    r.script = wrapped(3, &anyones);
    HOLD(wigneld_run_end(as_by_hand(&r)) == WIGNELD_END_VALUE);
    /* In no more than is needed: the application is the largest term here. */
    r = request(&lenders, &entry);
    r.group = 1;
    r.first = r.scratch = application(&r).length;
    r.sheet = sizeof for_the_lender;
    HOLD(wigneld_run_end(as_by_hand(&r)) == WIGNELD_END_VALUE);
    /* The profile leaves it as it is. */
    r.profile = WIGNELD_PROFILE_FINISHES;
    HOLD(wigneld_run_end(as_by_hand(&r)) == WIGNELD_END_VALUE);
}

/* Every budget up to what is needed: the end is reported, with the last term's records, and there is no sheet. */
static void budgets(void)
{
    struct bytes script = page(1), entry = entry_of(1);
    struct request r = request(&script, &entry);
    uint64_t answer, needed;

    r.group = 1;
    answer = as_by_hand(&r);
    needed = wigneld_run_steps(answer, steps);
    HOLD(needed > 2);
    for (r.budget = 0; r.budget < needed; r.budget++) {
        answer = as_by_hand(&r);
        HOLD(wigneld_run_end(answer) == WIGNELD_END_SPENT && wigneld_run_steps(answer, steps) == r.budget);
        HOLD(wigneld_run_count(answer) > 3 && all(sheet, sizeof sheet, OLD));
        /* Nor is there any need to lend one. */
        r.sheet = 0;
        HOLD(packet(&r) == answer);
        r.sheet = WIGNELD_SHEET_BYTES;
    }
    HOLD(wigneld_run_end(as_by_hand(&r)) == WIGNELD_END_VALUE);
    r.budget = UINT64_MAX;
    HOLD(wigneld_run_end(as_by_hand(&r)) == WIGNELD_END_VALUE && wigneld_run_steps(answer, steps) == needed);
}

/* A rule that goes on for ever: its budget is spent, or a term doesn't fit. */
static void endless_runs(void)
{
    struct bytes script = endless(), entry = unit();
    struct request r = request(&script, &entry);
    uint64_t answer;

    r.budget = 77;
    answer = as_by_hand(&r);
    HOLD(wigneld_run_end(answer) == WIGNELD_END_SPENT && wigneld_run_steps(answer, steps) == 77 && all(sheet, sizeof sheet, OLD));
    r.first = application(&r).length + WIGNELD_SCRIPT_RECORD_BYTES;
    answer = as_by_hand(&r);
    HOLD(wigneld_run_end(answer) == WIGNELD_END_TOO_BIG && wigneld_run_steps(answer, steps) == 0);
    HOLD(wigneld_run_count(answer) == application(&r).length / WIGNELD_SCRIPT_RECORD_BYTES && all(sheet, sizeof sheet, OLD));
}

/* As many of the steps' bytes as are lent, and none past them. */
static void lent_steps(void)
{
    struct bytes script = page(1), entry = entry_of(1);
    struct request r = request(&script, &entry);

    r.group = 1;
    for (r.steps = 0; r.steps <= sizeof steps; r.steps++) {
        size_t written = r.steps < WIGNELD_STEPS_BYTES ? r.steps : (size_t)WIGNELD_STEPS_BYTES;

        HOLD(wigneld_run_end(as_by_hand(&r)) == WIGNELD_END_VALUE);
        HOLD(all(steps + written, sizeof steps - written, OLD));
    }
}

/* A refusal before the run: nothing that is lent changes, but for the work buffer once the script's typing has begun. */
static void refuses(const struct request *r, unsigned question, uint32_t place, int typing_begun)
{
    uint64_t answer = packet(r);

    HOLD(wigneld_question(answer) == question && wigneld_place(answer) == place);
    HOLD(wigneld_run_end(answer) == WIGNELD_END_REFUSED && wigneld_run_count(answer) == 0 && wigneld_run_steps(answer, steps) == 0);
    HOLD(typing_begun ? cleared(r) : all(work, sizeof work, OLD));
    HOLD(all(first, sizeof first, OLD) && all(scratch, sizeof scratch, OLD));
    HOLD(all(steps, sizeof steps, OLD) && all(sheet, sizeof sheet, OLD));
}

/* The script, then the entry, by the same questions; what is refused of the entry is asked when the work buffer is in use. */
static void checked(void)
{
    struct bytes script = page(0), entry = entry_of(1), none = nothing(), wrong = untyped(), free = one(WIGNELD_KIND_VARIABLE, 0);
    struct bytes kind = one(WIGNELD_KIND_LESS + 1, 0), inside = wrapped(1, &wrong);
    struct request r = request(&script, &entry);

    r.work = WIGNELD_WORK_BYTES - 1;
    refuses(&r, 1, 0, 0);
    r = request(&none, &none);
    refuses(&r, 13, 0, 0);
    r = request(&kind, &none);
    refuses(&r, 14, 0, 0);
    r = request(&free, &kind);
    refuses(&r, 19, 0, 0);
    r = request(&wrong, &free);
    refuses(&r, 20, 0, 1);
    r = request(&inside, &free);
    refuses(&r, 20, 1, 1);
    r = request(&script, &none);
    refuses(&r, 13, 0, 1);
    r = request(&script, &kind);
    refuses(&r, 14, 0, 1);
    r = request(&script, &free);
    refuses(&r, 19, 0, 1);
    r = request(&script, &inside);
    refuses(&r, 20, 1, 1);
    r = request(&script, &entry);
    r.entry.length -= WIGNELD_SCRIPT_RECORD_BYTES;
    refuses(&r, 17, 2, 1);
    /* A longer work buffer ends as zeros too. */
    r.work = WIGNELD_WORK_BYTES + 1;
    refuses(&r, 17, 2, 1);
    HOLD(wigneld_place_kind(17) == WIGNELD_PLACE_SCRIPT_RECORD);

    HOLD(wigneld_question(wigneld_packet(NULL, 0, NULL, 0, NULL, 0, NULL, 0, 0, 0, 0, NULL, 0, NULL, 0, NULL, 0, NULL, 0, NULL, 0))
         == 1);
    HOLD(wigneld_question(wigneld_packet(NULL, 0, NULL, 0, NULL, 0, NULL, 0, 0, 0, 0, work, sizeof work, NULL, 0, NULL, 0, NULL, 0,
                                         NULL, 0))
         == 2);
    HOLD(wigneld_question(wigneld_packet(groups, sizeof groups, NULL, 0, NULL, 0, NULL, 0, 0, 0, 0, work, sizeof work, NULL, 0, NULL,
                                         0, NULL, 0, NULL, 0))
         == 8);
}

/* Recursions under the profile, the first of the script or of the entry; anything but 0 is the profile. */
static void profiles(void)
{
    static const uint64_t any[] = { WIGNELD_PROFILE_FINISHES, 2, 256, UINT64_C(1) << 32, UINT64_MAX };
    struct bytes script = page(0), rule = endless(), entry = unit(), hidden = wrapped(2, &rule);
    struct request r;
    size_t i;

    for (i = 0; i < sizeof any / sizeof any[0]; i++) {
        r = request(&rule, &entry);
        r.profile = any[i];
        refuses(&r, 39, 0, 0);
        r.script = hidden;
        refuses(&r, 39, 2, 0);
        r.script = script;
        r.entry = hidden;
        refuses(&r, 39, 2, 1);
    }
    HOLD(wigneld_place_kind(39) == WIGNELD_PLACE_SCRIPT_RECORD);
    r.profile = WIGNELD_PROFILE_NONE;
    refuses(&r, 26, 0, 1);
    r.script = rule;
    r.entry = entry;
    r.budget = 77;
    HOLD(wigneld_run_end(as_by_hand(&r)) == WIGNELD_END_SPENT);
}

/* 26, 25, 37, 21, 38, 13 and 18, in this order and all at place 0: whatever comes later is wrong as well. */
static void applied(void)
{
    static const uint64_t past[] = { 2, 32, 256, 257, UINT64_C(1) << 32, UINT64_MAX };
    struct bytes lenders = page(1), anyones = page(0), entry = entry_of(1), days = closed_entry(), plain = unit();
    struct bytes moving = wrapped(1, &days), deep = wrapped(WIGNELD_MOST_DEPTH - 5, &anyones);
    struct bytes just = wrapped(WIGNELD_MOST_DEPTH - 6, &anyones);
    struct request r = request(&plain, &moving);
    size_t i;

    r.first = r.scratch = 0;
    for (i = 0; i < sizeof past / sizeof past[0]; i++) {
        r.group = past[i];
        r.entry = moving;
        refuses(&r, 26, 0, 1);
        r.entry = days;
        refuses(&r, 25, 0, 1);
    }
    r.group = 0;
    refuses(&r, 37, 0, 1);
    r.script = lenders;
    refuses(&r, 21, 0, 1);
    r.group = 1;
    refuses(&r, 38, 0, 1);
    r.script = anyones;
    refuses(&r, 38, 0, 1);
    r.entry = plain;
    refuses(&r, 38, 0, 1);

    /* Room for the application in both run buffers, and one record more or less deep. */
    r = request(&deep, &entry);
    r.first = application(&r).length - 1;
    refuses(&r, 13, 0, 1);
    r.first = WIGNELD_RUN_BYTES;
    r.scratch = application(&r).length - 1;
    refuses(&r, 13, 0, 1);
    r.scratch = WIGNELD_RUN_BYTES;
    refuses(&r, 18, 0, 1);
    r.script = just;
    HOLD(wigneld_run_end(as_by_hand(&r)) == WIGNELD_END_VALUE);
    for (i = 25; i <= 26; i++)
        HOLD(wigneld_place_kind((unsigned)i) == WIGNELD_PLACE_NOTHING);
    for (i = 37; i <= 38; i++)
        HOLD(wigneld_place_kind((unsigned)i) == WIGNELD_PLACE_NOTHING);
}

/* 27 comes after the run: its buffers stay as the run left them, and steps and sheet as they were. */
static void no_room(void)
{
    struct bytes script = page(1), entry = entry_of(1);
    struct request r = request(&script, &entry);

    r.group = 1;
    for (r.sheet = 0; r.sheet < 3 * WIGNELD_SHEET_RECORD_BYTES; r.sheet++) {
        uint64_t answer = packet(&r), ran = run_by_hand(&r);

        HOLD(wigneld_question(answer) == 27 && wigneld_place(answer) == 0);
        HOLD(wigneld_run_end(answer) == WIGNELD_END_REFUSED && wigneld_run_end(ran) == WIGNELD_END_VALUE);
        HOLD(cleared(&r) && ran_alike() && !all(first, sizeof first, OLD));
        HOLD(all(steps, sizeof steps, OLD) && all(sheet, sizeof sheet, OLD));
        HOLD(wigneld_run_count(answer) == 0 && wigneld_run_steps(answer, steps) == 0);
    }
    HOLD(wigneld_run_end(as_by_hand(&r)) == WIGNELD_END_VALUE);
    /* What is closed takes one record. */
    r.script = page(0);
    r.group = 0;
    HOLD(wigneld_run_end(as_by_hand(&r)) == WIGNELD_END_VALUE);
}

/* The desk's questions have their words, its profiles their numbers; a packet types a script, so it needs the stack for that. */
static void readings(void)
{
    HOLD(strcmp(wigneld_asked(37), "no such question") != 0 && strcmp(wigneld_asked(38), "no such question") != 0);
    HOLD(WIGNELD_PROFILE_NONE == 0 && WIGNELD_PROFILE_FINISHES != WIGNELD_PROFILE_NONE);
    HOLD(WIGNELD_PACKET_STACK_BYTES >= WIGNELD_CHECK_STACK_BYTES);
}

int main(void)
{
    issued();
    budgets();
    endless_runs();
    lent_steps();
    checked();
    profiles();
    applied();
    no_room();
    readings();
    return told();
}

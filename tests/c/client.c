/*
 * A client written from the header alone, in what C99 and C++ share: it builds tables and scripts, checks, runs and shows them,
 * and reads every kind of answer. Exits with 0 when all is as the header says.
 */
#include <string.h>

#include "hold.h"
#include "wigneld.h"

#if WIGNELD_FORMAT != 4
#error "the records below are of form 4"
#endif

/* Two groups: anyone, and the lender above. */
static const uint8_t groups[2 * WIGNELD_ROW_BYTES] = { 3, 0, 0, 0, 2, 0, 0, 0 };

/* Lent memory. What a call keeps shows by the byte that stood there. */
enum { OLD = 0xA5 };
static uint8_t work[WIGNELD_WORK_BYTES], found[WIGNELD_ANSWER_BYTES];
static uint8_t first[WIGNELD_RUN_BYTES], scratch[WIGNELD_RUN_BYTES], steps[WIGNELD_STEPS_BYTES], sheet[WIGNELD_SHEET_BYTES];

struct bytes {
    uint8_t at[2 * WIGNELD_MOST_DEPTH * WIGNELD_SCRIPT_RECORD_BYTES];
    size_t length;
};

static void put_made_type(struct bytes *types, unsigned kind, unsigned r, unsigned ir, unsigned c, unsigned ic)
{
    uint8_t *record = types->at + types->length;

    record[WIGNELD_AT_KIND] = (uint8_t)kind;
    record[WIGNELD_AT_READERS] = (uint8_t)r;
    record[WIGNELD_AT_INDIRECT] = (uint8_t)ir;
    record[WIGNELD_AT_ZERO] = 0;
    record[WIGNELD_TYPE_AT_CREATORS] = (uint8_t)c;
    record[WIGNELD_TYPE_AT_INDIRECT_CREATORS] = (uint8_t)ic;
    types->length += WIGNELD_TYPE_RECORD_BYTES;
}

static void put_type(struct bytes *types, unsigned kind, unsigned r, unsigned ir)
{
    put_made_type(types, kind, r, ir, 0, 0);
}

static void put_made(struct bytes *script, unsigned kind, unsigned r, unsigned ir, unsigned number, unsigned c, unsigned ic)
{
    uint8_t *record = script->at + script->length;

    record[WIGNELD_AT_KIND] = (uint8_t)kind;
    record[WIGNELD_AT_READERS] = (uint8_t)r;
    record[WIGNELD_AT_INDIRECT] = (uint8_t)ir;
    record[WIGNELD_AT_ZERO] = 0;
    record[WIGNELD_AT_NUMBER] = (uint8_t)(number & 0xff);
    record[WIGNELD_AT_NUMBER + 1] = (uint8_t)(number >> 8);
    record[WIGNELD_SCRIPT_AT_CREATORS] = (uint8_t)c;
    record[WIGNELD_SCRIPT_AT_INDIRECT_CREATORS] = (uint8_t)ic;
    script->length += WIGNELD_SCRIPT_RECORD_BYTES;
}

static void put_record(struct bytes *script, unsigned kind, unsigned r, unsigned ir, unsigned number)
{
    put_made(script, kind, r, ir, number, 0, 0);
}

/* A yes or no that anyone may read, and one of the lender's. */
enum { PUBLIC = 0, LENDERS = 3 };

static struct bytes tables(void)
{
    struct bytes types;

    memset(&types, 0, sizeof types);
    put_type(&types, WIGNELD_TYPE_SUM, 0, 0);
    put_type(&types, WIGNELD_TYPE_UNIT, 0, 0);
    put_type(&types, WIGNELD_TYPE_UNIT, 0, 0);
    put_type(&types, WIGNELD_TYPE_SUM, 1, 1);
    put_type(&types, WIGNELD_TYPE_UNIT, 0, 0);
    put_type(&types, WIGNELD_TYPE_UNIT, 0, 0);
    return types;
}

/* The lender's yes turned into a no by a reader: a pair of it with a public unit. */
static struct bytes turned(unsigned reader)
{
    struct bytes script;

    memset(&script, 0, sizeof script);
    put_record(&script, WIGNELD_KIND_PAIR, 0, 0, 0);
    put_record(&script, WIGNELD_KIND_UNIT, 0, 0, 0);
    put_record(&script, WIGNELD_KIND_CASE, reader, 0, PUBLIC);
    put_record(&script, WIGNELD_KIND_FIRST_INJECTION, 1, 1, LENDERS);
    put_record(&script, WIGNELD_KIND_UNIT, 0, 0, 0);
    put_record(&script, WIGNELD_KIND_SECOND_INJECTION, 0, 0, PUBLIC);
    put_record(&script, WIGNELD_KIND_VARIABLE, 0, 0, 0);
    put_record(&script, WIGNELD_KIND_FIRST_INJECTION, 0, 0, PUBLIC);
    put_record(&script, WIGNELD_KIND_VARIABLE, 0, 0, 0);
    return script;
}

static uint64_t check(const struct bytes *types, const struct bytes *script)
{
    memset(work, OLD, sizeof work);
    memset(found, OLD, sizeof found);
    return wigneld_check(groups, sizeof groups, types->at, types->length, script->at, script->length, work, sizeof work, found,
                         sizeof found);
}

static uint64_t run(const struct bytes *types, const struct bytes *script, uint64_t budget)
{
    memset(first, OLD, sizeof first);
    memset(scratch, OLD, sizeof scratch);
    memset(steps, OLD, sizeof steps);
    return wigneld_run(groups, sizeof groups, types->at, types->length, script->at, script->length, budget, first, sizeof first,
                       scratch, sizeof scratch, steps, sizeof steps);
}

static uint64_t show(const struct bytes *types, uint32_t records, uint64_t group)
{
    memset(sheet, OLD, sizeof sheet);
    return wigneld_sheet(groups, sizeof groups, types->at, types->length, first, (size_t)records * WIGNELD_SCRIPT_RECORD_BYTES,
                         group, sheet, sizeof sheet);
}

static int all(const uint8_t *bytes, size_t length, unsigned byte)
{
    size_t i;

    for (i = 0; i < length; i++)
        if (bytes[i] != byte)
            return 0;
    return 1;
}

static int is_record(const uint8_t *record, unsigned kind, unsigned r, unsigned ir)
{
    return record[WIGNELD_AT_KIND] == kind && record[WIGNELD_AT_READERS] == r && record[WIGNELD_AT_INDIRECT] == ir
           && record[WIGNELD_AT_ZERO] == 0;
}

static int is_made_type(const uint8_t *record, unsigned c, unsigned ic)
{
    return record[WIGNELD_TYPE_AT_CREATORS] == c && record[WIGNELD_TYPE_AT_INDIRECT_CREATORS] == ic;
}

static int is_made(const uint8_t *record, unsigned c, unsigned ic)
{
    return record[WIGNELD_SCRIPT_AT_CREATORS] == c && record[WIGNELD_SCRIPT_AT_INDIRECT_CREATORS] == ic;
}

/* Accepted, run to its value, and shown to both groups. */
static void accepted(void)
{
    struct bytes types = tables(), script = turned(1);
    uint64_t answer = check(&types, &script);

    HOLD(wigneld_question(answer) == 0 && wigneld_place(answer) == 0);
    HOLD(wigneld_count(answer) == 5);
    HOLD(is_record(found, WIGNELD_TYPE_PAIR, 0, 0));
    HOLD(is_record(found + WIGNELD_TYPE_RECORD_BYTES, WIGNELD_TYPE_UNIT, 0, 0));
    HOLD(is_record(found + 2 * WIGNELD_TYPE_RECORD_BYTES, WIGNELD_TYPE_SUM, 1, 1));
    HOLD(all(work, sizeof work, 0));
    HOLD(all(found + 5 * WIGNELD_TYPE_RECORD_BYTES, sizeof found - 5 * WIGNELD_TYPE_RECORD_BYTES, OLD));

    answer = run(&types, &script, 1);
    HOLD(wigneld_run_end(answer) == WIGNELD_END_SPENT && wigneld_run_steps(answer, steps) == 1);

    answer = run(&types, &script, 1000);
    HOLD(wigneld_question(answer) == 0);
    HOLD(wigneld_run_end(answer) == WIGNELD_END_VALUE);
    HOLD(wigneld_run_count(answer) == 4 && wigneld_run_steps(answer, steps) == 2);
    HOLD(first[2 * WIGNELD_SCRIPT_RECORD_BYTES + WIGNELD_AT_KIND] == WIGNELD_KIND_SECOND_INJECTION);
    HOLD(all(first + 4 * WIGNELD_SCRIPT_RECORD_BYTES, sizeof first - 4 * WIGNELD_SCRIPT_RECORD_BYTES, 0));
    HOLD(all(scratch, sizeof scratch, 0));

    answer = show(&types, wigneld_run_count(answer), 0);
    HOLD(wigneld_count(answer) == 3); /* the closed object's part is not told */
    HOLD(is_record(sheet, WIGNELD_SHEET_PAIR, 0, 0));
    HOLD(is_record(sheet + WIGNELD_SHEET_RECORD_BYTES, WIGNELD_SHEET_UNIT, 0, 0));
    HOLD(is_record(sheet + 2 * WIGNELD_SHEET_RECORD_BYTES, WIGNELD_SHEET_CLOSED, 0, 0));
    answer = show(&types, 4, 1);
    HOLD(is_record(sheet + 2 * WIGNELD_SHEET_RECORD_BYTES, WIGNELD_SHEET_SECOND, 1, 1));
    HOLD(all(sheet + 4 * WIGNELD_SHEET_RECORD_BYTES, sizeof sheet - 4 * WIGNELD_SHEET_RECORD_BYTES, OLD));
}

/* Refused by the check, and stopped in the run, which doesn't ask what the check asks. */
static void refused_and_stopped(void)
{
    struct bytes types = tables(), script = turned(0);
    uint64_t answer = check(&types, &script);

    HOLD(wigneld_question(answer) == 21);
    HOLD(wigneld_place_kind(wigneld_question(answer)) == WIGNELD_PLACE_SCRIPT_RECORD && wigneld_place(answer) == 2);
    HOLD(wigneld_count(answer) == 0);
    HOLD(all(found, sizeof found, OLD) && all(work, sizeof work, 0));

    answer = run(&types, &script, 1000);
    HOLD(wigneld_run_end(answer) == WIGNELD_END_MAY_NOT && wigneld_run_steps(answer, steps) == 0);
}

/* A rule without an end, for anyone or the lender to call (r of its type), that calls itself as `caller`; the lender calls it. */
static struct bytes endless(unsigned caller)
{
    struct bytes script;

    memset(&script, 0, sizeof script);
    put_record(&script, WIGNELD_KIND_APPLICATION, 1, 0, 0);
    put_record(&script, WIGNELD_KIND_RECURSION, caller, 0, 0);
    put_record(&script, WIGNELD_KIND_FUNCTION, 0, 0, 1);
    put_record(&script, WIGNELD_KIND_APPLICATION, 1, 0, 0);
    put_record(&script, WIGNELD_KIND_VARIABLE, 0, 0, 1);
    put_record(&script, WIGNELD_KIND_VARIABLE, 0, 0, 0);
    put_record(&script, WIGNELD_KIND_UNIT, 0, 0, 0);
    return script;
}

static struct bytes rule_types(unsigned r)
{
    struct bytes types;

    memset(&types, 0, sizeof types);
    put_type(&types, WIGNELD_TYPE_FUNCTION, r, 0);
    put_type(&types, WIGNELD_TYPE_UNIT, 0, 0);
    put_type(&types, WIGNELD_TYPE_UNIT, 0, 0);
    return types;
}

/* A recursion calls itself as the group that is written in it, which is one of its readers. */
static void recursive(void)
{
    unsigned r, caller;

    for (r = 0; r < 2; r++) {
        for (caller = 0; caller < 3; caller++) {
            struct bytes types = rule_types(r), script = endless(caller);
            uint64_t answer = check(&types, &script);
            unsigned question = caller == 2 ? 15 : caller < r ? 21 : 0;

            HOLD(wigneld_question(answer) == question && wigneld_place(answer) == (question != 0 ? 1u : 0u));
            HOLD(wigneld_count(answer) == (question != 0 ? 0u : 1u));
        }
    }
    for (caller = 0; caller < 2; caller++) {
        struct bytes types = rule_types(0), script = endless(caller);
        uint64_t answer = run(&types, &script, 1);

        /* What stands for the rule in its body: a function with its type's groups, the call in it, the recursion again. */
        HOLD(wigneld_run_end(answer) == WIGNELD_END_SPENT && wigneld_run_count(answer) == 13);
        HOLD(is_record(first + 3 * WIGNELD_SCRIPT_RECORD_BYTES, WIGNELD_KIND_FUNCTION, 0, 0));
        HOLD(is_record(first + 4 * WIGNELD_SCRIPT_RECORD_BYTES, WIGNELD_KIND_APPLICATION, caller, 0));
        HOLD(is_record(first + 5 * WIGNELD_SCRIPT_RECORD_BYTES, WIGNELD_KIND_RECURSION, caller, 0));
    }
}

/* A public yes tested by anyone, with these records as the branches: `number` is the case's. */
static struct bytes chosen(unsigned number, unsigned first_kind, unsigned second_kind, unsigned who)
{
    struct bytes script;

    memset(&script, 0, sizeof script);
    put_record(&script, WIGNELD_KIND_CASE, 0, 0, number);
    put_record(&script, WIGNELD_KIND_FIRST_INJECTION, 0, 0, PUBLIC);
    put_record(&script, WIGNELD_KIND_UNIT, 0, 0, 0);
    put_record(&script, first_kind, 0, 0, first_kind == WIGNELD_KIND_UNIT ? 0 : PUBLIC);
    if (first_kind != WIGNELD_KIND_UNIT)
        put_record(&script, WIGNELD_KIND_UNIT, 0, 0, 0);
    put_record(&script, second_kind, who, who, second_kind == WIGNELD_KIND_UNIT ? 0 : PUBLIC);
    if (second_kind != WIGNELD_KIND_UNIT)
        put_record(&script, WIGNELD_KIND_UNIT, 0, 0, 0);
    return script;
}

/* A case that finds its type: the lowest above both branches, where the lender's is above all of them; and none where they have
   different forms. */
static void own_type(void)
{
    const unsigned yes = WIGNELD_KIND_FIRST_INJECTION, no = WIGNELD_KIND_SECOND_INJECTION, unit = WIGNELD_KIND_UNIT;
    struct bytes types = tables(), script = chosen(LENDERS, yes, no, 0);
    uint64_t answer = check(&types, &script);
    unsigned who;

    HOLD(wigneld_count(answer) == 3 && is_record(found, WIGNELD_TYPE_SUM, 1, 1));
    for (who = 0; who < 2; who++) {
        script = chosen(WIGNELD_OWN_TYPE, yes, no, who);
        answer = check(&types, &script);
        HOLD(wigneld_count(answer) == 3 && is_record(found, WIGNELD_TYPE_SUM, who, who) && all(work, sizeof work, 0));
    }
    script = chosen(WIGNELD_OWN_TYPE, yes, unit, 0);
    answer = check(&types, &script);
    HOLD(wigneld_question(answer) == 31 && wigneld_place(answer) == 0 && wigneld_count(answer) == 0);
    HOLD(all(work, sizeof work, 0) && all(found, sizeof found, OLD));
    answer = run(&types, &script, 1000);
    HOLD(wigneld_run_end(answer) == WIGNELD_END_VALUE && wigneld_run_steps(answer, steps) == 2);

    /* A step inside it keeps its number. */
    memset(&script, 0, sizeof script);
    put_record(&script, WIGNELD_KIND_CASE, 0, 0, WIGNELD_OWN_TYPE);
    put_record(&script, WIGNELD_KIND_PROTECT, 0, 0, 0);
    put_record(&script, WIGNELD_KIND_FIRST_INJECTION, 0, 0, PUBLIC);
    for (who = 0; who < 3; who++)
        put_record(&script, WIGNELD_KIND_UNIT, 0, 0, 0);
    answer = run(&types, &script, 1);
    HOLD(wigneld_run_end(answer) == WIGNELD_END_SPENT && wigneld_run_count(answer) == 5);
    HOLD(first[WIGNELD_AT_KIND] == WIGNELD_KIND_CASE && first[WIGNELD_AT_NUMBER] == 0xff && first[WIGNELD_AT_NUMBER + 1] == 0xff);

    /* No other kind has such a number, and no case the one before it. */
    script.at[WIGNELD_AT_NUMBER]--;
    HOLD(wigneld_question(check(&types, &script)) == 16);
    script.at[WIGNELD_AT_KIND] = WIGNELD_KIND_FUNCTION;
    script.at[WIGNELD_AT_NUMBER]++;
    HOLD(wigneld_question(check(&types, &script)) == 16);
}

/* The meet of two groups, where there are no more. */
static unsigned least(unsigned a, unsigned b)
{
    return a < b ? a : b;
}

/* A reading of an object with creators c and ic, out of which comes a unit of the lender's making. */
static struct bytes reading(unsigned kind, unsigned reader, unsigned c, unsigned ic)
{
    struct bytes script;

    memset(&script, 0, sizeof script);
    put_record(&script, kind, reader, 0, kind == WIGNELD_KIND_CASE ? WIGNELD_OWN_TYPE : 0);
    switch (kind) {
    case WIGNELD_KIND_APPLICATION:
        put_made(&script, WIGNELD_KIND_FUNCTION, 0, 0, 1, c, ic);
        put_made(&script, WIGNELD_KIND_UNIT, 0, 0, 0, 1, 1);
        put_record(&script, WIGNELD_KIND_UNIT, 0, 0, 0);
        break;
    case WIGNELD_KIND_CASE:
        put_made(&script, WIGNELD_KIND_FIRST_INJECTION, 0, 0, PUBLIC, c, ic);
        put_record(&script, WIGNELD_KIND_UNIT, 0, 0, 0);
        put_made(&script, WIGNELD_KIND_UNIT, 0, 0, 0, 1, 1);
        put_made(&script, WIGNELD_KIND_UNIT, 0, 0, 0, 1, 1);
        break;
    default:
        put_made(&script, WIGNELD_KIND_PAIR, 0, 0, 0, c, ic);
        put_made(&script, WIGNELD_KIND_UNIT, 0, 0, 0, 1, 1);
        put_made(&script, WIGNELD_KIND_UNIT, 0, 0, 0, 1, 1);
        break;
    }
    return script;
}

/* What comes out of a reading has creators at or below ic of the object and the group that reads. */
static void creators(void)
{
    static const unsigned readings[] = { WIGNELD_KIND_APPLICATION, WIGNELD_KIND_FIRST_PROJECTION, WIGNELD_KIND_SECOND_PROJECTION,
                                         WIGNELD_KIND_CASE };
    struct bytes types = tables(), script;
    unsigned i, reader, c, ic;
    uint64_t answer;

    for (i = 0; i < sizeof readings / sizeof readings[0]; i++)
        for (reader = 0; reader < 2; reader++)
            for (c = 0; c < 2; c++)
                for (ic = 0; ic <= c; ic++) {
                    unsigned left = least(ic, reader);

                    script = reading(readings[i], reader, c, ic);
                    answer = check(&types, &script);
                    HOLD(wigneld_count(answer) == 1 && is_made_type(found, left, left));
                    /* One step leaves a protect, which has no creators of its own; the next the unit. */
                    answer = run(&types, &script, 1);
                    HOLD(wigneld_run_count(answer) == 2 && is_record(first, WIGNELD_KIND_PROTECT, 0, 0) && is_made(first, 0, left));
                    HOLD(is_made(first + WIGNELD_SCRIPT_RECORD_BYTES, 1, 1));
                    answer = run(&types, &script, 1000);
                    HOLD(wigneld_run_count(answer) == 1 && is_record(first, WIGNELD_KIND_UNIT, 0, 0) && is_made(first, left, left));
                }

    /* A protect lowers by its ic. */
    for (ic = 0; ic < 2; ic++) {
        memset(&script, 0, sizeof script);
        put_made(&script, WIGNELD_KIND_PROTECT, 0, 0, 0, 0, ic);
        put_made(&script, WIGNELD_KIND_UNIT, 0, 0, 0, 1, 1);
        HOLD(wigneld_count(check(&types, &script)) == 1 && is_made_type(found, ic, ic));
    }
}

/* A function of a unit with these creators, given one with those: lower ones are wanted, never higher ones. */
static void taken(void)
{
    unsigned c, ic, given_c, given_ic;

    for (c = 0; c < 2; c++)
        for (ic = 0; ic <= c; ic++)
            for (given_c = 0; given_c < 2; given_c++)
                for (given_ic = 0; given_ic <= given_c; given_ic++) {
                    struct bytes types, script;
                    uint64_t answer;
                    unsigned question = c <= given_c && ic <= given_ic ? 0 : 22;

                    memset(&types, 0, sizeof types);
                    put_made_type(&types, WIGNELD_TYPE_UNIT, 0, 0, c, ic);
                    memset(&script, 0, sizeof script);
                    put_record(&script, WIGNELD_KIND_APPLICATION, 0, 0, 0);
                    put_record(&script, WIGNELD_KIND_FUNCTION, 0, 0, 0);
                    put_record(&script, WIGNELD_KIND_VARIABLE, 0, 0, 0);
                    put_made(&script, WIGNELD_KIND_UNIT, 0, 0, 0, given_c, given_ic);
                    answer = check(&types, &script);
                    HOLD(wigneld_question(answer) == question && wigneld_place(answer) == 0);
                }
}

/* A recursion's result has creators at or below ic of its type and the group that it calls itself as. */
static void recursive_creators(void)
{
    unsigned c, ic, result, caller;

    for (c = 0; c < 2; c++)
        for (ic = 0; ic <= c; ic++)
            for (result = 0; result < 2; result++)
                for (caller = 0; caller < 2; caller++) {
                    struct bytes types, script = endless(caller);
                    uint64_t answer;
                    unsigned question = result <= least(ic, caller) ? 0 : 23;

                    memset(&types, 0, sizeof types);
                    put_made_type(&types, WIGNELD_TYPE_FUNCTION, 0, 0, c, ic);
                    put_type(&types, WIGNELD_TYPE_UNIT, 0, 0);
                    put_made_type(&types, WIGNELD_TYPE_UNIT, 0, 0, result, 0);
                    memset(script.at + 2 * WIGNELD_SCRIPT_RECORD_BYTES + WIGNELD_SCRIPT_AT_CREATORS, 1, 2);
                    answer = check(&types, &script);
                    HOLD(wigneld_question(answer) == question && wigneld_place(answer) == (question != 0 ? 1u : 0u));
                    /* What stands for the rule has its type's creators. */
                    answer = run(&types, &script, 1);
                    HOLD(wigneld_run_count(answer) == 13 && is_made(first + 3 * WIGNELD_SCRIPT_RECORD_BYTES, c, ic));
                }
}

/* Protects above a case that finds its type: its operands are two levels below it, the unit in the tested one a level more. */
static struct bytes deep(unsigned protects)
{
    struct bytes script;
    unsigned i;

    memset(&script, 0, sizeof script);
    for (i = 0; i < protects; i++)
        put_record(&script, WIGNELD_KIND_PROTECT, 0, 0, 0);
    put_record(&script, WIGNELD_KIND_CASE, 0, 0, WIGNELD_OWN_TYPE);
    put_record(&script, WIGNELD_KIND_FIRST_INJECTION, 0, 0, PUBLIC);
    for (i = 0; i < 3; i++)
        put_record(&script, WIGNELD_KIND_UNIT, 0, 0, 0);
    return script;
}

static void own_depth(void)
{
    struct bytes types = tables(), script = deep(WIGNELD_MOST_DEPTH - 4);
    unsigned more;

    HOLD(wigneld_count(check(&types, &script)) == 1);
    for (more = 1; more < 4; more++) {
        script = deep(WIGNELD_MOST_DEPTH - 4 + more);
        /* Too deep is first the unit, then the injection above it. */
        HOLD(wigneld_question(check(&types, &script)) == 18);
        HOLD(wigneld_place(check(&types, &script)) == WIGNELD_MOST_DEPTH - 4 + more + (more == 1 ? 2 : 1));
    }
}

/* A check that is refused so leaves all as it was, and so is a run. */
static void refuses(const struct bytes *types, const struct bytes *script, unsigned question, uint32_t place, unsigned kind)
{
    uint64_t answer = check(types, script);

    HOLD(wigneld_question(answer) == question && wigneld_place(answer) == place);
    HOLD(wigneld_place_kind_over(question, groups, sizeof groups, types->at, types->length) == kind);
    HOLD(all(work, sizeof work, OLD) && all(found, sizeof found, OLD));
    HOLD(run(types, script, 1000) == answer);
}

/* Creators in the records: which kinds have them (14), that they are in the table (9, 15), indirect ones at or below (36), and the
   order of these. */
static void written_creators(void)
{
    const unsigned of_types = WIGNELD_PLACE_TYPE_RECORD, of_script = WIGNELD_PLACE_SCRIPT_RECORD;
    struct bytes types = tables(), script = turned(1);
    uint8_t *type = types.at + 4 * WIGNELD_TYPE_RECORD_BYTES, *record;
    unsigned i;

    /* Of two records the later one's earlier question is named. */
    type[WIGNELD_TYPE_AT_INDIRECT_CREATORS] = 1;
    refuses(&types, &script, 36, 4, of_types);
    types.at[5 * WIGNELD_TYPE_RECORD_BYTES + WIGNELD_AT_INDIRECT] = 1;
    refuses(&types, &script, 10, 5, of_types);
    types.at[5 * WIGNELD_TYPE_RECORD_BYTES + WIGNELD_TYPE_AT_CREATORS] = 2;
    refuses(&types, &script, 9, 5, of_types);
    types = tables();
    type[WIGNELD_TYPE_AT_INDIRECT_CREATORS] = 2;
    refuses(&types, &script, 9, 4, of_types);
    /* A type that isn't finished is named after it, and a script's record too. */
    types = tables();
    type[WIGNELD_TYPE_AT_INDIRECT_CREATORS] = 1;
    types.length -= WIGNELD_TYPE_RECORD_BYTES;
    script.at[WIGNELD_AT_KIND] = 12;
    refuses(&types, &script, 36, 4, of_types);

    types = tables();
    for (i = 0; i < 9; i++) {
        script = turned(1);
        record = script.at + i * WIGNELD_SCRIPT_RECORD_BYTES;
        if (record[WIGNELD_AT_KIND] >= WIGNELD_KIND_UNIT && record[WIGNELD_AT_KIND] <= WIGNELD_KIND_SECOND_INJECTION) {
            record[WIGNELD_SCRIPT_AT_INDIRECT_CREATORS] = 1;
            refuses(&types, &script, 36, i, of_script);
            record[WIGNELD_SCRIPT_AT_CREATORS] = 1;
            HOLD(wigneld_question(check(&types, &script)) == 0);
            record[WIGNELD_SCRIPT_AT_CREATORS] = 2;
            refuses(&types, &script, 15, i, of_script);
        } else {
            record[WIGNELD_SCRIPT_AT_INDIRECT_CREATORS] = 1;
            refuses(&types, &script, 14, i, of_script);
            record[WIGNELD_SCRIPT_AT_INDIRECT_CREATORS] = 0;
            record[WIGNELD_SCRIPT_AT_CREATORS] = 1;
            refuses(&types, &script, 14, i, of_script);
        }
    }
    /* A protect has indirect creators alone, and nothing for them to be below. */
    script = deep(1);
    script.at[WIGNELD_SCRIPT_AT_INDIRECT_CREATORS] = 1;
    HOLD(wigneld_question(check(&types, &script)) == 0);
    script.at[WIGNELD_SCRIPT_AT_INDIRECT_CREATORS] = 2;
    refuses(&types, &script, 15, 0, of_script);
    script.at[WIGNELD_SCRIPT_AT_CREATORS] = 1;
    refuses(&types, &script, 14, 0, of_script);

    /* After 15 of a later record, before 16 of an earlier one. */
    script = turned(1);
    script.at[4 * WIGNELD_SCRIPT_RECORD_BYTES + WIGNELD_SCRIPT_AT_INDIRECT_CREATORS] = 1;
    script.at[2 * WIGNELD_SCRIPT_RECORD_BYTES + WIGNELD_AT_NUMBER] = 6;
    refuses(&types, &script, 36, 4, of_script);
    script.at[7 * WIGNELD_SCRIPT_RECORD_BYTES + WIGNELD_AT_INDIRECT] = 1;
    refuses(&types, &script, 15, 7, of_script);
}

/* A refused run is no value, has no records and no steps, and writes nothing. */
static void refused_run(void)
{
    struct bytes types = tables(), script = turned(1);
    uint64_t answer;

    script.length -= WIGNELD_SCRIPT_RECORD_BYTES;
    answer = run(&types, &script, 1000);
    HOLD(wigneld_question(answer) == 17 && wigneld_place(answer) == 8);
    HOLD(wigneld_run_end(answer) == WIGNELD_END_REFUSED);
    HOLD(wigneld_run_end(answer) != WIGNELD_END_VALUE);
    HOLD(wigneld_run_count(answer) == 0 && wigneld_run_steps(answer, steps) == 0);
    HOLD(all(first, sizeof first, OLD) && all(scratch, sizeof scratch, OLD) && all(steps, sizeof steps, OLD));

    types.length = 0;
    answer = run(&types, &script, 1000);
    HOLD(wigneld_question(answer) == 8 && wigneld_run_end(answer) == WIGNELD_END_REFUSED);
    HOLD(wigneld_run_steps(answer, NULL) == 0);

    answer = wigneld_run(NULL, 0, NULL, 0, NULL, 0, 1000, NULL, 0, NULL, 0, NULL, 0);
    HOLD(wigneld_question(answer) == 2 && wigneld_run_end(answer) == WIGNELD_END_REFUSED && wigneld_run_count(answer) == 0);
}

/* A refused sheet has no records. */
static void refused_sheet(void)
{
    struct bytes types = tables(), script = turned(1);
    uint64_t answer = run(&types, &script, 1000);
    uint32_t records = wigneld_run_count(answer);

    answer = show(&types, records, 2);
    HOLD(wigneld_question(answer) == 25 && wigneld_count(answer) == 0 && all(sheet, sizeof sheet, OLD));
    answer = wigneld_sheet(groups, sizeof groups, types.at, types.length, first, (size_t)records * WIGNELD_SCRIPT_RECORD_BYTES, 0,
                           sheet, 2 * WIGNELD_SHEET_RECORD_BYTES);
    HOLD(wigneld_question(answer) == 27 && wigneld_count(answer) == 0);
    answer = wigneld_sheet(groups, sizeof groups, types.at, types.length, script.at, script.length, 0, sheet, sizeof sheet);
    HOLD(wigneld_question(answer) == 26 && wigneld_count(answer) == 0);
}

/* A preview and a move of a script, with the number of steps as it stands in `steps`. */
static uint64_t preview(const struct bytes *types, const struct bytes *script, uint64_t length)
{
    return wigneld_preview(groups, sizeof groups, types->at, types->length, script->at, script->length, length);
}

static uint64_t move_on(const struct bytes *types, const struct bytes *script, uint64_t end, uint64_t records, size_t length)
{
    memset(first, OLD, sizeof first);
    return wigneld_move(groups, sizeof groups, types->at, types->length, script->at, script->length, end, records, first, length,
                        steps, sizeof steps);
}

static void put_steps(uint64_t number)
{
    unsigned i;

    for (i = 0; i < WIGNELD_STEPS_BYTES; i++)
        steps[i] = (uint8_t)(number >> 8 * i);
    HOLD(wigneld_steps(steps) == number);
}

/* Step by step to the value that a run reaches, each shown before it is taken. */
static void stepped(void)
{
    struct bytes types = tables(), script = turned(1);
    uint64_t ran = run(&types, &script, 1000), number, shown;
    uint64_t made = wigneld_run_steps(ran, steps);
    uint32_t records = wigneld_run_count(ran);

    HOLD(wigneld_run_end(ran) == WIGNELD_END_VALUE && made > 1);
    memcpy(scratch, first, records * WIGNELD_SCRIPT_RECORD_BYTES);
    put_steps(0);
    for (number = 0; number < made; number++) {
        shown = preview(&types, &script, sizeof first);
        HOLD(wigneld_question(shown) == 0 && wigneld_step_end(shown) == WIGNELD_END_MOVED);
        HOLD(move_on(&types, &script, wigneld_step_end(shown), wigneld_step_count(shown), sizeof first) == shown);
        HOLD(wigneld_steps(steps) == number + 1);
        script.length = wigneld_step_count(shown) * WIGNELD_SCRIPT_RECORD_BYTES;
        HOLD(all(first + script.length, sizeof first - script.length, OLD));
        memcpy(script.at, first, script.length);
    }
    shown = preview(&types, &script, sizeof first);
    HOLD(wigneld_step_end(shown) == WIGNELD_END_VALUE && wigneld_step_count(shown) == records);
    HOLD(script.length == records * WIGNELD_SCRIPT_RECORD_BYTES && memcmp(script.at, scratch, script.length) == 0);
    /* A move with the preview of a value is an answer, and keeps all. */
    HOLD(move_on(&types, &script, WIGNELD_END_VALUE, records, sizeof first) == shown);
    HOLD(wigneld_steps(steps) == made && all(first, sizeof first, OLD));
}

/* Stale and forged previews: refused where the end or the count isn't this step's, as wide as they are; nothing changes. */
static void other_previews(void)
{
    static const uint64_t wide[] = { 1, 256, 65536, UINT64_C(1) << 32, UINT64_C(1) << 63 };
    struct bytes types = tables(), script = turned(1);
    uint64_t shown = preview(&types, &script, sizeof first), end = wigneld_step_end(shown), records = wigneld_step_count(shown);
    size_t needed = (size_t)records * WIGNELD_SCRIPT_RECORD_BYTES;
    unsigned i;

    put_steps(77);
    for (i = 0; i < sizeof wide / sizeof wide[0]; i++) {
        uint64_t other_end = move_on(&types, &script, end + wide[i], records, sizeof first);
        uint64_t other_count = move_on(&types, &script, end, records + wide[i], sizeof first);

        HOLD(wigneld_question(other_end) == 35 && wigneld_place(other_end) == 0 && other_count == other_end);
        HOLD(wigneld_place_kind(35) == WIGNELD_PLACE_NOTHING);
        HOLD(all(first, sizeof first, OLD) && wigneld_steps(steps) == 77);
    }
    /* A shorter buffer is one that the preview doesn't show; a longer one, and any with the room, are as good. */
    HOLD(wigneld_question(move_on(&types, &script, end, records, needed - 1)) == 35 && wigneld_steps(steps) == 77);
    HOLD(move_on(&types, &script, end, records, needed) == shown && wigneld_steps(steps) == 78);
    HOLD(all(first + needed, sizeof first - needed, OLD));
    HOLD(wigneld_step_end(preview(&types, &script, needed - 1)) == WIGNELD_END_TOO_BIG);
    HOLD(wigneld_step_count(preview(&types, &script, needed - 1)) == script.length / WIGNELD_SCRIPT_RECORD_BYTES);
    HOLD(preview(&types, &script, UINT64_MAX) == shown);
    /* The script's own questions come first. */
    script.length -= WIGNELD_SCRIPT_RECORD_BYTES;
    HOLD(preview(&types, &script, 0) == run(&types, &script, 0));
    put_steps(5);
    HOLD(wigneld_question(move_on(&types, &script, UINT64_MAX, UINT64_MAX, 0)) == 17 && wigneld_steps(steps) == 5);
    HOLD(wigneld_question(wigneld_preview(NULL, 0, NULL, 0, NULL, 0, 0)) == 2);
    HOLD(wigneld_question(wigneld_move(NULL, 0, NULL, 0, NULL, 0, 0, 0, NULL, 0, NULL, 0)) == 2);
}

/* The number of steps: any is taken, the largest stays, and of a shorter one as many bytes as are lent. */
static void step_numbers(void)
{
    static const uint64_t numbers[] = { 0, 255, 65535, UINT32_MAX, UINT64_MAX - 1, UINT64_MAX };
    struct bytes types = tables(), script = turned(1);
    uint64_t shown = preview(&types, &script, sizeof first), end = wigneld_step_end(shown), records = wigneld_step_count(shown);
    size_t lent;
    unsigned i;

    for (i = 0; i < sizeof numbers / sizeof numbers[0]; i++) {
        put_steps(numbers[i]);
        HOLD(move_on(&types, &script, end, records, sizeof first) == shown);
        HOLD(wigneld_steps(steps) == numbers[i] + (numbers[i] != UINT64_MAX));
    }
    for (lent = 0; lent <= WIGNELD_STEPS_BYTES; lent++) {
        uint8_t most[WIGNELD_STEPS_BYTES + 1];

        memset(most, 255, sizeof most);
        HOLD(wigneld_move(groups, sizeof groups, types.at, types.length, script.at, script.length, end, records, first, sizeof first,
                          most, lent) == shown);
        HOLD(all(most, lent, lent == WIGNELD_STEPS_BYTES ? 255 : 0) && all(most + lent, sizeof most - lent, 255));
    }
}

/* What a reader makes of every refusal that there can be: each question, at small and large places. */
static void every_refusal(void)
{
    unsigned question, end;
    uint64_t place;

    for (question = 1; question <= WIGNELD_LAST_QUESTION + 1; question++) {
        for (place = 0; place <= UINT32_MAX; place = 3 * place + 1) {
            uint64_t answer = (uint64_t)question << 32 | place;

            HOLD(wigneld_question(answer) == question && wigneld_place(answer) == place);
            HOLD(wigneld_count(answer) == 0 && wigneld_run_count(answer) == 0 && wigneld_run_steps(answer, NULL) == 0);
            HOLD(wigneld_run_end(answer) == WIGNELD_END_REFUSED);
            HOLD(wigneld_step_end(answer) == WIGNELD_END_REFUSED && wigneld_step_count(answer) == 0);
        }
    }
    for (end = WIGNELD_END_VALUE; end <= WIGNELD_END_TOO_BIG; end++) {
        uint64_t answer = (uint64_t)end << 16 | WIGNELD_MOST_SCRIPT_RECORDS;

        HOLD(wigneld_question(answer) == 0 && wigneld_run_end(answer) == end && end != WIGNELD_END_REFUSED);
        HOLD(wigneld_run_count(answer) == WIGNELD_MOST_SCRIPT_RECORDS);
        HOLD(wigneld_step_end(answer) == end && wigneld_step_count(answer) == WIGNELD_MOST_SCRIPT_RECORDS);
    }
}

/* What each question's place counts, and that each has its words. */
static void places(void)
{
    /* - nothing, g a row, t a type record, s a script record, e either, w a word, a an entry; by number from 0. */
    static const char counted[] = "---gggg--tttt-sssssssssss----sss-ww-e--saaa";
    unsigned question;

    HOLD(sizeof counted - 1 == WIGNELD_LAST_QUESTION + 1);
    for (question = 0; question <= WIGNELD_LAST_QUESTION; question++) {
        unsigned kind = wigneld_place_kind(question);

        HOLD(kind <= WIGNELD_PLACE_ENTRY && counted[question] == "-gtsew a"[kind]);
        HOLD(kind == WIGNELD_PLACE_EITHER_RECORD || wigneld_place_kind_over(question, NULL, 0, NULL, 0) == kind);
        HOLD(strcmp(wigneld_asked(question), "no such question") != 0);
    }
    HOLD(strcmp(wigneld_asked(WIGNELD_LAST_QUESTION + 1), "no such question") == 0);
    HOLD(wigneld_place_kind(WIGNELD_LAST_QUESTION + 1) == WIGNELD_PLACE_NOTHING);
}

int main(void)
{
    accepted();
    refused_and_stopped();
    recursive();
    own_type();
    own_depth();
    creators();
    taken();
    recursive_creators();
    written_creators();
    refused_run();
    refused_sheet();
    stepped();
    other_previews();
    step_numbers();
    every_refusal();
    places();
    return told();
}

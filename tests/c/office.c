/*
 * A program of the office, written from the header alone, in what C99 and C++ share: it compares types, looks up scripts in force,
 * reads every kind of answer, checks scripts for a screen, rewrites tables and scripts of forms 1 and 2, and imports and exports
 * scripts of the old office program. Exits with 0 when all is as the header says.
 */
#include <string.h>

#include "hold.h"
#include "wigneld_office.h"

#if WIGNELD_FORMAT != 4
#error "the rewriting below is to form 4"
#endif

/* Two groups: anyone, and the lender above. */
static const uint8_t groups[] = { 3, 0, 0, 0, 2, 0, 0, 0 };

/* Functions of units, and units: kind, r, ir, 0, c, ic. Open has readers 0 and closed is the lender's; sworn has the lender as its
   creator and otherwise it says nothing. */
enum {
    CLOSED_TO_OPEN = 0, OPEN_TO_OPEN = 3, CLOSED_TO_CLOSED = 6, CLOSED_TO_OPEN_AGAIN = 9, SWORN_TO_OPEN = 12, OPEN_TO_SWORN = 15,
    SWORN = 18, HALF_SWORN, CLOSED_AND_SWORN, RECORDS
};

static const uint8_t types[] = {
    3, 0, 0, 0, 0, 0, 0, 1, 1, 0, 0, 0, 0, 0, 0, 0, 0, 0, /* 0 */
    3, 0, 0, 0, 0, 0, 0, 0, 0, 0, 0, 0, 0, 0, 0, 0, 0, 0, /* 3 */
    3, 0, 0, 0, 0, 0, 0, 1, 1, 0, 0, 0, 0, 1, 1, 0, 0, 0, /* 6 */
    3, 0, 0, 0, 0, 0, 0, 1, 1, 0, 0, 0, 0, 0, 0, 0, 0, 0, /* 9 */
    3, 0, 0, 0, 0, 0, 0, 0, 0, 0, 1, 1, 0, 0, 0, 0, 0, 0, /* 12 */
    3, 0, 0, 0, 0, 0, 0, 0, 0, 0, 0, 0, 0, 0, 0, 0, 1, 1, /* 15 */
    0, 0, 0, 0, 1, 1, 0, 0, 0, 0, 1, 0, 0, 1, 1, 0, 1, 1, /* 18, 19, 20 */
};

static unsigned compared(uint64_t first, uint64_t second)
{
    return wigneld_comparison(wigneld_compare(groups, sizeof groups, types, sizeof types, first, second));
}

/* Every two types, from one side and from the other. */
static void answers(void)
{
    uint64_t i, j;

    for (i = 0; i < RECORDS; i++)
        HOLD(compared(i, i) == WIGNELD_COMPARE_SAME);
    for (i = 0; i < RECORDS; i++)
        for (j = 0; j < RECORDS; j++) {
            HOLD(compared(i, j) <= WIGNELD_COMPARE_SAME);
            HOLD((compared(i, j) == WIGNELD_COMPARE_SAME) == (compared(j, i) == WIGNELD_COMPARE_SAME));
            HOLD(compared(i, j) != WIGNELD_COMPARE_BELOW || compared(j, i) == WIGNELD_COMPARE_NEITHER);
        }

    /* Equal records at different indexes. */
    HOLD(compared(CLOSED_TO_OPEN, CLOSED_TO_OPEN_AGAIN) == WIGNELD_COMPARE_SAME);
    HOLD(compared(OPEN_TO_OPEN + 1, CLOSED_TO_OPEN + 2) == WIGNELD_COMPARE_SAME);
    /* A unit that became more closed, and back: what is above is neither. */
    HOLD(compared(OPEN_TO_OPEN + 1, CLOSED_TO_OPEN + 1) == WIGNELD_COMPARE_BELOW);
    HOLD(compared(CLOSED_TO_OPEN + 1, OPEN_TO_OPEN + 1) == WIGNELD_COMPARE_NEITHER);
    /* A parameter is compared the other way round. */
    HOLD(compared(CLOSED_TO_OPEN, OPEN_TO_OPEN) == WIGNELD_COMPARE_BELOW);
    HOLD(compared(OPEN_TO_OPEN, CLOSED_TO_OPEN) == WIGNELD_COMPARE_NEITHER);
    HOLD(compared(CLOSED_TO_OPEN, CLOSED_TO_CLOSED) == WIGNELD_COMPARE_BELOW);
    /* Parameter and result both more closed: neither, from either side. */
    HOLD(compared(OPEN_TO_OPEN, CLOSED_TO_CLOSED) == WIGNELD_COMPARE_NEITHER);
    HOLD(compared(CLOSED_TO_CLOSED, OPEN_TO_OPEN) == WIGNELD_COMPARE_NEITHER);
    /* A function and a unit. */
    HOLD(compared(CLOSED_TO_OPEN, CLOSED_TO_OPEN + 1) == WIGNELD_COMPARE_NEITHER);
    /* Creators go down: by both, and by each. */
    HOLD(compared(SWORN, OPEN_TO_OPEN + 1) == WIGNELD_COMPARE_BELOW);
    HOLD(compared(OPEN_TO_OPEN + 1, SWORN) == WIGNELD_COMPARE_NEITHER);
    HOLD(compared(SWORN, HALF_SWORN) == WIGNELD_COMPARE_BELOW && compared(HALF_SWORN, SWORN) == WIGNELD_COMPARE_NEITHER);
    HOLD(compared(HALF_SWORN, OPEN_TO_OPEN + 1) == WIGNELD_COMPARE_BELOW);
    HOLD(compared(OPEN_TO_OPEN + 1, HALF_SWORN) == WIGNELD_COMPARE_NEITHER);
    /* More closed and with lower creators; more closed and with higher ones. */
    HOLD(compared(SWORN, CLOSED_TO_OPEN + 1) == WIGNELD_COMPARE_BELOW);
    HOLD(compared(OPEN_TO_OPEN + 1, CLOSED_AND_SWORN) == WIGNELD_COMPARE_NEITHER);
    HOLD(compared(CLOSED_AND_SWORN, OPEN_TO_OPEN + 1) == WIGNELD_COMPARE_NEITHER);
    /* What takes anybody's takes the sworn; what gives the sworn gives anybody's. */
    HOLD(compared(OPEN_TO_OPEN, SWORN_TO_OPEN) == WIGNELD_COMPARE_BELOW);
    HOLD(compared(SWORN_TO_OPEN, OPEN_TO_OPEN) == WIGNELD_COMPARE_NEITHER);
    HOLD(compared(OPEN_TO_SWORN, OPEN_TO_OPEN) == WIGNELD_COMPARE_BELOW);
    HOLD(compared(OPEN_TO_SWORN, SWORN_TO_OPEN) == WIGNELD_COMPARE_BELOW);
    HOLD(compared(SWORN_TO_OPEN, OPEN_TO_SWORN) == WIGNELD_COMPARE_NEITHER);
}

static void refuses(uint64_t answer, unsigned question, uint32_t place)
{
    HOLD(wigneld_question(answer) == question && wigneld_place(answer) == place);
    HOLD(wigneld_comparison(answer) == WIGNELD_COMPARE_REFUSED);
}

/* Tables that don't pass, and indexes past the table, wide ones too. */
static void refusals(void)
{
    static const uint64_t past[] = { RECORDS, 256, 65536, (uint64_t)1 << 32, ((uint64_t)1 << 32) + 1, UINT64_MAX };
    uint8_t damaged[sizeof types];
    size_t i;

    refuses(wigneld_compare(NULL, 0, types, sizeof types, 0, 0), 2, 0);
    refuses(wigneld_compare(groups, sizeof groups, NULL, 0, 0, 0), 8, 0);
    refuses(wigneld_compare(groups, sizeof groups, types, (SWORN - 1) * WIGNELD_TYPE_RECORD_BYTES, 0, 0), 11, OPEN_TO_SWORN);
    memcpy(damaged, types, sizeof types);
    damaged[WIGNELD_TYPE_RECORD_BYTES * OPEN_TO_OPEN + WIGNELD_TYPE_AT_INDIRECT_CREATORS] = 1;
    refuses(wigneld_compare(groups, sizeof groups, damaged, sizeof damaged, 0, 0), 36, OPEN_TO_OPEN);
    damaged[WIGNELD_TYPE_RECORD_BYTES * OPEN_TO_OPEN] = WIGNELD_TYPE_NUMBER + 1;
    refuses(wigneld_compare(groups, sizeof groups, damaged, sizeof damaged, 0, 0), 9, OPEN_TO_OPEN);
    for (i = 0; i < sizeof past / sizeof past[0]; i++) {
        refuses(wigneld_compare(groups, sizeof groups, types, sizeof types, past[i], 0), 25, 0);
        refuses(wigneld_compare(groups, sizeof groups, types, sizeof types, 0, past[i]), 25, 1);
        refuses(wigneld_compare(groups, sizeof groups, types, sizeof types, past[i], past[i]), 25, 0);
    }
}

/* No refusal is taken for an answer, whatever its place. */
static void readings(void)
{
    unsigned question;
    uint32_t place;

    for (question = 1; question <= WIGNELD_LAST_QUESTION; question++)
        for (place = 0; place < 4; place++)
            HOLD(wigneld_comparison((uint64_t)question << 32 | place) == WIGNELD_COMPARE_REFUSED
                 && wigneld_script_in_force((uint64_t)question << 32 | place) == WIGNELD_IN_FORCE_REFUSED);
    HOLD(wigneld_comparison(0) == WIGNELD_COMPARE_NEITHER);
    HOLD(wigneld_comparison(1) == WIGNELD_COMPARE_BELOW);
    HOLD(wigneld_comparison(2) == WIGNELD_COMPARE_SAME);
}

/* Scripts with lines of these types: two that the lender made, one that anybody may have, one more closed, and one that nobody lists. */
enum { SWORN_LINE, SWORN_LINE_AGAIN, OPEN_LINE, CLOSED_LINE, SPARE_LINE, LINES };

static const uint8_t lines[LINES * WIGNELD_LISTED_BYTES] = {
    SWORN, 0, SWORN, 0, OPEN_TO_OPEN + 1, 0, CLOSED_TO_OPEN + 1, 0, OPEN_TO_OPEN, 0,
};

/* The closed line is amended by the open one, that by a sworn one, and that by another. */
static const uint8_t amended[] = {
    CLOSED_LINE, 0, 255, 255, OPEN_LINE, 0, CLOSED_LINE, 0, SWORN_LINE_AGAIN, 0, OPEN_LINE, 0, SWORN_LINE, 0, SWORN_LINE_AGAIN, 0,
};

static uint64_t look_up(const uint8_t *scripts, size_t scripts_length, const uint8_t *entries, size_t entries_length, uint64_t index)
{
    return wigneld_in_force(groups, sizeof groups, types, sizeof types, scripts, scripts_length, entries, entries_length, index);
}

static uint32_t in_force(size_t entries, uint64_t index)
{
    return wigneld_script_in_force(look_up(lines, sizeof lines, amended, entries * WIGNELD_ENTRY_BYTES, index));
}

/* The list of amendments grows, and what is in force with it. */
static void looked_up(void)
{
    static const uint64_t past[] = { LINES, 256, 65535, 65536 + CLOSED_LINE, ((uint64_t)1 << 32) + CLOSED_LINE, UINT64_MAX };
    static const uint32_t newest[] = { WIGNELD_NO_SCRIPT, CLOSED_LINE, OPEN_LINE, SWORN_LINE_AGAIN, SWORN_LINE };
    size_t entries, i;

    for (entries = 0; entries < sizeof newest / sizeof newest[0]; entries++) {
        HOLD(in_force(entries, CLOSED_LINE) == newest[entries]);
        HOLD(in_force(entries, OPEN_LINE) == (entries >= 2 ? newest[entries] : WIGNELD_NO_SCRIPT));
        HOLD(in_force(entries, SWORN_LINE) == (entries == 4 ? (uint32_t)SWORN_LINE : WIGNELD_NO_SCRIPT));
        HOLD(in_force(entries, SPARE_LINE) == WIGNELD_NO_SCRIPT);
        for (i = 0; i < sizeof past / sizeof past[0]; i++)
            HOLD(in_force(entries, past[i]) == WIGNELD_NO_SCRIPT);
    }
    HOLD(wigneld_script_in_force(look_up(NULL, 0, NULL, 0, 0)) == WIGNELD_NO_SCRIPT);
}

/* A refused look-up, and what its place counts. */
static void not_looked_up(uint64_t answer, unsigned question, uint32_t place)
{
    HOLD(wigneld_question(answer) == question && wigneld_place(answer) == place);
    HOLD(wigneld_script_in_force(answer) == WIGNELD_IN_FORCE_REFUSED);
}

/* The lines, with these two numbers in entry `entry`. */
static void entry_with(size_t entry, unsigned line, unsigned old, unsigned question)
{
    uint8_t entries[sizeof amended];
    uint8_t *at = entries + entry * WIGNELD_ENTRY_BYTES;

    memcpy(entries, amended, sizeof entries);
    at[0] = (uint8_t)(line & 255);
    at[1] = (uint8_t)(line >> 8);
    at[WIGNELD_ENTRY_AT_REPLACED] = (uint8_t)(old & 255);
    at[WIGNELD_ENTRY_AT_REPLACED + 1] = (uint8_t)(old >> 8);
    not_looked_up(look_up(lines, sizeof lines, entries, sizeof entries, CLOSED_LINE), question, (uint32_t)entry);
    HOLD(wigneld_lists_place_kind(question, sizeof lines, sizeof entries) == WIGNELD_PLACE_ENTRY);
}

static void lists_refused(void)
{
    static uint8_t many[WIGNELD_SCRIPTS_LONGEST_BYTES + WIGNELD_LISTED_BYTES];
    uint8_t scripts[sizeof lines];
    size_t length;

    for (length = 0; length < sizeof amended; length++) {
        uint64_t answer = look_up(lines, sizeof lines, amended, length, WIGNELD_NO_SCRIPT);

        if (length % WIGNELD_ENTRY_BYTES == 0)
            HOLD(wigneld_script_in_force(answer) == WIGNELD_NO_SCRIPT);
        else {
            not_looked_up(answer, 40, 0);
            HOLD(wigneld_lists_place_kind(40, sizeof lines, length) == WIGNELD_PLACE_NOTHING);
        }
    }
    not_looked_up(look_up(lines, sizeof lines - 1, amended, sizeof amended, 0), 40, 0);
    HOLD(wigneld_lists_place_kind(40, sizeof lines - 1, sizeof amended) == WIGNELD_PLACE_NOTHING);
    /* As many as there can be, all of type 0, and one more. */
    HOLD(wigneld_script_in_force(look_up(many, WIGNELD_SCRIPTS_LONGEST_BYTES, NULL, 0, 0)) == WIGNELD_NO_SCRIPT);
    not_looked_up(look_up(many, sizeof many, NULL, 0, 0), 40, 0);
    HOLD(wigneld_lists_place_kind(40, sizeof many, 0) == WIGNELD_PLACE_NOTHING);

    memcpy(scripts, lines, sizeof scripts);
    scripts[CLOSED_LINE * WIGNELD_LISTED_BYTES] = RECORDS;
    not_looked_up(look_up(scripts, sizeof scripts, amended, sizeof amended, 0), 25, CLOSED_LINE);
    HOLD(wigneld_lists_place_kind(25, sizeof scripts, sizeof amended) == WIGNELD_PLACE_LISTED_SCRIPT);

    entry_with(0, LINES, WIGNELD_NO_SCRIPT, 40);
    entry_with(1, WIGNELD_NO_SCRIPT, CLOSED_LINE, 40);
    entry_with(1, CLOSED_LINE, CLOSED_LINE, 40);
    entry_with(1, OPEN_LINE, SWORN_LINE, 40);
    entry_with(1, OPEN_LINE, OPEN_LINE, 40);
    entry_with(1, OPEN_LINE, LINES, 40);
    entry_with(2, SWORN_LINE_AGAIN, CLOSED_LINE, 41);
    entry_with(2, SPARE_LINE, OPEN_LINE, 42);

    not_looked_up(wigneld_in_force(NULL, 0, types, sizeof types, NULL, 0, NULL, 0, 0), 2, 0);
    not_looked_up(wigneld_in_force(groups, sizeof groups, NULL, 0, NULL, 0, NULL, 0, 0), 8, 0);
}

/* The lender's function from an open unit to a unit of the lender's, with records of the older width. */
static const uint8_t rule_types[] = { 3, 1, 1, 0, 0, 0, 0, 0, 0, 1, 1, 0 };

/* A rule of that type that goes on for ever, called by the lender, as it was saved in form 1: 0 in byte 1 of record 1, its
   recursion. */
static const uint8_t saved[] = {
    6, 1, 0, 0, 0, 0, 11, 0, 0, 0, 0, 0, 2, 1, 1, 0, 1, 0, 6, 1, 0, 0, 0, 0, 0, 0, 0, 0, 1, 0, 0, 0, 0, 0, 0, 0, 1, 0, 0, 0, 0, 0,
};
enum {
    CALLER = 7, /* byte 1 of record 1 */
    RULE_TYPES = sizeof rule_types / WIGNELD_OLD_TYPE_RECORD_BYTES,
    RULE = sizeof saved / WIGNELD_OLD_SCRIPT_RECORD_BYTES
};

/* What is lent for the new form. What a call keeps shows by the byte that stood there. */
enum { OLD = 0xA5 };
static uint8_t new_types[WIGNELD_TYPES_LONGEST_BYTES], new_script[WIGNELD_SCRIPT_LONGEST_BYTES];

static uint64_t rewrite_types(const uint8_t *table, size_t length, size_t room)
{
    memset(new_types, OLD, sizeof new_types);
    return wigneld_rewrite_types(groups, sizeof groups, table, length, new_types, room);
}

static uint64_t rewrite_script(const uint8_t *table, size_t table_length, const uint8_t *script, size_t length, size_t room)
{
    memset(new_script, OLD, sizeof new_script);
    return wigneld_rewrite_script(groups, sizeof groups, table, table_length, script, length, new_script, room);
}

static int all(const uint8_t *bytes, size_t length, unsigned byte)
{
    size_t i;

    for (i = 0; i < length; i++)
        if (bytes[i] != byte)
            return 0;
    return 1;
}

/* Whether the front of a buffer is these records, each with two bytes 0 after it, and the rest of it as it was. */
static int widened(const uint8_t *buffer, size_t length, size_t width, const uint8_t *records, size_t old_width, size_t count)
{
    size_t i;

    for (i = 0; i < count; i++) {
        const uint8_t *record = buffer + i * width;

        if (memcmp(record, records + i * old_width, old_width) != 0 || !all(record + old_width, width - old_width, 0))
            return 0;
    }
    return all(buffer + count * width, length - count * width, OLD);
}

static int types_widened(const uint8_t *records, size_t count)
{
    return widened(new_types, sizeof new_types, WIGNELD_TYPE_RECORD_BYTES, records, WIGNELD_OLD_TYPE_RECORD_BYTES, count);
}

static int script_widened(const uint8_t *records, size_t count)
{
    return widened(new_script, sizeof new_script, WIGNELD_SCRIPT_RECORD_BYTES, records, WIGNELD_OLD_SCRIPT_RECORD_BYTES, count);
}

/* Whether a script is the saved one with this group in its recursion. */
static int called_as(const uint8_t *script, unsigned group)
{
    return memcmp(script, saved, CALLER) == 0 && script[CALLER] == group
           && memcmp(script + CALLER + 1, saved + CALLER + 1, sizeof saved - CALLER - 1) == 0;
}

/* A script of the older width over the rule's types, brought to the present form and checked there. */
static uint64_t check(const uint8_t *script)
{
    static uint8_t work[WIGNELD_WORK_BYTES], found[WIGNELD_ANSWER_BYTES];

    HOLD(rewrite_script(rule_types, sizeof rule_types, script, sizeof saved, sizeof new_script) == RULE);
    HOLD(rewrite_types(rule_types, sizeof rule_types, sizeof new_types) == RULE_TYPES);
    HOLD(script_widened(script, RULE) && types_widened(rule_types, RULE_TYPES));
    return wigneld_check(groups, sizeof groups, new_types, RULE_TYPES * WIGNELD_TYPE_RECORD_BYTES, new_script,
                         RULE * WIGNELD_SCRIPT_RECORD_BYTES, work, sizeof work, found, sizeof found);
}

/* Refused without its caller, and with it checked and run as ever. */
static void rewritten(void)
{
    uint8_t script[sizeof saved], first[100 * WIGNELD_SCRIPT_RECORD_BYTES], scratch[sizeof first];
    uint64_t answer = check(saved);

    HOLD(wigneld_question(answer) == 21 && wigneld_place(answer) == 1);
    memcpy(script, saved, sizeof saved);
    HOLD(wigneld_write_callers(rule_types, sizeof rule_types, script, sizeof script) == 1);
    HOLD(called_as(script, 1));
    answer = check(script);
    HOLD(wigneld_question(answer) == 0 && wigneld_count(answer) == 1);
    /* Three steps make the first call of its own: two protects above the application of the recursion. */
    answer = wigneld_run(groups, sizeof groups, new_types, RULE_TYPES * WIGNELD_TYPE_RECORD_BYTES, new_script,
                         RULE * WIGNELD_SCRIPT_RECORD_BYTES, 3, first, sizeof first, scratch, sizeof scratch, NULL, 0);
    HOLD(wigneld_run_end(answer) == WIGNELD_END_SPENT && wigneld_run_count(answer) == 2 + RULE);
    HOLD(memcmp(first + 2 * WIGNELD_SCRIPT_RECORD_BYTES, new_script, RULE * WIGNELD_SCRIPT_RECORD_BYTES) == 0);
    /* A second time the caller changes nothing and says the same. */
    HOLD(wigneld_write_callers(rule_types, sizeof rule_types, script, sizeof script) == 1 && called_as(script, 1));
}

/* Lengths that are not whole records, tables that don't reach to the number, and nothing at all. */
static void left_as_they_are(void)
{
    uint8_t script[sizeof saved];
    size_t length;

    for (length = 0; length <= sizeof saved; length++) {
        unsigned written = length >= 2 * WIGNELD_OLD_SCRIPT_RECORD_BYTES ? 1 : 0;

        memcpy(script, saved, sizeof saved);
        HOLD(wigneld_write_callers(rule_types, sizeof rule_types, script, length) == written && called_as(script, written));
    }
    for (length = 0; length <= sizeof rule_types; length++) {
        unsigned written = length >= WIGNELD_OLD_TYPE_RECORD_BYTES ? 1 : 0;

        memcpy(script, saved, sizeof saved);
        HOLD(wigneld_write_callers(rule_types, length, script, sizeof script) == written && called_as(script, written));
    }
    memcpy(script, saved, sizeof saved);
    HOLD(wigneld_write_callers(NULL, 0, script, sizeof script) == 0 && called_as(script, 0));
    HOLD(wigneld_write_callers(rule_types, sizeof rule_types, NULL, 0) == 0);
    HOLD(wigneld_write_callers(NULL, 0, NULL, 0) == 0);
}

/* A refusal that writes nothing. */
static void keeps(uint64_t answer, unsigned question, uint32_t place)
{
    HOLD(wigneld_question(answer) == question && wigneld_place(answer) == place && wigneld_count(answer) == 0);
    HOLD(all(new_types, sizeof new_types, OLD) && all(new_script, sizeof new_script, OLD));
}

/* Both calls over damaged types of the older width, the script being none yet. */
static void types_refused(const uint8_t *table, size_t length, unsigned question, uint32_t place)
{
    keeps(rewrite_types(table, length, sizeof new_types), question, place);
    keeps(rewrite_script(table, length, NULL, 0, sizeof new_script), question, place);
}

/* Byte `at` of the table, of the script, as something else. */
static void types_with(size_t at, unsigned byte, unsigned question, uint32_t place)
{
    uint8_t table[sizeof rule_types];

    memcpy(table, rule_types, sizeof table);
    table[at] = (uint8_t)byte;
    types_refused(table, sizeof table, question, place);
}

static void script_with(size_t at, unsigned byte, unsigned question, uint32_t place)
{
    uint8_t script[sizeof saved];

    memcpy(script, saved, sizeof script);
    script[at] = (uint8_t)byte;
    keeps(rewrite_script(rule_types, sizeof rule_types, script, sizeof script, sizeof new_script), question, place);
}

static void rewriting_refused(void)
{
    const size_t type = WIGNELD_OLD_TYPE_RECORD_BYTES, record = WIGNELD_OLD_SCRIPT_RECORD_BYTES;
    const size_t room = RULE * WIGNELD_SCRIPT_RECORD_BYTES, types_room = RULE_TYPES * WIGNELD_TYPE_RECORD_BYTES;
    size_t length;

    memset(new_types, OLD, sizeof new_types);
    memset(new_script, OLD, sizeof new_script);
    keeps(wigneld_rewrite_types(NULL, 0, NULL, 0, NULL, 0), 2, 0);
    keeps(wigneld_rewrite_script(NULL, 0, NULL, 0, NULL, 0, NULL, 0), 2, 0);

    /* Lengths of whole records of the older width alone: cut short, a type isn't finished, nor is a script. */
    for (length = 0; length < sizeof rule_types; length++)
        types_refused(rule_types, length, length > 0 && length % type == 0 ? 11 : 8, 0);
    for (length = 0; length < sizeof saved; length++) {
        unsigned whole = length > 0 && length % record == 0;

        keeps(rewrite_script(rule_types, sizeof rule_types, saved, length, sizeof new_script), whole ? 17 : 13,
              whole ? (uint32_t)(length / record) : 0);
    }
    types_with(2 * type, WIGNELD_TYPE_NUMBER + 1, 9, 2);
    types_with(type + 1, 2, 9, 1);
    types_with(type + 3, 1, 9, 1);
    types_with(type + 2, 1, 10, 1);
    types_with(type, 1, 11, 0);
    script_with(record, WIGNELD_KIND_LESS + 1, 14, 1);
    script_with(4 * record + 1, 1, 14, 4);
    script_with(CALLER, 2, 15, 1);
    script_with(6 * record + 2, 1, 15, 6);
    script_with(record + 4, 1, 16, 1);
    script_with(2 * record + 4, 3, 16, 2);
    script_with(0, WIGNELD_KIND_FIRST_PROJECTION, 17, 6);
    script_with(4 * record + 4, 2, 19, 4);

    /* Room is asked for last, and a byte less is too little. */
    keeps(rewrite_types(rule_types, sizeof rule_types, types_room - 1), 27, 0);
    HOLD(rewrite_types(rule_types, sizeof rule_types, types_room) == RULE_TYPES && types_widened(rule_types, RULE_TYPES));
    memset(new_types, OLD, sizeof new_types);
    keeps(rewrite_script(rule_types, sizeof rule_types, saved, sizeof saved, room - 1), 27, 0);
    keeps(rewrite_script(rule_types, sizeof rule_types, saved, sizeof saved, 0), 27, 0);
    HOLD(rewrite_script(rule_types, sizeof rule_types, saved, sizeof saved, room) == RULE && script_widened(saved, RULE));
    memset(new_script, OLD, sizeof new_script);
    keeps(rewrite_types(rule_types, sizeof rule_types, 0), 27, 0);
}

/* Writes a script of so many records, an odd count, as shallow as can be: pairs of pairs and of units. */
static uint8_t *balanced(uint8_t *at, size_t count)
{
    size_t left = count / 2 | 1;

    memset(at, 0, WIGNELD_OLD_SCRIPT_RECORD_BYTES);
    *at = count == 1 ? WIGNELD_KIND_UNIT : WIGNELD_KIND_PAIR;
    at += WIGNELD_OLD_SCRIPT_RECORD_BYTES;
    return count == 1 ? at : balanced(balanced(at, left), count - 1 - left);
}

/* The longest table and script, and what is one record longer. */
static void longest(void)
{
    static uint8_t table[(WIGNELD_MOST_TABLE_RECORDS + 1) * WIGNELD_OLD_TYPE_RECORD_BYTES];
    static uint8_t script[(WIGNELD_MOST_SCRIPT_RECORDS + 1) * WIGNELD_OLD_SCRIPT_RECORD_BYTES];
    const size_t most = sizeof table - WIGNELD_OLD_TYPE_RECORD_BYTES;
    const size_t most_of_script = sizeof script - WIGNELD_OLD_SCRIPT_RECORD_BYTES;

    script[0] = WIGNELD_KIND_PROTECT;
    HOLD(balanced(script + WIGNELD_OLD_SCRIPT_RECORD_BYTES, WIGNELD_MOST_SCRIPT_RECORDS - 1) == script + most_of_script);
    HOLD(rewrite_types(table, most, sizeof new_types) == WIGNELD_MOST_TABLE_RECORDS);
    HOLD(types_widened(table, WIGNELD_MOST_TABLE_RECORDS));
    HOLD(rewrite_script(table, most, script, most_of_script, sizeof new_script) == WIGNELD_MOST_SCRIPT_RECORDS);
    HOLD(script_widened(script, WIGNELD_MOST_SCRIPT_RECORDS));
    memset(new_script, OLD, sizeof new_script);
    keeps(rewrite_types(table, sizeof table, sizeof new_types), 8, 0);
    keeps(rewrite_script(table, most, script, sizeof script, sizeof new_script), 13, 0);
}

/* Checks a script for a screen; every byte past what an accepted one writes is kept. */
static uint8_t work[WIGNELD_WORK_BYTES + 1], found[WIGNELD_ANSWER_BYTES + 1];

static uint64_t for_a_screen(const uint8_t *script, size_t length, size_t work_length, size_t found_length)
{
    memset(work, OLD, sizeof work);
    memset(found, OLD, sizeof found);
    return wigneld_check_profile(groups, sizeof groups, types, sizeof types, script, length, work, work_length, found,
                                 found_length);
}

static void unwritten(uint64_t answer, unsigned question, uint32_t place)
{
    HOLD(wigneld_question(answer) == question && wigneld_place(answer) == place);
    HOLD(all(work, sizeof work, OLD) && all(found, sizeof found, OLD));
}

static void screens(void)
{
    enum { RECORD = WIGNELD_SCRIPT_RECORD_BYTES };
    /* A pair of two rules of type 3 that are functions, and a unit of a function's parameter. */
    static const uint8_t rules[] = {
        3, 0, 0, 0, 0, 0, 0, 0, 11, 0, 0, 0, 3, 0, 0, 0, 2, 0, 0, 0, 4, 0, 0, 0, 1, 0, 0, 0, 0, 0, 0, 0,
        11, 0, 0, 0, 3, 0, 0, 0, 2, 0, 0, 0, 4, 0, 0, 0, 1, 0, 0, 0, 0, 0, 0, 0,
    };
    static const uint8_t unit_of_type[] = { 0, 0, 0, 0, 0, 0 };
    uint8_t unbound[sizeof rules];

    unwritten(for_a_screen(rules, sizeof rules, sizeof work, sizeof found), 39, 1);
    unwritten(for_a_screen(rules + RECORD, 3 * RECORD, sizeof work, sizeof found), 39, 0);
    unwritten(for_a_screen(rules + RECORD, 3 * RECORD, WIGNELD_WORK_BYTES - 1, sizeof found), 1, 0);
    unwritten(for_a_screen(rules + RECORD, 3 * RECORD, sizeof work, WIGNELD_ANSWER_BYTES - 1), 1, 0);
    unwritten(for_a_screen(NULL, 0, sizeof work, sizeof found), 13, 0);
    /* 19 comes first, wherever it is refused. */
    memcpy(unbound, rules, sizeof rules);
    unbound[6 * RECORD] = WIGNELD_KIND_VARIABLE;
    unbound[6 * RECORD + WIGNELD_AT_NUMBER] = 2;
    unwritten(for_a_screen(unbound, sizeof unbound, sizeof work, sizeof found), 19, 6);
    /* What is no rule is checked. */
    HOLD(for_a_screen(rules + 3 * RECORD, RECORD, sizeof work, sizeof found) == 1);
    HOLD(all(work, sizeof work, 0) && memcmp(found, unit_of_type, sizeof unit_of_type) == 0);
    HOLD(all(found + sizeof unit_of_type, sizeof found - sizeof unit_of_type, OLD));
}

/* A record of the old office program. */
static void old_record(uint8_t *at, unsigned kind, unsigned group, unsigned number, unsigned first, unsigned second)
{
    memset(at, 0, WIGNELD_OFFICE_RECORD_BYTES);
    at[WIGNELD_AT_KIND] = (uint8_t)kind;
    at[WIGNELD_AT_READERS] = (uint8_t)group;
    at[WIGNELD_AT_NUMBER] = (uint8_t)(number & 0xff);
    at[WIGNELD_AT_NUMBER + 1] = (uint8_t)(number >> 8);
    at[WIGNELD_OFFICE_AT_FIRST_NAME] = (uint8_t)(first & 0xff);
    at[WIGNELD_OFFICE_AT_FIRST_NAME + 1] = (uint8_t)(first >> 8);
    at[WIGNELD_OFFICE_AT_SECOND_NAME] = (uint8_t)(second & 0xff);
    at[WIGNELD_OFFICE_AT_SECOND_NAME + 1] = (uint8_t)(second >> 8);
}

/* A function of a function of a pair of the outer name and the inner one, both the same or not. */
enum { PAIRED = 5, OUTER = 0, INNER = 1, LEFT = 3, RIGHT = 4, FROM_UNIT = 1 };

static void paired(uint8_t *old, unsigned outer, unsigned inner, unsigned left, unsigned right)
{
    old_record(old, WIGNELD_KIND_FUNCTION, 0, FROM_UNIT, outer, 0);
    old_record(old + INNER * WIGNELD_OFFICE_RECORD_BYTES, WIGNELD_KIND_FUNCTION, 0, FROM_UNIT, inner, 0);
    old_record(old + 2 * WIGNELD_OFFICE_RECORD_BYTES, WIGNELD_KIND_PAIR, 0, 0, 0, 0);
    old_record(old + LEFT * WIGNELD_OFFICE_RECORD_BYTES, WIGNELD_KIND_VARIABLE, 0, 0, left, 0);
    old_record(old + RIGHT * WIGNELD_OFFICE_RECORD_BYTES, WIGNELD_KIND_VARIABLE, 0, 0, right, 0);
}

static uint64_t import(const uint8_t *old, size_t length, size_t room)
{
    memset(new_script, OLD, sizeof new_script);
    return wigneld_import(groups, sizeof groups, types, sizeof types, old, length, new_script, room);
}

/* Whether these numbers were found, and nothing was written past the records. */
static int means(const uint8_t *old, unsigned left, unsigned right)
{
    const uint8_t *variables = new_script + LEFT * WIGNELD_SCRIPT_RECORD_BYTES;

    return import(old, PAIRED * WIGNELD_OFFICE_RECORD_BYTES, sizeof new_script) == PAIRED
           && variables[WIGNELD_AT_NUMBER] == left && variables[WIGNELD_SCRIPT_RECORD_BYTES + WIGNELD_AT_NUMBER] == right
           && all(new_script + PAIRED * WIGNELD_SCRIPT_RECORD_BYTES, sizeof new_script - PAIRED * WIGNELD_SCRIPT_RECORD_BYTES, OLD);
}

static void imported(void)
{
    uint8_t old[PAIRED * WIGNELD_OFFICE_RECORD_BYTES];
    const size_t room = PAIRED * WIGNELD_SCRIPT_RECORD_BYTES;

    paired(old, 7, 8, 7, 8);
    HOLD(means(old, 1, 0));
    paired(old, 7, 7, 7, 7);
    HOLD(means(old, 0, 0));
    paired(old, 0, 256, 256, 0);
    HOLD(means(old, 0, 1));
    HOLD(import(old, sizeof old, room) == PAIRED);
    memset(new_types, OLD, sizeof new_types);
    keeps(import(old, sizeof old, room - 1), 27, 0);
    keeps(import(old, 0, room), 28, 0);
    keeps(import(old, sizeof old - 1, room), 28, 0);
    keeps(import(old, sizeof old - WIGNELD_OFFICE_RECORD_BYTES, room), 17, PAIRED - 1);
    paired(old, 7, 8, 9, 8);
    keeps(import(old, sizeof old, 0), 30, LEFT);
    paired(old, 7, 8, 9, 8);
    old[RIGHT * WIGNELD_OFFICE_RECORD_BYTES + WIGNELD_OFFICE_AT_SECOND_NAME] = 1;
    keeps(import(old, sizeof old, 0), 29, RIGHT);
    paired(old, 7, 8, 7, 8);
    old[LEFT * WIGNELD_OFFICE_RECORD_BYTES + WIGNELD_AT_NUMBER] = 1;
    keeps(import(old, sizeof old, 0), 29, LEFT);
    keeps(wigneld_import(NULL, 0, NULL, 0, NULL, 0, NULL, 0), 2, 0);
    keeps(wigneld_import(groups, sizeof groups, types, sizeof types, NULL, 0, NULL, 0), 28, 0);
}

/* Back and forth, with the names that an export gives; and creators, which it drops. */
static void exported(void)
{
    uint8_t old[PAIRED * WIGNELD_OFFICE_RECORD_BYTES], script[PAIRED * WIGNELD_SCRIPT_RECORD_BYTES];
    uint8_t again[sizeof old + 1], named[sizeof old];
    uint64_t answer;

    paired(old, 70, 80, 80, 70);
    paired(named, 0, 1, 1, 0);
    HOLD(import(old, sizeof old, sizeof new_script) == PAIRED);
    memcpy(script, new_script, sizeof script);
    memset(again, OLD, sizeof again);
    HOLD(wigneld_export(groups, sizeof groups, types, sizeof types, script, sizeof script, again, sizeof again) == PAIRED);
    HOLD(memcmp(again, named, sizeof named) == 0 && again[sizeof named] == OLD);
    HOLD(import(again, sizeof named, sizeof new_script) == PAIRED && memcmp(new_script, script, sizeof script) == 0);
    memset(again, OLD, sizeof again);
    answer = wigneld_export(groups, sizeof groups, types, sizeof types, script, sizeof script, again, sizeof old - 1);
    HOLD(wigneld_question(answer) == 27 && wigneld_place(answer) == 0 && all(again, sizeof again, OLD));
    answer = wigneld_export(groups, sizeof groups, types, sizeof types, script, sizeof script - WIGNELD_SCRIPT_RECORD_BYTES, again,
                            sizeof again);
    HOLD(wigneld_question(answer) == 17 && wigneld_place(answer) == PAIRED - 1 && all(again, sizeof again, OLD));
    script[WIGNELD_SCRIPT_AT_CREATORS] = 1;
    HOLD(wigneld_export(groups, sizeof groups, types, sizeof types, script, sizeof script, again, sizeof again) == PAIRED);
    HOLD(memcmp(again, named, sizeof named) == 0);
}

/* A recursion of the old office program: 0 in byte 1 until the callers are written. */
static void office_callers(void)
{
    uint8_t old[2 * WIGNELD_OFFICE_RECORD_BYTES + 1], expected[sizeof old];
    static const uint8_t lenders[] = { 0, 0, 0, 0, 0, 0, 3, 1, 0, 0, 0, 0, 0, 0, 0, 0, 0, 0, 0, 0, 0, 0, 0, 0 };

    memset(old, OLD, sizeof old);
    old_record(old, WIGNELD_KIND_RECURSION, 0, 1, 7, 0);
    old_record(old + WIGNELD_OFFICE_RECORD_BYTES, WIGNELD_KIND_RECURSION, 0, 4, 7, 0);
    memcpy(expected, old, sizeof old);
    expected[WIGNELD_AT_READERS] = 1;
    HOLD(wigneld_write_office_callers(lenders, sizeof lenders, old, sizeof old) == 1 && memcmp(old, expected, sizeof old) == 0);
    HOLD(wigneld_write_office_callers(NULL, 0, old, sizeof old) == 0 && memcmp(old, expected, sizeof old) == 0);
    HOLD(wigneld_write_office_callers(lenders, sizeof lenders, NULL, 0) == 0);
}

/* The editor's archive serves the same program. */
static void beside_the_editor(void)
{
    static const uint8_t unit[] = { 1, 0, 0, 0, 0, 0, 0, 0 };
    uint8_t sheet[WIGNELD_SHEET_RECORD_BYTES] = { 9, 9, 9, 9, 9, 9 };
    uint64_t answer = wigneld_sheet(groups, sizeof groups, types, sizeof types, unit, sizeof unit, 0, sheet, sizeof sheet);

    HOLD(wigneld_question(answer) == 0 && wigneld_count(answer) == 1);
    HOLD(sheet[0] == WIGNELD_SHEET_UNIT && all(sheet + 1, sizeof sheet - 1, 0));
}

int main(void)
{
    answers();
    refusals();
    readings();
    looked_up();
    lists_refused();
    rewritten();
    left_as_they_are();
    rewriting_refused();
    longest();
    screens();
    imported();
    exported();
    office_callers();
    beside_the_editor();
    return told();
}

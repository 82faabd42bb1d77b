/*
 * Writes the example folders' files groups, types and script, words where a studio has its own, scripts and amendments where one
 * amends its scripts, and entries where a loan desk applies its script to them:
 *
 *     ./archives wigneld_office
 *     cc -std=c99 -Iinclude -o make examples/make.c target/staticlib/libwigneld_office.a && ./make examples
 *
 * A script is written in its own order, each record followed by its operands; the indent below follows the operands. All but
 * whose-hands, drying-days, gallery-screen and loan-desk were saved in an older form (WIGNELD_FORMAT) or by the old office program:
 * they are written as they were and rewritten or imported by the engine's own calls.
 * A second folder, if one is named, gets an example as it was saved in form 1.
 */
#include <stdint.h>
#include <stdio.h>
#include <stdlib.h>

#include "wigneld_office.h"

#if WIGNELD_FORMAT != 4
#error "whose-hands, drying-days, gallery-screen and loan-desk are written in form 4"
#endif

/* Who reads: anyone; the bench, where objects are treated; the lender's office; the registrar, who may read what either may. */
enum { ANYONE, BENCH, LENDER, REGISTRAR };

struct bytes {
    uint8_t at[WIGNELD_SCRIPT_LONGEST_BYTES];
    size_t length;
};

/* What is being written. */
static struct bytes *written;

static void byte(unsigned b)
{
    written->at[written->length++] = (uint8_t)b;
}

static void save(const char *folder, const char *example, const char *name, const struct bytes *bytes)
{
    char path[4096];
    FILE *file;

    snprintf(path, sizeof path, "%s/%s/%s", folder, example, name);
    file = fopen(path, "wb");
    if (file == NULL || fwrite(bytes->at, 1, bytes->length, file) != bytes->length || fclose(file) != 0) {
        perror(path);
        exit(1);
    }
}

/* A group's row: a bit for each group that is at least as secret. */
static void row(uint32_t word)
{
    byte(word & 255);
    byte(word >> 8 & 255);
    byte(word >> 16 & 255);
    byte(word >> 24);
}

static void groups(void)
{
    row(1u << ANYONE | 1u << BENCH | 1u << LENDER | 1u << REGISTRAR);
    row(1u << BENCH | 1u << REGISTRAR);
    row(1u << LENDER | 1u << REGISTRAR);
    row(1u << REGISTRAR);
}

/* Records of types, in the older form. Readers and indirect readers are one group throughout. */
static void type(unsigned kind, unsigned who)
{
    byte(kind);
    byte(who);
    byte(who);
    byte(0);
}

/* Yes or no, and the like: one of two, with nothing in it. */
static void choice_type(unsigned who)
{
    type(1, who);
    type(0, who);
    type(0, who);
}

static void pair_type(unsigned who) { type(2, who); }
static void function_type(unsigned who) { type(3, who); }

/* A number from 0 to 3, its high bit first. */
static void number_type(unsigned who)
{
    pair_type(who);
        choice_type(who);
        choice_type(who);
}

/* Records of scripts, in the older form. */
static void record(unsigned kind, unsigned r, unsigned ir, unsigned number)
{
    byte(kind);
    byte(r);
    byte(ir);
    byte(0);
    byte(number & 255);
    byte(number >> 8);
}

static void variable(unsigned number) { record(0, 0, 0, number); }
static void function(unsigned who, unsigned parameter) { record(2, who, who, parameter); }
static void pair(unsigned who) { record(3, who, who, 0); }
static void apply(unsigned reader) { record(6, reader, 0, 0); }
static void first_of(unsigned reader) { record(7, reader, 0, 0); }
static void second_of(unsigned reader) { record(8, reader, 0, 0); }
static void when(unsigned reader, unsigned result) { record(9, reader, 0, result); }
static void when_found(unsigned reader) { when(reader, 65535); } /* its result type is found: the lowest for both branches */
static void recursion(unsigned caller, unsigned function) { record(11, caller, 0, function); }

/* The first or the second of a choice. */
static void choice(unsigned second, unsigned who, unsigned type_index)
{
    record(4 + second, who, who, type_index);
    record(1, who, who, 0);
}

/* A number; the bits are choices of the type `bit`. */
static void number(unsigned value, unsigned who, unsigned bit)
{
    pair(who);
        choice(value / 2, who, bit);
        choice(value % 2, who, bit);
}

/* ---- a bench record */

enum { STATE = 0, REMARK = 3, BENCH_ENTRY = 6 };

static void bench_types(void)
{
    choice_type(ANYONE); /* STATE: sound, or loose */
    choice_type(BENCH);  /* REMARK: the usual adhesive, or one of our own */
    pair_type(ANYONE);   /* BENCH_ENTRY: a state and a remark */
        choice_type(ANYONE);
        choice_type(BENCH);
}

static void bench_script(void)
{
    apply(ANYONE);
        function(ANYONE, BENCH_ENTRY);
            pair(ANYONE);
                when(ANYONE, STATE); /* ready for display? */
                    first_of(ANYONE);
                        variable(0);
                    choice(0, ANYONE, STATE); /* sound: ready */
                    choice(1, ANYONE, STATE); /* loose: not ready */
                second_of(ANYONE); /* the remark, as it is */
                    variable(0);
        pair(ANYONE); /* the entry: sound, with an adhesive of our own */
            choice(0, ANYONE, STATE);
            choice(1, BENCH, REMARK);
}

/* The bench's scripts for its page, by what they give: 0 is the state line, 1 to 3 are the remark line and what became of it, and 4 is
   a state line for the bench alone, which was never put to use. */
enum { STATE_LINE, REMARK_LINE, SHORT_REMARK_LINE, PUBLIC_REMARK_LINE, SPARE_LINE, NO_LINE = WIGNELD_NO_SCRIPT };

static void two_bytes(unsigned n)
{
    byte(n & 255);
    byte(n >> 8);
}

static void bench_scripts(void)
{
    two_bytes(STATE);
    two_bytes(REMARK);
    two_bytes(REMARK);
    two_bytes(STATE); /* the remark is told to anyone: below what the bench alone may read */
    two_bytes(REMARK);
}

static void amendment(unsigned line, unsigned replaced)
{
    two_bytes(line);
    two_bytes(replaced);
}

static void bench_amendments(void)
{
    amendment(STATE_LINE, NO_LINE);
    amendment(REMARK_LINE, NO_LINE);
    amendment(SHORT_REMARK_LINE, REMARK_LINE);
    amendment(PUBLIC_REMARK_LINE, SHORT_REMARK_LINE);
}

/* ---- two lines of a page, whose types are found */

static void state(void)
{
    first_of(ANYONE);
        variable(0);
}

static void lines_script(void)
{
    apply(ANYONE);
        function(ANYONE, BENCH_ENTRY);
            pair(ANYONE);
                apply(ANYONE);
                    function(ANYONE, STATE); /* the public line: it takes what anyone may read */
                        variable(0);
                    when_found(ANYONE); /* where is the object? */
                        state();
                        choice(0, ANYONE, STATE); /* sound: on display */
                        choice(1, ANYONE, STATE); /* loose: in the store */
                when_found(ANYONE); /* which adhesive is to be used? */
                    state();
                    choice(0, ANYONE, STATE); /* sound: the usual one, as anyone may know */
                    second_of(ANYONE); /* loose: the bench's own choice */
                        variable(1);
        pair(ANYONE); /* the entry: loose, with an adhesive of our own */
            choice(1, ANYONE, STATE);
            choice(1, BENCH, REMARK);
}

/* ---- a loan sheet, and one that tells */

enum { LENT = 0, FIGURE = 3, BIT = 4, LOAN_ENTRY = 10 };

static void loan_types(void)
{
    choice_type(ANYONE); /* LENT: out, or back */
    number_type(LENDER); /* FIGURE, and BIT in it */
    pair_type(ANYONE);   /* LOAN_ENTRY: lent or not, and the lender's figure */
        choice_type(ANYONE);
        number_type(LENDER);
}

static void loan_entry(void)
{
    pair(ANYONE); /* the entry: out, and the figure 2 */
        choice(0, ANYONE, LENT);
        number(2, LENDER, BIT);
}

/* The figure's high bit, read with the lender's right to. */
static void high_bit(void)
{
    first_of(LENDER);
        second_of(ANYONE);
            variable(0);
}

static void loan_script(void)
{
    apply(ANYONE);
        function(ANYONE, LOAN_ENTRY);
            pair(ANYONE);
                first_of(ANYONE); /* out or back */
                    variable(0);
                pair(ANYONE);
                    second_of(ANYONE); /* the figure, as it is */
                        variable(0);
                    when(LENDER, BIT); /* is a second signature needed? yes from 2 on */
                        high_bit();
                        choice(1, LENDER, BIT);
                        choice(0, LENDER, BIT);
        loan_entry();
}

static void leak_script(void)
{
    apply(ANYONE);
        function(ANYONE, LOAN_ENTRY);
            apply(ANYONE);
                function(ANYONE, LENT); /* the public page: it takes what anyone may read */
                    variable(0);
                when(LENDER, LENT); /* is the figure below 2? */
                    high_bit();
                    choice(0, ANYONE, LENT);
                    choice(1, ANYONE, LENT);
        loan_entry();
}

/* ---- a drying panel, by a rule that calls itself */

enum { DRYING = 0, SIDE = 3, TURNING = 6, DAYS = 7, PANEL_ENTRY = 17 };

static void panel_types(void)
{
    choice_type(ANYONE);  /* DRYING: yes, or no more */
    choice_type(BENCH);   /* SIDE: face up, or face down; also a bit of DAYS */
    function_type(BENCH); /* TURNING: the bench may call it, and so may the registrar */
        number_type(BENCH); /* DAYS */
        choice_type(BENCH);
    pair_type(ANYONE);    /* PANEL_ENTRY: drying or not, and the days */
        choice_type(ANYONE);
        number_type(BENCH);
}

/* The side after a day more: the other one. */
static void other_side(void)
{
    choice(1, BENCH, SIDE);
    choice(0, BENCH, SIDE);
}

/* After no day the panel is face up, and otherwise on the other side than after a day less. */
static void turning_rule(unsigned caller)
{
    recursion(caller, TURNING);
        function(BENCH, DAYS);
            when(BENCH, SIDE); /* is the low bit 0? */
                second_of(BENCH);
                    variable(0);
                when(BENCH, SIDE); /* and the high bit too? */
                    first_of(BENCH);
                        variable(1);
                    choice(0, BENCH, SIDE); /* no day: face up */
                    when(BENCH, SIDE); /* two days: one less is 1 */
                        apply(BENCH);
                            variable(3);
                            number(1, BENCH, SIDE);
                        other_side();
                when(BENCH, SIDE); /* one day or three: one less has the low bit 0 */
                    apply(BENCH);
                        variable(2);
                        pair(BENCH);
                            first_of(BENCH);
                                variable(1);
                            choice(0, BENCH, SIDE);
                    other_side();
}

static void panel(unsigned caller)
{
    apply(ANYONE);
        function(ANYONE, PANEL_ENTRY);
            pair(ANYONE);
                first_of(ANYONE); /* drying or not */
                    variable(0);
                apply(BENCH); /* the bench asks which side is up in the end */
                    turning_rule(caller);
                    second_of(ANYONE);
                        variable(0);
        pair(ANYONE); /* the entry: drying, for 3 days */
            choice(0, ANYONE, DRYING);
            number(3, BENCH, SIDE);
}

/* Whoever calls the rule, the panel is turned by the registrar's people: the rule calls itself as the registrar. */
static void panel_script(void) { panel(REGISTRAR); }

/* In form 1 a rule called itself as whoever may read its type, and had 0 there. */
static void first_panel_script(void) { panel(0); }

/* ---- the drying panel as the old office program saved it, with names */

/* Its names were numbers of 16 bits, 0 among them. A name may stand within another's reach, as IT does: the nearest is meant. */
enum { BIT_READ = 0, IT = 1, RULE = 256 };

static void names(unsigned first, unsigned second)
{
    byte(first & 255);
    byte(first >> 8);
    byte(second & 255);
    byte(second >> 8);
}

static void nameless(unsigned kind, unsigned r, unsigned ir, unsigned number)
{
    record(kind, r, ir, number);
    names(0, 0);
}

static void named_variable(unsigned name)
{
    record(0, 0, 0, 0);
    names(name, 0);
}

static void named_function(unsigned who, unsigned parameter, unsigned name)
{
    record(2, who, who, parameter);
    names(name, 0);
}

/* A case of one of two, with nothing in it: what it holds gets a name, which nobody uses. */
static void read_bit(unsigned reader, unsigned result)
{
    record(9, reader, 0, result);
    names(BIT_READ, BIT_READ);
}

/* Nobody wrote who a rule calls itself as. */
static void named_recursion(unsigned function, unsigned name)
{
    record(11, 0, 0, function);
    names(name, 0);
}

static void nameless_choice(unsigned second, unsigned who, unsigned type_index)
{
    nameless(4 + second, who, who, type_index);
    nameless(1, who, who, 0);
}

static void nameless_number(unsigned value, unsigned who, unsigned bit)
{
    nameless(3, who, who, 0);
        nameless_choice(value / 2, who, bit);
        nameless_choice(value % 2, who, bit);
}

static void nameless_other_side(void)
{
    nameless_choice(1, BENCH, SIDE);
    nameless_choice(0, BENCH, SIDE);
}

/* Inside the rule IT is the days, outside of it the entry. */
static void named_rule(void)
{
    named_recursion(TURNING, RULE);
        named_function(BENCH, DAYS, IT);
            read_bit(BENCH, SIDE); /* is the low bit 0? */
                nameless(8, BENCH, 0, 0);
                    named_variable(IT);
                read_bit(BENCH, SIDE); /* and the high bit too? */
                    nameless(7, BENCH, 0, 0);
                        named_variable(IT);
                    nameless_choice(0, BENCH, SIDE); /* no day: face up */
                    read_bit(BENCH, SIDE); /* two days: one less is 1 */
                        nameless(6, BENCH, 0, 0);
                            named_variable(RULE);
                            nameless_number(1, BENCH, SIDE);
                        nameless_other_side();
                read_bit(BENCH, SIDE); /* one day or three: one less has the low bit 0 */
                    nameless(6, BENCH, 0, 0);
                        named_variable(RULE);
                        nameless(3, BENCH, BENCH, 0);
                            nameless(7, BENCH, 0, 0);
                                named_variable(IT);
                            nameless_choice(0, BENCH, SIDE);
                    nameless_other_side();
}

static void named_panel_script(void)
{
    nameless(6, ANYONE, 0, 0);
        named_function(ANYONE, PANEL_ENTRY, IT);
            nameless(3, ANYONE, ANYONE, 0);
                nameless(7, ANYONE, 0, 0); /* drying or not */
                    named_variable(IT);
                nameless(6, BENCH, 0, 0); /* the bench asks which side is up in the end */
                    named_rule();
                    nameless(8, ANYONE, 0, 0);
                        named_variable(IT);
        nameless(3, ANYONE, ANYONE, 0); /* the entry: drying, for 3 days */
            nameless_choice(0, ANYONE, DRYING);
            nameless_number(3, BENCH, SIDE);
}

/* ---- a page in a studio's own words */

static void page_types(void)
{
    choice_type(ANYONE); /* STATE, as above */
}

static void page_script(void)
{
    pair(ANYONE);
        choice(1, ANYONE, STATE); /* loose */
        pair(ANYONE);
            function(ANYONE, STATE); /* what becomes of a state: nothing */
                variable(0);
            record(1, BENCH, BENCH, 0); /* a mark of the bench's own */
}

/* Seven records of 12 bytes: the letters of a word, then zero bytes. The order is that of the sheet's kinds. */
static void own_words(void)
{
    static const char words[7][13] = { "einheit", "erstes", "zweites", "paar", "funktion", "verschlossen", "zahl" };

    for (int i = 0; i < 7; i++)
        for (int j = 0; j < 12; j++)
            byte((unsigned char)words[i][j]);
}

/* ---- two statements about an object, and who made them: in form 4 */

enum { BENCH_SAYS = 0, LENDER_SAYS = 3, STATEMENTS = 6, FITNESS = 13 };

/* Anyone may read all of it. Creators and indirect creators are one group throughout: whose hands it passed through. */
static void made_type(unsigned kind, unsigned maker)
{
    type(kind, ANYONE);
    byte(maker);
    byte(maker);
}

static void made_choice_type(unsigned maker)
{
    made_type(1, maker);
    made_type(0, maker);
    made_type(0, maker);
}

static void hands_types(void)
{
    made_choice_type(BENCH);     /* BENCH_SAYS: sound, or loose */
    made_choice_type(LENDER);    /* LENDER_SAYS: the same */
    made_type(2, REGISTRAR);     /* STATEMENTS: both, put together by the registrar */
        made_choice_type(BENCH);
        made_choice_type(LENDER);
    made_choice_type(REGISTRAR); /* FITNESS: fit to travel, or not; the registrar's words */
}

static void made(unsigned kind, unsigned maker, unsigned number)
{
    record(kind, ANYONE, ANYONE, number);
    byte(maker);
    byte(maker);
}

static void made_choice(unsigned second, unsigned maker, unsigned type_index)
{
    made(4 + second, maker, type_index);
    made(1, maker, 0);
}

/* What is not made but passed on or read: its creators are found. */
static void passed(unsigned kind, unsigned reader, unsigned number)
{
    record(kind, reader, 0, number);
    byte(0);
    byte(0);
}

static void hands_script(void)
{
    passed(6, REGISTRAR, 0); /* the registrar applies the script to the entry */
        made(2, REGISTRAR, STATEMENTS);
            made(3, REGISTRAR, 0);
                passed(6, REGISTRAR, 0);
                    made(2, REGISTRAR, BENCH_SAYS); /* the line about travel: it takes what the bench says, and nobody else */
                        passed(9, REGISTRAR, FITNESS);
                            passed(0, 0, 0);
                            made_choice(0, REGISTRAR, FITNESS); /* sound: fit */
                            made_choice(1, REGISTRAR, FITNESS); /* loose: not fit */
                    passed(7, REGISTRAR, 0); /* the bench's statement, taken out of the entry by the registrar */
                        passed(0, 0, 0);
                passed(8, REGISTRAR, 0); /* the lender's statement, as it is */
                    passed(0, 0, 0);
        made(3, REGISTRAR, 0); /* the entry: the bench says sound, the lender loose */
            made_choice(0, BENCH, BENCH_SAYS);
            made_choice(1, LENDER, LENDER_SAYS);
}

/* ---- a drying panel again, its days counted by numbers: in form 4 */

enum { UP_OR_DOWN = 3, COUNTING = 6, DAY = 7, LOG_ENTRY = 11 };

/* Group 0 as creators: nobody stands behind it. */
static void present_type(unsigned kind, unsigned who)
{
    type(kind, who);
    byte(0);
    byte(0);
}

static void present_choice_type(unsigned who)
{
    present_type(1, who);
    present_type(0, who);
    present_type(0, who);
}

static void days_types(void)
{
    present_choice_type(ANYONE); /* DRYING: yes, or no more */
    present_choice_type(BENCH);  /* UP_OR_DOWN: face up, or face down */
    present_type(3, BENCH);      /* COUNTING: from a day, which side is up */
        present_type(4, BENCH);
        present_choice_type(BENCH);
    present_type(2, ANYONE);     /* LOG_ENTRY: drying or not, and the days */
        present_choice_type(ANYONE);
        present_type(4, BENCH);
}

static void present(unsigned kind, unsigned who, unsigned number)
{
    record(kind, who, who, number);
    byte(0);
    byte(0);
}

static void present_choice(unsigned second, unsigned who, unsigned type_index)
{
    present(4 + second, who, type_index);
    present(1, who, 0);
}

/* Face up on the last day, and on a day before it the other side than on the next. */
static void counting_rule(void)
{
    passed(11, REGISTRAR, COUNTING);
        present(2, BENCH, DAY);
            passed(9, BENCH, UP_OR_DOWN); /* is it before the last? */
                passed(14, BENCH, UP_OR_DOWN);
                    passed(0, 0, 0);
                    passed(8, ANYONE, 0);
                        passed(0, 0, 2);
                passed(9, BENCH, UP_OR_DOWN); /* yes: which side is up on the next? */
                    passed(6, BENCH, 0);
                        passed(0, 0, 2);
                        passed(13, BENCH, 0);
                            passed(0, 0, 1);
                            present(12, BENCH, 1);
                    present_choice(1, BENCH, UP_OR_DOWN);
                    present_choice(0, BENCH, UP_OR_DOWN);
                present_choice(0, BENCH, UP_OR_DOWN); /* no: face up */
}

static void days_script(void)
{
    passed(6, ANYONE, 0);
        present(2, ANYONE, LOG_ENTRY);
            present(3, ANYONE, 0);
                passed(7, ANYONE, 0); /* drying or not */
                    passed(0, 0, 0);
                passed(6, BENCH, 0); /* the bench asks which side is up on day 0 */
                    counting_rule();
                    present(12, BENCH, 0);
        present(3, ANYONE, 0); /* the entry: drying, for 21 days */
            present_choice(0, ANYONE, DRYING);
            present(12, BENCH, 21);
}

/* ---- a line for the gallery's screen: in form 4, and without a recursion, so that it always finishes */

enum { SHOWN = 0, CASE_DAY = 4 };

static void screen_types(void)
{
    present_choice_type(ANYONE); /* SHOWN: on display, or taken down */
    present_type(4, ANYONE);
    present_type(2, ANYONE);     /* CASE_DAY: the days that a sheet has hung, and the bench's remark */
        present_type(4, ANYONE);
        present_choice_type(BENCH);
}

static void days_hung(void)
{
    passed(7, ANYONE, 0);
        passed(0, 0, 0);
}

static void screen_script(void)
{
    passed(6, ANYONE, 0);
        present(2, ANYONE, CASE_DAY);
            present(3, ANYONE, 0);
                passed(14, ANYONE, SHOWN); /* a sheet hangs for less than 90 days: on display */
                    days_hung();
                    present(12, ANYONE, 90);
                passed(13, ANYONE, 0); /* and tomorrow's count */
                    days_hung();
                    present(12, ANYONE, 1);
        present(3, ANYONE, 0); /* the entry: 21 days, with a remark of the bench's own */
            present(12, ANYONE, 21);
            present_choice(1, BENCH, CASE_DAY + 2);
}

/* ---- a loan desk's packet: in form 4; the script stands alone, and each entry in a file of its own */

enum { TRAVELS = 0, REQUEST = 3, OBJECT_REMARK = 7 };

static void desk_types(void)
{
    present_choice_type(ANYONE);    /* TRAVELS: yes, or no */
    present_type(2, ANYONE);        /* REQUEST: the days that the object was away this year, its value and the bench's remark */
        present_type(4, ANYONE);
        present_type(2, ANYONE);
            present_type(4, LENDER);
            present_choice_type(BENCH); /* OBJECT_REMARK: the usual frame, or one of our own */
}

/* The value or the remark of a request. */
static void rest_of_request(unsigned second)
{
    passed(7 + second, ANYONE, 0);
        passed(8, ANYONE, 0);
            passed(0, 0, 0);
}

/* Only the lender's office and the registrar make packets. Who may read the page is said by what stands in it. */
static void desk_script(void)
{
    record(2, LENDER, ANYONE, REQUEST);
    byte(0);
    byte(0);
        present(3, ANYONE, 0);
            passed(14, ANYONE, TRAVELS); /* away for less than 90 days: it may travel */
                passed(7, ANYONE, 0);
                    passed(0, 0, 0);
                present(12, ANYONE, 90);
            present(3, ANYONE, 0);
                passed(13, LENDER, 0); /* what to insure: the object's value and the crate's */
                    rest_of_request(0);
                    present(12, ANYONE, 3);
                rest_of_request(1); /* the remark, as it is */
}

static void request_with_days_for(unsigned who)
{
    present(3, ANYONE, 0);
        present(12, who, 42);
        present(3, ANYONE, 0);
            present(12, LENDER, 250);
            present_choice(1, BENCH, OBJECT_REMARK);
}

static void desk_entry(void) { request_with_days_for(ANYONE); }

/* The days kept for the bench: the page would tell them to anyone. */
static void bench_entry(void) { request_with_days_for(BENCH); }

/* ---- */

static void put(struct bytes *into, void (*what)(void))
{
    into->length = 0;
    written = into;
    what();
}

/* How many bytes a rewriting filled. */
static size_t filled(uint64_t answer, size_t width)
{
    if (wigneld_question(answer) != 0) {
        fprintf(stderr, "make: it is not so that %s\n", wigneld_asked(wigneld_question(answer)));
        exit(1);
    }
    return wigneld_count(answer) * width;
}

/* A folder with these files, as they are. */
static void as_written(const char *folder, const char *name, void (*types)(void), void (*script)(void))
{
    static struct bytes g, t, s;

    put(&g, groups);
    put(&t, types);
    put(&s, script);
    save(folder, name, "groups", &g);
    save(folder, name, "types", &t);
    save(folder, name, "script", &s);
}

/* A folder with these files, which were saved in form 1 or 2. */
static void rewritten(const char *folder, const char *name, int form, void (*types)(void), void (*script)(void))
{
    static struct bytes g, t, s, new_t, new_s;

    put(&g, groups);
    put(&t, types);
    put(&s, script);
    if (form == 1)
        wigneld_write_callers(t.at, t.length, s.at, s.length);
    new_s.length = filled(wigneld_rewrite_script(g.at, g.length, t.at, t.length, s.at, s.length, new_s.at, sizeof new_s.at),
                          WIGNELD_SCRIPT_RECORD_BYTES);
    new_t.length = filled(wigneld_rewrite_types(g.at, g.length, t.at, t.length, new_t.at, sizeof new_t.at),
                          WIGNELD_TYPE_RECORD_BYTES);
    save(folder, name, "groups", &g);
    save(folder, name, "types", &new_t);
    save(folder, name, "script", &new_s);
}

/* A folder with these files, whose script is of the old office program, beside it what it is imported as. */
static void imported(const char *folder, const char *name, void (*types)(void), void (*office)(void))
{
    static struct bytes g, t, o, new_t, s;

    put(&g, groups);
    put(&t, types);
    put(&o, office);
    new_t.length = filled(wigneld_rewrite_types(g.at, g.length, t.at, t.length, new_t.at, sizeof new_t.at),
                          WIGNELD_TYPE_RECORD_BYTES);
    save(folder, name, "office", &o);
    wigneld_write_office_callers(new_t.at, new_t.length, o.at, o.length);
    s.length = filled(wigneld_import(g.at, g.length, new_t.at, new_t.length, o.at, o.length, s.at, sizeof s.at),
                      WIGNELD_SCRIPT_RECORD_BYTES);
    save(folder, name, "groups", &g);
    save(folder, name, "types", &new_t);
    save(folder, name, "script", &s);
}

int main(int count, char **words)
{
    static struct bytes bytes;

    if (count != 2 && count != 3) {
        fputs("usage: make FOLDER [FOLDER]\n", stderr);
        return 2;
    }
    rewritten(words[1], "bench-record", 1, bench_types, bench_script);
    put(&bytes, bench_scripts);
    save(words[1], "bench-record", "scripts", &bytes);
    put(&bytes, bench_amendments);
    save(words[1], "bench-record", "amendments", &bytes);
    rewritten(words[1], "page-lines", 2, bench_types, lines_script);
    rewritten(words[1], "loan-sheet", 1, loan_types, loan_script);
    rewritten(words[1], "loan-leak", 1, loan_types, leak_script);
    rewritten(words[1], "drying-panel", 2, panel_types, panel_script);
    imported(words[1], "old-panel", panel_types, named_panel_script);
    rewritten(words[1], "own-words", 2, page_types, page_script);
    put(&bytes, own_words);
    save(words[1], "own-words", "words", &bytes);
    as_written(words[1], "whose-hands", hands_types, hands_script);
    as_written(words[1], "drying-days", days_types, days_script);
    as_written(words[1], "gallery-screen", screen_types, screen_script);
    as_written(words[1], "loan-desk", desk_types, desk_script);
    put(&bytes, desk_entry);
    save(words[1], "loan-desk", "entry", &bytes);
    put(&bytes, bench_entry);
    save(words[1], "loan-desk", "bench-entry", &bytes);
    if (count == 3)
        as_written(words[2], ".", panel_types, first_panel_script);
    return 0;
}

/*
 * One loan sheet, many figures: puts figures of many kinds and sizes in the place of the lender's, runs the script with each, and
 * shows the page that the readers of a group get.
 *
 *     figures FOLDER GROUP PLACE
 *
 * FOLDER holds the files groups, types and script. PLACE is the script record that the figure begins with, counted from 0: an object
 * or a protect. What is put there begins with a record of the same groups. Where its indirect readers are not at or below GROUP, all
 * runs that end with a value give one page for GROUP, byte for byte: that is proved of all scripts and figures, and shown here of
 * some. Nothing else is promised: steps, record counts and other ends may tell. Whether the check accepts a script doesn't matter.
 *
 * Exits with 0 where it is seen, 1 where it isn't (pages differ, GROUP may be influenced by the figure, or all values are one, so that
 * nothing is tried), and 2 where nothing can be put there or a file can't be read.
 *
 *     ./archives wigneld
 *     cc -std=c99 -O2 -Iinclude -o target/figures examples/figures.c target/staticlib/libwigneld.a
 */
#include <errno.h>
#include <inttypes.h>
#include <stdio.h>
#include <stdlib.h>
#include <string.h>

#include "wigneld.h"

#define BUDGET 1000

/* A file's bytes: one more than the longest, so that an over-long file is refused by the calls themselves. */
struct file {
    uint8_t bytes[WIGNELD_SCRIPT_LONGEST_BYTES + 1];
    size_t length;
};

static struct file groups, types, script;

static void load(struct file *file, const char *folder, const char *name)
{
    char path[4096];
    FILE *from;

    if (snprintf(path, sizeof path, "%s/%s", folder, name) >= (int)sizeof path) {
        fprintf(stderr, "figures: %s: the name is too long\n", folder);
        exit(2);
    }
    from = fopen(path, "rb");
    if (from != NULL)
        file->length = fread(file->bytes, 1, sizeof file->bytes, from);
    if (from == NULL || ferror(from)) {
        fprintf(stderr, "figures: %s: %s\n", path, strerror(errno));
        exit(2);
    }
    fclose(from);
}

/* A number on the command line, all of it: a group is never cut to another. */
static uint64_t number(const char *word)
{
    char *end;
    uint64_t found = strtoull(word, &end, 10);

    if (*word < '0' || *word > '9' || *end != '\0') {
        fprintf(stderr, "figures: %s is no number\n", word);
        exit(2);
    }
    return found;
}

static void stop(const char *why)
{
    fprintf(stderr, "figures: %s\n", why);
    exit(2);
}

/* ---- the figure that stands there */

struct label {
    unsigned r, ir, c, ic;
};

static size_t first_byte, past_byte; /* where it stands */
static struct label lenders;         /* its groups, which a new one begins with */
static unsigned choice_type;         /* yes or no, with nothing in it */

static int has_readers(unsigned kind)
{
    return (kind >= WIGNELD_KIND_UNIT && kind <= WIGNELD_KIND_SECOND_INJECTION) || kind == WIGNELD_KIND_LITERAL;
}

/* The script has passed questions 2 to 19, so the figure ends where no operand is wanted any more. */
static void find_figure(uint64_t place)
{
    static const unsigned operands[] = { 0, 0, 1, 2, 1, 1, 2, 1, 1, 3, 1, 1, 0, 2, 2 };
    const uint8_t *record;
    unsigned kind, wanted = 1;

    if (place >= script.length / WIGNELD_SCRIPT_RECORD_BYTES)
        stop("the script has no such record");
    first_byte = past_byte = (size_t)place * WIGNELD_SCRIPT_RECORD_BYTES;
    record = script.bytes + first_byte;
    kind = record[WIGNELD_AT_KIND];
    if (!has_readers(kind) && kind != WIGNELD_KIND_PROTECT)
        stop("the record is no object and no protect");

    lenders.ir = record[WIGNELD_AT_INDIRECT];
    lenders.ic = record[WIGNELD_SCRIPT_AT_INDIRECT_CREATORS];
    lenders.r = has_readers(kind) ? record[WIGNELD_AT_READERS] : lenders.ir;
    lenders.c = has_readers(kind) ? record[WIGNELD_SCRIPT_AT_CREATORS] : lenders.ic;
    for (; wanted > 0; past_byte += WIGNELD_SCRIPT_RECORD_BYTES)
        wanted += operands[script.bytes[past_byte]] - 1;
}

/* Looks for a choice with these readers in the types table. */
static int find_choice(const struct label *readers)
{
    size_t i, width = WIGNELD_TYPE_RECORD_BYTES;

    for (i = 0; i + 3 * width <= types.length; i += width) {
        const uint8_t *t = types.bytes + i;

        if (t[0] == WIGNELD_TYPE_SUM && t[width] == WIGNELD_TYPE_UNIT && t[2 * width] == WIGNELD_TYPE_UNIT
            && (readers == NULL || (t[WIGNELD_AT_READERS] == readers->r && t[WIGNELD_AT_INDIRECT] == readers->ir))) {
            choice_type = (unsigned)(i / width);
            return 1;
        }
    }
    return 0;
}

/* ---- the figures that are put there */

static struct file changed;

static void put(const uint8_t *bytes, size_t count)
{
    if (count > sizeof changed.bytes - changed.length)
        stop("the script is too long for another figure");
    memcpy(changed.bytes + changed.length, bytes, count);
    changed.length += count;
}

static void record(unsigned kind, struct label who, unsigned number)
{
    uint8_t bytes[WIGNELD_SCRIPT_RECORD_BYTES] = { 0 };

    bytes[WIGNELD_AT_KIND] = (uint8_t)kind;
    bytes[WIGNELD_AT_READERS] = (uint8_t)who.r;
    bytes[WIGNELD_AT_INDIRECT] = (uint8_t)who.ir;
    bytes[WIGNELD_AT_NUMBER] = (uint8_t)(number & 255);
    bytes[WIGNELD_AT_NUMBER + 1] = (uint8_t)(number >> 8);
    bytes[WIGNELD_SCRIPT_AT_CREATORS] = (uint8_t)who.c;
    bytes[WIGNELD_SCRIPT_AT_INDIRECT_CREATORS] = (uint8_t)who.ic;
    put(bytes, sizeof bytes);
}

/* What is inside a figure may have any groups: these say that anyone may read it. */
static const struct label anyones = { 0, 0, 0, 0 };

static void variable(void) { record(WIGNELD_KIND_VARIABLE, anyones, 0); }
static void literal(struct label who, unsigned value) { record(WIGNELD_KIND_LITERAL, who, value); }
static void pair(struct label who) { record(WIGNELD_KIND_PAIR, who, 0); }
static void function(struct label who) { record(WIGNELD_KIND_FUNCTION, who, 0); }

/* The lender's office reads. */
static void read_by_lender(unsigned kind, unsigned number)
{
    struct label reader = { lenders.r, 0, 0, 0 };

    record(kind, reader, number);
}

/* What follows is worked out, and what comes of it is as hidden as the figure was. */
static void worked_out(void)
{
    struct label influence = { 0, lenders.ir, 0, lenders.ic };

    record(WIGNELD_KIND_PROTECT, influence, 0);
}

static void choice(struct label who, unsigned second)
{
    record(WIGNELD_KIND_FIRST_INJECTION + second, who, choice_type);
    record(WIGNELD_KIND_UNIT, who, 0);
}

/* ---- each with a high bit first, which is what loan-sheet reads */

static void as_it_stands(unsigned value)
{
    (void)value;
    put(script.bytes + first_byte, past_byte - first_byte);
}

static void in_bits(unsigned value, unsigned count)
{
    for (; count > 1; count--) {
        pair(lenders);
            choice(lenders, value >> (count - 1) & 1);
    }
    choice(lenders, value & 1);
}

static void in_two_bits(unsigned value) { in_bits(value, 2); }
static void in_eight_bits(unsigned value) { in_bits(value, 8); }

static void with_a_number(unsigned value)
{
    pair(lenders);
        choice(lenders, 0);
        literal(lenders, value);
}

static void open_inside(unsigned value)
{
    pair(lenders);
        choice(anyones, 1);
        literal(anyones, value);
}

static void with_a_rule(unsigned value)
{
    pair(lenders);
        choice(lenders, 1);
        function(lenders); /* adds `value` to a number */
            read_by_lender(WIGNELD_KIND_SUM, 0);
                variable();
                literal(lenders, value);
}

/* A rule is applied to the number: whether it is less than 100, and the number itself. */
static void by_a_rule(unsigned value)
{
    worked_out();
        read_by_lender(WIGNELD_KIND_APPLICATION, 0);
            function(anyones);
                pair(anyones);
                    read_by_lender(WIGNELD_KIND_LESS, choice_type);
                        variable();
                        literal(anyones, 100);
                    variable();
            literal(anyones, value);
}

/* A bit, and the numbers from 1 to this one, which are added up. */
static void by_adding(unsigned count)
{
    unsigned i;

    worked_out();
        pair(anyones);
            choice(anyones, 0);
            for (i = 1; i < count; i++) {
                read_by_lender(WIGNELD_KIND_SUM, 0);
                    literal(anyones, i);
            }
            literal(anyones, count);
}

/* ---- and two that loan-sheet makes no page of */

static void no_bits(unsigned value) { literal(lenders, value); }

/* A function that applies what it is given to itself is given to itself. */
static void never_worked_out(unsigned value)
{
    int i;

    (void)value;
    worked_out();
        read_by_lender(WIGNELD_KIND_APPLICATION, 0);
            for (i = 0; i < 2; i++) {
                function(anyones);
                    read_by_lender(WIGNELD_KIND_APPLICATION, 0);
                        variable();
                        variable();
            }
}

static const struct figure {
    const char *words;
    void (*write)(unsigned value);
    unsigned value;
} figures[] = {
    { "as it stands", as_it_stands, 0 },
    { "0 in two bits", in_two_bits, 0 },
    { "1 in two bits", in_two_bits, 1 },
    { "2 in two bits", in_two_bits, 2 },
    { "3 in two bits", in_two_bits, 3 },
    { "200 in eight bits", in_eight_bits, 200 },
    { "a bit and the number 40000", with_a_number, 40000 },
    { "a bit and the number 7, which anyone may read", open_inside, 7 },
    { "a bit and a rule, add 12", with_a_rule, 12 },
    { "250, worked out by a rule", by_a_rule, 250 },
    { "1 to 20, added up", by_adding, 20 },
    { "the number 250, without bits", no_bits, 250 },
    { "never worked out to the end", never_worked_out, 0 },
};

#define FIGURES (sizeof figures / sizeof *figures)

/* ---- what comes of them */

static struct outcome {
    uint8_t value[WIGNELD_RUN_BYTES], page[WIGNELD_SHEET_BYTES]; /* with zeros behind */
    uint64_t steps;
    uint32_t records, lines; /* no lines where there is no value */
} outcomes[FIGURES];

static void refuse(uint64_t answer)
{
    fprintf(stderr, "figures: refused %u at %" PRIu32 ": it is not so that %s\n", wigneld_question(answer), wigneld_place(answer),
            wigneld_asked(wigneld_question(answer)));
    exit(2);
}

static void show_check(void)
{
    static uint8_t work[WIGNELD_WORK_BYTES], type[WIGNELD_ANSWER_BYTES];
    uint64_t answer = wigneld_check(groups.bytes, groups.length, types.bytes, types.length, changed.bytes, changed.length, work,
                                    sizeof work, type, sizeof type);

    if (wigneld_question(answer) == 0)
        fputs("accepted", stdout);
    else
        printf("refused %u", wigneld_question(answer));
}

static void show_page(const struct outcome *o)
{
    static const char *const kinds[] = { "unit", "first", "second", "pair", "function", "closed", "number" };
    uint32_t i;

    for (i = 0; i < o->lines; i++) {
        const uint8_t *line = o->page + (size_t)i * WIGNELD_SHEET_RECORD_BYTES;

        printf("%s%s", i == 0 ? "  " : ", ", kinds[line[WIGNELD_AT_KIND]]);
        if (line[WIGNELD_AT_KIND] == WIGNELD_SHEET_NUMBER)
            printf(" %u", line[WIGNELD_SHEET_AT_NUMBER] | (unsigned)line[WIGNELD_SHEET_AT_NUMBER + 1] << 8);
        if (line[WIGNELD_AT_KIND] != WIGNELD_SHEET_CLOSED)
            printf(" (%u,%u)", line[WIGNELD_AT_READERS], line[WIGNELD_AT_INDIRECT]);
    }
    putchar('\n');
}

/* Runs the script with a figure put in, and shows the page. */
static void try_figure(const struct figure *figure, struct outcome *o, uint64_t group)
{
    static const char *const ends[] = { "a value", "the budget is spent", "the reader may not", "wrong kind", "too big" };
    static uint8_t scratch[WIGNELD_RUN_BYTES], steps[WIGNELD_STEPS_BYTES];
    uint64_t ran, shown;
    unsigned end;

    changed.length = 0;
    put(script.bytes, first_byte);
    figure->write(figure->value);
    put(script.bytes + past_byte, script.length - past_byte);
    printf("%s: ", figure->words);
    show_check();
    ran = wigneld_run(groups.bytes, groups.length, types.bytes, types.length, changed.bytes, changed.length, BUDGET, o->value,
                      sizeof o->value, scratch, sizeof scratch, steps, sizeof steps);
    if (wigneld_question(ran) != 0)
        refuse(ran);
    end = wigneld_run_end(ran);
    o->steps = wigneld_run_steps(ran, steps);
    o->records = wigneld_run_count(ran);
    printf(", end %u, %s, steps %" PRIu64 ", records %" PRIu32 "\n", end, ends[end], o->steps, o->records);
    if (end != WIGNELD_END_VALUE) {
        puts("  no page");
        return;
    }
    shown = wigneld_sheet(groups.bytes, groups.length, types.bytes, types.length, o->value,
                          (size_t)o->records * WIGNELD_SCRIPT_RECORD_BYTES, group, o->page, sizeof o->page);
    if (wigneld_question(shown) != 0)
        refuse(shown);
    o->lines = wigneld_count(shown);
    show_page(o);
}

static int same_value(const struct outcome *a, const struct outcome *b)
{
    return a->records == b->records && memcmp(a->value, b->value, sizeof a->value) == 0;
}

/* The counts are compared too: a record of zeros is a unit. */
static int same_page(const struct outcome *a, const struct outcome *b)
{
    return a->lines == b->lines && memcmp(a->page, b->page, sizeof a->page) == 0;
}

/* Is it another than each of the earlier ones? */
static int is_new(size_t i, int (*same)(const struct outcome *, const struct outcome *))
{
    size_t j;

    for (j = 0; j < i; j++)
        if (outcomes[j].lines > 0 && same(&outcomes[j], &outcomes[i]))
            return 0;
    return 1;
}

/* Tells what is seen of the runs that ended with a value; gives 1 where values differ and the page is one. */
static int summed_up(uint64_t group)
{
    unsigned ended = 0, values = 0, pages = 0;
    uint64_t least_steps = UINT64_MAX, most_steps = 0;
    uint32_t least_records = UINT32_MAX, most_records = 0;
    size_t i;

    for (i = 0; i < FIGURES; i++) {
        const struct outcome *o = &outcomes[i];

        if (o->lines == 0)
            continue;
        ended++;
        values += (unsigned)is_new(i, same_value);
        pages += (unsigned)is_new(i, same_page);
        least_steps = o->steps < least_steps ? o->steps : least_steps;
        most_steps = o->steps > most_steps ? o->steps : most_steps;
        least_records = o->records < least_records ? o->records : least_records;
        most_records = o->records > most_records ? o->records : most_records;
    }
    printf("%u runs ended with a value. Different values: %u. Different pages for group %" PRIu64 ": %u.\n", ended, values, group,
           pages);
    if (ended > 0)
        printf("Not promised: steps (%" PRIu64 " to %" PRIu64 "), records (%" PRIu32 " to %" PRIu32 ") and other ends.\n", least_steps,
               most_steps, least_records, most_records);
    return values > 1 && pages == 1;
}

/* Asks questions 2 to 19 of the script as it stands, by a run of no steps, and 25 of the group. */
static void ask(uint64_t group)
{
    static uint8_t first[WIGNELD_RUN_BYTES], scratch[WIGNELD_RUN_BYTES];
    uint64_t answer = wigneld_run(groups.bytes, groups.length, types.bytes, types.length, script.bytes, script.length, 0, first,
                                  sizeof first, scratch, sizeof scratch, NULL, 0);

    if (wigneld_question(answer) != 0)
        refuse(answer);
    if (group >= groups.length / WIGNELD_ROW_BYTES)
        stop("the studio has no such group");
}

int main(int count, char **words)
{
    uint64_t group, place;
    int influenced, one_page;
    size_t i;

    if (count != 4) {
        fputs("usage: figures FOLDER GROUP PLACE\n", stderr);
        return 2;
    }
    load(&groups, words[1], "groups");
    load(&types, words[1], "types");
    load(&script, words[1], "script");
    group = number(words[2]);
    place = number(words[3]);
    ask(group);
    find_figure(place);
    if (!find_choice(&lenders) && !find_choice(NULL))
        stop("the types table has no choice");

    influenced = groups.bytes[lenders.ir * WIGNELD_ROW_BYTES + group / 8] >> group % 8 & 1;
    printf("The figure is record %" PRIu64 " and its operands, with indirect readers %u: a page for group %" PRIu64 " %s of it.\n",
           place, lenders.ir, group, influenced ? "may tell" : "tells nothing");
    for (i = 0; i < FIGURES; i++)
        try_figure(&figures[i], &outcomes[i], group);
    one_page = summed_up(group);
    return influenced || !one_page;
}

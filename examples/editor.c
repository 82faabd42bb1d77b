/*
 * A small editor's view of a script: checks it, shows what is wrong with it or its type, shows its next steps and takes them one by
 * one, runs it and prints what the readers of a group may see of the result.
 *
 *     editor FOLDER [GROUP [BUDGET [STEPS]]]
 *
 * FOLDER holds the files groups, types and script. GROUP is 0, BUDGET 1,000 and STEPS 2 unless they are given.
 */
#include <errno.h>
#include <inttypes.h>
#include <stdio.h>
#include <stdlib.h>
#include <string.h>

#include "wigneld.h"

/* A file's bytes. One byte more than the longest is read, so that an over-long file is refused by the check itself. */
struct file {
    uint8_t *bytes;
    size_t length;
};

struct document {
    struct file groups, types, script;
};

static void *room_for(size_t bytes)
{
    void *room = calloc(bytes, 1);

    if (room == NULL) {
        fputs("editor: no memory\n", stderr);
        exit(2);
    }
    return room;
}

static struct file load(const char *folder, const char *name, size_t longest)
{
    struct file file = { room_for(longest + 1), 0 };
    char path[4096];
    FILE *from;

    if (snprintf(path, sizeof path, "%s/%s", folder, name) >= (int)sizeof path) {
        fprintf(stderr, "editor: %s: the name is too long\n", folder);
        exit(2);
    }
    from = fopen(path, "rb");
    if (from == NULL) {
        fprintf(stderr, "editor: %s: %s\n", path, strerror(errno));
        exit(2);
    }
    file.length = fread(file.bytes, 1, longest + 1, from);
    fclose(from);
    return file;
}

/* A refusal in words; the place is shown where it counts something. */
static void show_refusal(const struct document *d, uint64_t answer)
{
    static const char *const places[] = { "", "group", "type record", "script record", "type or script record", "word", "script",
                                          "entry" };
    unsigned question = wigneld_question(answer);
    unsigned counted = wigneld_place_kind_over(question, d->groups.bytes, d->groups.length, d->types.bytes, d->types.length);

    printf("refused, question %u: it is not so that %s", question, wigneld_asked(question));
    if (counted != WIGNELD_PLACE_NOTHING)
        printf(" (%s %" PRIu32 ")", places[counted], wigneld_place(answer));
    putchar('\n');
}

/* The groups of a type record: readers and indirect readers, and then, where they say something, creators and indirect ones. */
static void show_groups(const uint8_t *record)
{
    unsigned c = record[WIGNELD_TYPE_AT_CREATORS], ic = record[WIGNELD_TYPE_AT_INDIRECT_CREATORS];

    printf("(%u,%u", record[WIGNELD_AT_READERS], record[WIGNELD_AT_INDIRECT]);
    if (c != 0 || ic != 0)
        printf(" by %u,%u", c, ic);
    putchar(')');
}

/* A type in one line; gives the record after it. */
static const uint8_t *show_type(const uint8_t *record)
{
    const uint8_t *own = record;
    unsigned kind = own[WIGNELD_AT_KIND];

    record += WIGNELD_TYPE_RECORD_BYTES;
    if (kind == WIGNELD_TYPE_UNIT || kind == WIGNELD_TYPE_NUMBER) {
        fputs(kind == WIGNELD_TYPE_UNIT ? "unit" : "number", stdout);
    } else {
        putchar('(');
        record = show_type(record);
        fputs(kind == WIGNELD_TYPE_SUM ? " or " : kind == WIGNELD_TYPE_PAIR ? " and " : " to ", stdout);
        record = show_type(record);
        putchar(')');
    }
    show_groups(own);
    return record;
}

static int check(const struct document *d)
{
    uint8_t *work = room_for(WIGNELD_WORK_BYTES), *type = room_for(WIGNELD_ANSWER_BYTES);
    uint64_t answer = wigneld_check(d->groups.bytes, d->groups.length, d->types.bytes, d->types.length, d->script.bytes,
                                    d->script.length, work, WIGNELD_WORK_BYTES, type, WIGNELD_ANSWER_BYTES);
    int accepted = wigneld_question(answer) == 0;

    if (accepted) {
        fputs("accepted, type ", stdout);
        show_type(type);
        putchar('\n');
    } else {
        show_refusal(d, answer);
    }
    free(work);
    free(type);
    return accepted;
}

/* Shows the next step of the term in `now` and takes it, as its user does: gives the next term's length in `next`, or 0 where there
   is none. The number of steps taken so far is kept in `steps`. */
static size_t step(const struct document *d, const uint8_t *now, size_t length, uint8_t *next, uint8_t *steps)
{
    static const char *const ends[] = { "none, a value", "a new term", "none, the reader may not", "none, wrong kind",
                                        "none, too big" };
    uint64_t shown = wigneld_preview(d->groups.bytes, d->groups.length, d->types.bytes, d->types.length, now, length,
                                     WIGNELD_RUN_BYTES);
    unsigned end = wigneld_step_end(shown);
    uint64_t made;

    if (end == WIGNELD_END_REFUSED) {
        show_refusal(d, shown);
        return 0;
    }
    printf("next step: %s, %" PRIu32 " records\n", ends[end], wigneld_step_count(shown));
    if (end != WIGNELD_END_MOVED)
        return 0;
    made = wigneld_move(d->groups.bytes, d->groups.length, d->types.bytes, d->types.length, now, length, end,
                        wigneld_step_count(shown), next, WIGNELD_RUN_BYTES, steps, WIGNELD_STEPS_BYTES);
    if (wigneld_question(made) != 0) {
        show_refusal(d, made); /* 35, where the script was edited since it was shown */
        return 0;
    }
    printf("taken, step %" PRIu64 "\n", wigneld_steps(steps));
    return (size_t)wigneld_step_count(made) * WIGNELD_SCRIPT_RECORD_BYTES;
}

/* The first steps, at most this many, in two buffers in turn. */
static void walk(const struct document *d, uint64_t most)
{
    uint8_t *terms[] = { room_for(WIGNELD_RUN_BYTES), room_for(WIGNELD_RUN_BYTES) }, steps[WIGNELD_STEPS_BYTES] = { 0 };
    size_t length = d->script.length;
    uint64_t i;

    memcpy(terms[0], d->script.bytes, length);
    for (i = 0; i < most && length > 0; i++)
        length = step(d, terms[i % 2], length, terms[(i + 1) % 2], steps);
    free(terms[0]);
    free(terms[1]);
}

/* Runs the script and leaves its last term in `last`; gives its record count where it is a value, and 0 otherwise. */
static uint32_t run(const struct document *d, uint64_t budget, uint8_t *last)
{
    static const char *const ends[] = { "a value", "not done yet", "stopped: the reader may not", "stopped: wrong kind",
                                        "stopped: too big" };
    uint8_t *scratch = room_for(WIGNELD_RUN_BYTES), steps[WIGNELD_STEPS_BYTES];
    uint64_t answer = wigneld_run(d->groups.bytes, d->groups.length, d->types.bytes, d->types.length, d->script.bytes,
                                  d->script.length, budget, last, WIGNELD_RUN_BYTES, scratch, WIGNELD_RUN_BYTES, steps,
                                  sizeof steps);
    unsigned end = wigneld_run_end(answer);

    free(scratch);
    if (end == WIGNELD_END_REFUSED)
        show_refusal(d, answer);
    else
        printf("%s after %" PRIu64 " steps, %" PRIu32 " records\n", ends[end], wigneld_run_steps(answer, steps),
               wigneld_run_count(answer));
    return end == WIGNELD_END_VALUE ? wigneld_run_count(answer) : 0;
}

static void show_sheet(const struct document *d, const uint8_t *value, uint32_t records, uint64_t group)
{
    static const char *const words[] = { "unit", "first", "second", "pair", "function", "closed", "number" };
    uint8_t *sheet = room_for(WIGNELD_SHEET_BYTES);
    uint64_t answer = wigneld_sheet(d->groups.bytes, d->groups.length, d->types.bytes, d->types.length, value,
                                    (size_t)records * WIGNELD_SCRIPT_RECORD_BYTES, group, sheet, WIGNELD_SHEET_BYTES);
    uint32_t i, count = wigneld_count(answer);

    if (wigneld_question(answer) != 0)
        show_refusal(d, answer);
    for (i = 0; i < count; i++) {
        const uint8_t *line = sheet + (size_t)i * WIGNELD_SHEET_RECORD_BYTES;

        printf("  %s", words[line[WIGNELD_AT_KIND]]);
        if (line[WIGNELD_AT_KIND] == WIGNELD_SHEET_NUMBER)
            printf(" %u", line[WIGNELD_SHEET_AT_NUMBER] | (unsigned)line[WIGNELD_SHEET_AT_NUMBER + 1] << 8);
        if (line[WIGNELD_AT_KIND] != WIGNELD_SHEET_CLOSED)
            printf(" (%u,%u)", line[WIGNELD_AT_READERS], line[WIGNELD_AT_INDIRECT]);
        putchar('\n');
    }
    free(sheet);
}

/* What the editor shows of a document; gives 0 where its script is accepted. */
static int view(const struct document *d, uint64_t group, uint64_t budget, uint64_t steps)
{
    uint8_t *last;
    uint32_t records;

    if (!check(d))
        return 1;
    walk(d, steps);
    last = room_for(WIGNELD_RUN_BYTES);
    records = run(d, budget, last);
    if (records > 0) {
        printf("sheet for group %" PRIu64 ":\n", group);
        show_sheet(d, last, records, group);
    }
    free(last);
    return 0;
}

int main(int count, char **words)
{
    uint64_t group = count > 2 ? strtoull(words[2], NULL, 10) : 0;
    uint64_t budget = count > 3 ? strtoull(words[3], NULL, 10) : 1000;
    uint64_t steps = count > 4 ? strtoull(words[4], NULL, 10) : 2;
    struct document d;
    int refused;

    if (count < 2 || count > 5) {
        fputs("usage: editor FOLDER [GROUP [BUDGET [STEPS]]]\n", stderr);
        return 2;
    }
    d.groups = load(words[1], "groups", WIGNELD_GROUPS_LONGEST_BYTES);
    d.types = load(words[1], "types", WIGNELD_TYPES_LONGEST_BYTES);
    d.script = load(words[1], "script", WIGNELD_SCRIPT_LONGEST_BYTES);
    refused = view(&d, group, budget, steps);
    free(d.groups.bytes);
    free(d.types.bytes);
    free(d.script.bytes);
    return refused;
}

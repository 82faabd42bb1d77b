/*
 * Issues a loan packet: reads the files groups, types, script and entry of a folder, applies the script to the entry as a group, and
 * prints how the run ended and the sheet for that group.
 *
 *     packet FOLDER GROUP BUDGET [ENTRY]
 *
 * ENTRY is a file that is taken in the place of the folder's entry. Exits with 0 where a packet is issued, 1 where it is refused or its
 * run ends with anything but a value, and 2 where a file can't be read.
 *
 *     ./archives wigneld_desk
 *     cc -std=c99 -O2 -Iinclude -o target/packet examples/packet.c target/staticlib/libwigneld_desk.a
 */
#include <errno.h>
#include <inttypes.h>
#include <stdio.h>
#include <stdlib.h>
#include <string.h>

#include "wigneld_desk.h"

/* A file's bytes: one more than the longest, so that an over-long file is refused by the call itself. */
struct file {
    uint8_t bytes[WIGNELD_SCRIPT_LONGEST_BYTES + 1];
    size_t length;
};

static void load(struct file *file, const char *path)
{
    FILE *from = fopen(path, "rb");

    if (from != NULL)
        file->length = fread(file->bytes, 1, sizeof file->bytes, from);
    if (from == NULL || ferror(from)) {
        fprintf(stderr, "packet: %s: %s\n", path, strerror(errno));
        exit(2);
    }
    fclose(from);
}

static void load_in(struct file *file, const char *folder, const char *name)
{
    char path[4096];

    if (snprintf(path, sizeof path, "%s/%s", folder, name) >= (int)sizeof path) {
        fprintf(stderr, "packet: %s: the name is too long\n", folder);
        exit(2);
    }
    load(file, path);
}

/* A number on the command line, all of it: a group is never cut to another. */
static uint64_t number(const char *word)
{
    char *end;
    uint64_t found = strtoull(word, &end, 10);

    if (*word < '0' || *word > '9' || *end != '\0') {
        fprintf(stderr, "packet: %s is no number\n", word);
        exit(2);
    }
    return found;
}

static void show(const uint8_t *sheet, uint32_t count)
{
    static const char *const kinds[] = { "unit", "first", "second", "pair", "function", "closed", "number" };
    uint32_t i;

    for (i = 0; i < count; i++) {
        const uint8_t *line = sheet + (size_t)i * WIGNELD_SHEET_RECORD_BYTES;

        printf("  %s", kinds[line[WIGNELD_AT_KIND]]);
        if (line[WIGNELD_AT_KIND] == WIGNELD_SHEET_NUMBER)
            printf(" %u", line[WIGNELD_SHEET_AT_NUMBER] | (unsigned)line[WIGNELD_SHEET_AT_NUMBER + 1] << 8);
        if (line[WIGNELD_AT_KIND] != WIGNELD_SHEET_CLOSED)
            printf(" (%u,%u)", line[WIGNELD_AT_READERS], line[WIGNELD_AT_INDIRECT]);
        putchar('\n');
    }
}

int main(int count, char **words)
{
    static const char *const ends[] = { "a value", "the budget is spent", "the reader may not", "wrong kind", "too big" };
    static struct file groups, types, script, entry;
    static uint8_t work[WIGNELD_WORK_BYTES], first[WIGNELD_RUN_BYTES], scratch[WIGNELD_RUN_BYTES], steps[WIGNELD_STEPS_BYTES];
    static uint8_t sheet[WIGNELD_SHEET_BYTES];
    uint64_t group, answer;
    unsigned end;

    if (count != 4 && count != 5) {
        fputs("usage: packet FOLDER GROUP BUDGET [ENTRY]\n", stderr);
        return 2;
    }
    load_in(&groups, words[1], "groups");
    load_in(&types, words[1], "types");
    load_in(&script, words[1], "script");
    if (count == 5)
        load(&entry, words[4]);
    else
        load_in(&entry, words[1], "entry");
    group = number(words[2]);

    answer = wigneld_packet(groups.bytes, groups.length, types.bytes, types.length, script.bytes, script.length, entry.bytes,
                            entry.length, group, number(words[3]), WIGNELD_PROFILE_NONE, work, sizeof work, first, sizeof first,
                            scratch, sizeof scratch, steps, sizeof steps, sheet, sizeof sheet);
    end = wigneld_run_end(answer);
    if (end == WIGNELD_END_REFUSED) {
        printf("refused %u at %" PRIu32 ": it is not so that %s\n", wigneld_question(answer), wigneld_place(answer),
               wigneld_asked(wigneld_question(answer)));
        return 1;
    }
    printf("end %u, %s, after %" PRIu64 " steps\n", end, ends[end], wigneld_run_steps(answer, steps));
    if (end != WIGNELD_END_VALUE) {
        printf("no packet; the last term has %" PRIu32 " records\n", wigneld_run_count(answer));
        return 1;
    }
    printf("the packet for group %" PRIu64 ":\n", group);
    show(sheet, wigneld_run_count(answer));
    return 0;
}

/*
 * Tells which of a studio's scripts to use: reads the files groups, types, scripts and amendments of a folder, checks both lists, and
 * says of each script of the list which one is in force.
 *
 *     in_force FOLDER
 *
 * A page is made with the script in force, never with the one that it was first asked of. Exits with 0 where the lists pass, 1 where
 * they are refused, and 2 where a file can't be read.
 *
 *     ./archives wigneld_office
 *     cc -std=c99 -O2 -Iinclude -o target/in_force examples/in_force.c target/staticlib/libwigneld_office.a
 */
#include <errno.h>
#include <inttypes.h>
#include <stdio.h>
#include <stdlib.h>
#include <string.h>

#include "wigneld_office.h"

/* A file's bytes: one more than the longest list, so that an over-long one is refused by the call itself. */
struct file {
    uint8_t bytes[WIGNELD_AMENDMENTS_LONGEST_BYTES + 1];
    size_t length;
};

static struct file groups, types, scripts, amendments;

static void load(struct file *file, const char *folder, const char *name)
{
    char path[4096];
    FILE *from;

    if (snprintf(path, sizeof path, "%s/%s", folder, name) >= (int)sizeof path) {
        fprintf(stderr, "in_force: %s: the name is too long\n", folder);
        exit(2);
    }
    from = fopen(path, "rb");
    if (from != NULL)
        file->length = fread(file->bytes, 1, sizeof file->bytes, from);
    if (from == NULL || ferror(from)) {
        fprintf(stderr, "in_force: %s: %s\n", path, strerror(errno));
        exit(2);
    }
    fclose(from);
}

static uint64_t look_up(uint64_t index)
{
    return wigneld_in_force(groups.bytes, groups.length, types.bytes, types.length, scripts.bytes, scripts.length, amendments.bytes,
                            amendments.length, index);
}

/* A refusal in words, with what it is about. */
static void tell(uint64_t answer)
{
    static const char *const kinds[] = {
        NULL, "group", "type record", "script record", "record", "word", "script", "entry",
    };
    unsigned question = wigneld_question(answer);
    unsigned kind = wigneld_lists_place_kind(question, scripts.length, amendments.length);

    printf("refused %u at %" PRIu32, question, wigneld_place(answer));
    if (kind != WIGNELD_PLACE_NOTHING)
        printf(", %s %" PRIu32, kinds[kind], wigneld_place(answer));
    printf(": it is not so that %s\n", wigneld_asked(question));
}

int main(int count, char **words)
{
    uint32_t script;
    uint64_t answer;

    if (count != 2) {
        fputs("usage: in_force FOLDER\n", stderr);
        return 2;
    }
    load(&groups, words[1], "groups");
    load(&types, words[1], "types");
    load(&scripts, words[1], "scripts");
    load(&amendments, words[1], "amendments");

    /* Each look-up checks the lists anew: this one before the first line is told. */
    answer = look_up(WIGNELD_NO_SCRIPT);
    if (wigneld_script_in_force(answer) == WIGNELD_IN_FORCE_REFUSED) {
        tell(answer);
        return 1;
    }
    for (script = 0; script < scripts.length / WIGNELD_LISTED_BYTES; script++) {
        uint32_t newest = wigneld_script_in_force(look_up(script));

        if (newest == WIGNELD_NO_SCRIPT)
            printf("script %" PRIu32 ": not in use\n", script);
        else if (newest == script)
            printf("script %" PRIu32 ": in force\n", script);
        else
            printf("script %" PRIu32 ": replaced, use script %" PRIu32 "\n", script, newest);
    }
    return 0;
}

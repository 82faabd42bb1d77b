/*
 * Rewrites a folder that was saved in an older form: reads the files groups, types and script of OLD and writes those of the present
 * form to NEW, another folder, which is there already.
 *
 *     rewrite FORM OLD NEW
 *
 * FORM is the form that OLD was saved in, 1 or 2 (WIGNELD_FORMAT): no file says it. Nothing is written before all is rewritten, so
 * NEW never has files of two forms because of a refusal. Exits with 0 where they are written, 1 where a call refuses a file, and 2
 * where a file can't be read or written.
 *
 *     ./archives wigneld_office
 *     cc -std=c99 -O2 -Iinclude -o target/rewrite examples/rewrite.c target/staticlib/libwigneld_office.a
 */
#include <errno.h>
#include <inttypes.h>
#include <stdio.h>
#include <stdlib.h>
#include <string.h>

#include "wigneld_office.h"

#if WIGNELD_FORMAT != 4
#error "this rewrites to form 4"
#endif

/* A file's bytes: one more than the longest of any form, so that an over-long file is refused by the calls themselves. */
struct file {
    uint8_t bytes[WIGNELD_SCRIPT_LONGEST_BYTES + 1];
    size_t length;
};

static void fail(const char *path)
{
    fprintf(stderr, "rewrite: %s: %s\n", path, strerror(errno));
    exit(2);
}

static FILE *open_file(const char *folder, const char *name, const char *mode, char *path, size_t room)
{
    FILE *file;

    if (snprintf(path, room, "%s/%s", folder, name) >= (int)room) {
        fprintf(stderr, "rewrite: %s: the name is too long\n", folder);
        exit(2);
    }
    file = fopen(path, mode);
    if (file == NULL)
        fail(path);
    return file;
}

static void load(struct file *file, const char *folder, const char *name)
{
    char path[4096];
    FILE *from = open_file(folder, name, "rb", path, sizeof path);

    file->length = fread(file->bytes, 1, sizeof file->bytes, from);
    if (ferror(from))
        fail(path);
    fclose(from);
}

static void save(const struct file *file, const char *folder, const char *name)
{
    char path[4096];
    FILE *to = open_file(folder, name, "wb", path, sizeof path);

    if (fwrite(file->bytes, 1, file->length, to) != file->length || fclose(to) != 0)
        fail(path);
}

/* How many records a call rewrote; a refusal is told and ends the program. */
static size_t rewritten(uint64_t answer, const char *folder)
{
    unsigned question = wigneld_question(answer);

    if (question != 0) {
        fprintf(stderr, "rewrite: %s: refused %u at %" PRIu32 ": it is not so that %s\n", folder, question, wigneld_place(answer),
                wigneld_asked(question));
        exit(1);
    }
    return wigneld_count(answer);
}

int main(int count, char **words)
{
    static struct file groups, types, script, new_types, new_script;
    const char *from, *to;

    if (count != 4 || (strcmp(words[1], "1") != 0 && strcmp(words[1], "2") != 0)) {
        fputs("usage: rewrite FORM OLD NEW, FORM being 1 or 2\n", stderr);
        return 2;
    }
    from = words[2];
    to = words[3];
    load(&groups, from, "groups");
    load(&types, from, "types");
    load(&script, from, "script");

    /* Who each recursion calls itself as stands in its type: in a script of form 1 it is written first. A script of form 2 has it
       already, perhaps another group than its type's, which this call would replace. */
    if (words[1][0] == '1')
        wigneld_write_callers(types.bytes, types.length, script.bytes, script.length);

    /* The script is asked over the types that it was saved with. A folder with more scripts has this step for each. */
    new_script.length = WIGNELD_SCRIPT_RECORD_BYTES
                        * rewritten(wigneld_rewrite_script(groups.bytes, groups.length, types.bytes, types.length, script.bytes,
                                                           script.length, new_script.bytes, sizeof new_script.bytes),
                                    from);

    /* The types go last: no script of the old form is left that needs them. */
    new_types.length = WIGNELD_TYPE_RECORD_BYTES
                       * rewritten(wigneld_rewrite_types(groups.bytes, groups.length, types.bytes, types.length, new_types.bytes,
                                                         sizeof new_types.bytes),
                                   from);

    save(&groups, to, "groups"); /* the same in every form */
    save(&new_types, to, "types");
    save(&new_script, to, "script");
    return 0;
}

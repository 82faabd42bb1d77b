/*
 * Imports a script of the old office program: reads the files groups, types and office of FOLDER, the first two of the present form,
 * and writes its file script.
 *
 *     import FOLDER
 *
 * Exits with 0 where it is written, 1 where the import refuses it, and 2 where a file can't be read or written. A refusal leaves the
 * folder as it is.
 *
 *     ./archives wigneld_office
 *     cc -std=c99 -O2 -Iinclude -o target/import examples/import.c target/staticlib/libwigneld_office.a
 */
#include <errno.h>
#include <inttypes.h>
#include <stdio.h>
#include <stdlib.h>
#include <string.h>

#include "wigneld_office.h"

/* A file's bytes: one more than the longest, so that an over-long file is refused by the call itself. */
struct file {
    uint8_t bytes[WIGNELD_OFFICE_LONGEST_BYTES + 1];
    size_t length;
};

static FILE *open_file(const char *folder, const char *name, const char *mode, char *path, size_t room)
{
    FILE *file;

    if (snprintf(path, room, "%s/%s", folder, name) >= (int)room) {
        fprintf(stderr, "import: %s: the name is too long\n", folder);
        exit(2);
    }
    file = fopen(path, mode);
    if (file == NULL) {
        fprintf(stderr, "import: %s: %s\n", path, strerror(errno));
        exit(2);
    }
    return file;
}

static void load(struct file *file, const char *folder, const char *name)
{
    char path[4096];
    FILE *from = open_file(folder, name, "rb", path, sizeof path);

    file->length = fread(file->bytes, 1, sizeof file->bytes, from);
    if (ferror(from)) {
        fprintf(stderr, "import: %s: %s\n", path, strerror(errno));
        exit(2);
    }
    fclose(from);
}

static void save(const struct file *file, const char *folder, const char *name)
{
    char path[4096];
    FILE *to = open_file(folder, name, "wb", path, sizeof path);

    if (fwrite(file->bytes, 1, file->length, to) != file->length || fclose(to) != 0) {
        fprintf(stderr, "import: %s: %s\n", path, strerror(errno));
        exit(2);
    }
}

int main(int count, char **words)
{
    static struct file groups, types, office, script;
    uint64_t answer;

    if (count != 2) {
        fputs("usage: import FOLDER\n", stderr);
        return 2;
    }
    load(&groups, words[1], "groups");
    load(&types, words[1], "types");
    load(&office, words[1], "office");

    /* Who each recursion calls itself as stood in its type alone. */
    wigneld_write_office_callers(types.bytes, types.length, office.bytes, office.length);

    answer = wigneld_import(groups.bytes, groups.length, types.bytes, types.length, office.bytes, office.length, script.bytes,
                            sizeof script.bytes);
    if (wigneld_question(answer) != 0) {
        fprintf(stderr, "import: %s: refused %u at %" PRIu32 ": it is not so that %s\n", words[1], wigneld_question(answer),
                wigneld_place(answer), wigneld_asked(wigneld_question(answer)));
        return 1;
    }
    script.length = WIGNELD_SCRIPT_RECORD_BYTES * wigneld_count(answer);
    save(&script, words[1], "script");
    return 0;
}

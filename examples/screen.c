/*
 * Which scripts a public screen may show, since they always finish: a line for each folder.
 *
 *     screen FOLDER..
 *
 * A folder holds the files groups, types and script. It exits with 1 where a script is refused.
 */
#include <errno.h>
#include <inttypes.h>
#include <stdio.h>
#include <stdlib.h>
#include <string.h>

#include "wigneld_office.h"

/* One byte more than the longest is read, so that an over-long file is refused by the check itself. */
struct file {
    uint8_t bytes[WIGNELD_SCRIPT_LONGEST_BYTES + 1];
    size_t length;
};

static void load(struct file *file, const char *folder, const char *name)
{
    char path[4096];
    FILE *from;

    if (snprintf(path, sizeof path, "%s/%s", folder, name) >= (int)sizeof path) {
        fprintf(stderr, "screen: %s: the name is too long\n", folder);
        exit(2);
    }
    from = fopen(path, "rb");
    if (from == NULL) {
        fprintf(stderr, "screen: %s: %s\n", path, strerror(errno));
        exit(2);
    }
    file->length = fread(file->bytes, 1, sizeof file->bytes, from);
    fclose(from);
}

static int shown(const char *folder)
{
    static struct file groups, types, script;
    static uint8_t work[WIGNELD_WORK_BYTES], type[WIGNELD_ANSWER_BYTES];
    uint64_t answer;

    load(&groups, folder, "groups");
    load(&types, folder, "types");
    load(&script, folder, "script");
    answer = wigneld_check_profile(groups.bytes, groups.length, types.bytes, types.length, script.bytes, script.length, work,
                                   sizeof work, type, sizeof type);
    if (wigneld_question(answer) == 0)
        printf("%s: accepted, it always finishes\n", folder);
    else
        printf("%s: refused, question %u at %" PRIu32 ": it is not so that %s\n", folder, wigneld_question(answer),
               wigneld_place(answer), wigneld_asked(wigneld_question(answer)));
    return wigneld_question(answer) == 0;
}

int main(int count, char **words)
{
    int all = 1;

    if (count < 2) {
        fputs("usage: screen FOLDER..\n", stderr);
        return 2;
    }
    for (int i = 1; i < count; i++)
        all &= shown(words[i]);
    return !all;
}

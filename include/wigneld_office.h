/*
 * Wigneld for the office: the comparison of two types of a types table, the check of scripts that always finish, the script in force
 * of an amended list, the rewriting of files from before this form, and the import and export of the old office program's scripts,
 * for C99 and C++ on x86-64 Linux.
 *
 * Tables and scripts, and how a refusal is read, are as in wigneld.h. Every function here is total too: any bytes of any length get
 * an answer. Nothing is allocated, kept or printed, and nothing is written but what is lent for it, so calls from several threads are
 * apart as long as that is.
 *
 * What the caller owes, since no check can see it from inside:
 *  - each pointer has as many bytes behind it as the length after it says; NULL only with length 0;
 *  - a buffer that a call writes to (work, answer, script of wigneld_write_callers, rewritten, script of wigneld_import, old of
 *    wigneld_export and wigneld_write_office_callers) overlaps none of the call's other slices;
 *  - nobody else writes any of them while the call runs;
 *  - the stack has room (WIGNELD_COMPARE_STACK_BYTES and the eight after it).
 */
#ifndef WIGNELD_OFFICE_H
#define WIGNELD_OFFICE_H

#include "wigneld.h"

#ifdef __cplusplus
extern "C" {
#endif

/* The free stack that each function needs, whatever it is lent, as wigneld.h means it. For wigneld_compare two types of 63
   records, as deep as they can be, were seen to take 4,752 bytes; the number is this and at least a sixteenth more.
   wigneld_in_force keeps two sets of 65,536 scripts, a bit for each, and was seen to take 21,248 bytes.
   wigneld_write_callers goes over its script once and needs next to none. The two that rewrite hold a whole table, or a table and a
   script, in the new form while they ask, and were seen to take 25,024 and 111,040 bytes. wigneld_check_profile goes as deep as
   wigneld_check: 82,464 bytes. wigneld_import holds a script without its names and the imported one, and goes as deep as the script:
   129,440 bytes. wigneld_export goes as deep and holds none: 20,768. wigneld_write_office_callers is as wigneld_write_callers. */
#define WIGNELD_COMPARE_STACK_BYTES 5632
#define WIGNELD_IN_FORCE_STACK_BYTES 24576
#define WIGNELD_WRITE_CALLERS_STACK_BYTES 512
#define WIGNELD_REWRITE_TYPES_STACK_BYTES 28672
#define WIGNELD_REWRITE_SCRIPT_STACK_BYTES 118784
#define WIGNELD_CHECK_PROFILE_STACK_BYTES 90112
#define WIGNELD_IMPORT_STACK_BYTES 139264
#define WIGNELD_EXPORT_STACK_BYTES 24576
#define WIGNELD_WRITE_OFFICE_CALLERS_STACK_BYTES 512

/*
 * Compares two types of one table, each named by the index of its first record: questions 2 to 12 and 25, whose place is 0 for the
 * first index and 1 for the second. wigneld_comparison reads the answer.
 */
uint64_t wigneld_compare(const uint8_t *groups, size_t groups_length, const uint8_t *types, size_t types_length, uint64_t first,
                         uint64_t second);

/* The first type beside the second. */
#define WIGNELD_COMPARE_NEITHER 0   /* it is not at or below the second; it may be above it */
#define WIGNELD_COMPARE_BELOW 1     /* it is below: usable wherever the second is, which is more closed or has lower creators */
#define WIGNELD_COMPARE_SAME 2      /* both are equal in every record, wherever they stand in the table */
#define WIGNELD_COMPARE_REFUSED 255 /* nothing was compared: the call was refused. No comparison answers so */

static inline unsigned wigneld_comparison(uint64_t answer)
{
    return wigneld_question(answer) != 0 ? WIGNELD_COMPARE_REFUSED : (unsigned)answer;
}

/*
 * Checks a script for a public screen, which may not hang: wigneld_check, with 39 asked after 19 at the first record that is a
 * recursion. What it accepts wigneld_check accepts with the same type; buffers, answer and what they hold afterwards are as there.
 *
 * A script that it accepts always finishes. There is a number of steps after which it is a value, and a run with a budget of at
 * least that many ends with WIGNELD_END_VALUE, or with WIGNELD_END_TOO_BIG if a term on the way is too large or too deep. Nothing is
 * said of how many steps they are.
 */
uint64_t wigneld_check_profile(const uint8_t *groups, size_t groups_length, const uint8_t *types, size_t types_length,
                               const uint8_t *script, size_t script_length, uint8_t *work, size_t work_length, uint8_t *answer,
                               size_t answer_length);

/*
 * Which script is in force. A studio keeps two lists, neither with a header. Its list of scripts has for each script the index of its type
 * in the types table, a number of WIGNELD_LISTED_BYTES bytes, lowest byte first; a script is named by its index, counted from 0. The
 * list of amendments, which only grows, has entries of two such numbers: the script that the entry lists, and the listed script that it
 * replaces, or WIGNELD_NO_SCRIPT for none.
 */
#define WIGNELD_LISTED_BYTES 2
#define WIGNELD_ENTRY_BYTES 4
#define WIGNELD_ENTRY_AT_REPLACED 2
#define WIGNELD_MOST_LISTED_SCRIPTS 65535
#define WIGNELD_NO_SCRIPT 65535

/* The longest lists that are not refused: no script is listed twice. */
#define WIGNELD_SCRIPTS_LONGEST_BYTES (WIGNELD_MOST_LISTED_SCRIPTS * WIGNELD_LISTED_BYTES)
#define WIGNELD_AMENDMENTS_LONGEST_BYTES (WIGNELD_MOST_LISTED_SCRIPTS * WIGNELD_ENTRY_BYTES)

/*
 * The script in force from a script: questions 2 to 12; 40 at place 0, whether both lists have whole records and the first at most
 * WIGNELD_MOST_LISTED_SCRIPTS of them; 25 of every listed script, whose index is the place; and then of one entry after another, whose
 * index is the place,
 *
 *     40    it lists a script of the list that no entry before it lists, and replaces none or one that an entry before it lists
 *     41    no entry before it replaces the same script
 *     42    the type of the script that it lists is the same as that of the one it replaces, or below it
 *
 * Accepted: from a script that an entry lists, the last of the scripts that replace it one after another, which has a type at or below
 * its own; any other index, one past the list too, has WIGNELD_NO_SCRIPT. So WIGNELD_NO_SCRIPT as the index checks the lists alone.
 * Nothing is written. The cost grows with the lengths of the lists, not with their product. wigneld_script_in_force reads the answer.
 */
uint64_t wigneld_in_force(const uint8_t *groups, size_t groups_length, const uint8_t *types, size_t types_length,
                          const uint8_t *scripts, size_t scripts_length, const uint8_t *amendments, size_t amendments_length,
                          uint64_t index);

#define WIGNELD_IN_FORCE_REFUSED 65536 /* nothing was looked up: the call was refused. No list has such a script */

/* The script in force, WIGNELD_NO_SCRIPT where there is none, WIGNELD_IN_FORCE_REFUSED where the call was refused. */
static inline uint32_t wigneld_script_in_force(uint64_t answer)
{
    return wigneld_question(answer) != 0 ? WIGNELD_IN_FORCE_REFUSED : (uint32_t)answer;
}

/* What the place counts where wigneld_in_force refuses lists of these lengths by this question. */
static inline unsigned wigneld_lists_place_kind(unsigned question, size_t scripts_length, size_t amendments_length)
{
    if (question == 25)
        return WIGNELD_PLACE_LISTED_SCRIPT;
    if (question == 40
        && (scripts_length % WIGNELD_LISTED_BYTES != 0 || scripts_length > WIGNELD_SCRIPTS_LONGEST_BYTES
            || amendments_length % WIGNELD_ENTRY_BYTES != 0))
        return WIGNELD_PLACE_NOTHING;
    return wigneld_place_kind(question);
}

/*
 * Files from before this form. Their types have records of 4 bytes (kind, r, ir, 0) and their scripts records of 6 (kind, r, ir, 0,
 * number); the groups table is as ever. The three calls below read these old records, and nothing else does. A folder comes to form
 * 4 in this order, whatever is in it:
 *
 *     1. wigneld_write_callers    each script that was saved in form 1, over the old types
 *     2. wigneld_rewrite_script   each script, over the old types
 *     3. wigneld_rewrite_types    the types, when all their scripts are done
 *
 * A script saved in form 2 skips the first. What passed questions 2 to 19 then passes here, and is checked and run as it was: with
 * the same type, its creators group 0, or refused by the same question at the same place; with the same end, steps and records, in
 * buffers of as many records. So a studio's files can be rewritten in one night without anybody looking at a page. What was refused
 * then is refused here by the same question at the same place and is not rewritten, but for what may stand in a file since: a
 * recursion's own group, a case that finds its type, and numbers. examples/rewrite.c does a folder. What was saved in form 3 is in
 * form 4 as it is.
 */
#define WIGNELD_OLD_TYPE_RECORD_BYTES 4
#define WIGNELD_OLD_SCRIPT_RECORD_BYTES 6

/*
 * Brings a script of form 1 to form 2, in place: each recursion gets the group that it calls itself as, which in form 1 was always
 * r of its function type. Each whole script record of kind recursion whose number is below types_length / 4 gets byte 1 of that
 * type record as its own byte 1; every other byte stays, a last record that is cut short too. Nothing is asked, so nothing is
 * refused: the answer is the count of records written, as it is.
 *
 * To be used once, on scripts that were saved in form 1, whose recursions have 0 in byte 1. A script saved in form 2 has its own
 * group there and must not be rewritten.
 */
uint64_t wigneld_write_callers(const uint8_t *types, size_t types_length, uint8_t *script, size_t script_length);

/*
 * Brings a script of form 2 to form 4: questions 2 to 19 of the tables and the script, all of form 2, and then 27, whether
 * `rewritten` has room for as many records of form 4 (WIGNELD_SCRIPT_LONGEST_BYTES are always enough). 13 is asked without the
 * buffers of a run, and 36 is never answered no. Accepted: the record count, which wigneld_count reads. The front of `rewritten`
 * then holds the script's records, each with group 0 as c and ic; later bytes are kept. A refusal writes nothing.
 */
uint64_t wigneld_rewrite_script(const uint8_t *groups, size_t groups_length, const uint8_t *types, size_t types_length,
                                const uint8_t *script, size_t script_length, uint8_t *rewritten, size_t rewritten_length);

/*
 * Brings a types table of form 1 or 2 to form 4: questions 2 to 12 and then 27, whether `rewritten` has room for as many records of
 * form 4 (WIGNELD_TYPES_LONGEST_BYTES are always enough). The rest is as for a script. Types keep their indexes.
 */
uint64_t wigneld_rewrite_types(const uint8_t *groups, size_t groups_length, const uint8_t *types, size_t types_length,
                               uint8_t *rewritten, size_t rewritten_length);

/*
 * Scripts of the old office program. Their records have 10 bytes: the first six of a script record, and then two names, each of 16
 * bits, lowest byte first; they have no creators. Types and groups are of this form. A variable has its name in the first and number
 * 0; a function and a recursion name what they bind in the first, a case the binder of its first branch in the first and that of its
 * second branch in the second. A variable means the nearest binder of its name. 0 is a name like any other; what a kind doesn't use
 * is 0.
 *
 *     byte          0      1   2    3   4                            5   6                                7   8              9
 *     old record    kind   r   ir   0   number, lowest byte first        first name, lowest byte first        second name
 */
#define WIGNELD_OFFICE_RECORD_BYTES 10
#define WIGNELD_OFFICE_AT_FIRST_NAME 6
#define WIGNELD_OFFICE_AT_SECOND_NAME 8
#define WIGNELD_MOST_OFFICE_RECORDS 6000
#define WIGNELD_OFFICE_LONGEST_BYTES (WIGNELD_MOST_OFFICE_RECORDS * WIGNELD_OFFICE_RECORD_BYTES)

/*
 * Imports an old script into form 4: questions 2 to 12; 28, whether it has 1 to 6,000 whole records; 14 to 18 of the records' first
 * six bytes; 29 of all records, whether what isn't used is 0, a variable's number too; 30 of all records, whether a variable's name has
 * a binder; and 27, whether `script` has room for as many records of form 4. Accepted: the record count, which wigneld_count reads. The
 * front of `script` then holds the records, each variable with its number and all with group 0 as c and ic; later bytes are kept. A
 * refusal writes nothing. What is imported passes questions 2 to 19.
 *
 * In an old script the recursions have 0 in byte 1. To be run as it was it gets its callers first, by wigneld_write_office_callers:
 * import then answers as it would have, and the imported script differs in those bytes alone.
 */
uint64_t wigneld_import(const uint8_t *groups, size_t groups_length, const uint8_t *types, size_t types_length,
                        const uint8_t *old, size_t old_length, uint8_t *script, size_t script_length);

/*
 * Exports a script to the old form: questions 2 to 19, then 28, whether it has at most 6,000 records, and 27, whether `old` has room for
 * as many old records. Accepted: the record count. The front of `old` then holds the records, each binder named by its count of
 * binders outside it; later bytes are kept. A refusal writes nothing.
 *
 * The old form has no creators: c and ic are dropped. Importing what was exported gives back the script, byte for byte, just where they
 * were group 0 in every record.
 */
uint64_t wigneld_export(const uint8_t *groups, size_t groups_length, const uint8_t *types, size_t types_length,
                        const uint8_t *script, size_t script_length, uint8_t *old, size_t old_length);

/*
 * wigneld_write_callers for an old office script, in place: each whole record of kind recursion whose number is below types_length / 6
 * gets byte 1 of that type record as its own byte 1; every other byte stays. Nothing is asked; the answer is the count of records
 * written, as it is.
 */
uint64_t wigneld_write_office_callers(const uint8_t *types, size_t types_length, uint8_t *old, size_t old_length);

#ifdef __cplusplus
}
#endif

#endif

/*
 * Wigneld: the check, the run, the sheet and the next step of a treatment log's scripts, for C99 and C++ on x86-64 Linux. What a
 * caller needs stands here; the whole specification is docs/MANUAL.md.
 *
 * Every function is total: any bytes of any length get an answer, and a refusal changes nothing that was lent, but for a work
 * buffer in use, which ends as zeros. Nothing is allocated, kept or printed, so calls from several threads are apart as long as
 * their buffers are.
 *
 * What the caller owes, since no check can see it from inside:
 *  - each pointer has as many bytes behind it as the length after it says; NULL only with length 0;
 *  - a buffer that a call writes to (work, answer, first, scratch, written, steps, sheet) overlaps none of the call's other slices;
 *  - nobody else writes any of them while the call runs;
 *  - the stack has room (WIGNELD_CHECK_STACK_BYTES and the four after it).
 */
#ifndef WIGNELD_H
#define WIGNELD_H

#include <stddef.h>
#include <stdint.h>

#ifdef __cplusplus
extern "C" {
#endif

/* Raised whenever a constant, a prototype or an answer changes. */
#define WIGNELD_VERSION 14

/* The form of rows and records. Raised whenever a width below changes, or what a byte of a record means: files of another form
   are to be rewritten before they are lent. No file says its form, so keep it beside them. Form 3 had no numbers, and its sheet
   records had 4 bytes: its groups, types and scripts are in form 4 as they are. In form 2 type records had 4 bytes and
   script records 6: those below without creators. In form 1, of the same widths, byte 1 of a recursion was 0. wigneld_office.h has
   the calls that rewrite such files, and their order. */
#define WIGNELD_FORMAT 4

/*
 * The groups table: rows, one for each group, numbered from 0. A row is a word of 4 bytes, lowest byte first: byte 0 has bits 0 to 7,
 * byte 3 bits 24 to 31. Bit h of row g is set when group h is at least as secret as group g, which is said as 'g is at or below h'.
 * Group 0 is below every group, and a group is numbered after those below it.
 */
#define WIGNELD_ROW_BYTES 4

/*
 * Type, script and sheet records start alike:
 *
 *     byte            0      1   2    3   4                            5    6   7
 *     type record     kind   r   ir   0   c                            ic
 *     script record   kind   r   ir   0   number, lowest byte first         c   ic
 *     sheet record    kind   r   ir   0   number, lowest byte first
 *
 * The readers r are who may read an object, the indirect readers ir who may be influenced by it; both are groups, ir at or below r.
 *
 * The creators c are whose hands an object passed through, the indirect creators ic who may have had a say in it; both are groups,
 * ic at or below c. A group stands here for itself and all above it: higher creators say more, and group 0 says nothing. So an
 * object may be taken for one with higher readers or with lower creators, never the other way round, and what is made by reading an
 * object has creators at or below its indirect creators and the group that read.
 */
#define WIGNELD_AT_KIND 0
#define WIGNELD_AT_READERS 1
#define WIGNELD_AT_INDIRECT 2
#define WIGNELD_AT_ZERO 3

/*
 * The types table: whole types one after another. A sum, a pair and a function are followed by their left and then their right type. Every record
 * starts a type and is named by its index, counted from 0.
 */
#define WIGNELD_TYPE_RECORD_BYTES 6
#define WIGNELD_TYPE_AT_CREATORS 4
#define WIGNELD_TYPE_AT_INDIRECT_CREATORS 5

#define WIGNELD_TYPE_UNIT 0
#define WIGNELD_TYPE_SUM 1
#define WIGNELD_TYPE_PAIR 2
#define WIGNELD_TYPE_FUNCTION 3 /* left: its parameter; right: its result */
#define WIGNELD_TYPE_NUMBER 4   /* a whole number, 0 to WIGNELD_MOST_NUMBER */

/*
 * A script: one term, each record followed by its operands in order. Fields that the kind doesn't name are 0.
 *
 *     kind                operands                            fields
 *     variable            none                                number: binders outward, 0 the nearest
 *     unit                none                                r, ir, c, ic
 *     function            body, under a binder                r, ir, c, ic, number: parameter type
 *     pair                first, second                       r, ir, c, ic
 *     injections          the injected                        r, ir, c, ic, number: sum type
 *     application         function, argument                  r
 *     projections         the pair                            r
 *     case                tested, two branches, each under    r, number: result type, or WIGNELD_OWN_TYPE
 *                         a binder
 *     protect             the protected                       ir, ic
 *     recursion           body, under a binder                r, number: function type
 *     literal             none                                r, ir, c, ic, number: its value
 *     sum of two          first, second                       r
 *     less than           first, second                       r, number: a sum of two units
 *
 * r of an application, a projection or a case is the group that reads: what comes out is raised by ir of the object read, and its
 * creators are lowered by ic of that object and by this group. A protect raises by its ir and lowers by its ic. r of a recursion is
 * the group that it calls itself as, whoever calls it; it is at or above r of the function type.
 *
 * A sum of two numbers and a comparison read both, as r: what comes out is an object that anyone may read and that this group made,
 * raised and lowered by the first and then by the second. A total over WIGNELD_MOST_NUMBER is WIGNELD_MOST_NUMBER. Less than gives
 * the first injection where the first number is less, otherwise the second, of a unit with the groups of that side of the named type.
 *
 * A case with WIGNELD_OWN_TYPE finds its result type: the lowest at or above the types of both branches, which has to exist
 * (question 31) and need not stand in the types table. Its operands, all three, are two levels below it and not one.
 */
#define WIGNELD_SCRIPT_RECORD_BYTES 8
#define WIGNELD_AT_NUMBER 4
#define WIGNELD_SCRIPT_AT_CREATORS 6
#define WIGNELD_SCRIPT_AT_INDIRECT_CREATORS 7

#define WIGNELD_KIND_VARIABLE 0
#define WIGNELD_KIND_UNIT 1
#define WIGNELD_KIND_FUNCTION 2
#define WIGNELD_KIND_PAIR 3
#define WIGNELD_KIND_FIRST_INJECTION 4
#define WIGNELD_KIND_SECOND_INJECTION 5
#define WIGNELD_KIND_APPLICATION 6
#define WIGNELD_KIND_FIRST_PROJECTION 7
#define WIGNELD_KIND_SECOND_PROJECTION 8
#define WIGNELD_KIND_CASE 9
#define WIGNELD_KIND_PROTECT 10
#define WIGNELD_KIND_RECURSION 11
#define WIGNELD_KIND_LITERAL 12
#define WIGNELD_KIND_SUM 13
#define WIGNELD_KIND_LESS 14

#define WIGNELD_MOST_NUMBER 65535

#define WIGNELD_OWN_TYPE 65535 /* the number of a case that finds its result type; no types table has so many records */

/* A sheet: a record for each object of a value that is shown, in the script's order. A closed one has groups 0 and stands for its
   object and every part of it. The number is a shown literal's value, and 0 of all else. Creators aren't shown: a client reads them
   in the value. */
#define WIGNELD_SHEET_RECORD_BYTES 6
#define WIGNELD_SHEET_AT_NUMBER 4

#define WIGNELD_SHEET_UNIT 0
#define WIGNELD_SHEET_FIRST 1
#define WIGNELD_SHEET_SECOND 2
#define WIGNELD_SHEET_PAIR 3
#define WIGNELD_SHEET_FUNCTION 4 /* its body isn't shown */
#define WIGNELD_SHEET_CLOSED 5
#define WIGNELD_SHEET_NUMBER 6

/* Limits: groups, records of a types table, of one type and of a script, depth of a script. Its outermost record has depth 1, and an
   operand that of its node and one more; of a case that finds its type, two more. */
#define WIGNELD_MOST_GROUPS 32
#define WIGNELD_MOST_TABLE_RECORDS 4096
#define WIGNELD_MOST_TYPE_RECORDS 63
#define WIGNELD_MOST_SCRIPT_RECORDS 8192
#define WIGNELD_MOST_DEPTH 256

/* The longest groups table, types table and script that are not refused for their length. */
#define WIGNELD_GROUPS_LONGEST_BYTES (WIGNELD_MOST_GROUPS * WIGNELD_ROW_BYTES)
#define WIGNELD_TYPES_LONGEST_BYTES (WIGNELD_MOST_TABLE_RECORDS * WIGNELD_TYPE_RECORD_BYTES)
#define WIGNELD_SCRIPT_LONGEST_BYTES (WIGNELD_MOST_SCRIPT_RECORDS * WIGNELD_SCRIPT_RECORD_BYTES)

/* What wigneld_check asks of its buffers: one type, and one type for each level of a script. */
#define WIGNELD_ANSWER_BYTES (WIGNELD_MOST_TYPE_RECORDS * WIGNELD_TYPE_RECORD_BYTES)
#define WIGNELD_WORK_BYTES (WIGNELD_MOST_DEPTH * WIGNELD_ANSWER_BYTES)

/* Buffers of this size are never too short: a run's first and scratch and a move's written, a step count, and a sheet. */
#define WIGNELD_RUN_BYTES WIGNELD_SCRIPT_LONGEST_BYTES
#define WIGNELD_STEPS_BYTES 8
#define WIGNELD_SHEET_BYTES (WIGNELD_MOST_SCRIPT_RECORDS * WIGNELD_SHEET_RECORD_BYTES)

/*
 * The free stack that each function needs, whatever it is lent: the bytes between the caller's stack pointer, before the
 * arguments are put down, and the end of the stack. The deepest scripts, of depth 256 with types of 63 records, were seen to take
 * 82,480, 127,360, 37,040, 61,728 and 61,904 bytes; the numbers are these and at least a sixteenth more, in whole pages.
 *
 * A thread's stack holds more than that: its own frames, and what the C library keeps there. With glibc
 * pthread_attr_setstacksize(&attributes, PTHREAD_STACK_MIN + WIGNELD_CHECK_STACK_BYTES) is enough for a thread that calls
 * wigneld_check from a shallow function.
 */
#define WIGNELD_CHECK_STACK_BYTES 90112
#define WIGNELD_RUN_STACK_BYTES 139264
#define WIGNELD_SHEET_STACK_BYTES 40960
#define WIGNELD_PREVIEW_STACK_BYTES 69632
#define WIGNELD_MOVE_STACK_BYTES 69632

/*
 * Checks a script: questions 1 to 24, with 36 right after 10 and after 15, and 31 right after the second branch of a case that
 * finds its type. A range of questions below has 36 at these places too. Accepted: the record count of its type, which then stands
 * in front of `answer`; later bytes of `answer` are kept. `work` has at least WIGNELD_WORK_BYTES bytes and ends as zeros once
 * typing has begun, which is with questions 20 to 24 and 31; `answer` has at least WIGNELD_ANSWER_BYTES.
 */
uint64_t wigneld_check(const uint8_t *groups, size_t groups_length, const uint8_t *types, size_t types_length,
                       const uint8_t *script, size_t script_length, uint8_t *work, size_t work_length, uint8_t *answer,
                       size_t answer_length);

/*
 * Runs a script for at most `budget` steps: questions 2 to 19. `first` ends as the last term and then zeros, `scratch` as zeros;
 * both have room for the script, and the shorter says what is too big. The count of steps made goes to `steps`, lowest byte
 * first, as many of its 8 bytes as there are; lend WIGNELD_STEPS_BYTES bytes, or none where it isn't wanted.
 */
uint64_t wigneld_run(const uint8_t *groups, size_t groups_length, const uint8_t *types, size_t types_length,
                     const uint8_t *script, size_t script_length, uint64_t budget, uint8_t *first, size_t first_length,
                     uint8_t *scratch, size_t scratch_length, uint8_t *steps, size_t steps_length);

/*
 * What the readers of a group may see of a value: questions 2 to 19, 25, 26, 27. The sheet stands in front of `sheet`; later
 * bytes are kept. `value` is the last term of a run that ended in a value, WIGNELD_SCRIPT_RECORD_BYTES for each of its records.
 *
 * Scripts that differ only inside objects and protects whose indirect readers are not at or below the group, accepted or not, have
 * equal sheets where both runs end in values. Their steps, ends and record counts may differ: beside a sheet these may tell more.
 */
uint64_t wigneld_sheet(const uint8_t *groups, size_t groups_length, const uint8_t *types, size_t types_length,
                       const uint8_t *value, size_t value_length, uint64_t group, uint8_t *sheet, size_t sheet_length);

/*
 * What the next step of a script would give, in a buffer of `written_length` bytes: questions 2 to 19. Nothing is lent to be
 * written. wigneld_step_end and wigneld_step_count read the end and the record count off the answer: the script's own count unless
 * the end is WIGNELD_END_MOVED. A preview stays good for as long as the groups, the types and the script stay as they are and the
 * buffer that the move writes to has this length.
 */
uint64_t wigneld_preview(const uint8_t *groups, size_t groups_length, const uint8_t *types, size_t types_length,
                         const uint8_t *script, size_t script_length, uint64_t written_length);

/*
 * Makes the step that a preview showed: questions 2 to 19, and then 35 where `end` or `records` isn't what this script and a buffer
 * of `written_length` bytes give now. They are numbers that the caller kept, and any are answered. With end WIGNELD_END_MOVED the new
 * term stands in front of `written`, later bytes are kept, and the number of steps in `steps` goes up by one, where the largest
 * number of 64 bits stays. With any other end, and on a refusal, nothing changes; the script has no next step then.
 *
 * The number of steps so far is the caller's: WIGNELD_STEPS_BYTES bytes, lowest first, zeros before the first move. Where fewer
 * bytes are lent, the missing ones are taken as 0, and as many are written back as there are. It is never asked whether it is right.
 */
uint64_t wigneld_move(const uint8_t *groups, size_t groups_length, const uint8_t *types, size_t types_length,
                      const uint8_t *script, size_t script_length, uint64_t end, uint64_t records, uint8_t *written,
                      size_t written_length, uint8_t *steps, size_t steps_length);

/*
 * Taking an answer apart. Every reader looks for a refusal first, so that none is taken for anything else: counts are then 0, and
 * a run's or a step's end is none that it can have.
 */

/* The number of the first question answered no, and 0 where the call was not refused. */
static inline unsigned wigneld_question(uint64_t answer)
{
    return (unsigned)(answer >> 32);
}

/* Of a refusal: where, counted from 0. wigneld_place_kind says what is counted. 0 where the call was not refused. */
static inline uint32_t wigneld_place(uint64_t answer)
{
    return wigneld_question(answer) != 0 ? (uint32_t)answer : 0;
}

/* Of a check: the type's record count. Of a sheet, or of what was rewritten: its record count. 0 where the call was refused. */
static inline uint32_t wigneld_count(uint64_t answer)
{
    return wigneld_question(answer) != 0 ? 0 : (uint32_t)answer;
}

/* How a run or a step ends. */
#define WIGNELD_END_VALUE 0      /* a value */
#define WIGNELD_END_SPENT 1      /* of a run: the budget is spent */
#define WIGNELD_END_MOVED 1      /* of a step: there is a next term */
#define WIGNELD_END_MAY_NOT 2    /* the reader may not read an object; never after an accepted check */
#define WIGNELD_END_WRONG_KIND 3 /* an object of the wrong kind; never after an accepted check */
#define WIGNELD_END_TOO_BIG 4    /* the next term is too large or too deep */
#define WIGNELD_END_REFUSED 255  /* there was no run or step: the call was refused. None ends so */

static inline unsigned wigneld_run_end(uint64_t answer)
{
    return wigneld_question(answer) != 0 ? WIGNELD_END_REFUSED : (unsigned)(answer >> 16 & 0xffff);
}

/* Of a run: the last term's record count, and 0 where the call was refused. */
static inline uint32_t wigneld_run_count(uint64_t answer)
{
    return wigneld_question(answer) != 0 ? 0 : (uint32_t)(answer & 0xffff);
}

/* The number of steps in WIGNELD_STEPS_BYTES bytes: of those that a caller lends to each move. */
static inline uint64_t wigneld_steps(const uint8_t *steps)
{
    uint64_t made = 0;
    int i;

    for (i = WIGNELD_STEPS_BYTES - 1; i >= 0; i--)
        made = made << 8 | steps[i];
    return made;
}

/* Of a run: the steps made, from the WIGNELD_STEPS_BYTES bytes that were lent for them. A refused call writes none, and this is 0. */
static inline uint64_t wigneld_run_steps(uint64_t answer, const uint8_t *steps)
{
    return wigneld_question(answer) != 0 ? 0 : wigneld_steps(steps);
}

/* Of a preview or a move: the step's end, and WIGNELD_END_REFUSED where the call was refused. */
static inline unsigned wigneld_step_end(uint64_t answer)
{
    return wigneld_run_end(answer);
}

/* Of a preview or a move: the record count after the step, and 0 where the call was refused. */
static inline uint32_t wigneld_step_count(uint64_t answer)
{
    return wigneld_run_count(answer);
}

/* What the place of a refusal counts. The last two are of wigneld_in_force (wigneld_office.h), whose 25 is at a listed script. */
#define WIGNELD_PLACE_NOTHING 0       /* the place is 0 and says nothing */
#define WIGNELD_PLACE_ROW 1           /* a group, by its row */
#define WIGNELD_PLACE_TYPE_RECORD 2   /* a record of the types table */
#define WIGNELD_PLACE_SCRIPT_RECORD 3 /* a record of the script; for question 17 it may be the one after the last */
#define WIGNELD_PLACE_EITHER_RECORD 4 /* a record of the types table or of the script: see wigneld_place_kind_over */
#define WIGNELD_PLACE_WORD 5          /* a word of a table of words */
#define WIGNELD_PLACE_LISTED_SCRIPT 6 /* a script of a list */
#define WIGNELD_PLACE_ENTRY 7         /* an entry of a list of amendments */

/* What the place counts that a refusal by this question names. */
static inline unsigned wigneld_place_kind(unsigned question)
{
    switch (question) {
    case 3: case 4: case 5: case 6:
        return WIGNELD_PLACE_ROW;
    case 9: case 10: case 11: case 12:
        return WIGNELD_PLACE_TYPE_RECORD;
    case 14: case 15: case 16: case 17: case 18: case 19: case 20: case 21: case 22: case 23: case 24: case 29:
    case 30: case 31: case 39:
        return WIGNELD_PLACE_SCRIPT_RECORD;
    case 36:
        return WIGNELD_PLACE_EITHER_RECORD;
    case 33: case 34:
        return WIGNELD_PLACE_WORD;
    case 40: case 41: case 42:
        return WIGNELD_PLACE_ENTRY;
    default:
        return WIGNELD_PLACE_NOTHING;
    }
}

/*
 * The same, for a refused call over these tables, with the two places of question 36 told apart. All type records are asked it before
 * any script is looked at, so the place is a type record just where the tables are refused 36 by themselves: by wigneld_compare of
 * types 0 and 0 (wigneld_office.h), or here by a sheet of no value, which tables that pass are refused by 13. It needs the stack of
 * wigneld_sheet.
 */
static inline unsigned wigneld_place_kind_over(unsigned question, const uint8_t *groups, size_t groups_length,
                                               const uint8_t *types, size_t types_length)
{
    unsigned kind = wigneld_place_kind(question);

    if (kind != WIGNELD_PLACE_EITHER_RECORD)
        return kind;
    return wigneld_question(wigneld_sheet(groups, groups_length, types, types_length, NULL, 0, 0, NULL, 0)) == question
               ? WIGNELD_PLACE_TYPE_RECORD
               : WIGNELD_PLACE_SCRIPT_RECORD;
}

/* The last question there is. 28 to 30 are those of import and export (wigneld_office.h), 32 to 34 the report program's, of its file of
   words, 37 and 38 the loan desk's (wigneld_desk.h), and 39 to 42 the office's: wigneld_check_profile's, and of lists of scripts. */
#define WIGNELD_LAST_QUESTION 42

/* A question in a few words: what is not so, when it is the one that an answer names. */
static inline const char *wigneld_asked(unsigned question)
{
    static const char none[] = "no such question";
    static const char *const words[WIGNELD_LAST_QUESTION + 1] = {
        "nothing",
        "the work and the answer buffer are long enough",                  /* 1 */
        "the groups table has whole rows, 1 to 32",                        /* 2 */
        "a row names only groups of the table",                            /* 3 */
        "a row's lowest group is its own",                                 /* 4 */
        "a row holds the rows of the groups that it names",                /* 5 */
        "two groups have a lowest group above both",                       /* 6, place: the first of them */
        "group 0 is below every group",                                    /* 7 */
        "the types table has whole records, 1 to 4,096",                   /* 8 */
        "a type record's kind, groups and byte 3 are right",               /* 9 */
        "a type's indirect readers are at or below its readers",           /* 10 */
        "the last type is finished",                                       /* 11, place: where it starts */
        "a type has at most 63 records",                                   /* 12, place: where it starts */
        "the script has whole records, 1 to 8,192, and fits the buffers",  /* 13 */
        "a record's kind is known and its unused fields are 0",            /* 14 */
        "a record's groups are in the table, indirect at or below readers", /* 15 */
        "the type that a record names is there and of the right form",     /* 16, not of a case that finds its type */
        "the script is exactly one whole term",                            /* 17 */
        "the script is at most 256 levels deep",                           /* 18 */
        "a variable is bound",                                             /* 19 */
        "what is applied, projected or tested has the form for it",        /* 20 */
        "who reads an object is one of its readers",                       /* 21, also of a recursion and who it calls itself as */
        "what is handed on is at or below the type that is wanted",        /* 22 */
        "a recursion's result is as secret as it, its creators no higher", /* 23, than ic of its type and who it calls itself as */
        "the type of a function or a pair has at most 63 records",         /* 24 */
        "the index or the group is in its table",                          /* 25, place: 1 for the second of two */
        "the script is a value",                                           /* 26 */
        "the answer fits its buffer",                                      /* 27 */
        "the old office script has whole records, 1 to 6,000",             /* 28, of an export: the script has no more than 6,000 */
        "a name that isn't used is 0, and a variable's number",            /* 29 */
        "a name has a binder",                                             /* 30 */
        "the branches of a case that finds its type have a common one",    /* 31 */
        "the table of words has 84 bytes",                                 /* 32 */
        "a word is 1 to 12 letters a to z and then zero bytes",            /* 33 */
        "a word is none of the earlier ones",                              /* 34 */
        "the preview is the one that the script and the buffer give",      /* 35 */
        "a record's indirect creators are at or below its creators",       /* 36 */
        "the script that is applied has a function's type",                /* 37 */
        "the entry's type is at or below the function's left side",        /* 38 */
        "the script has no recursion, so that it always finishes",          /* 39, place: the first */
        "the lists are whole, an entry's script new and its old one listed", /* 40, place 0 also for the lengths */
        "a script is replaced by one entry only",                          /* 41 */
        "a script's type is at or below that of the one it replaces",      /* 42 */
    };

    return question <= WIGNELD_LAST_QUESTION ? words[question] : none;
}

#ifdef __cplusplus
}
#endif

#endif

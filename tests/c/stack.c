/*
 * The stack that each function needs, held against the headers.
 *
 * For each function, many scripts as deep as a script may be: each kind of record on the way down, and below it what goes
 * deepest, over types as deep as 63 records can be; for the comparison these types themselves; for the packet such a script, or such
 * an entry, or a script that is run as deep. A script is tried in child processes, in a thread with ever less free stack, until the least that it doesn't crash with is known. The header's number is
 * the most of these and a margin. Then each of the scripts is run in a thread with just what the header says, and in one of the
 * size that the header advises.
 */
#define _GNU_SOURCE
#include <limits.h>
#include <pthread.h>
#include <stdio.h>
#include <stdlib.h>
#include <string.h>
#include <sys/mman.h>
#include <sys/resource.h>
#include <sys/wait.h>
#include <unistd.h>

#include "wigneld_desk.h"
#include "wigneld_office.h"

static void fail(const char *what)
{
    fprintf(stderr, "stack: %s\n", what);
    exit(1);
}

/* Tables: one group, and combs of 63 records, left and right, of each kind. */

enum { RECORDS_OF_A_COMB = WIGNELD_MOST_TYPE_RECORDS, COMBS = 6 };

static const uint8_t groups[WIGNELD_ROW_BYTES] = { 1, 0, 0, 0 };
static uint8_t types[COMBS * RECORDS_OF_A_COMB * WIGNELD_TYPE_RECORD_BYTES];

/* The same, and the script of a call, with records of the older widths. */
static uint8_t old_types[COMBS * RECORDS_OF_A_COMB * WIGNELD_OLD_TYPE_RECORD_BYTES];
static uint8_t old_script[WIGNELD_MOST_SCRIPT_RECORDS * WIGNELD_OLD_SCRIPT_RECORD_BYTES];

/* The script of a call as the old office program has it. */
static uint8_t office_script[WIGNELD_OFFICE_LONGEST_BYTES];

/* Records without their creators. */
static void put_old(uint8_t *to, size_t old_width, const uint8_t *from, size_t width, size_t count)
{
    size_t i;

    for (i = 0; i < count; i++)
        memcpy(to + i * old_width, from + i * width, old_width);
}

/* Where the comb of this kind starts whose left (right) sides have sides in turn. */
static unsigned comb(unsigned kind, int right)
{
    return (2 * (kind - WIGNELD_TYPE_SUM) + (right ? 1 : 0)) * RECORDS_OF_A_COMB;
}

static void put_types(void)
{
    unsigned kind, i;

    for (kind = WIGNELD_TYPE_SUM; kind <= WIGNELD_TYPE_FUNCTION; kind++) {
        uint8_t *left = types + comb(kind, 0) * WIGNELD_TYPE_RECORD_BYTES;
        uint8_t *right = types + comb(kind, 1) * WIGNELD_TYPE_RECORD_BYTES;

        for (i = 0; i < RECORDS_OF_A_COMB / 2; i++) {
            left[i * WIGNELD_TYPE_RECORD_BYTES + WIGNELD_AT_KIND] = (uint8_t)kind;
            right[2 * i * WIGNELD_TYPE_RECORD_BYTES + WIGNELD_AT_KIND] = (uint8_t)kind;
        }
    }
    put_old(old_types, WIGNELD_OLD_TYPE_RECORD_BYTES, types, WIGNELD_TYPE_RECORD_BYTES, COMBS * RECORDS_OF_A_COMB);
}

/* A list of two scripts of one type, of which the second replaces the first. */
static uint8_t listed[2 * WIGNELD_LISTED_BYTES];
static const uint8_t amendments[2 * WIGNELD_ENTRY_BYTES] = { 0, 0, 255, 255, 1, 0, 0, 0 };

static void put_listed(unsigned type)
{
    size_t i;

    for (i = 0; i < sizeof listed; i += WIGNELD_LISTED_BYTES) {
        listed[i] = (uint8_t)(type & 255);
        listed[i + 1] = (uint8_t)(type >> 8);
    }
}

/* A script while it is built: its records, and the count of units that are owed after the innermost ones. */

struct script {
    uint8_t bytes[WIGNELD_SCRIPT_LONGEST_BYTES];
    size_t count, owed;
    unsigned type; /* the index that a comparison is given twice */
    unsigned depth, binders;
};

static void put(uint8_t *at, unsigned kind, unsigned number)
{
    memset(at, 0, WIGNELD_SCRIPT_RECORD_BYTES);
    at[WIGNELD_AT_KIND] = (uint8_t)kind;
    at[WIGNELD_AT_NUMBER] = (uint8_t)(number & 0xff);
    at[WIGNELD_AT_NUMBER + 1] = (uint8_t)(number >> 8);
}

static void record(struct script *s, unsigned kind, unsigned number)
{
    put(s->bytes + s->count++ * WIGNELD_SCRIPT_RECORD_BYTES, kind, number);
}

/* A unit, as an operand that stands after the innermost records. */
static void owe(struct script *s)
{
    s->owed++;
}

static void injected_unit(struct script *s)
{
    record(s, WIGNELD_KIND_FIRST_INJECTION, comb(WIGNELD_TYPE_SUM, 1));
    record(s, WIGNELD_KIND_UNIT, 0);
}

static void identity(struct script *s)
{
    record(s, WIGNELD_KIND_FUNCTION, 1);
    record(s, WIGNELD_KIND_VARIABLE, 0);
}

/* The ways down: a record of each kind, with the next level in each of its operands; of a case also where it finds its type. */
enum way {
    FUNCTION, PAIR_FIRST, PAIR_SECOND, FIRST_INJECTION, SECOND_INJECTION, APPLICATION_FIRST, APPLICATION_SECOND, FIRST_PROJECTION,
    SECOND_PROJECTION, CASE_TESTED, CASE_FIRST, CASE_SECOND, OWN_TESTED, OWN_FIRST, OWN_SECOND, PROTECT, RECURSION, WAYS
};

/* How much deeper the next level is. */
static unsigned weight(enum way way)
{
    return way == OWN_TESTED || way == OWN_FIRST || way == OWN_SECOND ? 2 : 1;
}

static void level(struct script *s, enum way way)
{
    s->depth += weight(way);
    switch (way) {
    case FUNCTION: record(s, WIGNELD_KIND_FUNCTION, 1); s->binders++; break;
    case PAIR_FIRST: record(s, WIGNELD_KIND_PAIR, 0); owe(s); break;
    case PAIR_SECOND: record(s, WIGNELD_KIND_PAIR, 0); record(s, WIGNELD_KIND_UNIT, 0); break;
    case FIRST_INJECTION: record(s, WIGNELD_KIND_FIRST_INJECTION, comb(WIGNELD_TYPE_SUM, 1)); break;
    case SECOND_INJECTION: record(s, WIGNELD_KIND_SECOND_INJECTION, comb(WIGNELD_TYPE_SUM, 1)); break;
    case APPLICATION_FIRST: record(s, WIGNELD_KIND_APPLICATION, 0); owe(s); break;
    case APPLICATION_SECOND: record(s, WIGNELD_KIND_APPLICATION, 0); identity(s); break;
    case FIRST_PROJECTION: record(s, WIGNELD_KIND_FIRST_PROJECTION, 0); break;
    case SECOND_PROJECTION: record(s, WIGNELD_KIND_SECOND_PROJECTION, 0); break;
    case CASE_TESTED: record(s, WIGNELD_KIND_CASE, 0); owe(s); owe(s); break;
    case CASE_FIRST: record(s, WIGNELD_KIND_CASE, 0); injected_unit(s); s->binders++; owe(s); break;
    case CASE_SECOND:
        record(s, WIGNELD_KIND_CASE, comb(WIGNELD_TYPE_SUM, 1));
        injected_unit(s);
        injected_unit(s);
        s->binders++;
        break;
    case OWN_TESTED: record(s, WIGNELD_KIND_CASE, WIGNELD_OWN_TYPE); owe(s); owe(s); break;
    case OWN_FIRST: record(s, WIGNELD_KIND_CASE, WIGNELD_OWN_TYPE); injected_unit(s); s->binders++; owe(s); break;
    case OWN_SECOND:
        record(s, WIGNELD_KIND_CASE, WIGNELD_OWN_TYPE);
        injected_unit(s);
        injected_unit(s);
        s->binders++;
        break;
    case PROTECT: record(s, WIGNELD_KIND_PROTECT, 0); break;
    case RECURSION: record(s, WIGNELD_KIND_RECURSION, comb(WIGNELD_TYPE_FUNCTION, 1)); s->binders++; break;
    case WAYS: break;
    }
}

/* Levels of one way down to this depth; a protect where one more would be too deep. */
static void descend(struct script *s, enum way way, unsigned depth)
{
    while (s->depth + weight(way) <= depth)
        level(s, way);
    while (s->depth < depth)
        level(s, PROTECT);
}

/* A variable of the outermost binder. */
static void outermost(struct script *s)
{
    record(s, WIGNELD_KIND_VARIABLE, s->binders - 1);
}

/* The units that are owed. */
static void pay(struct script *s)
{
    for (; s->owed > 0; s->owed--)
        record(s, WIGNELD_KIND_UNIT, 0);
}

/* What is done at the lowest level but one with a deep type and itself: compared, or their common type found. */
enum comparison { BODY, ARGUMENT, INJECTED, BRANCH, COMMON, COMPARISONS };

static void check_script(struct script *s, enum way way, enum comparison comparison, unsigned kind, int right)
{
    unsigned type = comb(comparison == BRANCH ? WIGNELD_TYPE_SUM : kind, right);

    memset(s, 0, sizeof *s);
    if (comparison == COMMON) {
        record(s, WIGNELD_KIND_FUNCTION, comb(WIGNELD_TYPE_SUM, 1));
        s->depth = s->binders = 1;
    }
    record(s, WIGNELD_KIND_FUNCTION, comparison == INJECTED ? comb(WIGNELD_TYPE_SUM, 0) + 1 : type);
    s->depth++;
    s->binders++;
    descend(s, way, WIGNELD_MOST_DEPTH - 2 - (comparison == ARGUMENT || comparison == COMMON));
    switch (comparison) {
    case BODY:
        record(s, WIGNELD_KIND_RECURSION, comb(WIGNELD_TYPE_FUNCTION, right));
        record(s, WIGNELD_KIND_VARIABLE, 0);
        break;
    case ARGUMENT:
        record(s, WIGNELD_KIND_APPLICATION, 0);
        record(s, WIGNELD_KIND_FUNCTION, type);
        record(s, WIGNELD_KIND_UNIT, 0);
        outermost(s);
        break;
    case INJECTED:
        record(s, WIGNELD_KIND_FIRST_INJECTION, comb(WIGNELD_TYPE_SUM, 0));
        outermost(s);
        break;
    case BRANCH:
        record(s, WIGNELD_KIND_CASE, type);
        outermost(s);
        s->binders++;
        outermost(s);
        outermost(s);
        break;
    case COMMON:
        record(s, WIGNELD_KIND_CASE, WIGNELD_OWN_TYPE);
        outermost(s);
        record(s, WIGNELD_KIND_VARIABLE, s->binders - 1); /* the second binder, under the case's own */
        record(s, WIGNELD_KIND_VARIABLE, s->binders - 1);
        break;
    case COMPARISONS: break;
    }
    pay(s);
}

/* Runs: a value put into a deep body by each of the three rules that do so, and a redex far below the top. */
enum run { APPLIED, TESTED, UNROLLED, FAR, RUNS };

static void run_script(struct script *s, enum way way, enum run run)
{
    memset(s, 0, sizeof *s);
    switch (run) {
    case APPLIED:
        record(s, WIGNELD_KIND_APPLICATION, 0);
        record(s, WIGNELD_KIND_FUNCTION, 1);
        s->depth = 2;
        s->binders = 1;
        owe(s);
        break;
    case TESTED:
        record(s, WIGNELD_KIND_CASE, 0);
        injected_unit(s);
        s->depth = s->binders = 1;
        owe(s);
        break;
    case UNROLLED:
        record(s, WIGNELD_KIND_RECURSION, comb(WIGNELD_TYPE_FUNCTION, 1));
        record(s, WIGNELD_KIND_FUNCTION, 1);
        s->depth = 2;
        s->binders = 2;
        break;
    case FAR:
    case RUNS: break;
    }
    descend(s, way, WIGNELD_MOST_DEPTH - 2);
    record(s, WIGNELD_KIND_PROTECT, 0);
    if (run == FAR)
        record(s, WIGNELD_KIND_UNIT, 0);
    else
        outermost(s);
    pay(s);
}

static void sheet_script(struct script *s, enum way way)
{
    memset(s, 0, sizeof *s);
    descend(s, way, WIGNELD_MOST_DEPTH - 1);
    record(s, WIGNELD_KIND_UNIT, 0);
    pay(s);
}

/* The calls, in buffers that stand apart from the stack. */

enum call {
    CHECK, RUN, SHEET, PREVIEW, MOVE, COMPARE, IN_FORCE, WRITE_CALLERS, REWRITE_SCRIPT, REWRITE_TYPES, CHECK_PROFILE, IMPORT, EXPORT,
    WRITE_OFFICE_CALLERS, PACKET, CALLS
};

static const char *const names[CALLS] = { "wigneld_check", "wigneld_run", "wigneld_sheet", "wigneld_preview", "wigneld_move",
                                          "wigneld_compare", "wigneld_in_force", "wigneld_write_callers",
                                          "wigneld_rewrite_script", "wigneld_rewrite_types", "wigneld_check_profile",
                                          "wigneld_import", "wigneld_export", "wigneld_write_office_callers",
                                          "wigneld_packet" };
static const size_t promised[CALLS] = { WIGNELD_CHECK_STACK_BYTES, WIGNELD_RUN_STACK_BYTES, WIGNELD_SHEET_STACK_BYTES,
                                        WIGNELD_PREVIEW_STACK_BYTES, WIGNELD_MOVE_STACK_BYTES, WIGNELD_COMPARE_STACK_BYTES,
                                        WIGNELD_IN_FORCE_STACK_BYTES, WIGNELD_WRITE_CALLERS_STACK_BYTES,
                                        WIGNELD_REWRITE_SCRIPT_STACK_BYTES, WIGNELD_REWRITE_TYPES_STACK_BYTES,
                                        WIGNELD_CHECK_PROFILE_STACK_BYTES, WIGNELD_IMPORT_STACK_BYTES,
                                        WIGNELD_EXPORT_STACK_BYTES, WIGNELD_WRITE_OFFICE_CALLERS_STACK_BYTES,
                                        WIGNELD_PACKET_STACK_BYTES };

/* No promise up to this is too high: it is less than a caller's own frames are apart. */
enum { NEXT_TO_NONE = 512 };

/* A call in a thread, with `wanted` bytes of free stack, or however much there is. */
struct job {
    enum call call;
    const struct script *script;
    size_t wanted, above, had;
    uintptr_t end;
    uint64_t answer;
};

static uint8_t work[WIGNELD_WORK_BYTES], found[WIGNELD_ANSWER_BYTES];
static uint8_t first[WIGNELD_RUN_BYTES], scratch[WIGNELD_RUN_BYTES], steps[WIGNELD_STEPS_BYTES], sheet[WIGNELD_SHEET_BYTES];

/* What a move takes back. */
static uint64_t shown;

/* What a packet applies its script to. */
static struct script entry;

static uint64_t preview(const struct script *script)
{
    return wigneld_preview(groups, sizeof groups, types, sizeof types, script->bytes, script->count * WIGNELD_SCRIPT_RECORD_BYTES,
                           sizeof first);
}

/* What a caller does, right before and at its call. */
__attribute__((noinline)) static void make_call(struct job *job)
{
    const uint8_t *script = job->script->bytes;
    size_t length = job->script->count * WIGNELD_SCRIPT_RECORD_BYTES;
    size_t old_length = job->script->count * WIGNELD_OLD_SCRIPT_RECORD_BYTES;
    size_t office_length = job->script->count * WIGNELD_OFFICE_RECORD_BYTES;
    uintptr_t here;

    /* Named as changed, rbx is saved before and not between this and the call. */
    __asm__ volatile("mov %%rsp, %0" : "=r"(here) : : "rbx");
    job->had = here - job->end;
    switch (job->call) {
    case CHECK:
        job->answer = wigneld_check(groups, sizeof groups, types, sizeof types, script, length, work, sizeof work, found, sizeof found);
        break;
    case RUN:
        job->answer = wigneld_run(groups, sizeof groups, types, sizeof types, script, length, 3, first, sizeof first, scratch,
                                  sizeof scratch, steps, sizeof steps);
        break;
    case SHEET:
        job->answer = wigneld_sheet(groups, sizeof groups, types, sizeof types, script, length, 0, sheet, sizeof sheet);
        break;
    case PREVIEW:
        job->answer = wigneld_preview(groups, sizeof groups, types, sizeof types, script, length, sizeof first);
        break;
    case MOVE:
        job->answer = wigneld_move(groups, sizeof groups, types, sizeof types, script, length, wigneld_step_end(shown),
                                   wigneld_step_count(shown), first, sizeof first, steps, sizeof steps);
        break;
    case COMPARE:
        job->answer = wigneld_compare(groups, sizeof groups, types, sizeof types, job->script->type, job->script->type);
        break;
    case IN_FORCE:
        job->answer = wigneld_in_force(groups, sizeof groups, types, sizeof types, listed, sizeof listed, amendments,
                                       sizeof amendments, 0);
        break;
    case WRITE_CALLERS:
        job->answer = wigneld_write_callers(old_types, sizeof old_types, old_script, old_length);
        break;
    case REWRITE_SCRIPT:
        job->answer = wigneld_rewrite_script(groups, sizeof groups, old_types, sizeof old_types, old_script, old_length, first,
                                             sizeof first);
        break;
    case REWRITE_TYPES:
        job->answer = wigneld_rewrite_types(groups, sizeof groups, old_types, sizeof old_types, first, sizeof first);
        break;
    case CHECK_PROFILE:
        job->answer = wigneld_check_profile(groups, sizeof groups, types, sizeof types, script, length, work, sizeof work, found,
                                            sizeof found);
        break;
    case IMPORT:
        job->answer = wigneld_import(groups, sizeof groups, types, sizeof types, office_script, office_length, first, sizeof first);
        break;
    case EXPORT:
        job->answer = wigneld_export(groups, sizeof groups, types, sizeof types, script, length, first, sizeof first);
        break;
    case WRITE_OFFICE_CALLERS:
        job->answer = wigneld_write_office_callers(types, sizeof types, office_script, office_length);
        break;
    case PACKET:
        job->answer = wigneld_packet(groups, sizeof groups, types, sizeof types, script, length, entry.bytes,
                                     entry.count * WIGNELD_SCRIPT_RECORD_BYTES, 0, 1000, WIGNELD_PROFILE_NONE, work, sizeof work,
                                     first, sizeof first, scratch, sizeof scratch, steps, sizeof steps, sheet, sizeof sheet);
        break;
    case CALLS: break;
    }
}

/* The call, below `more` bytes of stack that nobody needs. */
__attribute__((noinline)) static void make_call_below(struct job *job, size_t more)
{
    volatile char taken[more + 1];

    taken[0] = 0;
    make_call(job);
    taken[more] = taken[0];
}

static void *in_thread(void *given)
{
    struct job *job = given;
    size_t here = (uintptr_t)__builtin_frame_address(0) - job->end;

    /* A script to rewrite; the copy is made here, where there is stack enough for it. */
    put_old(old_script, WIGNELD_OLD_SCRIPT_RECORD_BYTES, job->script->bytes, WIGNELD_SCRIPT_RECORD_BYTES, job->script->count);
    /* And the preview of a move, which goes as deep as the move itself. */
    if (job->call == MOVE)
        shown = preview(job->script);
    put_listed(job->script->type);
    if (job->wanted == 0)
        make_call_below(job, 0);
    else /* an array is aligned to 16 bytes: rather less free stack than more */
        make_call_below(job, here - job->above - job->wanted + 15);
    job->above = here - job->had;
    return NULL;
}

/* The call on a stack of its own, with pages below it that nobody may touch. */
static void on_own_stack(struct job *job)
{
    enum { LENGTH = 1 << 20, BARRED = 1 << 20 };
    pthread_attr_t attributes;
    pthread_t thread;
    char *mapped = mmap(NULL, BARRED + LENGTH, PROT_NONE, MAP_PRIVATE | MAP_ANONYMOUS, -1, 0);

    if (mapped == MAP_FAILED || mprotect(mapped + BARRED, LENGTH, PROT_READ | PROT_WRITE) != 0)
        fail("no memory for a stack");
    job->end = (uintptr_t)(mapped + BARRED);
    if (pthread_attr_init(&attributes) != 0 || pthread_attr_setstack(&attributes, mapped + BARRED, LENGTH) != 0
        || pthread_create(&thread, &attributes, in_thread, job) != 0 || pthread_join(thread, NULL) != 0)
        fail("no thread");
    pthread_attr_destroy(&attributes);
    munmap(mapped, BARRED + LENGTH);
}

/* The call in a thread of the size that the header advises. */
static void in_advised_thread(struct job *job)
{
    pthread_attr_t attributes;
    pthread_t thread;

    job->wanted = 0;
    if (pthread_attr_init(&attributes) != 0
        || pthread_attr_setstacksize(&attributes, (size_t)PTHREAD_STACK_MIN + promised[job->call]) != 0
        || pthread_create(&thread, &attributes, in_thread, job) != 0 || pthread_join(thread, NULL) != 0)
        fail("no thread of the advised size");
    pthread_attr_destroy(&attributes);
}

/* The bytes between a thread's start and a call there, apart from what is taken on purpose. */
static size_t above(enum call call, const struct script *script)
{
    struct job job = { call, script, 0, 0, 0, 0, 0 };

    on_own_stack(&job);
    return job.above;
}

/* The call with exactly this much free stack. */
static uint64_t with_free(enum call call, const struct script *script, size_t free)
{
    struct job job = { call, script, free, above(call, script), 0, 0, 0 };

    on_own_stack(&job);
    if (job.had > free || job.had + 64 < free)
        fail("a thread's free stack isn't what was wanted");
    return job.answer;
}

/* Whether a child process survives the call with this much free stack. */
static int survives(enum call call, const struct script *script, size_t free)
{
    pid_t child = fork();
    int status = 0;

    if (child == 0) {
        struct rlimit none = { 0, 0 };

        setrlimit(RLIMIT_CORE, &none);
        with_free(call, script, free);
        _exit(0);
    }
    if (child < 0 || waitpid(child, &status, 0) != child)
        fail("no child process");
    if (WIFEXITED(status) && WEXITSTATUS(status) != 0)
        fail("a child process failed");
    return WIFEXITED(status);
}

/* The least free stack, in steps of 16 bytes, that a script does with, if it is more than `known`. */
static size_t need(enum call call, const struct script *script, size_t known)
{
    size_t low = known, high = 1 << 19;

    if (known != 0 && survives(call, script, known))
        return known;
    if (!survives(call, script, high))
        fail("half a megabyte is too little");
    while (high - low > 16) {
        size_t middle = low + (high - low) / 32 * 16;

        if (survives(call, script, middle))
            high = middle;
        else
            low = middle;
    }
    return high;
}

static int script_of(enum call call, unsigned number, struct script *s);

/* How many scripts a check has. */
enum { KINDS = WIGNELD_TYPE_FUNCTION - WIGNELD_TYPE_SUM + 1, CHECKED = WAYS * COMPARISONS * KINDS * 2 };

/* A packet's script and entry: a check's script and a unit, a function and a check's script, and at last those that are applied, as deep
   as an application may be, by the ways down that have a type. */
static int packet_of(unsigned number, struct script *s)
{
    static const enum way typed[] = { OWN_FIRST, PROTECT };
    unsigned run = number - 2 * CHECKED, of_unit = comb(WIGNELD_TYPE_SUM, 1) + 1;

    memset(&entry, 0, sizeof entry);
    if (number < CHECKED) {
        record(&entry, WIGNELD_KIND_UNIT, 0);
        return script_of(CHECK, number, s);
    }
    memset(s, 0, sizeof *s);
    record(s, WIGNELD_KIND_FUNCTION, of_unit);
    if (number < 2 * CHECKED) {
        record(s, WIGNELD_KIND_VARIABLE, 0);
        return script_of(CHECK, number - CHECKED, &entry);
    }
    if (run >= sizeof typed / sizeof typed[0])
        return 0;
    record(&entry, WIGNELD_KIND_UNIT, 0);
    s->depth = 2; /* under the application too */
    s->binders = 1;
    descend(s, typed[run], WIGNELD_MOST_DEPTH - 2);
    record(s, WIGNELD_KIND_PROTECT, 0);
    outermost(s);
    pay(s);
    return 1;
}

/* The script of this number for a call; 0 where there are no more. */
static int script_of(enum call call, unsigned number, struct script *s)
{
    static const enum way values[] = { PAIR_FIRST, PAIR_SECOND, FIRST_INJECTION, SECOND_INJECTION, FUNCTION };

    switch (call) {
    case CHECK:
        if (number >= CHECKED)
            return 0;
        check_script(s, (enum way)(number % WAYS), (enum comparison)(number / WAYS % COMPARISONS),
                     WIGNELD_TYPE_SUM + number / WAYS / COMPARISONS % KINDS, (int)(number / WAYS / COMPARISONS / KINDS));
        return 1;
    case RUN:
        if (number >= WAYS * RUNS)
            return 0;
        run_script(s, (enum way)(number % WAYS), (enum run)(number / WAYS));
        return 1;
    case SHEET:
        if (number >= sizeof values / sizeof values[0])
            return 0;
        sheet_script(s, values[number]);
        return 1;
    case COMPARE:
    case IN_FORCE:
        /* A type beside itself: only related types are walked to their end. */
        if (number >= COMBS)
            return 0;
        s->type = number * RECORDS_OF_A_COMB;
        return 1;
    case WRITE_CALLERS:
        if (number >= WAYS)
            return 0;
        run_script(s, (enum way)number, UNROLLED);
        return 1;
    case PREVIEW: case MOVE: case REWRITE_SCRIPT:
        return script_of(RUN, number, s);
    case REWRITE_TYPES: return number < 1;
    case CHECK_PROFILE: return script_of(CHECK, number, s);
    case EXPORT:
        return script_of(RUN, number, s);
    case IMPORT:
    case WRITE_OFFICE_CALLERS:
        return script_of(call == IMPORT ? RUN : WRITE_CALLERS, number, s)
               && wigneld_export(groups, sizeof groups, types, sizeof types, s->bytes, s->count * WIGNELD_SCRIPT_RECORD_BYTES,
                                 office_script, sizeof office_script)
                      == s->count;
    case PACKET: return packet_of(number, s);
    case CALLS: break;
    }
    return 0;
}

static uint64_t recursions(const struct script *s)
{
    uint64_t count = 0;
    size_t i;

    for (i = 0; i < s->count; i++)
        count += s->bytes[i * WIGNELD_SCRIPT_RECORD_BYTES + WIGNELD_AT_KIND] == WIGNELD_KIND_RECURSION;
    return count;
}

/* Every script of a call; gives how many there were. */
static unsigned hold(enum call call)
{
    static struct script s;
    unsigned number;
    size_t most = 0;

    for (number = 0; script_of(call, number, &s); number++)
        most = need(call, &s, most);
    if (number == 0)
        fail("no script to call with");
    printf("%s: %zu bytes of free stack, the header says %zu\n", names[call], most, promised[call]);
    if (promised[call] < most + most / 16)
        fail("the header's number has less than a sixteenth of margin");
    if (promised[call] > NEXT_TO_NONE && promised[call] > most + most / 4)
        fail("the header's number is far above what is needed");
    for (number = 0; script_of(call, number, &s); number++) {
        uint64_t answer = with_free(call, &s, promised[call]);
        struct job job = { call, &s, 0, 0, 0, 0, 0 };

        in_advised_thread(&job);
        if (answer != job.answer)
            fail("two threads, two answers");
        /* Refused before anything goes deep, a script tries nothing. Of a packet 18 is the application's, with both types found. */
        if (wigneld_question(answer) != 0 && (wigneld_question(answer) < 20 || wigneld_question(answer) == 36)
            && !(call == PACKET && wigneld_question(answer) == 18))
            fail("a script is no whole term of depth 256");
        if (call == PACKET && number >= 2 * CHECKED && wigneld_run_end(answer) != WIGNELD_END_VALUE)
            fail("a packet is not issued");
        if ((wigneld_question(answer) == 39) != (call == CHECK_PROFILE && recursions(&s) != 0))
            fail("39 is not asked of recursions alone");
        if (call == MOVE && answer != shown)
            fail("a move is not what its preview showed");
        if (call == COMPARE && wigneld_comparison(answer) != WIGNELD_COMPARE_SAME)
            fail("a type is not the same as itself");
        if (call == IN_FORCE && wigneld_script_in_force(answer) != 1)
            fail("a script is not replaced by one of its own type");
        if ((call == WRITE_CALLERS || call == WRITE_OFFICE_CALLERS) && answer != recursions(&s))
            fail("a recursion was not rewritten");
        if (((call == REWRITE_SCRIPT || call == IMPORT || call == EXPORT) && answer != s.count)
            || (call == REWRITE_TYPES && answer != COMBS * RECORDS_OF_A_COMB))
            fail("a record was not rewritten");
    }
    return number;
}

int main(void)
{
    unsigned scripts = 0;
    enum call call;

    put_types();
    for (call = CHECK; call < CALLS; call++)
        scripts += hold(call);
    printf("%u scripts\n", scripts);
    return 0;
}

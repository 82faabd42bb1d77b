/*
 * Wigneld for a loan desk: a packet is the sheet, for the desk's group, of a script applied to an entry as that group. For C99 and C++
 * on x86-64 Linux.
 *
 * Tables and scripts, and how a refusal is read, are as in wigneld.h. The function here is total too: any bytes of any length get an
 * answer. Nothing is allocated, kept or printed, and nothing is written but what is lent for it, so calls from several threads are apart
 * as long as that is.
 *
 * What the caller owes, since no check can see it from inside:
 *  - each pointer has as many bytes behind it as the length after it says; NULL only with length 0;
 *  - work, first, scratch, steps and sheet overlap none of the call's other slices;
 *  - nobody else writes any of them while the call runs;
 *  - the stack has room (WIGNELD_PACKET_STACK_BYTES).
 */
#ifndef WIGNELD_DESK_H
#define WIGNELD_DESK_H

#include "wigneld.h"

#ifdef __cplusplus
extern "C" {
#endif

/* The free stack that the function needs, whatever it is lent, as wigneld.h means it. The deepest scripts and entries, typed or run,
   were seen to take 135,536 bytes; the number is this and at least a sixteenth more, in whole pages. */
#define WIGNELD_PACKET_STACK_BYTES 147456

/* In the place of the profile: any script, or those that always finish (wigneld_check_profile in wigneld_office.h). */
#define WIGNELD_PROFILE_NONE 0
#define WIGNELD_PROFILE_FINISHES 1

/*
 * The packet. Asked in this order, the first no being the answer: question 1 of the work buffer alone (WIGNELD_WORK_BYTES); 2 to 12 of
 * the tables; 13 to 19 of the script, 39 after them if the profile is not WIGNELD_PROFILE_NONE, and 20 to 24, as wigneld_check asks
 * them; the same from 13 on of the entry; and then, all at place 0,
 *
 *     26    the entry is a value
 *     25    the group is in the table
 *     37    the script's type is a function
 *     21    the group may apply it: its readers are at or below the group
 *     38    the entry's type is at or below the function's left side
 *     13    the application, of one record more than script and entry together, has at most 8,192, and both run buffers hold it
 *     18    it is at most 256 levels deep
 *
 * A refusal doesn't say of which of them it is; wigneld_check does of the script and of the entry.
 *
 * Then it is built in `first` and run with the budget, as wigneld_run would. It never ends with WIGNELD_END_MAY_NOT or
 * WIGNELD_END_WRONG_KIND. Only where it ends with WIGNELD_END_VALUE is 27 asked and the sheet written, as wigneld_sheet would for the group;
 * any other end is reported and no sheet written.
 *
 * The answer is read as a run's: wigneld_run_end has the end, wigneld_run_count the sheet's records at WIGNELD_END_VALUE and the last term's at
 * any other end, wigneld_run_steps the steps. These may tell of what the sheet, as wigneld_sheet says, can't tell of.
 *
 * Afterwards work is all zeros once the script's typing has begun, whatever is refused then, and unchanged before. first and scratch are
 * unchanged by a refusal, but for 27, which comes after the run: once there was a run, they are as it left them. steps (as many of 8
 * bytes as are lent) and the front of sheet are written only where the call isn't refused, the latter at WIGNELD_END_VALUE alone.
 */
uint64_t wigneld_packet(const uint8_t *groups, size_t groups_length, const uint8_t *types, size_t types_length,
                        const uint8_t *script, size_t script_length, const uint8_t *entry, size_t entry_length, uint64_t group,
                        uint64_t budget, uint64_t profile, uint8_t *work, size_t work_length, uint8_t *first, size_t first_length,
                        uint8_t *scratch, size_t scratch_length, uint8_t *steps, size_t steps_length, uint8_t *sheet,
                        size_t sheet_length);

#ifdef __cplusplus
}
#endif

#endif

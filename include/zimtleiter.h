/*
 * Zimtleiter: batch schedules compiled to state tables, and run by the rules
 * or by the table; practice events for such runs. The library is
 * crates/capi/out/libcapi.a, which `tools/build capi` writes, for x86-64
 * Linux. Of the C library it calls only memcpy and memset. It takes no memory
 * but the stack and keeps nothing between calls, so calls may run at the same
 * time in several threads.
 *
 * Every call returns, whatever the bytes in the buffers lent to it. It returns
 * 0, or the number of the first condition below that applies. Where it returns
 * another number than 0, no lent buffer is written, and the length, the
 * comparisons, the counts or the numbers of a size are set to 0. What is only
 * read is left as it was in any case.
 *
 * The caller sees to these things, on which the proofs rest:
 *  - A pointer with a length points to that many bytes, which can be read, and
 *    where it is not const written. It is not null, not even where the length
 *    is 0: any address of a byte will do there. (As built today a null pointer
 *    with length 0 is an empty buffer. Nothing promises it.)
 *  - A pointer to a uint64_t is that of a whole one, aligned and writable. What
 *    it holds before the call does not matter.
 *  - What a call writes to (table, records or events, length, comparisons,
 *    counts, numbers) overlaps nothing else that is lent to that call. Buffers
 *    that are only read may overlap.
 *  - Until the call returns, nothing else writes to what is lent, and nothing
 *    else reads what the call writes to.
 *
 * Stack, as measured on the largest plants, the deepest trees and the deepest
 * expressions: zimtleiter_compile 98,800 bytes, zimtleiter_table_run 94,200,
 * zimtleiter_rule_run 79,900, zimtleiter_read_table 60,300,
 * zimtleiter_size 28,200, zimtleiter_read_schedule 20,100, zimtleiter_practice
 * under 100. 128 KiB are room for any of them.
 *
 * Schedule files, tables, starting values, events and records are those of
 * document 01, with items 1 to 4 of document 02 (practice events; faults above
 * and below their range; RESET and REINITIAL parted; comparisons of compiling);
 * numbers of several bytes are big-endian.
 */
#ifndef ZIMTLEITER_H
#define ZIMTLEITER_H

#include <stddef.h>
#include <stdint.h>

/* Bytes that are room for any table: document 01's limits give 394,311. */
#define ZIMTLEITER_TABLE_ROOM 400000

/* Bytes that are room for any list of practice events: 10,000 of 3 bytes. */
#define ZIMTLEITER_PRACTICE_ROOM 30000

/*
 * The answer of an event, the first byte of its record. Taken: 200, but 201
 * where the schedule finishes and 202 where a STOP halts it; both end the run.
 * Faulted: a result lies outside -2147483648..2147483647, or a value outside
 * its declared range, above it (203) or below it (204); that ends the run, and
 * values and modes are those of before the event. Turned away, which changes
 * nothing:
 *  23  the run is over
 *  24  the event's kind is unknown, or an unused byte is not 0
 *  25  the picked node is not acting
 *  26  there is no such switch
 *  27  a tick while some acting node is no CONTINUE
 *  28  the switch check of a pick or tick stops at a true switch
 *  29  the CONTINUE is not yet true
 *  30  the switch's truth is false
 *  31  a tick whose walk over the CONTINUE truths stops at a true one
 * The steps of an event are taken in their order: the switch check stops at
 * the first switch that is true (28) or faults (203 or 204), before 29 and 31
 * are looked at, and the first fault gives the side. Where both operands fault
 * it is the left one's side. Where a tick takes several variables out of their
 * ranges it is that of the lowest variable number.
 */
#define ZIMTLEITER_TAKEN 200
#define ZIMTLEITER_FINISHED 201
#define ZIMTLEITER_HALTED 202
#define ZIMTLEITER_ABOVE 203
#define ZIMTLEITER_BELOW 204

#ifdef __cplusplus
extern "C" {
#endif

/*
 * Reads a schedule file and judges it. Returns 0, or the first of these that
 * applies, in this order
 *   1  the file has under 3 bytes, or byte 0 is not 1
 *   2  its length field is not its length
 *   3  the three sections do not fill it just so
 *   4  the variable count or section length is wrong
 *   5  minimum <= initial <= maximum fails
 *   6  the equation section breaks its layout or a count
 *   7  an equation names a missing variable or mode
 *   8  a variable is in two equations, or twice in one mode
 *   9  the schedule section, its node count, a length, kind, payload or child
 *      count breaks its layout
 *  10  the nodes do not make just one tree
 *  11  a node names a missing variable, selector or mode
 *  34  a RESET of a variable that some equation drives (an equation of kind 1,
 *      or a rate in any mode of a CASE), or a REINITIAL of one that none does
 *  12  a truth or number is cut, overlong, too deep, of the wrong sort, has an
 *      unknown code or names a missing variable
 */
uint8_t zimtleiter_read_schedule(const uint8_t *file, size_t file_len);

/*
 * How large the table of a schedule is, without compiling it. Returns 0, or a
 * number as zimtleiter_read_schedule does. On 0 *locations and *entries are the
 * numbers of locations and of entries that the schedule's table has; where
 * there are over 1,024 locations, so that zimtleiter_compile returns 13, they
 * are 1,025 and 0. docs/BORDER.md has the rule by which the numbers can be
 * worked out from the tree.
 */
uint8_t zimtleiter_size(const uint8_t *file, size_t file_len,
                        uint64_t *locations, uint64_t *entries);

/*
 * Reads a table and judges it. Returns 0, or
 *  15  the table has under 5 bytes, or a wrong version or length
 *  16  its four sections do not fill it
 *  17  its first two sections break 4 to 8 or 12
 *  18  the action section: a count, node number, kind, length or operand is
 *      wrong, or bytes are missing or left over
 *  19  the location section: a count, node or target is wrong, or bytes are
 *      missing or left over
 */
uint8_t zimtleiter_read_table(const uint8_t *table, size_t table_len);

/*
 * Compiles a schedule file. Returns 0, a number as zimtleiter_read_schedule
 * does, or
 *  13  there are over 1,024 locations
 *  14  the lent buffer is shorter than the table
 * On 0 the first *length bytes of table are the schedule's table, and those
 * behind are as they were. ZIMTLEITER_TABLE_ROOM bytes are enough for any.
 * *comparisons is then how many comparisons it takes to look up the targets of
 * all entries, in the order in which they stand in the table, when each target
 * is compared with the locations numbered so far, from 0 up to the equal one:
 * for a target that has its number already, that number plus one; for one that
 * is new, as many as were numbered before it. That location 0 is numbered at
 * the start takes none; a target that is 0 takes one. The codes FFFE, FFFD and
 * FFFF are no locations and take none. K1, its node 1 a REINITIAL, gives 1; K6,
 * a WHILE over a RESET, gives 2. On any refusal, 13 and 14 too, it is 0.
 */
uint8_t zimtleiter_compile(const uint8_t *file, size_t file_len,
                           uint8_t *table, size_t room, uint64_t *length,
                           uint64_t *comparisons);

/*
 * Runs a schedule by the rules over a list of events, 3 bytes each. Returns 0,
 * a number as zimtleiter_read_schedule does, or
 *  20  the starting values (4 bytes each, then modes) have a wrong length,
 *      value or mode
 *  21  the event bytes are not a multiple of 3
 *  22  the record buffer is too short
 * On 0 one record for each event stands at the front of records, in their
 * order, and the bytes behind are as they were. A record has 9 bytes, 4 for
 * each variable and 1 for each selector. The counts are those of the events
 * answered 200 to 202 (taken), 23 to 31 (turned away) and 203 or 204 (faulted,
 * of which there is one at most).
 */
uint8_t zimtleiter_rule_run(const uint8_t *file, size_t file_len,
                            const uint8_t *start, size_t start_len,
                            const uint8_t *events, size_t events_len,
                            uint8_t *records, size_t room, uint64_t *taken,
                            uint64_t *turned_away, uint64_t *faulted);

/*
 * Runs a table over a list of events. Returns 0, 15 to 19 or 20 to 22 as above.
 * What it writes is as in zimtleiter_rule_run; for a table that
 * zimtleiter_compile wrote, at its length, counts and records are those of the
 * run of its schedule by the rules.
 */
uint8_t zimtleiter_table_run(const uint8_t *table, size_t table_len,
                             const uint8_t *start, size_t start_len,
                             const uint8_t *events, size_t events_len,
                             uint8_t *records, size_t room, uint64_t *taken,
                             uint64_t *turned_away, uint64_t *faulted);

/*
 * Writes practice events from a seed: so many, 3 bytes each, for either run.
 * Returns 0, or
 *  32  the count is above 10,000
 *  33  the lent buffer is shorter than 3 times the count
 * On 0 the first *length bytes of events are the list, and those behind are as
 * they were. ZIMTLEITER_PRACTICE_ROOM bytes are enough for any. A seed and a
 * count give the same list on every machine, and a shorter list is the front of
 * a longer one from the same seed. Each event is a tick, a pick of a node below
 * 64, or a switch below 8 of a selector below 8; no run answers one with 24.
 */
uint8_t zimtleiter_practice(uint32_t seed, uint64_t count,
                            uint8_t *events, size_t room, uint64_t *length);

#ifdef __cplusplus
}
#endif

#endif

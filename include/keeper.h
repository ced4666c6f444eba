/* The keeper: a table of cells on a medium that survives power loss, with a journal beside it.
 *
 * Every function here is proved to be the call of document 01 of the same name, for every input: what it answers, the state that it
 * leaves and each byte of what it is lent; commit is that of ticket 4 of document 02. Four have no such name: `keeper_read_row` and
 * `keeper_write_row` are its reading and its writing of one row, `keeper_cell_to_order` and `keeper_part_in_hand` the counter's two
 * questions. None of them allocates, keeps a pointer, reads a clock or fails to return.
 *
 * What the host lends
 *   A buffer is a pointer and a length in elements. The pointer is aligned for its element, the memory is the host's, and a
 *   buffer that a call may write overlaps no other. For N cells (1 to 1,024) and C journal rows (4 to 1,024):
 *     medium    32 + 32C + 8N bytes: an image of what is stored
 *     current   N numbers of 64 bits: each cell's value now
 *     first     N numbers of 32 bits \ which entries changed a cell since it was stored;
 *     last      N numbers of 32 bits /  the keeper writes them, the host only keeps them
 *     waiting   32C bytes: entries made and not yet stored
 *   All but the medium is lost at power loss. A length that is not as N and C say is refused with 1, and so is length 0, whose pointer
 *   is not read and may be null.
 *
 * The state
 *   Seven numbers of 32 bits, that the host lends to each call and does not change:
 *     0 N   1 C   2 h, the last entry dropped   3 f, the last stored   4 l, the last made
 *     5 o, the last before the open transaction   6 the phase: 0 idle, 1 run, 2 recovering
 *   Recovery start writes the first. Another length than seven, another number for a phase, or numbers that are no sound state
 *   are refused with 1.
 *
 * What a call answers
 *   0 when it is done, else the number of the refusal, below. The order in which a call tests them stands at the call. A refused call
 *   changes nothing that it is lent but the value, which becomes 0, and the reason and entry, below (most write the state's own numbers
 *   back into it); recovery start alone writes seven zeros, which is no sound state.
 *     1 the state is not sound, or a length or the head is out of rule     7 a row isn't the entry that the call needs
 *     2 a row with the expected number doesn't read as an entry            8 the cell's last change isn't stored in the journal
 *     3 no transaction is open                                             9 the journal can't be cut there
 *     4 no such cell                                                      10 recovering; recovery step: not recovering
 *     5 no room in the journal                                            11 no such entry
 *     6 the entry numbers are used up                                     12 the counter: every cell of the span is empty
 *
 * What is wrong with a row
 *   Beside 2 and 7 a call hands out why: *reason is the first thing wrong with the lowest row that is bad, and *entry the number of the
 *   entry expected in that row. Beside every other answer, 0 included, both become 0. Reasons, in the order in which a row is judged:
 *     1 too short            a row of its own, of less than 32 bytes      6 cell left in an end     a commit's or abort's cell is not 0
 *     2 other number         the row has not the number of that entry     7 old left in an end      its old value is not 0
 *     3 unknown kind         the kind is none of update, commit, abort    8 new left in an end      its new value is not 0
 *     4 filler not zero      a byte that must be zero is not              9 not an update           abort, and begin in run: a commit
 *     5 cell out of range    the cell is not below N                                                or an abort among the open rows
 *    10 hole                 recovery start: the row does not hold the entry's number, and that of a later entry does: a stored row was lost
 *   README.md says what the service desk does about each.
 *
 * Rules of use
 *   1. After power loss, and after format: recovery start, then recovery step until the phase is idle.
 *   2. A call changes the image `medium` in one place at most: a row, a cell or the head (format: everywhere; commit: rule 3). The host
 *      makes that change durable on the real medium before its next call, entirely or not at all, and one change at a time.
 *   3. Commit may change several rows, those of the entries f+1 to l, where f is as before the call and l as after it. Entry n's row is
 *      the 32 bytes of the image from 32 + 32((n-1) mod C) on. The host brings them to the real medium one by one in that order, each
 *      durable before the next, and all of them before its next call and before it tells anybody "booked". If power fails in between, the
 *      transaction is recovered whole or not at all: not, where its last row, the commit's, was not stored.
 *   4. One call at a time: the calls share the state and the buffers.
 *   Stores that follow one another in one 512-byte sector may be brought by one write and one sync, in place of one at a time in rules 2
 *   and 3, where the card writes a sector entirely or not at all (docs/PLUG.md). Stores of two sectors stay in their order. What lies
 *   between the stores of such a write is brought as the real medium has it: in the image a row whose turn has not come may stand there.
 *
 * How to link
 *   scripts/native-archive boundary FOLDER proves the library and writes FOLDER/libboundary.a for this machine, x86-64 (it is the
 *   archive of the crate boundary_c). Then: cc -Iinclude host.c -LFOLDER -lboundary. No other library is needed.
 *   examples/host.c is a whole host over this header. docs/FORMAT.md says what document 01 says of the medium and the calls.
 */
#ifndef KEEPER_H
#define KEEPER_H

#include <stddef.h>
#include <stdint.h>

#ifdef __cplusplus
extern "C" {
#endif

#define KEEPER_STATE 7

#define KEEPER_IDLE 0u
#define KEEPER_RUN 1u
#define KEEPER_RECOVERING 2u

/* The values of a recovery step that stored no cell. */
#define KEEPER_STEP_HEAD ((uint64_t)1 << 32)
#define KEEPER_STEP_CLEAN (((uint64_t)1 << 32) + 1)

/* The reasons. */
#define KEEPER_NO_REASON 0u
#define KEEPER_TOO_SHORT 1u
#define KEEPER_OTHER_NUMBER 2u
#define KEEPER_UNKNOWN_KIND 3u
#define KEEPER_FILLER_NOT_ZERO 4u
#define KEEPER_CELL_OUT_OF_RANGE 5u
#define KEEPER_CELL_LEFT 6u
#define KEEPER_OLD_LEFT 7u
#define KEEPER_NEW_LEFT 8u
#define KEEPER_NOT_AN_UPDATE 9u
#define KEEPER_HOLE 10u

/* Format: an empty table of `cells` cells and an empty journal of `slots` rows. Recovery start gives the first state.
 * Refuses 1: cells, slots or the length out of rule. Stores the whole medium. Costs the medium's bytes, once. */
uint32_t keeper_format(uint8_t *medium, size_t medium_len, uint32_t cells, uint32_t slots);

/* Recovery start: reads the journal and works out the cells' values, undoing what has no commit; waiting rows keep their bytes. A journal
 * from whose middle a row was lost is refused, not cut short.
 * Refuses 1, 2; then `state` becomes seven zeros (with another length than seven: 1, and nothing is written). Stores nothing.
 * Costs the stored entries twice, the number of each row after them, and the cells once; an entry of an aborted or unfinished transaction
 * once more. */
uint32_t keeper_recovery_start(const uint8_t *medium, size_t medium_len, uint64_t *current, size_t current_len,
                               uint32_t *first, size_t first_len, uint32_t *last, size_t last_len,
                               const uint8_t *waiting, size_t waiting_len, uint32_t *state, size_t state_len,
                               uint32_t *reason, uint32_t *entry);

/* Recovery step: *value is the cell that it stored, KEEPER_STEP_HEAD, or KEEPER_STEP_CLEAN. After the last two the phase is idle.
 * Refuses 1, 10. Stores the lowest cell whose stored value differs, else the head, else nothing. Costs the cells up to that one. */
uint32_t keeper_recovery_step(uint32_t *state, size_t state_len, uint8_t *medium, size_t medium_len,
                              const uint64_t *current, size_t current_len, uint64_t *value);

/* Begin: opens a transaction; one that is open is aborted first.
 * Refuses 1, 10, 7, 5, 6. Stores nothing. In idle it touches no row; in run it costs what abort does. */
uint32_t keeper_begin(uint32_t *state, size_t state_len, uint64_t *current, size_t current_len,
                      uint32_t *first, size_t first_len, uint32_t *last, size_t last_len,
                      uint8_t *waiting, size_t waiting_len, uint32_t *reason, uint32_t *entry);

/* Read: *value is the cell's value now. Refuses 1, 10, 3, 4. Stores nothing. Costs one cell. */
uint32_t keeper_read(uint32_t *state, size_t state_len, uint32_t cell, const uint64_t *current, size_t current_len,
                     uint64_t *value);

/* Write: the cell gets a new value in the open transaction. Refuses 1, 10, 3, 4, 5, 6. Stores nothing. Costs one row and one cell. */
uint32_t keeper_write(uint32_t *state, size_t state_len, uint32_t cell, uint64_t new_value,
                      uint64_t *current, size_t current_len, uint32_t *first, size_t first_len,
                      uint32_t *last, size_t last_len, uint8_t *waiting, size_t waiting_len);

/* Commit: ends the open transaction; *value is its entry's number, l+1. It appends that entry, storing nothing, then takes force's step
 * until every entry is stored (f = l), so that force after it answers 0. What the host owes before "booked": rule 3.
 * Refuses 1, 10, 3, 7, before anything is changed, never for room; 7: the waiting row of an entry of f+1 to l is not that entry.
 * Stores the rows of the entries f+1 to l+1 (f and l as before the call), in that order. Costs those rows twice: judged, then stored. */
uint32_t keeper_commit(uint32_t *state, size_t state_len, uint8_t *medium, size_t medium_len,
                       uint8_t *waiting, size_t waiting_len, uint64_t *value, uint32_t *reason, uint32_t *entry);

/* Abort: takes the open transaction back; in idle it does nothing. Refuses 1, 10, 7, never for room. Stores nothing.
 * Costs the transaction's rows twice: judged, then restored. */
uint32_t keeper_abort(uint32_t *state, size_t state_len, uint64_t *current, size_t current_len,
                      uint32_t *first, size_t first_len, uint32_t *last, size_t last_len,
                      uint8_t *waiting, size_t waiting_len, uint32_t *reason, uint32_t *entry);

/* Force: *value is the number of the entry that it stored, the lowest that is not, or 0 where all are stored, as after a commit. It is
 * for entries that no commit has stored: the open transaction's, before a write-back of their cells, and those of an abort.
 * Refuses 1, 10, 7. Stores that entry's row or nothing. Costs one row. */
uint32_t keeper_force(uint32_t *state, size_t state_len, uint8_t *medium, size_t medium_len,
                      const uint8_t *waiting, size_t waiting_len, uint64_t *value, uint32_t *reason, uint32_t *entry);

/* Write-back: *value is 1 where the cell was stored, 0 where it had not changed. Refuses 1, 10, 4, 8. Stores that cell or nothing.
 * Costs one cell. */
uint32_t keeper_write_back(uint32_t *state, size_t state_len, uint32_t cell, uint8_t *medium, size_t medium_len,
                           const uint64_t *current, size_t current_len, uint32_t *first, size_t first_len,
                           const uint32_t *last, size_t last_len, uint64_t *value);

/* Cut: drops the entries up to p, so that their rows are free. p is the number of a stored commit or abort, or h itself, and no cell
 * has a change up to p that is not written back. Refuses 1, 10, 9, 7, 9. Stores the head. Costs one row and the cells' `first`. */
uint32_t keeper_cut(uint32_t *state, size_t state_len, uint32_t p, uint8_t *medium, size_t medium_len,
                    const uint32_t *first, size_t first_len, uint32_t *reason, uint32_t *entry);

/* Look: *value is where entry n's 32 bytes begin, an offset into `medium` when n <= f (state[3]), else into `waiting`; nothing is
 * copied. Refuses 1, 10, 11. Stores nothing. Reads no row. */
uint32_t keeper_look(const uint32_t *state, size_t state_len, uint32_t n, const uint8_t *medium, size_t medium_len,
                     const uint8_t *waiting, size_t waiting_len, uint64_t *value);

/* Table view: *value is where the table begins in `medium`: 8 bytes a cell up to the end, part number (4), release major (2) and
 * minor (2), little-endian. Refuses 1: the head or the length out of rule. Stores nothing. Costs the head's bytes. */
uint32_t keeper_table_view(const uint8_t *medium, size_t medium_len, uint64_t *value);

/* Read row: what a row's first 32 bytes read as, as entry `number` of a table of `cells` cells: 0 nothing, 1 an update, 2 a commit,
 * 3 an abort. The first three fields become cell, old and new of an update, else zeros; the fourth the reason where it reads as nothing,
 * else 0. Of another count of fields nothing is written and the answer is 0. */
uint32_t keeper_read_row(const uint8_t *row, size_t row_len, uint32_t cells, uint32_t number,
                         uint64_t *fields, size_t fields_len);

/* Write row: the first 32 bytes become entry `number`. Answers 0, or 1 and writes nothing: a shorter row, number 0, a kind that is
 * none, or a commit or abort whose cell, old or new is not 0. */
uint32_t keeper_write_row(uint8_t *row, size_t row_len, uint32_t number, uint32_t kind, uint32_t cell,
                          uint64_t old_value, uint64_t new_value);

/* The counter: two questions over a medium whose recovery has ended, before any write-back. They stand in an archive of their own,
 * libcounter_boundary.a, which is linked beside libboundary.a (scripts/native-archive counter_boundary OUT). Both read the table as it
 * stands in `medium`, take no state and store nothing, and are proved to answer as ticket 1 of document 02 says, for every input.
 * A control unit owns the `count` cells from `lowest` on.
 * Both refuse 1: the head or the length out of rule; 4: lowest plus count above N, not wrapped; 12: every cell of the span empty,
 * a span of 0 cells included. */

/* Cell to order: *value is the cell, not empty, of greatest release, major then minor as numbers, the lowest among equals.
 * Costs the span's cells, once. */
uint32_t keeper_cell_to_order(const uint8_t *medium, size_t medium_len, uint32_t lowest, uint32_t count, uint64_t *value);

/* The values of a part in hand. */
#define KEEPER_HAND_THAT_ONE ((uint64_t)1)
#define KEEPER_HAND_EQUAL ((uint64_t)2)
#define KEEPER_HAND_OLDER ((uint64_t)3)
#define KEEPER_HAND_NOT_LISTED ((uint64_t)4)

/* Part in hand: *value is KEEPER_HAND_THAT_ONE, the part of the cell to order; KEEPER_HAND_EQUAL, another part of the same release;
 * KEEPER_HAND_OLDER; or KEEPER_HAND_NOT_LISTED. A part in several cells of the span counts by its greatest release, empty cells list
 * none. Costs the span's cells, twice. */
uint32_t keeper_part_in_hand(const uint8_t *medium, size_t medium_len, uint32_t lowest, uint32_t count, uint64_t part,
                             uint64_t *value);

#ifdef __cplusplus
}
#endif

#endif

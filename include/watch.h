/* The watch's two calls. Link with liblink.a, which tools/archive builds (crates/link_c/out/liblink.a).
 *
 * A watch keeps nothing of its own: the caller lends the table, the record, work memory, the reports and the answer to
 * each call, and hands the same record and work memory to the next one.
 *
 * What C cannot check, and the caller sees to: each pointer points to as many elements as the length behind it says; it
 * is not null, even where that length is 0; and the lent memories do not overlap.
 */
#ifndef WATCH_H
#define WATCH_H

#include <stddef.h>
#include <stdint.h>

#ifdef __cplusplus
extern "C" {
#endif

/* The record: rows; depth allowed; depth now; alive, the number of positions neither certain nor ruled out; positions
 * read; finished, 1 after the end and else 0. A sixth word above 1 is a record out of order: refusal 7, with the length
 * of work memory as its place. */
#define WATCH_RECORD_WORDS 6

/* The answer: the number of reports; the place that refusal 7 carries; the contents entry (refusal 3) or the body (5),
 * from 1; the entry's field (3: 0 kind, 1 offset, 2 length) or the byte in the body, from 0 (5). A word that the call has
 * nothing for is 0. */
#define WATCH_ANSWER_WORDS 4

/* The length of work memory, at most 8100: the words of the rows, and one for each level. Rows are 1 to 64, the depth
 * allowed is 1 to 40. */
#define WATCH_WORK_WORDS(rows, depth) (((rows) + 1) * (1 + 3 * ((depth) + 1)) + (depth))

/* Both calls return 0, or the number of the first of these that applies, in this order:
 *
 *   100  the record's or the answer's length is wrong: judged before all others, and nothing is written
 *     1  the table has under 29 bytes
 *     2  its number of states or labels, its start state or its number of contents entries is out of range
 *     3  a contents entry is not the one that the numbers of states and labels fix: the answer names the first wrong
 *        field in file order
 *     4  the table's length is wrong
 *     5  a body names a state that the table does not have, or a final mark is above 1: the answer names the first such
 *        byte in file order
 *     6  rows or depth allowed out of range, work memory of the wrong length, or fewer than rows + 1 words for reports
 *     7  record or work memory is not in order: the place is that of the first word of work memory at fault, from 0, or
 *        the length of work memory where the record by itself is not in order
 *     8  the watch has finished
 *     9  the byte is 98 to 255
 *    10  the label is not one of the table's
 *    11  a close with nothing open
 *    16  a close with another label than the one that opened the level
 *    12  an open at the depth allowed
 *    13  an end with a level open
 *    14  an open or point after position 2147483647
 *    15  more positions would be alive after the event than there are rows
 *
 * A start gives 1 to 6 only. The answer is written in every case but 100.
 */

/* Begins a watch: writes the first record and makes work memory ready; what they held does not matter. A refused start
 * writes zeros to the record and leaves work memory as it was. */
uint64_t watch_start(const uint8_t *table, size_t table_len, uint64_t rows, uint64_t depth,
                     uint64_t *work, size_t work_len, uint64_t *record, size_t record_len,
                     uint64_t *answer, size_t answer_len);

/* Takes one event: 0 to 31 opens a node with that label, 32 to 63 is a point with label byte - 32, 64 closes, 65 ends,
 * 66 to 97 closes what was opened with label byte - 66.
 * The reports stand at the front of their memory, at least rows + 1 words, as many as the answer says, ascending:
 * 2 * position + 1 for selected, 2 * position for failed; the words after them stay. A refused event leaves record, work
 * memory and reports as they were. */
uint64_t watch_event(const uint8_t *table, size_t table_len, uint64_t *record, size_t record_len,
                     uint64_t *work, size_t work_len, uint32_t *reports, size_t reports_len,
                     uint8_t byte, uint64_t *answer, size_t answer_len);

#ifdef __cplusplus
}
#endif

#endif

/* The region matcher: C interface of the proved library (libmatcher.a, for x86-64 Linux).
 *
 * docs/MANUAL.md has the formats of feeds, drawings, instruction lists and sheets, and the number and place of every refusal.
 *
 * A slice is a pointer, then a length in elements. Every call but matcher_sheet_query returns the number of the refusal, 0 when it
 * accepts, and writes the place through `place`, 0 when it accepts. Calls take any words and bytes: what a slice holds is checked.
 *
 * What the caller owes:
 * - A slice's pointer points to as many elements as the length says, aligned for their type. With length 0 it may be null.
 *   `place`, `instructions`, `row_words` and `length` are never null.
 * - What a call writes to (a slice, `place`, `instructions`, `row_words`, `length`) overlaps nothing else that the call is given.
 *   Slices that are only read may overlap each other.
 * - Nothing else changes the slices during the call: a feed is checked, then read again.
 * - The stack has room for the call. In KiB, measured and rounded up:
 *
 *       matcher_check_feed       1
 *       matcher_check_drawing    1
 *       matcher_translate       18
 *       matcher_run            802
 *       matcher_query          820
 *       matcher_sheet_query    488
 *       matcher_sheet_pages    488
 *
 * Calls share no state, keep none and allocate nothing; of the C library they need memcpy and memset. Threads may call at once, each
 * with its own slices to write to; slices that are only read may be shared.
 */
#ifndef MATCHER_H
#define MATCHER_H

#include <stddef.h>
#include <stdint.h>

#define MATCHER_VERSION "5.0.1"
#define MATCHER_VERSION_MAJOR 5
#define MATCHER_VERSION_MINOR 0
#define MATCHER_VERSION_PATCH 1

/* Words that take every translation: 876 instructions. */
#define MATCHER_LIST_WORDS 2628

/* By how much the count word of a two-way label is raised. */
#define MATCHER_TWO_WAY 32768

/* The third word of a node that may be any object of its class. */
#define MATCHER_ANY_OBJECT 65536

/* Bytes that take every listing. */
#define MATCHER_LISTING_BYTES 24732

/* Bytes that take the pages of every sheet: 4,096 rows on 82 pages. */
#define MATCHER_PAGES_BYTES 281160

#ifdef __cplusplus
extern "C" {
#endif

/* Checks a feed: 1 to 4. The count word of a two-way label, whose pairs count in either direction, is raised by MATCHER_TWO_WAY. */
uint32_t matcher_check_feed(const uint32_t *feed, size_t feed_len, uint32_t *place);

/* Checks a feed, then a drawing: 1 to 7. A drawing is the numbers n of nodes and e of edges, then three words a node: its class, 1
 * where it is picked and 0 where not, and the one object that it must be, or MATCHER_ANY_OBJECT; then three words an edge: its label,
 * its source and its target. It has exactly 2 + 3n + 3e words (else 5). 6 is for the first word that is wrong: a class, label or node
 * that does not exist, a pick above 1, or a third word above MATCHER_ANY_OBJECT; its place is that word. A fixed object that is not in
 * its class is no refusal: the drawing then has no rows. */
uint32_t matcher_check_drawing(const uint32_t *feed, size_t feed_len, const uint32_t *drawing, size_t drawing_len, uint32_t *place);

/* Checks a feed and a drawing, then translates the drawing: 1 to 7 and 13. The list then holds the translation, three words an
 * instruction, then zeros; on a refusal it is untouched. `instructions` gets their number, 0 on a refusal; with 13 the place is the
 * number needed. */
uint32_t matcher_translate(const uint32_t *feed, size_t feed_len, const uint32_t *drawing, size_t drawing_len, uint32_t *list,
                           size_t list_len, uint32_t *place, size_t *instructions);

/* Checks a feed and an instruction list, then runs the list: 1 to 4, 8 to 11, 16 and 17. The place of 9, 16 and 17 is a word of the
 * list: the kind of instruction i is word 3i, its a and b are the two behind it. The place of 10 and 11 is the instruction.
 * The work slice takes two words a pair. A register gives up its pairs after its last use, or after its making if nothing uses it; the
 * last register lives to the end. 10 falls at the first instruction where the registers that live before it, its operands included,
 * and its own result together have more pairs than the slice takes; 11 comes before it. After an accepted run the slice holds the last
 * register, then zeros; after 10 and 11 the registers that lived before that instruction, in order, then zeros; after other refusals
 * it is untouched.
 * To see register i, run the first 3 * (i + 1) words of the list: where the run of the whole gets past instruction i, that run is
 * accepted with as many work words, and leaves just register i. Zeroing takes time, too: lend near the need. */
uint32_t matcher_run(const uint32_t *feed, size_t feed_len, const uint32_t *list, size_t list_len, uint32_t *work, size_t work_len,
                     uint32_t *place);

/* Checks a feed and a drawing, translates the drawing, runs the translation and gives the rows: 1 to 7 and 10 to 13. The list ends up
 * as after a translation. The work slice is used as in a run, but here the last node's register and the final path of each picked
 * node live to the end: after an accepted query and after 12 the slice holds these, by register number, then zeros; after 10 and 11
 * the registers that lived before that instruction, in order, then zeros; after other refusals it is untouched. The rows, one behind
 * the other, are the first `row_words` words of the row slice, 0 on a refusal; the words after them are untouched. After 12 the row
 * slice is all zeros; after other refusals it is untouched. */
uint32_t matcher_query(const uint32_t *feed, size_t feed_len, const uint32_t *drawing, size_t drawing_len, uint32_t *list,
                       size_t list_len, uint32_t *work, size_t work_len, uint32_t *rows, size_t rows_len, uint32_t *place,
                       size_t *row_words);

/* The sheet query: the bytes of a sheet in, the bytes of its listing out. Returns the listing's length. One that does not fit gives 0
 * and a zeroed slice; otherwise the bytes after the listing are untouched. No listing is empty.
 * A refusal's line is a listing, too. It is told from rows by its first nine bytes: `refused `, with the space, and a digit. The word
 * alone does not tell, for `refused` may be the name of a node. */
size_t matcher_sheet_query(const uint8_t *sheet, size_t sheet_len, uint8_t *listing, size_t listing_len);

/* The rows of a sheet on pages, to be printed: 3, 5 to 7, 10 to 12, 14, and 15, place 0, for more than five picked nodes. Every line
 * has 65 characters and a line feed: a column of 13 for each picked node, names and numbers set right, then spaces. A page is a line
 * of the names, up to 50 rows, and a line `page` with its number from 1, which ends at character 65; without rows there is one page.
 * `length` gets the pages' length in bytes, 0 on a refusal; the bytes after the pages are untouched. 12 is for rows that do not fit
 * the call's own 4,096 row words, and for a page buffer that is too short: after either the buffer is all zeros. After other refusals
 * it is untouched. */
uint32_t matcher_sheet_pages(const uint8_t *sheet, size_t sheet_len, uint8_t *pages, size_t pages_len, uint32_t *place,
                             size_t *length);

#ifdef __cplusplus
}
#endif

#endif

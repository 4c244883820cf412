/* Wararish for C and C++: a structural index over a JSON record, or over each line of a text by
 * itself, built by proved code in words that the caller lends.
 *
 * Link target/staticlib/libface.a, which `.ci/archive` proves and writes (x86-64). The code
 * keeps no state, allocates nothing and starts no threads; calls that write different words, and
 * different tables, may run at once.
 *
 * What the caller owes, for each function. Nothing checks it:
 *   - no pointer is NULL, also where its length is 0 (point at any object then);
 *   - each length is the true one, in elements, and what is pointed at is aligned as its type is;
 *   - words and table (where they are written), place, size, step, count, start and end overlap
 *     nothing else that is handed in;
 *   - nobody else writes the record or text, cuts, calls, path, the words of a query or the table
 *     of a line while a call runs, or reads or writes what the call writes.
 * All else is checked by the proved code: what it cannot do it refuses, with a number of the list
 * below, and writes no word and no entry then, but for 12. Place, size, step, count, start and end
 * are always written.
 *
 *    0      done; for a query: found
 *    1  2   the record, text or line is empty; above WARARISH_LIMIT bytes
 *    3  4   the levels are not 1 to 16; the words are not WARARISH_WORDS(levels, record_length),
 *           for a line: fewer than WARARISH_WORDS(levels, its length)
 *    5  6   more than 63 cuts; a cut is no multiple of 64, or 0, or not inside the record, or not
 *           above the one before (place: its number in the list, from 0)
 *   12      the calls leave out a step; what was accepted of them has written its words
 *   13 14   fault of the record: a closer with no bracket open; an opener with 64 open (place: the
 *           byte's)
 *   15 16   fault of the record: a string, a bracket is open at the end (place: the record's
 *           length); after 13 to 16 all words are 0, for a line: all of its own. The line is the
 *           record then, and the place is counted in it
 *   20      this is no path (place: where in it)
 *   21 22   the path is above 1,024 bytes, or a number in it above 16,777,215; it has more steps
 *           than there are levels
 *   23 24   the value is not an object; not an array
 *   25 26   no such name; no such number
 *   27 28   a broken item: it has no colon; its name is no quoted string
 *   29      a broken item: it is taken, and its value is empty; or the record is blank all through
 *           (place and step: 0)
 *   30      a broken item: its name has an escape that RFC 8259 has not, or an unpaired surrogate;
 *           checked before 29
 *   31      the text has more lines than the table has entries
 * 23 to 30 tell the step of the path, from 1, and a place in the record: for 23 to 26 the first
 * byte of the value that the step works in, for a broken item the byte behind the bracket or comma
 * before it. Where a number tells no place, place is 0, and where it tells no step, step is 0.
 */
#ifndef WARARISH_H
#define WARARISH_H

#include <stddef.h>
#include <stdint.h>

/* The longest record, in bytes. */
#define WARARISH_LIMIT 16777216

/* How many words the index of a record of n bytes has, for 1 to 16 levels and records up to the
 * limit. */
#define WARARISH_WORDS(levels, n) ((2 + 2 * (size_t)(levels)) * (((size_t)(n) + 63) / 64))

/* A call of the list for wararish_run is one byte: 4 * chunk, and the step. c cuts make c + 1
 * chunks, with the numbers 0 to c, at most 63. The scan of a chunk comes at any time, with the
 * guess whether the chunk begins inside a string (1) or outside (0); its settle behind its scan
 * and the settle of the chunk before; its level behind its settle. */
#define WARARISH_SCAN(chunk, inside) ((uint8_t)(4 * (chunk) + ((inside) ? 1 : 0)))
#define WARARISH_SETTLE(chunk) ((uint8_t)(4 * (chunk) + 2))
#define WARARISH_LEVEL(chunk) ((uint8_t)(4 * (chunk) + 3))

#ifdef __cplusplus
extern "C" {
#endif

/* Makes the index of a record: words gets its quotes, its string mask, and for each level its
 * colons and its commas. The words need not be cleared. Gives 0, or 1 to 6, or a fault, 13 to 16.
 * The cuts change nothing of what is made. */
uint64_t wararish_index(const uint8_t *record, size_t record_length,
                        uint64_t *words, size_t words_length,
                        size_t levels,
                        const size_t *cuts, size_t cuts_length,
                        size_t *place);

/* The same by a list of calls, in its order and with its guesses. A call that is refused changes
 * nothing. Gives 0, or 1 to 6, or 12 where a step was left out, or a fault, 13 to 16. Lists that
 * leave out no step all make the same words. */
uint64_t wararish_run(const uint8_t *record, size_t record_length,
                      uint64_t *words, size_t words_length,
                      size_t levels,
                      const size_t *cuts, size_t cuts_length,
                      const uint8_t *calls, size_t calls_length,
                      size_t *place);

/* Asks a record for a path: $, then steps .name or [number]. Names are compared by their
 * characters, with their escapes read; of equal ones the first counts. The words are those that
 * were made of this record with these levels, and they are only read; by others it answers as
 * their bits say. Gives 0, with where the part begins and how many bytes it has: it is a part of
 * the record itself. Else gives 1 to 4 or 20 to 30, and size is 0; step is 0 but for 23 to 30. */
uint64_t wararish_query(const uint8_t *record, size_t record_length,
                        const uint64_t *words, size_t words_length,
                        size_t levels,
                        const uint8_t *path, size_t path_length,
                        size_t *place, size_t *size, size_t *step);

/* Makes the table of a text with a record in each line. Lines are cut at LF bytes, in strings too;
 * the LF is in no line, a CR before it is, and a last line needs no LF. Lines of nothing but
 * spaces, tabs and CRs are left out. Line i, from 0, starts at table[2 * i] and ends before
 * table[2 * i + 1]. Gives 0, and count is how many lines there are, 0 where all are blank; entries
 * behind them stay, and an odd last number does. Else gives 1, 2 or 31; the table stays, and count
 * is 0. A table of text_length + 1 numbers has room for all lines. */
uint64_t wararish_table(const uint8_t *text, size_t text_length,
                        size_t *table, size_t table_length,
                        size_t *count);

/* Indexes a line of a table by itself, as a record of its bytes alone, in the front of the words:
 * WARARISH_WORDS(levels, its length) of them are its own, and those behind stay. So the same words,
 * enough for the longest line, do for one line after another; they need not be cleared. Gives 0, or
 * 1 to 4, or a fault of the line, 13 to 16. An entry that is no part of the text, and a number
 * behind the table, is an empty line (1). To query the line hand in its bytes and its own words. */
uint64_t wararish_line(const uint8_t *text, size_t text_length,
                       const size_t *table, size_t table_length,
                       size_t line,
                       uint64_t *words, size_t words_length,
                       size_t levels,
                       size_t *place);

/* Finds the first line that is not blank from a place on, without a table. A line is taken to begin
 * at the place: to walk all lines begin at 0 and go on from the end of each. Gives 1, with where
 * the line starts and ends; or 0, with start and end 0, where there is none. */
uint64_t wararish_next_line(const uint8_t *text, size_t text_length,
                            size_t from,
                            size_t *start, size_t *end);

#ifdef __cplusplus
}
#endif

#endif

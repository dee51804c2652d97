/*
 * hunekowha: the board router for other languages.
 *
 * The functions here are written in Rattle and proved: every call ends, is safe for all arguments that keep the rules
 * below, and gives what is said here. Build the library with `rt lib` in crates/hunekowha; it is then
 * crates/hunekowha/out/libhunekowha.a, for x86-64 Linux.
 *
 * Lent slices. A slice is lent as a pointer and a length in elements. The pointer must point to that many elements and be
 * aligned as its type asks; where the length is 0, any pointer that is not null will do. A slice that a function writes
 * must not overlap another slice of the same call. These rules of C are all that a caller owes: nothing else is assumed
 * of any argument, and no function keeps a pointer.
 *
 * Answers. Each function writes its answer, several numbers, to the slice `answer`, and returns how many numbers it wrote
 * there. It returns 0 where a lent slice is too short for the answer; then it has changed nothing that was lent. What lies
 * past the written part of a slice keeps its values.
 *
 * The words. A grid has `height` rows and `width` columns, each 2 to 16. Pad (y, x) has the index y * width + x, and a
 * grid is given by its cells in this order: -1 for a blank pad, -2 for a hole, where no line may go, or a code from 0 to
 * 4294967295. An edge place is a row and a column of the field of 2 * height - 1 rows and 2 * width - 1 columns: place
 * (2y, 2x + 1) joins pad (y, x) to the pad on its right, place (2y + 1, 2x) to the pad below. A record is this field row by
 * row, one byte for each place: 1 a line, 2 no line, 0 undecided; the places that are no edge hold 0. A layout is a wiring
 * of the grid, held as a record.
 *
 * Numbers of refusals. Reading a file:
 *   1  a byte that may not stand there, at the start of its field or after a `#`: a stray byte. A field of a row begins
 *      with a digit or a `#`, one of the header with a digit, and after a `#` comes a comma or a line end (0A hexadecimal)
 *   2  an eleventh digit in a field
 *   3  a field above 4294967295
 *   4  too few fields in a line, or too many
 *   5  a height or width that is empty or outside 2 to 16
 *   6  the file ends before its last row does, or goes on after it
 *  13  a byte that is no digit, no comma and no line end, after a digit of its field: a letter typed for a digit, or a `#`, a
 *      space or a return (0D hexadecimal) behind a number
 *  15  a second digit after a leading 0, in the header too: 07 and 7 would be one number, and a maker means two doors by
 *      them. 0 alone is floor 0
 * Reading packed decimal, with the line and field that a file would have:
 *   3  a pad above 4294967295
 *   5  a height or width outside 2 to 16
 *   6  fewer than two bytes, or not five bytes for each pad
 *  17  a half byte above 9 in a pad that is not blank
 * A grid, for a board, a search, a walk, the copper common to all layouts, a drawing to be judged or writing:
 *   7  a height or width outside 2 to 16
 *   8  the number of cells is not height * width
 *   9  a cell below -2 or above 4294967295
 * Writing a grid, and the copper common to all layouts:
 *  14  the buffer is shorter than the text, or the table shorter than the record of a layout
 *  16  the list of layouts did not end complete, so there is no table of it
 * A call on a board:
 *  10  no such edge place
 *  11  a state that is neither 1 (line) nor 2 (none)
 *  12  256 checkpoints are standing already
 */
#ifndef HUNEKOWHA_H
#define HUNEKOWHA_H

#include <stddef.h>
#include <stdint.h>

#ifdef __cplusplus
extern "C" {
#endif

/*
 * Reads a grid file: lines of fields parted by commas, each line ended by 0A; `H,W` first, then H lines of W fields, an
 * empty field for a blank pad, `#` for a hole, else a number in its shortest digits.
 *
 *   file, file_length      the bytes of the file
 *   answer, answer_length  at least 5 numbers
 *   cells, cells_length    at least 256 numbers
 *
 * Returns 5, or 0 where `answer` or `cells` is too short.
 *   answer[0]  0 for a grid, else the number of the refusal: 1 to 6, 13 or 15
 *   answer[1]  the line that a refusal names, from 1; 0 for a grid
 *   answer[2]  the field that a refusal names, from 1; 0 for a grid
 *   answer[3]  the height; 0 beside a refusal
 *   answer[4]  the width; 0 beside a refusal
 * The first 256 cells are written: the height * width cells of the grid, and -1 in all others.
 */
size_t hunekowha_read(const uint8_t *file, size_t file_length, uint64_t *answer, size_t answer_length, int64_t *cells,
                      size_t cells_length);

/*
 * Reads packed decimal, as the memories of controllers hold it: one byte for the height, one for the width, both plain numbers,
 * then five bytes for each pad in index order. A pad's code has ten digits, two to a byte, the first in the higher half; zeros in
 * front are filling. Five bytes FF hexadecimal are a blank pad. There are no holes.
 *
 *   bytes, bytes_length    the bytes
 *   answer, answer_length  at least 5 numbers
 *   cells, cells_length    at least 256 numbers
 *
 * Returns 5, or 0 where `answer` or `cells` is too short. What is written is what hunekowha_read writes for a file of the same
 * codes: answer[0] to answer[4] and the first 256 cells. The tests run in this order, and the first that fails is told:
 *   6   fewer than two bytes: line 1, field 1
 *   5   the height: line 1, field 1; then the width: line 1, field 2
 *   6   too few bytes for the pads: line and field of the first pad that is not whole; too many: line height + 2, field 1
 *   17, 3   the pads in index order; at one pad 17 before 3
 * Pads are named as in a file: the pad with index i stands in line 2 + i / width, field 1 + i % width.
 */
size_t hunekowha_read_packed(const uint8_t *bytes, size_t bytes_length, uint64_t *answer, size_t answer_length, int64_t *cells,
                             size_t cells_length);

/*
 * Writes a grid as a grid file: `H,W` first, then H lines of W fields parted by commas, each line ended by 0A; a code in its
 * shortest digits, an empty field for a blank pad, `#` for a hole. Reading the text gives the same grid, and writing what
 * was read gives the file, byte for byte.
 *
 *   height, width          the size of the grid
 *   cells, cells_length    its cells, height * width of them
 *   text, text_length      where the text goes, from the start; 2822 bytes are enough for every grid
 *   answer, answer_length  at least 3 numbers
 *
 * Returns 3, or 0 where `answer` is too short.
 *   answer[0]  0, or the number of the refusal: 7 to 9 of the grid first, then 14 where `text` is shorter than the text; beside
 *              a refusal no byte of `text` is changed
 *   answer[1]  the index of the first bad cell beside 9, else 0
 *   answer[2]  how many bytes were written; 0 beside a refusal
 * The bytes of `text` past those that were written keep their values.
 */
size_t hunekowha_write(size_t height, size_t width, const int64_t *cells, size_t cells_length, uint8_t *text,
                       size_t text_length, uint64_t *answer, size_t answer_length);

/*
 * Lists the layouts of a grid: each once, in ascending order, until all are found, until `limit` boards are visited, or
 * until a layout is due and less than a record is left of the buffer. Where the fresh board already has its flag set, the list
 * is complete and empty, and no board is visited, whatever the limit.
 *
 *   height, width          the size of the grid
 *   cells, cells_length    its cells, height * width of them
 *   limit                  how many boards may be visited
 *   buffer, buffer_length  where the records of the layouts go, one behind the other, from the start
 *   answer, answer_length  at least 6 numbers
 *
 * Returns 6, or 0 where `answer` is too short.
 *   answer[0]  0, or the number of the refusal, 7 to 9; beside a refusal no byte of the buffer is changed
 *   answer[1]  the index of the first bad cell beside 9, else 0
 *   answer[2]  the outcome: 0 the list is complete, 1 the limit is spent, 2 the buffer is full
 *   answer[3]  how many layouts were written
 *   answer[4]  how many boards were visited
 *   answer[5]  the fewest lines of a written layout, 481 where none was written
 * The bytes of the buffer after the last record keep their values.
 *
 * A search that was spent may be started again. A second call for the same grid, with at least the limit and at least the
 * buffer_length of the first, whatever the two buffers hold before: the records that the first has written are, byte for byte,
 * the first ones that the second writes; its answer[4] is no lower and its answer[5] no higher; and if the first list was
 * complete, the second has the same list and the same answer.
 */
size_t hunekowha_solve(size_t height, size_t width, const int64_t *cells, size_t cells_length, uint64_t limit,
                       uint8_t *buffer, size_t buffer_length, uint64_t *answer, size_t answer_length);

/*
 * Lists the layouts of a grid by a second engine, which shares none of the pruning of hunekowha_solve: a slow walk. It gives each
 * pad every code in index order (a code is right + 2 * down; one with a line off the board is not tried) and tests the rules on
 * full drawings only. It makes no board, so none has its flag set. It is a check for small grids: a whole walk tries 44 codes
 * on 2 by 2 pads and 11956 on 3 by 3, and on a panel it would never end.
 *
 *   height, width          the size of the grid
 *   cells, cells_length    its cells, height * width of them
 *   limit                  how many codes may be tried; one is counted for each code that is given to a pad
 *   buffer, buffer_length  where the records of the layouts go, one behind the other, from the start
 *   answer, answer_length  at least 6 numbers
 *
 * Returns 6, or 0 where `answer` is too short.
 *   answer[0]  0, or the number of the refusal, 7 to 9; beside a refusal no byte of the buffer is changed
 *   answer[1]  the index of the first bad cell beside 9, else 0
 *   answer[2]  the outcome: 0 the list is complete, 1 the next code would pass the limit, 2 the buffer is full
 *   answer[3]  how many layouts were written
 *   answer[4]  how many codes were tried
 *   answer[5]  the fewest lines of a written layout, 481 where none was written
 * The bytes of the buffer after the last record keep their values.
 *
 * Wherever this and hunekowha_solve both end complete on a grid, whatever their limits and buffers, answer[0], answer[1],
 * answer[3] and answer[5] are the same, and so are the records in the two buffers, byte for byte.
 */
size_t hunekowha_walk(size_t height, size_t width, const int64_t *cells, size_t cells_length, uint64_t limit, uint8_t *buffer,
                      size_t buffer_length, uint64_t *answer, size_t answer_length);

/*
 * Lists the layouts of a grid as hunekowha_solve does and, where the list ends complete, fills a table that says which copper
 * the layouts have in common. The table is laid out as a record, one byte for each place.
 *
 *   height, width          the size of the grid
 *   cells, cells_length    its cells, height * width of them
 *   limit                  how many boards may be visited
 *   buffer, buffer_length  where the records of the layouts go, one behind the other, from the start
 *   table, table_length    where the table goes, from the start: (2 * height - 1) * (2 * width - 1) bytes, at most 961
 *   answer, answer_length  at least 6 numbers
 *
 * Returns 6, or 0 where `answer` is too short.
 *   answer[0]  0 where the table is filled, else the number of the refusal: 7 to 9 of the grid first; then 14 where `table` is
 *              too short, before any search; then 16 where the list did not end complete
 *   answer[1]  the index of the first bad cell beside 9, else 0
 *   answer[2]  to answer[5]: outcome, layouts, visited and fewest of the search, as of hunekowha_solve; beside 7, 8, 9 and 14
 *              nothing is searched, and they are 0, 0, 0 and 481
 * The table: at the place of each edge 1 where every layout has a line there, 2 where none has, 3 where some have and others
 * have not; 0 at the other places, and everywhere where the list is empty. Beside a refusal no byte of the table is changed.
 * Its bytes past the places keep their values. The buffer is left as hunekowha_solve leaves it, beside 16 too; beside the
 * other refusals no byte of it is changed.
 */
size_t hunekowha_common(size_t height, size_t width, const int64_t *cells, size_t cells_length, uint64_t limit,
                        uint8_t *buffer, size_t buffer_length, uint8_t *table, size_t table_length, uint64_t *answer,
                        size_t answer_length);

/*
 * Finds a record in the buffer that hunekowha_solve has filled.
 *
 *   height, width          the size of the grid
 *   count                  how many layouts were written
 *   k                      the layout that is asked for, from 0
 *   buffer, buffer_length  the buffer; its bytes are not looked at
 *   answer, answer_length  at least 2 numbers
 *
 * Returns 2, or 0 where `answer` is too short.
 *   answer[0]  where the record begins in the buffer; 0 where there is no such record
 *   answer[1]  how many bytes it has; 0 where there is no such record: height or width is outside 2 to 16, k is not below
 *              count, or the buffer ends before the record does
 */
size_t hunekowha_record(size_t height, size_t width, size_t count, size_t k, const uint8_t *buffer, size_t buffer_length,
                        uint64_t *answer, size_t answer_length);

/*
 * Judges a drawing, whoever drew it: whether a record is that of a layout of the grid, and whether hunekowha_solve lists it.
 *
 * A drawing is ordinary if a pad with a code has one line, a hole none and every other pad none or two, if no lines close a
 * loop, and if each chain of lines joins two pads of equal code. It is listed if besides no unit square (four neighbouring
 * pads) has more than two lines, and if a pad with lines to the right and downward, or to the left and downward, has
 * diagonally below it, on that side, a code, a hole or a pad with the same two lines. A complete list of hunekowha_solve
 * holds exactly the listed drawings.
 *
 *   height, width          the size of the grid
 *   cells, cells_length    its cells, height * width of them
 *   record, record_length  the record of the drawing, (2 * height - 1) * (2 * width - 1) bytes: 1 or 2 at each edge place, 0 at
 *                          all others
 *   answer, answer_length  at least 4 numbers
 *
 * Returns 4, or 0 where `answer` is too short.
 *   answer[0]  0, or the number of the refusal of the grid, 7 to 9, whatever the record holds
 *   answer[1]  the index of the first bad cell beside 9, else 0
 *   answer[2]  the verdict: 0 no layout, 1 an ordinary one that is not listed, 2 a listed one. A record of another length, one
 *              with a byte other than 1 or 2 at an edge place, or with a byte other than 0 at another place, is no layout; 0
 *              beside a refusal
 *   answer[3]  how many lines the drawing has; 0 beside the verdict 0
 */
size_t hunekowha_judge(size_t height, size_t width, const int64_t *cells, size_t cells_length, const uint8_t *record,
                       size_t record_length, uint64_t *answer, size_t answer_length);

/*
 * Makes calls on a board, one after another, and writes what the board shows after each. The board begins as the fresh
 * board of the grid: every edge at a hole has been decided to be none, holes in index order, each left, right, up, down. That
 * may decide more edges and set the flag, and undo never goes behind it.
 *
 *   height, width          the size of the grid
 *   cells, cells_length    its cells, height * width of them
 *   calls, calls_length    four numbers for each call: kind, row, column, state; numbers that are too few for a call
 *                          at the end are left aside
 *     kind 1  decide the edge at (row, column): state 1 a line, 2 none
 *     kind 2  read the edge at (row, column)
 *     kind 3  add a checkpoint
 *     kind 4  undo: back to the last checkpoint not yet undone, or to the fresh board
 *     any other kind, such as 0: begin again with the fresh board of the grid
 *   answer, answer_length  where the answers go
 *
 * Each call gives a block of 3 + (2 * height - 1) * (2 * width - 1) + height * width numbers:
 *   number  0, or the number of the refusal: 10 or 11 for a decision (10 is tested first), 10 for a reading, 12 for a
 *           checkpoint, 7 to 9 for a fresh board
 *   answer  the flag (1 where the board is found to have no layout, else 0) after an accepted decision, the byte of the
 *           edge for an accepted reading, the index of the first bad cell beside 9; in all other cases 0
 *   flag    1 where the flag of the board is set, else 0
 *   edges   the record of the board, (2 * height - 1) * (2 * width - 1) numbers
 *   ends    a number for each pad, by index: -1 a line passes through it; -v - 2 it is the end of a chain that begins at
 *           a clue of code v; else the index of the pad at the other end of its chain, its own where it has no line
 * A declined call leaves the board as it was. Where the grid itself is declined (7 to 9), the board is the fresh blank
 * board of 2 rows and 2 columns, and a block has 16 numbers.
 *
 * Returns how many numbers were written: the blocks of all calls. Returns 0 where `answer` is too short for them all.
 */
size_t hunekowha_replay(size_t height, size_t width, const int64_t *cells, size_t cells_length, const uint64_t *calls,
                        size_t calls_length, int64_t *answer, size_t answer_length);

#ifdef __cplusplus
}
#endif

#endif

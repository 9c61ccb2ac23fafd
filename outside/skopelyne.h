/* skopelyne.h: solids as trees of planes with whole numbers, read, written, merged, normalised and asked about points, and the section of
 * a region by a plane. The library is proved: each call takes every input, and gives the one answer that document 01 gives.
 *
 * Tables. A table crosses as two arguments, a pointer and a length in entries (not in bytes, not in rows).
 *     planes, half-spaces, bounds   int64_t, 4 a row: a, b, c, d; the positive side is ax + by + cz + d > 0, in millimetres
 *     nodes                         uint16_t, 3 a row: plane number, front code, back code
 *     text                          uint8_t, lines of capital hexadecimal, each ended by LF; no 0 at its end
 *     work                          int64_t, SKOPELYNE_WORK entries, room for the call's own use
 * A code is SKOPELYNE_IN, SKOPELYNE_OUT or a row number from 0. A solid lent to a call is its planes, its nodes and its root code; the
 * lengths say how many rows it has, so lend exactly the rows that are there, not the room around them.
 *
 * What is asked of the caller, and nothing else:
 *     - every pointer and length are true: so many entries may be read, or read and written, there, and the pointer is aligned for them;
 *     - no table or place that is lent to be written overlaps another table or place; tables that are only read may be the same
 *       (A and B of a merge);
 *     - no pointer is null, not even that of a table of length 0: give the address of any object. Nothing is read or written there;
 *     - nothing else writes a table during a call, or reads one that is lent to be written. Calls keep nothing between them, so
 *       threads may call at once with tables of their own;
 *     - the thread that calls has 2 MiB of stack: a merge of two trees of 1,000 rows, each one long branch, takes 1.4 MiB of it.
 * No length has to fit: a table too short, too long or of length 0 is answered like any other input. A table to be written may hold
 * anything before a call.
 *
 * What a call answers: 0, or the number of the refusal.
 *     1   a character other than 0-9, A-F, LF; an odd or empty line; a last line without LF
 *     2   a frame of a kind or length not due next; text ended too soon; text after the end; a table that is no whole number of rows
 *     3   text over 32,768 bytes; planes, nodes or half-spaces over the limit
 *     4   a plane not lawful; for a section: out of range, or a zero normal
 *     5   planes not strictly ascending; a plane no node uses
 *     6   plane number, child code or root code against the rules; rows outside the root's tree
 *     7   operation code unknown
 *     8   the answer has more entries than the lent table, or over 1,000 nodes; a work table shorter than SKOPELYNE_WORK
 *     9   a merged tree uses more than 64 planes
 *    10   a point out of range, or not strictly inside the box
 * A short work table comes first (8), then the order told at each call; the first refusal met is given.
 *
 * What a call leaves. After 0 the tables lent for the answer hold its entries, then zeros to their ends, and the places its counts. After a
 * refusal every table lent for the answer is all zeros, and every place 0. The work table is all zeros after every call. What is lent only
 * to be read is never written.
 */
#ifndef SKOPELYNE_H
#define SKOPELYNE_H

#include <stddef.h>
#include <stdint.h>

#ifdef __cplusplus
extern "C" {
#endif

/* The length stated for a work table, in entries, whatever the call and its input. A longer one is left all zeros as well. */
#define SKOPELYNE_WORK 4096

/* Most planes and most nodes of a solid, and the lengths of tables that hold every solid. */
#define SKOPELYNE_MOST_PLANES 64
#define SKOPELYNE_MOST_NODES 1000
#define SKOPELYNE_PLANES_LENGTH (4 * SKOPELYNE_MOST_PLANES)
#define SKOPELYNE_NODES_LENGTH (3 * SKOPELYNE_MOST_NODES)

/* The longest text of a solid, in bytes. A text given to a call may have 32,768. */
#define SKOPELYNE_LONGEST_TEXT 14488

/* Most half-spaces of a section; a section has at most 6 bounds more. */
#define SKOPELYNE_MOST_HALVES 128
#define SKOPELYNE_MOST_BOUNDS 134

/* The codes of the marks. */
#define SKOPELYNE_IN 0xFFFF
#define SKOPELYNE_OUT 0xFFFE

/* Operations of a merge. */
#define SKOPELYNE_UNION 1
#define SKOPELYNE_INTERSECTION 2
#define SKOPELYNE_MINUS 3

/* Where a point lies. */
#define SKOPELYNE_PLACE_IN 1
#define SKOPELYNE_PLACE_OUT 2
#define SKOPELYNE_PLACE_ON 3

/* Reads the text of a solid. Order: 8 for the work table, 3 for the text's length, then line by line, 1 to 6, and at the head line 8 for
 * tables with fewer rows than the head counts.
 * Leaves the plane rows in planes, the node rows in nodes, their numbers of rows in plane_count and node_count, and the root code. */
uint8_t skopelyne_read(const uint8_t *text, size_t text_length,
                       int64_t *planes, size_t planes_length,
                       uint16_t *nodes, size_t nodes_length,
                       int64_t *work, size_t work_length,
                       size_t *plane_count, size_t *node_count, uint16_t *root);

/* Writes the text of a solid. Order: 8 for the work table, 2 to 6 for the solid, as if it were written out and read, then 8 for a text
 * table too short.
 * Leaves the text in text, and its length in bytes. */
uint8_t skopelyne_write(const int64_t *planes, size_t planes_length,
                        const uint16_t *nodes, size_t nodes_length, uint16_t root,
                        uint8_t *text, size_t text_length,
                        int64_t *work, size_t work_length,
                        size_t *length);

/* Where the point (x/w, y/w, z/w) lies to a solid: IN, OUT, or ON as soon as the walk meets a plane that the point lies on.
 * Order: 8 for the work table, 2 to 6 for the solid, then 10.
 * Leaves SKOPELYNE_PLACE_IN, SKOPELYNE_PLACE_OUT or SKOPELYNE_PLACE_ON in place. */
uint8_t skopelyne_point(const int64_t *planes, size_t planes_length,
                        const uint16_t *nodes, size_t nodes_length, uint16_t root,
                        int64_t x, int64_t y, int64_t z, int64_t w,
                        int64_t *work, size_t work_length,
                        uint8_t *place);

/* Merges A and B by an operation: SKOPELYNE_UNION, SKOPELYNE_INTERSECTION, or SKOPELYNE_MINUS for A minus B. Order: 8 for the work table,
 * 7, then 2 to 6 for A, then for B, then 8 for a result with more rows or planes than are lent or over 1,000 rows, then 9. Lend 128 plane
 * rows to tell 9 from 8: with 64, a result of more planes is 8.
 * Leaves the merged solid in planes and nodes, its numbers of rows in plane_count and node_count, and its root code. */
uint8_t skopelyne_merge(uint8_t operation,
                        const int64_t *a_planes, size_t a_planes_length,
                        const uint16_t *a_nodes, size_t a_nodes_length, uint16_t a_root,
                        const int64_t *b_planes, size_t b_planes_length,
                        const uint16_t *b_nodes, size_t b_nodes_length, uint16_t b_root,
                        int64_t *planes, size_t planes_length,
                        uint16_t *nodes, size_t nodes_length,
                        int64_t *work, size_t work_length,
                        size_t *plane_count, size_t *node_count, uint16_t *root);

/* The normal form of a solid: equal, table for table, exactly for solids that are the same space. Order: 8 for the work table, 2 to 6 for
 * the solid, then 8 for a form with more rows or planes than are lent or over 1,000 rows.
 * Leaves the form in planes and nodes, its numbers of rows in plane_count and node_count, and its root code. */
uint8_t skopelyne_normal(const int64_t *a_planes, size_t a_planes_length,
                         const uint16_t *a_nodes, size_t a_nodes_length, uint16_t a_root,
                         int64_t *planes, size_t planes_length,
                         uint16_t *nodes, size_t nodes_length,
                         int64_t *work, size_t work_length,
                         size_t *plane_count, size_t *node_count, uint16_t *root);

/* The merge of a text: a line with the operation, then A, then B. Order: 8 for the work table, 3 for the text's length, then line by line,
 * 1 to 7, then 8 for over 1,000 rows, 9, and 8 for a table too short for the merged solid's text.
 * Leaves the merged solid's text in out, and its length in bytes. SKOPELYNE_LONGEST_TEXT bytes hold every answer. */
uint8_t skopelyne_merge_text(const uint8_t *text, size_t text_length,
                             uint8_t *out, size_t out_length,
                             int64_t *work, size_t work_length,
                             size_t *length);

/* The normal form of a text: one solid. Order: 8 for the work table, 3 for the text's length, then line by line, 1 to 6, then 8 for over
 * 1,000 rows, and 8 for a table too short for the form's text.
 * Leaves the form's text in out, and its length in bytes. */
uint8_t skopelyne_normal_text(const uint8_t *text, size_t text_length,
                              uint8_t *out, size_t out_length,
                              int64_t *work, size_t work_length,
                              size_t *length);

/* The section of a region by the plane (a, b, c, d): the region is strictly in the box and strictly on the positive side of each
 * half-space. Planes need not be reduced here: range and a normal that is not zero suffice. Order: 8 for the work table, 2 for half-spaces
 * that are no whole number of rows, 3 for over 128 of them, 4, then Nothing, then 8 for too few rows of bounds.
 * Leaves the bounding half-spaces in order in bounds, and their number in count. Nothing is no refusal: it answers 0, with count 0 and
 * bounds all zeros, exactly if no point lies on the plane and in the region. SKOPELYNE_MOST_BOUNDS rows hold every answer. */
uint8_t skopelyne_section(int64_t a, int64_t b, int64_t c, int64_t d,
                          const int64_t *halves, size_t halves_length,
                          int64_t *bounds, size_t bounds_length,
                          int64_t *work, size_t work_length,
                          size_t *count);

#ifdef __cplusplus
}
#endif

#endif

/*
 * Kaldvimur for C and C++: link with libkaldvimur_c.a (`rt lib` in crates/kaldvimur_c, out/libkaldvimur_c.a, code for x86-64).
 *
 * Every function answers 0 when it is done, else number * 65536 + place: why it refuses, and the byte of the text
 * where. After a refusal every lent buffer is as it was before the call.
 *
 * Lent buffers
 * - Each is a pointer and the number of its places: bytes of a text or print, int64_t of a state or inputs, uint32_t
 *   of all others. A buffer may be longer than needed; what lies behind stays as it is.
 * - No pointer is null, also where the number is 0, and each is aligned as its type asks.
 * - A buffer that a function writes to (no `const`) overlaps no other buffer of the call.
 * - A text needs no zero byte at its end.
 *
 * Nothing is kept between calls and no memory is allocated; of the C library memcpy and memset are called. Threads may call at
 * the same time as long as none writes what another uses. How much stack is needed: KV_STACK_TEXT and KV_STACK_TABLE.
 * The rules are document 01's; docs/LAYOUT.md has rows, cells and values bit by bit.
 */
#ifndef KALDVIMUR_H
#define KALDVIMUR_H

#include <stddef.h>
#include <stdint.h>

#ifdef __cplusplus
extern "C" {
#endif

/* An answer taken apart. */
#define KV_NUMBER(answer) ((answer) >> 16)
#define KV_PLACE(answer) ((answer) & 0xFFFFu)

/* The numbers. 2 to 9 have a place in the text, the others have place 0. If several apply, the answer is the first of
   1, 2, 3 or 4, 5, 6, 7, 8 or 9, 10, 11, 12. */
#define KV_DONE 0
#define KV_TOO_LONG 1   /* the text is over 8,192 bytes */
#define KV_NO_WORD 2    /* bytes that are no word, an open comment, a name too long, a number too large */
#define KV_BAD_SHAPE 3  /* the shape is broken: the first word that cannot follow, or the text's length */
#define KV_TOO_DEEP 4   /* brackets nested over 64, or statements over depth 32 */
#define KV_BAD_NAME 5   /* a name unknown, declared twice or misused, an array with lo above hi, the 65th cell */
#define KV_BAD_TYPE 6   /* a type rule is broken, a number does not fit, a divisor is no plain number or zero */
#define KV_TOO_HIGH 7   /* an expression is higher than 32 */
#define KV_BAD_WALK 8   /* a subscript outside its array, or a FOR's step of 0 */
#define KV_TOO_HEAVY 9  /* the weight passes 3,000 */
#define KV_NO_ROOM 10   /* a lent buffer is too short */
#define KV_BAD_TABLE 11 /* a lent table breaks its rules */
#define KV_BAD_VALUE 12 /* a value of the state or of the inputs is outside its type */

/* Limits of every accepted text: buffers of these sizes have room for any. */
#define KV_MAX_TEXT 8192                               /* bytes of a text */
#define KV_MAX_CELLS 64                                /* places of a state, of inputs, of a table's cells */
#define KV_MAX_WEIGHT 3000
#define KV_MAX_ROWS (KV_MAX_WEIGHT + KV_MAX_CELLS)     /* rows of a table */
#define KV_ROW 4                                       /* uint32_t of one row */
#define KV_ROOM(weight, cells) (KV_ROW * ((weight) + (cells))) /* uint32_t to lend for the rows of a text's table */

/* Bytes of stack to have free for a call: measured with the older kit on the worst text that is known (bench/run prints it),
   and a tenth on top; today's kit takes less. No proof speaks of the stack. */
#define KV_STACK_TEXT (2304 * 1024) /* functions that take a text */
#define KV_STACK_TABLE (20 * 1024)  /* functions that take a table */

/* ---- from a text of n bytes */

/* Judges the text. four[0..3]: its cells, its weight, its step figure, the length of its print. m is 4 or more. */
uint32_t kv_accept(const uint8_t *text, size_t n, uint32_t *four, size_t m);

/* Writes ST0 as text into the front of out. m: at least the length of the print. */
uint32_t kv_print(const uint8_t *text, size_t n, uint8_t *out, size_t m);

/* Writes the declared values into the front of state, one cell a place: inputs, outputs, others, each in order of
   declaration. A place holds the value itself, of BOOL 0 or 1. m: at least the number of cells. */
uint32_t kv_start(const uint8_t *text, size_t n, int64_t *state, size_t m);

/* One scan by the statements: readings into the state's input cells, then the statements in order. steps[0]: the number
   of steps. Of inputs only the places of input cells are read. m, k: at least the number of cells. s is 1 or more. */
uint32_t kv_scan(const uint8_t *text, size_t n, int64_t *state, size_t m, const int64_t *inputs, size_t k,
                 uint32_t *steps, size_t s);

/* Writes the next-state table. two[0], two[1]: its numbers of rows and cells. m: at least KV_ROOM(weight, cells).
   k: at least the number of cells. s is 2 or more. */
uint32_t kv_table(const uint8_t *text, size_t n, uint32_t *rows, size_t m, uint32_t *cells, size_t k, uint32_t *two,
                  size_t s);

/* ---- from a table: m words for rows, of which n_rows rows count; k cells, of which n_cells count */

/* Tests the table, whatever it holds, by all rules of 11. */
uint32_t kv_check_table(const uint32_t *rows, size_t m, const uint32_t *cells, size_t k, uint32_t n_rows,
                        uint32_t n_cells);

/* Tests the table as kv_check_table does, then runs one scan. It leaves the state that kv_scan leaves with the table's text.
   a, b: at least n_cells. */
uint32_t kv_scan_table(const uint32_t *rows, size_t m, const uint32_t *cells, size_t k, uint32_t n_rows,
                       uint32_t n_cells, int64_t *state, size_t a, const int64_t *inputs, size_t b);

/* The same for a table that kv_check_table has found good, without testing it again: the function for every cycle.
   A table that breaks the rules does no harm here, but the state that it leaves means nothing. */
uint32_t kv_scan_checked(const uint32_t *rows, size_t m, const uint32_t *cells, size_t k, uint32_t n_rows,
                         uint32_t n_cells, int64_t *state, size_t a, const int64_t *inputs, size_t b);

#ifdef __cplusplus
}
#endif

#endif

/* Calls with buffers of exactly the length passed, each from malloc, so that valgrind sees a byte read or written beside one.
 * Every call is followed by a look at every lent byte. */
#ifndef LENT_H
#define LENT_H

#include "plans.h"

/* A book, a table, a row, a plan, a list of names, counts or a text while it is written. */
typedef struct {
    uint8_t bytes[PLANS_INPUT_LIMIT + 1];
    size_t length;
} writing;

/* One check more: counted, and printed where it does not hold. */
void check(const char *what, int holds);

/* How many checks did not hold, after the line 'N passed, M failed' has been printed. */
unsigned summed_up(void);

/* A buffer from malloc of exactly `length` bytes, null where there are none: filled with other bytes than 0, or with a copy. */
uint8_t *lend(size_t length);
uint8_t *lend_copy(const uint8_t *bytes, size_t length);

/* The calls; `work_len`, `out_len`, `counts_len` and `text_len` are the lengths lent. What is written goes to `table`, `counts`, `text` or
 * `rows`. */
plans_built build(const writing *book, size_t work_len, size_t out_len, writing *table);
plans_counted build_counted(const writing *book, size_t work_len, size_t out_len, size_t counts_len, writing *table, writing *counts);
plans_rewritten rewrite(const writing *from, size_t work_len, size_t out_len, writing *table);
plans_written list(const writing *book, size_t work_len, size_t text_len, writing *text);
plans_walked walk(const writing *table, const uint8_t *row, size_t row_len, size_t work_len);
plans_plan_rows read_rows(const writing *plan, const writing *list, uint8_t chosen, size_t work_len, size_t out_len, writing *rows);

/* Appends one field. */
void put_field(writing *to, uint8_t mark, const void *content, size_t length);

#endif

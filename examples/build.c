/* Builds the table of the example book of docs/SCOPE.md, prints its bytes, and walks two rows over it. `make example` builds it,
 * runs it and compares what it prints with examples/build.stdout. */
#include <stdio.h>

#include "plans_fields.h"

static uint8_t book_bytes[64];
static uint8_t work[PLANS_WORK_BYTES];
static uint8_t table[PLANS_TABLE_BYTES];

/* One name, snack; context, k = 1, h = 1; one row: snack, snack. */
static plans_writer write_book(void)
{
    static const uint8_t row[] = {0, 0};
    plans_writer book = plans_write_to(book_bytes, sizeof book_bytes);

    plans_write_name(&book, "snack");
    plans_write_class(&book, PLANS_CONTEXT, 1, 1);
    plans_write_row(&book, row, sizeof row);
    return book;
}

static void print_walk(size_t table_len, const uint8_t *row, size_t row_len)
{
    static const char *const outcomes[] = {"", "admitted", "on the way", "stops"};
    plans_walked w = plans_walk(table, table_len, row, row_len, work, sizeof work);

    printf("%u snacks: %s\n", (unsigned)row_len, w.refusal == PLANS_OK ? outcomes[w.outcome] : "refused");
}

int main(void)
{
    static const uint8_t row[] = {0, 0, 0};
    plans_writer book = write_book();
    plans_built built = plans_build(book.bytes, book.length, work, sizeof work, table, sizeof table);

    if (built.refusal != PLANS_OK) {
        printf("refused %u: %s\n", built.refusal, plans_refusal_text(built.refusal));
        return 1;
    }
    printf("states %u joins %u distinct %u\n", (unsigned)built.states, (unsigned)built.joins, (unsigned)built.distinct);
    for (uint32_t i = 0; i < built.length; i++)
        printf("%02X%c", table[i], i + 1 == built.length ? '\n' : ' ');
    print_walk(built.length, row, 3);
    print_walk(built.length, row, 0);
    built = plans_build(book.bytes, book.length - 1, work, sizeof work, table, sizeof table);
    printf("the book without its last byte: refused %u, %s\n", built.refusal, plans_refusal_text(built.refusal));
    return 0;
}

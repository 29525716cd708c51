/* From strings to answers in names: writes days as a book, builds its model, and says of further days whether they are allowed and
 * what may come next. `make example` builds it, runs it and compares what it prints with examples/days.stdout. */
#include <stdio.h>
#include <stdlib.h>
#include <string.h>

#include "plans_fields.h"

enum { DAYS = 5, ASKED = 6, LONGEST = 5 };

/* Days as they were written down; a null pointer ends each. */
static const char *const days[DAYS][LONGEST + 1] = {
    {"breakfast", "lunch", "dinner", NULL},
    {"breakfast", "snack", "lunch", "dinner", NULL},
    {"breakfast", "lunch", "snack", "dinner", NULL},
    {"medication", "breakfast", "lunch", "dinner", NULL},
    {"breakfast", "lunch", "dinner", NULL}, /* a copy of the first */
};

/* Days that are asked about. */
static const char *const asked[ASKED][LONGEST + 1] = {
    {"breakfast", "snack", "lunch", "dinner", NULL},
    {"medication", "breakfast", "snack", "lunch", "dinner", NULL},
    {"medication", "breakfast", NULL},
    {"breakfast", "dinner", NULL},
    {"breakfast", "lunch", "cake", "dinner", NULL},
    {NULL},
};

static uint8_t work[PLANS_WORK_BYTES];
static uint8_t book_bytes[PLANS_INPUT_LIMIT];
static uint8_t table[PLANS_TABLE_BYTES];

static int by_bytes(const void *one, const void *other)
{
    return strcmp(*(const char *const *)one, *(const char *const *)other);
}

/* Writes the names of all days, sorted, each once. */
static void write_names(plans_writer *book)
{
    const char *names[DAYS * LONGEST];
    size_t count = 0;

    for (size_t i = 0; i < DAYS; i++)
        for (size_t j = 0; days[i][j] != NULL; j++)
            names[count++] = days[i][j];
    qsort(names, count, sizeof names[0], by_bytes);
    for (size_t i = 0; i < count; i++)
        if (i == 0 || strcmp(names[i - 1], names[i]) != 0)
            plans_write_name(book, names[i]);
}

/* A day as a row, by the names of a book or a table; it ends before a name that is not among them. Returns its length. */
static size_t row_of(const char *const *day, const uint8_t *bytes, size_t length, uint8_t *row)
{
    size_t count = 0;

    while (day[count] != NULL) {
        int number = plans_number_of(bytes, length, day[count]);

        if (number < 0)
            break;
        row[count++] = (uint8_t)number;
    }
    return count;
}

/* The book of the days. */
static plans_writer write_book(void)
{
    plans_writer book = plans_write_to(book_bytes, sizeof book_bytes);
    uint8_t row[LONGEST];

    write_names(&book);
    plans_write_class(&book, PLANS_CONTEXT, 2, 1);
    for (size_t i = 0; i < DAYS; i++) {
        size_t length = row_of(days[i], book.bytes, book.length, row);

        plans_write_row(&book, row, length);
    }
    return book;
}

static void print_day(const char *const *day)
{
    if (*day == NULL)
        printf("nothing yet");
    for (const char *between = ""; *day != NULL; day++, between = " ")
        printf("%s%s", between, *day);
}

/* The names whose bits are set. */
static void print_next(uint64_t next_names, size_t table_len)
{
    const char *between = "; next may come ";
    plans_field name;

    for (unsigned number = 0; plans_name_of(table, table_len, number, &name); number++) {
        if (next_names >> number & 1) {
            printf("%s%.*s", between, (int)name.length, (const char *)name.content);
            between = " or ";
        }
    }
}

/* Whether the day is allowed; if not, how far it goes; and what may come then. A name that no day has is one that stops it. */
static void ask(const char *const *day, size_t table_len)
{
    uint8_t row[LONGEST];
    size_t known = row_of(day, table, table_len, row);
    plans_walked walked = plans_walk(table, table_len, row, known, work, sizeof work);

    if (walked.refusal != PLANS_OK) {
        printf("refused: %s\n", plans_refusal_text(walked.refusal));
        return;
    }
    print_day(day);
    if (day[walked.walked] != NULL)
        printf(": not allowed, stops before %s", day[walked.walked]);
    else
        printf(": %s", walked.outcome == PLANS_ADMITTED ? "allowed" : "on the way");
    print_next(walked.next_names, table_len);
    printf("\n");
}

int main(void)
{
    plans_writer book = write_book();
    plans_built built;

    if (book.overflowed) {
        printf("the days need over %u bytes\n", (unsigned)book.size);
        return 1;
    }
    built = plans_build(book.bytes, book.length, work, sizeof work, table, sizeof table);
    if (built.refusal != PLANS_OK) {
        printf("refused: %s\n", plans_refusal_text(built.refusal));
        return 1;
    }
    printf("%u days, %u of them different, a model of %u states\n", (unsigned)DAYS, (unsigned)built.distinct, (unsigned)built.states);
    for (size_t i = 0; i < ASKED; i++)
        ask(asked[i], built.length);
    return 0;
}

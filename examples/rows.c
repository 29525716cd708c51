/* From a plan in XML to answers in names: writes the names that a day may hold, reads the days of a plan as rows straight into a book
 * behind them, builds the book's model, and says of further days whether they are allowed. It also shows a plan that is refused, with
 * the place. `make example` builds it, runs it and compares what it prints with examples/rows.stdout. */
#include <stdio.h>
#include <string.h>

#include "plans_fields.h"

enum { NAMES = 5, ASKED = 3, LONGEST = 4 };

/* A plan as the clinic keeps it; examples/plans has more. Text is left out of rows, so Thursday's is a copy of Monday's. */
static const char plan[] =
    "<week>\n"
    "  <day>Monday <breakfast>porridge</breakfast> <lunch>soup, bread</lunch> <dinner>fish</dinner></day>\n"
    "  <day>Tuesday <breakfast>toast</breakfast> <snack/> <lunch>rice</lunch> <dinner>stew</dinner></day>\n"
    "  <day>Wednesday, fasting</day>\n"
    "  <day>Thursday <breakfast>eggs</breakfast> <lunch>salad</lunch> <dinner>pie</dinner></day>\n"
    "</week>\n";

/* A plan that is refused: a tag has no attributes. */
static const char dated[] = "<week>\n  <day date=\"2026-11-16\"><lunch/></day>\n</week>\n";

/* The names of all that a day may hold, and of the day itself, in ascending order. */
static const char *const names[NAMES] = {"breakfast", "day", "dinner", "lunch", "snack"};

/* Days that are asked about; a null pointer ends each. */
static const char *const asked[ASKED][LONGEST + 1] = {
    {"breakfast", "snack", "lunch", "dinner", NULL},
    {"breakfast", "snack", NULL},
    {"lunch", NULL},
};

static uint8_t work[PLANS_WORK_BYTES];
static uint8_t book_bytes[PLANS_INPUT_LIMIT];
static uint8_t table[PLANS_TABLE_BYTES];

/* Says what was wrong with a plan: the line and the column, in bytes from 1, where the refusal has a place, and the words. */
static void print_refusal(const char *text, plans_plan_rows read)
{
    unsigned line = 1, column = 1;

    for (size_t i = 0; i < read.at; i++) {
        column = text[i] == '\n' ? 1 : column + 1;
        line += text[i] == '\n';
    }
    if (read.refusal >= PLANS_BAD_PLAN)
        printf("line %u, column %u: ", line, column);
    printf("refused %u, %s\n", read.refusal, plans_refusal_text(read.refusal));
}

/* Reads the plan's days to the end of the book, whose first `list_len` bytes are its names. Returns how many there are, -1 where the
 * plan is refused. The output is a part of the book that no other buffer of the call overlaps. */
static int read_days(plans_writer *book, size_t list_len, const char *text)
{
    int day = plans_number_of(book->bytes, list_len, "day");
    plans_plan_rows read = plans_read_rows((const uint8_t *)text, strlen(text), book->bytes, list_len, (uint8_t)day, work, sizeof work,
                                           book->bytes + book->length, book->size - book->length);

    if (read.refusal != PLANS_OK) {
        print_refusal(text, read);
        return -1;
    }
    book->length += read.length;
    return (int)read.rows;
}

/* The rows of a book, in names, a line for each. */
static void print_rows(const plans_writer *book)
{
    plans_reader from = plans_read_from(book->bytes, book->length);
    plans_field field, name;

    while (plans_read_field(&from, &field)) {
        if (field.mark != PLANS_ROW_MARK)
            continue;
        printf("a day of %u:", (unsigned)field.length);
        for (size_t i = 0; i < field.length; i++)
            if (plans_name_of(book->bytes, book->length, field.content[i], &name))
                printf(" %.*s", (int)name.length, (const char *)name.content);
        printf("\n");
    }
}

/* Whether a day is allowed; if not, before which name it stops. All its names are in the table. */
static void ask(const char *const *day, size_t table_len)
{
    uint8_t row[LONGEST];
    size_t length = 0;
    plans_walked walked;

    for (; day[length] != NULL; length++) {
        row[length] = (uint8_t)plans_number_of(table, table_len, day[length]);
        printf("%s%s", length == 0 ? "" : " ", day[length]);
    }
    walked = plans_walk(table, table_len, row, length, work, sizeof work);
    if (walked.refusal != PLANS_OK)
        printf(": refused %u, %s\n", walked.refusal, plans_refusal_text(walked.refusal));
    else if (walked.outcome == PLANS_STOPS)
        printf(": not allowed, stops before %s\n", day[walked.walked]);
    else
        printf(": %s\n", walked.outcome == PLANS_ADMITTED ? "allowed" : "on the way");
}

int main(void)
{
    plans_writer book = plans_write_to(book_bytes, sizeof book_bytes);
    size_t list_len;
    plans_built built;
    int days;

    for (size_t i = 0; i < NAMES; i++)
        plans_write_name(&book, names[i]);
    list_len = book.length;
    plans_write_class(&book, PLANS_CONTEXT, 2, 1);
    if (book.overflowed)
        return 1;
    read_days(&book, list_len, dated);
    days = read_days(&book, list_len, plan);
    if (days < 1) /* refused; or the plan has no day, and a book needs a row */
        return 1;
    print_rows(&book);
    built = plans_build(book.bytes, book.length, work, sizeof work, table, sizeof table);
    if (built.refusal != PLANS_OK) {
        printf("refused %u, %s\n", built.refusal, plans_refusal_text(built.refusal));
        return 1;
    }
    printf("%d days, %u of them different, a model of %u states\n", days, (unsigned)built.distinct, (unsigned)built.states);
    for (size_t i = 0; i < ASKED; i++)
        ask(asked[i], built.length);
    return 0;
}

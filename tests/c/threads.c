/* Eight threads call the library at the same time, each with areas of its own, on one book and one plan that all read: each must get
 * what one thread alone got. scripts/test-install builds it with the thread sanitizer. The last line is 'N passed, M failed'. */
#include <pthread.h>
#include <stdio.h>
#include <string.h>

#include "plans_fields.h"

enum { THREADS = 8, ROUNDS = 200 };

/* What one thread lends, and what it gets. */
typedef struct {
    uint8_t work[PLANS_WORK_BYTES];
    uint8_t table[PLANS_TABLE_BYTES];
    uint8_t again[PLANS_TABLE_BYTES];
    uint8_t counts[PLANS_COUNTS_BYTES];
    uint8_t text[PLANS_LISTING_BYTES];
    uint8_t rows[PLANS_ROWS_BYTES];
    size_t table_len;
    size_t counts_len;
    size_t text_len;
    size_t rows_len;
    uint32_t distinct;
    plans_walked walked;
    unsigned wrong;
} areas;

static const uint8_t day[] = {1, 3, 0};
static const char plan[] = "<week><dinner><snack/>soup<lunch /></dinner><dinner/></week>";
static uint8_t book_bytes[256];
static plans_writer book;
static size_t list_len; /* the book's names, which are its first bytes */
static areas alone;
static areas lent[THREADS];

/* Worked day P6 of docs/SCOPE.md, with a copy of its first row. */
static void write_book(void)
{
    static const char *const names[] = {"breakfast", "dinner", "lunch", "snack"};
    static const uint8_t days[4][3] = {{0, 3, 2}, {1, 3, 2}, {0, 3, 0}, {0, 3, 2}};

    book = plans_write_to(book_bytes, sizeof book_bytes);
    for (size_t i = 0; i < 4; i++)
        plans_write_name(&book, names[i]);
    list_len = book.length;
    plans_write_class(&book, PLANS_CONTEXT, 2, 1);
    for (size_t i = 0; i < 4; i++)
        plans_write_row(&book, days[i], sizeof days[i]);
}

/* Every call once. Returns whether none was refused, and the table rewritten, and that built with counts, is the table. */
static int call_all(areas *to)
{
    plans_counted counted = plans_build_counted(book.bytes, book.length, to->work, sizeof to->work, to->again, sizeof to->again,
                                                to->counts, sizeof to->counts);
    plans_built built = plans_build(book.bytes, book.length, to->work, sizeof to->work, to->table, sizeof to->table);
    int same_table = counted.length == built.length && memcmp(to->again, to->table, built.length) == 0;
    plans_rewritten again = plans_rewrite(to->table, built.length, to->work, sizeof to->work, to->again, sizeof to->again);
    plans_written written = plans_list(book.bytes, book.length, to->work, sizeof to->work, to->text, sizeof to->text);
    plans_plan_rows read = plans_read_rows((const uint8_t *)plan, strlen(plan), book.bytes, list_len, 1, to->work, sizeof to->work,
                                           to->rows, sizeof to->rows);

    to->walked = plans_walk(to->table, built.length, day, sizeof day, to->work, sizeof to->work);
    to->table_len = built.length;
    to->counts_len = counted.counts_length;
    to->text_len = written.length;
    to->rows_len = read.length;
    to->distinct = built.distinct;
    return built.refusal == PLANS_OK && counted.refusal == PLANS_OK && same_table && again.refusal == PLANS_OK &&
           written.refusal == PLANS_OK && to->walked.refusal == PLANS_OK && read.refusal == PLANS_OK && read.rows == 2 &&
           again.length == built.length && memcmp(to->again, to->table, built.length) == 0;
}

static int as_alone(const areas *to)
{
    return to->table_len == alone.table_len && memcmp(to->table, alone.table, alone.table_len) == 0 &&
           to->counts_len == alone.counts_len && memcmp(to->counts, alone.counts, alone.counts_len) == 0 &&
           to->text_len == alone.text_len && memcmp(to->text, alone.text, alone.text_len) == 0 &&
           to->rows_len == alone.rows_len && memcmp(to->rows, alone.rows, alone.rows_len) == 0 && to->distinct == alone.distinct &&
           to->walked.outcome == alone.walked.outcome && to->walked.walked == alone.walked.walked &&
           to->walked.next_names == alone.walked.next_names && to->walked.next_count == alone.walked.next_count;
}

static void *call_often(void *own)
{
    areas *to = (areas *)own;

    for (unsigned i = 0; i < ROUNDS; i++)
        to->wrong += !(call_all(to) && as_alone(to));
    return NULL;
}

int main(void)
{
    pthread_t threads[THREADS];
    unsigned failed = 0;

    write_book();
    if (!call_all(&alone) || alone.walked.outcome != PLANS_ADMITTED || alone.distinct != 3) {
        printf("FAILED: one thread alone\n0 passed, 1 failed\n");
        return 1;
    }
    for (size_t i = 0; i < THREADS; i++)
        if (pthread_create(&threads[i], NULL, call_often, &lent[i]) != 0)
            return 2;
    for (size_t i = 0; i < THREADS; i++)
        failed += pthread_join(threads[i], NULL) != 0 || lent[i].wrong > 0;
    printf("%u passed, %u failed\n", THREADS - failed, failed);
    return failed != 0;
}

#include <stdio.h>
#include <stdlib.h>
#include <string.h>

#include "lent.h"
#include "plans_fields.h"

enum { BEFORE = 0xEE };

static unsigned passed;
static unsigned failed;

void check(const char *what, int holds)
{
    if (holds) {
        passed++;
    } else {
        failed++;
        printf("FAILED: %s\n", what);
    }
}

unsigned summed_up(void)
{
    printf("%u passed, %u failed\n", passed, failed);
    return failed;
}

uint8_t *lend(size_t length)
{
    uint8_t *buffer;

    if (length == 0)
        return NULL;
    buffer = malloc(length);
    if (buffer == NULL) {
        printf("FAILED: no memory\n");
        exit(1);
    }
    memset(buffer, BEFORE, length);
    return buffer;
}

uint8_t *lend_copy(const uint8_t *bytes, size_t length)
{
    uint8_t *buffer = lend(length);

    if (length > 0)
        memcpy(buffer, bytes, length);
    return buffer;
}

static int all_are(uint8_t value, const uint8_t *bytes, size_t from, size_t to)
{
    for (size_t i = from; i < to; i++)
        if (bytes[i] != value)
            return 0;
    return 1;
}

static int same(const uint8_t *bytes, const uint8_t *others, size_t length)
{
    return length == 0 || memcmp(bytes, others, length) == 0;
}

/* The buffers lent to a call that writes. */
typedef struct {
    uint8_t *input;
    uint8_t *work;
    size_t work_len;
    uint8_t *out;
    size_t out_len;
} lent;

static lent lend_all(const writing *from, size_t work_len, size_t out_len)
{
    lent all = {lend_copy(from->bytes, from->length), lend(work_len), work_len, lend(out_len), out_len};

    return all;
}

/* A look at every byte of an output, of which `length` were written; they go to `to`. */
static void take_output(uint8_t *out, size_t out_len, size_t length, writing *to)
{
    check("what is written fits the output", length <= out_len);
    check("the output beyond it is as it was", all_are(BEFORE, out, length, out_len));
    if (length > 0)
        memcpy(to->bytes, out, length);
    to->length = length;
    free(out);
}

/* A look at every byte lent; `length` of the output's were written, and go to `to`. */
static void take_back(lent all, const writing *from, size_t length, writing *to)
{
    check("the working area is zero after the call", all_are(0, all.work, 0, all.work_len));
    check("the input is as it was", same(all.input, from->bytes, from->length));
    take_output(all.out, all.out_len, length, to);
    free(all.input);
    free(all.work);
}

plans_built build(const writing *book, size_t work_len, size_t out_len, writing *table)
{
    lent all = lend_all(book, work_len, out_len);
    plans_built built = plans_build(all.input, book->length, all.work, work_len, all.out, out_len);

    if (built.refusal != PLANS_OK)
        check("a refusal gives zeros else", !built.length && !built.states && !built.joins && !built.distinct);
    else
        check("an accepted book has 1 to 256 different rows", built.distinct >= 1 && built.distinct <= PLANS_BOOK_ROWS);
    take_back(all, book, built.length, table);
    return built;
}

plans_counted build_counted(const writing *book, size_t work_len, size_t out_len, size_t counts_len, writing *table, writing *counts)
{
    lent all = lend_all(book, work_len, out_len);
    uint8_t *to = lend(counts_len);
    plans_counted counted = plans_build_counted(all.input, book->length, all.work, work_len, all.out, out_len, to, counts_len);

    if (counted.refusal != PLANS_OK)
        check("a refusal gives zeros else",
              !counted.length && !counted.states && !counted.joins && !counted.distinct && !counted.counts_length);
    take_back(all, book, counted.length, table);
    take_output(to, counts_len, counted.counts_length, counts);
    return counted;
}

plans_rewritten rewrite(const writing *from, size_t work_len, size_t out_len, writing *table)
{
    lent all = lend_all(from, work_len, out_len);
    plans_rewritten rewritten = plans_rewrite(all.input, from->length, all.work, work_len, all.out, out_len);

    if (rewritten.refusal != PLANS_OK)
        check("a refusal gives zeros else", !rewritten.length && !rewritten.states);
    take_back(all, from, rewritten.length, table);
    return rewritten;
}

plans_written list(const writing *book, size_t work_len, size_t text_len, writing *text)
{
    lent all = lend_all(book, work_len, text_len);
    plans_written written = plans_list(all.input, book->length, all.work, work_len, all.out, text_len);

    check("what is written has a length, and a refusal has none", (written.refusal == PLANS_OK) == (written.length > 0));
    take_back(all, book, written.length, text);
    return written;
}

plans_walked walk(const writing *table, const uint8_t *row, size_t row_len, size_t work_len)
{
    uint8_t *input = lend_copy(table->bytes, table->length);
    uint8_t *names = lend_copy(row, row_len);
    uint8_t *work = lend(work_len);
    plans_walked walked = plans_walk(input, table->length, names, row_len, work, work_len);

    check("the working area is zero after the walk", all_are(0, work, 0, work_len));
    check("the table is as it was", same(input, table->bytes, table->length));
    check("the row is as it was", same(names, row, row_len));
    if (walked.refusal != PLANS_OK)
        check("a refused walk gives zeros else", !walked.outcome && !walked.next_count && !walked.walked && !walked.next_names);
    free(input);
    free(names);
    free(work);
    return walked;
}

plans_plan_rows read_rows(const writing *plan, const writing *list, uint8_t chosen, size_t work_len, size_t out_len, writing *rows)
{
    lent all = lend_all(plan, work_len, out_len);
    uint8_t *names = lend_copy(list->bytes, list->length);
    plans_plan_rows read = plans_read_rows(all.input, plan->length, names, list->length, chosen, all.work, work_len, all.out, out_len);

    check("the list of names is as it was", same(names, list->bytes, list->length));
    check("rows have a length, and none has none", (read.rows > 0) == (read.length > 0));
    if (read.refusal != PLANS_OK)
        check("a refusal gives zeros else", read.length == 0 && read.rows == 0);
    if (read.refusal < PLANS_BAD_PLAN)
        check("14, 15 and 16 alone have a place", read.at == 0);
    take_back(all, plan, read.length, rows);
    free(names);
    return read;
}

void put_field(writing *to, uint8_t mark, const void *content, size_t length)
{
    plans_writer writer = plans_write_to(to->bytes, sizeof to->bytes);

    writer.length = to->length;
    check("the field fits", plans_write_field(&writer, mark, content, length));
    to->length = writer.length;
}

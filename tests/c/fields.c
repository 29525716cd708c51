/* include/plans_fields.h: fields written into buffers of every size, and read from bytes cut at every length. Every buffer has exactly
 * the length that is handed in, so that a sanitizer sees a byte read or written beside it. The last line is 'N passed, M failed'. */
#include <stdio.h>
#include <stdlib.h>
#include <string.h>

#include "lent.h"
#include "plans_fields.h"

/* The example book of docs/FORMATS.md. */
static const uint8_t book[] = {
    0x01, 0x00, 0x05, 0x6C, 0x75, 0x6E, 0x63, 0x68, 0x01, 0x00, 0x05, 0x73, 0x6E, 0x61, 0x63, 0x6B, 0x02, 0x00, 0x03,
    0x00, 0x01, 0x01, 0x03, 0x00, 0x01, 0x00, 0x03, 0x00, 0x03, 0x00, 0x01, 0x01,
};

enum { FIELDS = 5 };

/* Where each of its fields ends. */
static const size_t ends[FIELDS] = {8, 16, 22, 26, 32};

static void write_all(plans_writer *to)
{
    static const uint8_t row[] = {0, 1, 1};

    plans_write_name(to, "lunch");
    plans_write_name(to, "snack");
    plans_write_class(to, PLANS_CONTEXT, 1, 1);
    plans_write_row(to, row, 1);
    plans_write_row(to, row, sizeof row);
}

/* How many fields are whole within so many bytes. */
static size_t whole(size_t length)
{
    size_t count = 0;

    while (count < FIELDS && ends[count] <= length)
        count++;
    return count;
}

/* What fits is written; the first that does not fit is not, nor is any after it. */
static void write_into(size_t size)
{
    uint8_t *bytes = lend(size);
    plans_writer to = plans_write_to(bytes, size);
    size_t fit = whole(size);
    int one_more;

    write_all(&to);
    check("as many fields are written as fit", to.length == (fit == 0 ? 0 : ends[fit - 1]));
    check("byte by byte", to.length == 0 || memcmp(bytes, book, to.length) == 0);
    check("whether one did not fit is told", to.overflowed == (fit < FIELDS));
    one_more = fit == FIELDS && size - to.length >= PLANS_FIELD_FRONT;
    check("an empty row fits or not, and nothing is written after an overflow", plans_write_row(&to, NULL, 0) == one_more);
    free(bytes);
}

/* Whole fields are read, then it stops where the next begins. */
static void read_from(size_t length)
{
    uint8_t *bytes = lend_copy(book, length);
    plans_reader from = plans_read_from(bytes, length);
    plans_field field;
    size_t count = 0;

    for (; plans_read_field(&from, &field); count++) {
        size_t start = count == 0 ? 0 : ends[count - 1];

        check("a field's mark", field.mark == book[start]);
        check("a field's content", field.content == bytes + start + 3 && field.content + field.length == bytes + ends[count]);
    }
    check("the fields that are whole are read", count == whole(length));
    check("where it stops", from.at == (count == 0 ? 0 : ends[count - 1]));
    free(bytes);
}

static void names_and_numbers(size_t length)
{
    uint8_t *bytes = lend_copy(book, length);
    plans_field name = {0, NULL, 0};

    check("name 0", plans_name_of(bytes, length, 0, &name) == (length >= 8));
    check("its bytes", length < 8 ? name.content == NULL : name.length == 5 && memcmp(name.content, "lunch", 5) == 0);
    check("name 1", plans_name_of(bytes, length, 1, &name) == (length >= 16));
    check("there is no name 2", !plans_name_of(bytes, length, 2, &name));
    check("lunch is 0", plans_number_of(bytes, length, "lunch") == (length >= 8 ? 0 : -1));
    check("snack is 1", plans_number_of(bytes, length, "snack") == (length >= 16 ? 1 : -1));
    check("a beginning of a name is none", plans_number_of(bytes, length, "lun") == -1);
    check("more than a name is none", plans_number_of(bytes, length, "lunches") == -1);
    check("nothing is no name", plans_number_of(bytes, length, "") == -1);
    free(bytes);
}

/* The longest content has 65,535 bytes. */
static void longest_content(void)
{
    static uint8_t content[0x10000];
    static uint8_t bytes[0x20000];
    plans_writer to = plans_write_to(bytes, sizeof bytes);
    plans_reader from;
    plans_field field;

    memset(content, 0xEE, sizeof content);
    check("65,535 bytes are written", plans_write_field(&to, PLANS_ROW_MARK, content, 0xFFFF) && to.length == 3 + 0xFFFF);
    check("65,536 are not", !plans_write_field(&to, PLANS_ROW_MARK, content, 0x10000) && to.length == 3 + 0xFFFF);
    from = plans_read_from(bytes, to.length);
    check("they are read", plans_read_field(&from, &field) && field.length == 0xFFFF && memcmp(field.content, content, 0xFFFF) == 0);
    check("and nothing more", !plans_read_field(&from, &field) && from.at == from.length);
}

/* The numbers of a counts file of two states, cut at every length: only those of whole fields are there. */
static void counts_of_states(void)
{
    static const uint8_t counts[] = {0x05, 0x00, 0x04, 0x00, 0x00, 0x27, 0x10, 0x05, 0x00, 0x02, 0x01, 0x00};
    static const uint8_t other[] = {0x04, 0x00, 0x02, 0x00, 0x01};

    for (size_t length = 0; length <= sizeof counts; length++) {
        uint8_t *bytes = lend_copy(counts, length);

        check("state 0's ends", plans_count_of(bytes, length, 0, 0) == (length >= 7 ? 0 : -1));
        check("its arc's passes", plans_count_of(bytes, length, 0, 1) == (length >= 7 ? 10000 : -1));
        check("it has one arc", plans_count_of(bytes, length, 0, 2) == -1);
        check("state 1's ends", plans_count_of(bytes, length, 1, 0) == (length >= 12 ? 256 : -1));
        check("it has no arc", plans_count_of(bytes, length, 1, 1) == -1);
        check("there is no state 2", plans_count_of(bytes, length, 2, 0) == -1);
        free(bytes);
    }
    check("a state of a table has no counts", plans_count_of(other, sizeof other, 0, 0) == -1);
}

static void words_of_refusals(void)
{
    check("the words for 0", strcmp(plans_refusal_text(PLANS_OK), "no refusal") == 0);
    for (unsigned one = 0; one < 17; one++)
        for (unsigned other = 0; other <= 17; other++)
            check("other words for another", one == other || strcmp(plans_refusal_text(one), plans_refusal_text(other)) != 0);
    check("17 is no refusal's number", strcmp(plans_refusal_text(17), plans_refusal_text(255)) == 0);
}

int main(void)
{
    for (size_t length = 0; length <= sizeof book; length++) {
        write_into(length);
        read_from(length);
        names_and_numbers(length);
    }
    write_into(sizeof book + 2);
    write_into(sizeof book + 3);
    longest_content();
    counts_of_states();
    words_of_refusals();
    return summed_up() != 0;
}

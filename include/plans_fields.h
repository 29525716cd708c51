/*
 * Books, tables, lists of names and counts written and read field by field, for C99 and C++. There is nothing to link, nothing is
 * allocated, and no byte outside the buffers that are handed in is read or written.
 *
 * A book is written name by name, then its class, then row by row:
 *
 *     static uint8_t bytes[PLANS_INPUT_LIMIT];
 *     const uint8_t day[] = {0, 1};
 *     plans_writer book = plans_write_to(bytes, sizeof bytes);
 *
 *     plans_write_name(&book, "lunch");   (names in ascending byte order, which is strcmp's; the first is number 0)
 *     plans_write_name(&book, "snack");
 *     plans_write_class(&book, PLANS_CONTEXT, 2, 1);
 *     plans_write_row(&book, day, sizeof day);
 *     if (book.overflowed)
 *         ..                              (the buffer was too short)
 *     built = plans_build(book.bytes, book.length, ..);
 *
 * The names alone are a list of names, as plans_read_rows takes it; behind them and the class it can write the rows of plans straight
 * into the book's buffer, as examples/rows.c does.
 *
 * Nothing is judged here but lengths: whether names, class and rows are such as a book may have is what plans_build says.
 */
#ifndef PLANS_FIELDS_H
#define PLANS_FIELDS_H

#include <string.h>

#include "plans.h"

/* The bytes before a field's content: its mark, and the content's length in two bytes, the high byte first. */
#define PLANS_FIELD_FRONT 3

/* A buffer while fields are written into it. */
typedef struct {
    uint8_t *bytes;
    size_t size;    /* the buffer's length */
    size_t length;  /* how many bytes of it are written */
    int overflowed; /* 1 once a field did not fit. It is not written, nor is any field after it, so one look at the end is enough */
} plans_writer;

/* One field. Its content is a part of the bytes that were read; no 0 byte follows it. */
typedef struct {
    uint8_t mark; /* PLANS_NAME_MARK, PLANS_CLASS_MARK, PLANS_ROW_MARK or PLANS_STATE_MARK in what a call accepts; and
                     PLANS_COUNT_MARK in what plans_build_counted writes to `counts` */
    const uint8_t *content;
    size_t length;
} plans_field;

/* Bytes while fields are read from them. */
typedef struct {
    const uint8_t *bytes;
    size_t length;
    size_t at; /* where the next field begins; `length` when all are read */
} plans_reader;

/* A writer at the front of a buffer of `size` bytes. */
static inline plans_writer plans_write_to(uint8_t *bytes, size_t size)
{
    plans_writer to;

    to.bytes = bytes;
    to.size = size;
    to.length = 0;
    to.overflowed = 0;
    return to;
}

/* Writes one field, and returns 1; or 0 where it does not fit, where its content is over 65,535 bytes, and after an overflow. */
static inline int plans_write_field(plans_writer *to, uint8_t mark, const void *content, size_t length)
{
    size_t room = to->size - to->length;

    if (to->overflowed || length > 0xFFFF || room < PLANS_FIELD_FRONT || room - PLANS_FIELD_FRONT < length) {
        to->overflowed = 1;
        return 0;
    }
    to->bytes[to->length] = mark;
    to->bytes[to->length + 1] = (uint8_t)(length >> 8);
    to->bytes[to->length + 2] = (uint8_t)length;
    if (length > 0)
        memcpy(to->bytes + to->length + PLANS_FIELD_FRONT, content, length);
    to->length += PLANS_FIELD_FRONT + length;
    return 1;
}

/* Writes a name, up to its 0 byte. */
static inline int plans_write_name(plans_writer *to, const char *name)
{
    return plans_write_field(to, PLANS_NAME_MARK, name, strlen(name));
}

/* Writes a class: PLANS_CONTEXT, k, h; PLANS_SEEN_SET, 0, 0; or PLANS_LAST_NAMES, j, 0. */
static inline int plans_write_class(plans_writer *to, uint8_t kind, uint8_t first, uint8_t second)
{
    const uint8_t content[] = {kind, first, second};

    return plans_write_field(to, PLANS_CLASS_MARK, content, sizeof content);
}

/* Writes a row: in each byte a name's number. An empty row is a row. */
static inline int plans_write_row(plans_writer *to, const uint8_t *row, size_t length)
{
    return plans_write_field(to, PLANS_ROW_MARK, row, length);
}

/* A reader at the front of `length` bytes. */
static inline plans_reader plans_read_from(const uint8_t *bytes, size_t length)
{
    plans_reader from;

    from.bytes = bytes;
    from.length = length;
    from.at = 0;
    return from;
}

/*
 * Reads the next field, and returns 1; or 0 where no whole field is left, and `field` is as it was. `at` tells the two cases of 0
 * apart: it is `length` at the end of the bytes, and less where a field is cut off.
 */
static inline int plans_read_field(plans_reader *from, plans_field *field)
{
    size_t left = from->length - from->at;
    const uint8_t *front;
    size_t length;

    if (left < PLANS_FIELD_FRONT)
        return 0;
    front = from->bytes + from->at;
    length = (size_t)front[1] << 8 | front[2];
    if (left - PLANS_FIELD_FRONT < length)
        return 0;
    field->mark = front[0];
    field->content = front + PLANS_FIELD_FRONT;
    field->length = length;
    from->at += PLANS_FIELD_FRONT + length;
    return 1;
}

/* The name with this number, in a book, a table or a list: 1, and its field; or 0 where there is none, and `name` is left as it was. */
static inline int plans_name_of(const uint8_t *bytes, size_t length, unsigned number, plans_field *name)
{
    plans_reader from = plans_read_from(bytes, length);
    plans_field field;

    while (plans_read_field(&from, &field) && field.mark == PLANS_NAME_MARK) {
        if (number == 0) {
            *name = field;
            return 1;
        }
        number--;
    }
    return 0;
}

/* The number of a name, in a book, a table or a list: what stands for the name in a row; or -1 where there is no such name. */
static inline int plans_number_of(const uint8_t *bytes, size_t length, const char *name)
{
    plans_reader from = plans_read_from(bytes, length);
    plans_field field;
    int number = 0;

    while (plans_read_field(&from, &field) && field.mark == PLANS_NAME_MARK) {
        if (field.length == strlen(name) && memcmp(field.content, name, field.length) == 0)
            return number;
        number++;
    }
    return -1;
}

/*
 * One number of a counts file, of the state with this number: at place 0 how many rows end in it, at place 1 how often its first arc is
 * passed, at place 2 its second, and so on, in the table's order; or -1 where there is no such state or place.
 */
static inline int plans_count_of(const uint8_t *counts, size_t length, unsigned state, size_t place)
{
    plans_reader from = plans_read_from(counts, length);
    plans_field field;

    while (plans_read_field(&from, &field) && field.mark == PLANS_COUNT_MARK) {
        if (state == 0)
            return place < field.length / 2 ? field.content[2 * place] << 8 | field.content[2 * place + 1] : -1;
        state--;
    }
    return -1;
}

#endif

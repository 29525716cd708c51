/*
 * Content models of meal plans: the calls for C and C++, on x86-64 Linux. After `make install`:
 *
 *     cc tablet.c $(pkg-config --cflags --libs plans)
 *
 * plans_fields.h, beside this file, writes and reads the fields that books and tables consist of; examples/days.c goes with it from
 * strings to answers in names.
 *
 * What holds of every call:
 * - Every buffer is the caller's, before and after. Nothing is allocated, nothing is kept between calls, and a call writes to no
 *   memory but the buffers that its comment says it writes.
 * - A buffer is given by its first byte and its length in bytes; where the length is 0 the pointer is not read, and may be null.
 * - The caller's duties, which a call cannot see, and without which nothing is promised: each buffer has the length that is said; a
 *   buffer that a call writes overlaps no other buffer of that call (those that are only read may overlap); and nobody else touches
 *   the buffers during the call.
 * - Any bytes may be passed as book, table, row, plan and list of names: what is wrong with them is told by a refusal.
 * - The working area is of PLANS_WORK_BYTES or more. What it holds before the call does not matter. After the call every byte of
 *   it is 0, also where the call is refused, and also where the area was too short.
 * - A call uses no global state: calls on different buffers may run at the same time. It takes less than 40 KiB of stack (measured,
 *   docs/FIGURES.md).
 * - The library takes two symbols from outside, memcpy and memset.
 * - plans_build, plans_build_counted, plans_rewrite and plans_walk execute no division: their sources divide by nothing but 256, to
 *   split a number into its bytes, which the compiler does by shifts (both checked, docs/PROOFS.md).
 */
#ifndef PLANS_H
#define PLANS_H

#include <stddef.h>
#include <stdint.h>

#ifdef __cplusplus
extern "C" {
#endif

/* The version of this header and of the library beside it. scripts/header writes this line from the file VERSION. */
#define PLANS_VERSION "3.2.0"

/* The least length of a working area, in bytes. */
#define PLANS_WORK_BYTES 65536

/* The longest table, book, plan or list of names, in bytes. */
#define PLANS_INPUT_LIMIT 65535

/* No table that plans_build writes is longer, in bytes (proved). A table from elsewhere may have up to PLANS_INPUT_LIMIT. */
#define PLANS_TABLE_BYTES 5830

/* No counts file that plans_build_counted writes is longer, in bytes (proved). */
#define PLANS_COUNTS_BYTES 3584

/* A text of so many bytes is long enough for the listing of every book (proved). */
#define PLANS_LISTING_BYTES 32768

/* At most so many names, each of 1 to so many bytes. */
#define PLANS_NAME_LIMIT 64
#define PLANS_NAME_BYTES 32

/* At most so many rows in a book, and from a plan, each of 0 to so many entries; a row that is walked has the same limit. */
#define PLANS_BOOK_ROWS 256
#define PLANS_ROW_LIMIT 40

/* An output of so many bytes is long enough for the rows of every plan (proved): so many rows, each of 3 bytes and up to so many
 * entries. */
#define PLANS_ROWS_BYTES (PLANS_BOOK_ROWS * (3 + PLANS_ROW_LIMIT))

/* At most so many states, of a table and of a book's prefix tree. */
#define PLANS_STATE_LIMIT 512

/* At most so many elements of a plan are open at one time: an element may stand inside 15 others, and not inside 16. */
#define PLANS_PLAN_DEPTH 16

/* k of a context and j of last names are at most this. */
#define PLANS_SETTING_LIMIT 8

/* The marks of fields: a field is its mark, its content's length in two bytes, the high byte first, and its content. A book is
 * names, at most one class, and rows; a table is names, one class, and states; a list of names is names alone; a counts file is counts
 * alone. */
enum {
    PLANS_NAME_MARK = 1,  /* names stand in strictly ascending byte order and are numbered from 0 */
    PLANS_CLASS_MARK = 2, /* three bytes: kind and two settings */
    PLANS_ROW_MARK = 3,   /* in each byte a name's number */
    PLANS_STATE_MARK = 4, /* 1 accepting or 0 not; then for each arc a name's number and a target of two bytes */
    PLANS_COUNT_MARK = 5  /* of one state: numbers of two bytes, how many rows end in it, then how often each of its arcs is passed */
};

/* The kinds of classes, with their settings. A book without a class has PLANS_CONTEXT, 2, 1. */
enum {
    PLANS_CONTEXT = 0,   /* k from 1 to 8, h from 1 to k */
    PLANS_SEEN_SET = 1,  /* 0, 0 */
    PLANS_LAST_NAMES = 2 /* j from 0 to 8, 0 */
};

/* What `refusal` says: 0, or the one refusal. plans_refusal_text, below, has the words for each. */
enum {
    PLANS_OK = 0,
    PLANS_BAD_SIZES = 1,
    PLANS_CUT_OFF = 2,
    PLANS_MISPLACED = 3,
    PLANS_UNFINISHED = 4,
    PLANS_BAD_NAME = 5,
    PLANS_NAME_ORDER = 6,
    PLANS_TOO_MANY = 7,
    PLANS_BAD_CLASS = 8,
    PLANS_BAD_ROW = 9,
    PLANS_TREE_TOO_LARGE = 10,
    PLANS_BAD_STATE = 11,
    PLANS_BAD_NUMBERING = 12,
    PLANS_OUTPUT_TOO_SHORT = 13,
    PLANS_BAD_PLAN = 14,
    PLANS_TOO_DEEP = 15,
    PLANS_UNKNOWN_CHILD = 16
};

/* What `outcome` says of a walk that is not refused. */
enum {
    PLANS_ADMITTED = 1,   /* the row is admitted */
    PLANS_ON_THE_WAY = 2, /* it is not, but some admitted row, of any length, begins with it */
    PLANS_STOPS = 3       /* no admitted row begins with it */
};

/* What building a table gives back. Where it is refused, all but `refusal` is 0. */
typedef struct {
    uint8_t refusal;   /* 0, or the refusal */
    uint32_t length;   /* the table's length in bytes */
    uint32_t states;   /* how many states it has */
    uint32_t joins;    /* states of the prefix tree less states of the table */
    uint32_t distinct; /* how many different rows the book has, each counted once: at least 1, at most the book's rows */
} plans_built;

/* What building a table with its counts gives back: the same, and the length of the counts. Where it is refused, all but `refusal`
 * is 0. */
typedef struct {
    uint8_t refusal;        /* 0, or the refusal */
    uint32_t length;        /* the table's length in bytes */
    uint32_t states;        /* how many states it has */
    uint32_t joins;         /* states of the prefix tree less states of the table */
    uint32_t distinct;      /* how many different rows the book has */
    uint32_t counts_length; /* the length of the counts in bytes */
} plans_counted;

/* What rewriting a table gives back. Where it is refused, all but `refusal` is 0. A table does not say how many joins or different
 * rows there were. */
typedef struct {
    uint8_t refusal; /* 0, or the refusal */
    uint32_t length; /* the table's length in bytes */
    uint32_t states; /* how many states it has */
} plans_rewritten;

/* What a call that writes a text gives back. */
typedef struct {
    uint8_t refusal; /* 0, or the refusal */
    uint32_t length; /* how many bytes were written; 0 where the call is refused */
} plans_written;

/* What a walk gives back. Where it is refused, all but `refusal` is 0. */
typedef struct {
    uint8_t refusal;     /* 0, or the refusal */
    uint8_t outcome;     /* PLANS_ADMITTED, PLANS_ON_THE_WAY or PLANS_STOPS */
    uint8_t next_count;  /* how many names may come next */
    uint32_t walked;     /* row[0] to row[walked - 1] is the longest beginning of the row that begins an admitted row */
    uint64_t next_names; /* the names that may come next: with them this beginning still begins an admitted row; bit n for name n */
} plans_walked;

/* What reading a plan's rows gives back. Where it is refused, `length` and `rows` are 0, and `at` is 0 but for 14, 15 and 16. */
typedef struct {
    uint8_t refusal; /* 0, or the refusal */
    uint32_t length; /* how many bytes of row fields were written; 0 where the plan has no element of the chosen name */
    uint32_t rows;   /* how many rows they are */
    uint32_t at;     /* of 14, 15 and 16: the place in the plan, a byte counted from 0; else 0 */
} plans_plan_rows;

/*
 * Builds the table of a book, to the front of `out`: the prefix tree of its rows, joined by the rules of its class until none
 * applies, its states numbered first-met. Every book with the same names, class and set of rows gives the same bytes, and the same
 * `distinct`, which is the size of that set: of forty rows with `distinct` 10, thirty are copies of others.
 * Reads `book`; writes `work` (zeros) and `out`. Bytes of `out` beyond the table are left as they were, and where the call is
 * refused all of `out` is. Refusals, the first that applies: 1; those of the fields, in the book's order; 10; 13. An output of
 * PLANS_TABLE_BYTES is always enough.
 */
plans_built plans_build(const uint8_t *book, size_t book_len,
                        uint8_t *work, size_t work_len,
                        uint8_t *out, size_t out_len);

/*
 * Builds the table of a book as plans_build does, to the same bytes, numbers and refusals, and writes to the front of `counts` how
 * often each state and each arc is used by the book's rows, copies of a row counted each: for each state, in the table's order, a
 * field of mark 05 whose bytes are numbers of two bytes, high byte first: how many rows end in the state, then how often the rows
 * pass each of its arcs, in the table's order. A row that passes an arc twice counts two there. No number is over 10,240.
 * Reads `book`; writes `work` (zeros), `out` and `counts`. Bytes beyond the table and beyond the counts are left as they were, and
 * where the call is refused all of `out` and of `counts` is. Refusals, the first that applies: 1; those of the fields, in the book's
 * order; 10; 13, for either output. PLANS_TABLE_BYTES and PLANS_COUNTS_BYTES are always enough.
 */
plans_counted plans_build_counted(const uint8_t *book, size_t book_len,
                                  uint8_t *work, size_t work_len,
                                  uint8_t *out, size_t out_len,
                                  uint8_t *counts, size_t counts_len);

/*
 * Reads the table and writes it again to the front of `out`. An accepted table is written to the same bytes.
 * Reads `table`; writes `work` (zeros) and `out`. Bytes of `out` beyond the table are left as they were, and where the call is
 * refused all of `out` is. Refusals, the first that applies: 1; those of the fields, in the table's order; 12; 13.
 */
plans_rewritten plans_rewrite(const uint8_t *table, size_t table_len,
                              uint8_t *work, size_t work_len,
                              uint8_t *out, size_t out_len);

/*
 * Walks the row, a name's number in each byte, over the table from its state 0: tells whether the row is admitted or begins an admitted
 * row, how much of it does, and which names may come next. In a table from elsewhere a state may lead to no accepting state; such a table
 * is legal, and a walk stops before a name that leads to such a state. No table that plans_build writes has one (proved).
 * After PLANS_STOPS row[walked] is the name that may not come, unless the row is empty: where the table admits no row, every row stops,
 * the empty one too, with `walked`, `next_names` and `next_count` 0.
 * Reads `table` and `row`; writes `work` (zeros). Refusals, the first that applies: 1; those of the table's fields, in the table's
 * order; 12; then 9, for the row.
 */
plans_walked plans_walk(const uint8_t *table, size_t table_len,
                        const uint8_t *row, size_t row_len,
                        uint8_t *work, size_t work_len);

/*
 * Writes the listing of a book's table to the front of `text`: the line `states N joins M distinct D`, the three numbers that
 * plans_build gives, then a line for each state: its number, `+` accepting or `-` not, and each arc as name, `>`, target. Every line
 * ends with a newline; no 0 byte is written after the last.
 * Reads `book`; writes `work` (zeros) and `text`. Bytes of `text` beyond the listing are left as they were, and where the call is
 * refused all of `text` is. Refusals, the first that applies: 1; those of the fields, in the book's order; 10; 13. A text of
 * PLANS_LISTING_BYTES is always enough.
 */
plans_written plans_list(const uint8_t *book, size_t book_len,
                         uint8_t *work, size_t work_len,
                         uint8_t *text, size_t text_len);

/*
 * Reads a plan, and writes a row field for each of its elements of one name to the front of `out`, in the order of their start tags:
 * the numbers of the element's children, in their order. `names` is a list of names (name fields, and nothing else); `chosen` is the
 * number of the elements' name in it. The list, a class field or none, and the rows of one plan or more, at least one and at most
 * PLANS_BOOK_ROWS, make a book whose fields plans_build accepts; its prefix tree may still be too large (10).
 * A plan is one outermost element with white space (20 09 0D 0A) around it, of start tags <a>, end tags </a>, empty-element tags <a/>
 * and text of any bytes but < and &. White space may stand right after a tag's name. There are no attributes, comments, declarations
 * or references, and no byte order mark. Names are those of a book. An outermost element of the chosen name, and elements of that name
 * inside one another, each give a row. A plan without such an element gives no row, which is no refusal: `length` and `rows` are 0.
 * Reads `plan` and `names`; writes `work` (zeros) and `out`. Bytes of `out` beyond the rows are left as they were, and where the call is
 * refused all of `out` is. Refusals, the first that applies:
 *   1 for the plan, the list and the working area;
 *   2 to 7 of the list's fields, in its order, 3 for a mark that is no name's, and 4 if the list is empty;
 *   9 where `chosen` is no name's number;
 *   then whichever of these stands first in the plan, the lower number where two stand at one byte; `at` tells that byte:
 *     14 at the first byte, or at the end (`at` is then `plan_len`), that no plan can have there;
 *     15 an element inside PLANS_PLAN_DEPTH others, at the byte after its tag's name;
 *     16 a child of an element of the chosen name that is not in the list, at the byte after its tag's name;
 *   7 for more than PLANS_BOOK_ROWS rows; 9 for a row over PLANS_ROW_LIMIT entries; 13. An output of PLANS_ROWS_BYTES is always enough.
 */
plans_plan_rows plans_read_rows(const uint8_t *plan, size_t plan_len,
                                const uint8_t *names, size_t names_len,
                                uint8_t chosen,
                                uint8_t *work, size_t work_len,
                                uint8_t *out, size_t out_len);

/* What a refusal's number says, in words; never null. scripts/header writes the cases from python/plans/refusals.txt. */
static inline const char *plans_refusal_text(unsigned number)
{
    switch (number) {
    case PLANS_OK: return "no refusal";
    case PLANS_BAD_SIZES: return "the input is over 65,535 bytes, or the working area under 65,536";
    case PLANS_CUT_OFF: return "a field, its mark and length included, runs past the end";
    case PLANS_MISPLACED: return "a mark that is not allowed next";
    case PLANS_UNFINISHED: return "the input ends while a field is still due";
    case PLANS_BAD_NAME: return "a name's length or bytes are wrong";
    case PLANS_NAME_ORDER: return "a name not above the one before";
    case PLANS_TOO_MANY: return "a 65th name, 257th row or 513th state";
    case PLANS_BAD_CLASS: return "a class field of another length or value than allowed";
    case PLANS_BAD_ROW: return "a row over 40 entries, or an entry or chosen number that is no name's";
    case PLANS_TREE_TOO_LARGE: return "the prefix tree needs over 512 states, the root counted";
    case PLANS_BAD_STATE: return "a state field of wrong length, first byte, or arc names";
    case PLANS_BAD_NUMBERING: return "an arc to no state, a state never met, or states not numbered first-met";
    case PLANS_OUTPUT_TOO_SHORT: return "an output is shorter than the table, its counts, the rows or the listing";
    case PLANS_BAD_PLAN: return "a byte, or the end, where no plan has it";
    case PLANS_TOO_DEEP: return "an element inside 16 others";
    case PLANS_UNKNOWN_CHILD: return "a child of an element of the chosen name that is not in the list";
    default: return "no refusal has this number";
    }
}

#ifdef __cplusplus
}
#endif

#endif

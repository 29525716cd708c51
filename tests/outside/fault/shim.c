/* The library with one fault, for scripts/seeded-fault: the calls of include/plans.h handed on to the library's own, which go by
 * real_plans_... there, and one byte or number made wrong, or one rule. The environment's FAULT says which; without it, none is. */
#include <stdlib.h>
#include <string.h>

#include "plans.h"

plans_built real_plans_build(const uint8_t *book, size_t book_len,
                             uint8_t *work, size_t work_len,
                             uint8_t *out, size_t out_len);
plans_counted real_plans_build_counted(const uint8_t *book, size_t book_len,
                                       uint8_t *work, size_t work_len,
                                       uint8_t *out, size_t out_len,
                                       uint8_t *counts, size_t counts_len);
plans_rewritten real_plans_rewrite(const uint8_t *table, size_t table_len,
                                   uint8_t *work, size_t work_len,
                                   uint8_t *out, size_t out_len);
plans_walked real_plans_walk(const uint8_t *table, size_t table_len,
                             const uint8_t *row, size_t row_len,
                             uint8_t *work, size_t work_len);
plans_written real_plans_list(const uint8_t *book, size_t book_len,
                              uint8_t *work, size_t work_len,
                              uint8_t *text, size_t text_len);

plans_plan_rows real_plans_read_rows(const uint8_t *plan, size_t plan_len,
                                     const uint8_t *names, size_t names_len, uint8_t chosen,
                                     uint8_t *work, size_t work_len,
                                     uint8_t *out, size_t out_len);

/* Whether this fault is asked for. */
static int is(const char *fault)
{
    const char *asked = getenv("FAULT");

    return asked != NULL && strcmp(asked, fault) == 0;
}

/* How many rows an accepted book has; without those that are copies of the row before, where they are to be left out. */
static uint32_t rows_of(const uint8_t *book, size_t book_len, int without_copies)
{
    const uint8_t *before = NULL;
    uint32_t rows = 0;

    for (size_t at = 0; at < book_len; at += 3 + (size_t)book[at + 2]) {
        const uint8_t *row = book + at;

        if (row[0] != PLANS_ROW_MARK)
            continue;
        if (!without_copies || before == NULL || memcmp(before, row, 3 + (size_t)row[2]) != 0)
            rows++;
        before = row;
    }
    return rows;
}

/* Whether a row of as many entries as the limit is among fields that were accepted or written. */
static int has_longest(const uint8_t *fields, size_t length)
{
    for (size_t at = 0; at < length; at += 3 + (size_t)fields[at + 2])
        if (fields[at] == PLANS_ROW_MARK && fields[at + 2] == PLANS_ROW_LIMIT)
            return 1;
    return 0;
}

plans_built plans_build(const uint8_t *book, size_t book_len,
                        uint8_t *work, size_t work_len,
                        uint8_t *out, size_t out_len)
{
    plans_built built = real_plans_build(book, book_len, work, work_len, out, out_len);

    if (is("TABLE_BYTE") && built.refusal == PLANS_OK)
        out[built.length - 1] ^= 1;
    if (is("LARGE_TABLE") && built.states > 100)
        out[built.length - 1] ^= 1;
    if (is("BEYOND_TABLE") && built.refusal == PLANS_OK && built.length < out_len)
        out[built.length] ^= 1;
    if (is("WORK_BYTE") && built.refusal != PLANS_OK && work_len > 0)
        work[work_len - 1] = 1;
    if (is("REFUSAL") && built.refusal == PLANS_NAME_ORDER)
        built.refusal = PLANS_BAD_NAME;
    if (is("DISTINCT") && built.refusal == PLANS_OK)
        built.distinct = rows_of(book, book_len, 0);
    if (is("DISTINCT_APART") && built.refusal == PLANS_OK)
        built.distinct = rows_of(book, book_len, 1);
    if (is("DISTINCT_REFUSED") && built.refusal == PLANS_OUTPUT_TOO_SHORT)
        built.distinct = rows_of(book, book_len, 1);
    if (is("LONGEST_IN_BOOK") && built.refusal == PLANS_OK && has_longest(book, book_len))
        built.refusal = PLANS_BAD_ROW;
    return built;
}

/* The book without the rows that are copies of the row before, in a buffer of its own, which the caller frees. */
static uint8_t *without_copies(const uint8_t *book, size_t book_len, size_t *length)
{
    uint8_t *copy = malloc(book_len + 1);
    const uint8_t *before = NULL;

    if (copy == NULL)
        abort();
    *length = 0;
    for (size_t at = 0, field; at < book_len; at += field) {
        field = 3 + (size_t)book[at + 2];
        if (before != NULL && memcmp(before, book + at, field) == 0)
            continue;
        memcpy(copy + *length, book + at, field);
        *length += field;
        before = book[at] == PLANS_ROW_MARK ? book + at : NULL;
    }
    return copy;
}

/* The contents of a table's or a counts file's fields of one mark, by the number of the state, and how many there are. */
static size_t contents(uint8_t *fields, size_t length, uint8_t mark, uint8_t *of_state[PLANS_STATE_LIMIT])
{
    size_t count = 0;

    for (size_t at = 0; at < length; at += 3 + (size_t)(fields[at + 1] << 8 | fields[at + 2]))
        if (fields[at] == mark)
            of_state[count++] = fields + at + 3;
    return count;
}

/* One less, for a number of two bytes. */
static void lower(uint8_t *number)
{
    if (number[1]-- == 0)
        number[0]--;
}

/* Takes from the counts what a row passes of an arc after the first time. */
static void once_a_row(const uint8_t *row, uint8_t *states[PLANS_STATE_LIMIT], uint8_t *counts[PLANS_STATE_LIMIT])
{
    const uint8_t *passed[PLANS_ROW_LIMIT];
    unsigned state = 0;

    for (size_t i = 0; i < row[2]; i++) {
        size_t arc = 0, earlier = 0;

        while (states[state][1 + 3 * arc] != row[3 + i])
            arc++;
        passed[i] = states[state] + 1 + 3 * arc;
        while (passed[earlier] != passed[i])
            earlier++;
        if (earlier < i)
            lower(counts[state] + 2 + 2 * arc);
        state = (unsigned)(passed[i][1] << 8 | passed[i][2]);
    }
}

/* The counts of an accepted book, as if a row counted once for an arc however often it passes it. */
static void once_a_row_all(const uint8_t *book, size_t book_len, plans_counted counted, uint8_t *out, uint8_t *counts)
{
    uint8_t *states[PLANS_STATE_LIMIT], *numbers[PLANS_STATE_LIMIT];

    contents(out, counted.length, PLANS_STATE_MARK, states);
    contents(counts, counted.counts_length, PLANS_COUNT_MARK, numbers);
    for (size_t at = 0; at < book_len; at += 3 + (size_t)book[at + 2])
        if (book[at] == PLANS_ROW_MARK)
            once_a_row(book + at, states, numbers);
}

/* Makes the last number of a counts file 10,000 where it is more. */
static void cap(uint8_t *counts, uint32_t length)
{
    uint8_t *number = counts + length - 2;

    if ((number[0] << 8 | number[1]) > 10000) {
        number[0] = 10000 >> 8;
        number[1] = 10000 & 0xFF;
    }
}

/* The library's call, but the counts output may be too short: then it gets as many bytes as fit. */
static plans_counted with_room(const uint8_t *book, size_t book_len,
                               uint8_t *work, size_t work_len,
                               uint8_t *out, size_t out_len,
                               uint8_t *counts, size_t counts_len)
{
    uint8_t all[PLANS_COUNTS_BYTES];
    plans_counted counted = real_plans_build_counted(book, book_len, work, work_len, out, out_len, all, sizeof all);
    size_t fit = counted.counts_length < counts_len ? counted.counts_length : counts_len;

    if (fit > 0)
        memcpy(counts, all, fit);
    return counted;
}

plans_counted plans_build_counted(const uint8_t *book, size_t book_len,
                                  uint8_t *work, size_t work_len,
                                  uint8_t *out, size_t out_len,
                                  uint8_t *counts, size_t counts_len)
{
    plans_counted counted =
        (is("COUNTS_CUT") ? with_room : real_plans_build_counted)(book, book_len, work, work_len, out, out_len, counts, counts_len);

    if (is("COUNTS_BYTE") && counted.refusal == PLANS_OK)
        counts[counted.counts_length - 1] ^= 1;
    if (is("BEYOND_COUNTS") && counted.refusal == PLANS_OK && counted.counts_length < counts_len)
        counts[counted.counts_length] ^= 1;
    if (is("LARGEST_NUMBER") && counted.refusal == PLANS_OK)
        cap(counts, counted.counts_length);
    if (is("REPEATS") && counted.refusal == PLANS_OK) {
        size_t length;
        uint8_t *copy = without_copies(book, book_len, &length);

        counted = real_plans_build_counted(copy, length, work, work_len, out, out_len, counts, counts_len);
        free(copy);
    }
    if (is("ONCE_A_ROW") && counted.refusal == PLANS_OK)
        once_a_row_all(book, book_len, counted, out, counts);
    if (is("COUNTED_TABLE") && counted.states > 100)
        out[counted.length - 1] ^= 1;
    if (is("COUNTED_DISTINCT") && counted.refusal == PLANS_OK)
        counted.distinct = rows_of(book, book_len, 0);
    if (is("COUNTS_LENGTH") && counted.states > 100)
        counted.counts_length -= 3;
    if (is("COUNTS_LENGTH_REFUSED") && counted.refusal == PLANS_OUTPUT_TOO_SHORT)
        counted.counts_length = (uint32_t)counts_len;
    if (is("COUNTS_TOUCHED") && counted.refusal == PLANS_OUTPUT_TOO_SHORT && counts_len > 0)
        counts[0] ^= 1;
    /* the table is written before it is known that the counts do not fit */
    if (is("TABLE_TOUCHED") && counted.refusal == PLANS_OUTPUT_TOO_SHORT)
        real_plans_build(book, book_len, work, work_len, out, out_len);
    if (is("COUNTED_ORDER") && counted.refusal == PLANS_TREE_TOO_LARGE && counts_len == 0)
        counted.refusal = PLANS_OUTPUT_TOO_SHORT;
    if (is("COUNTED_WORK") && counted.refusal == PLANS_OUTPUT_TOO_SHORT)
        work[work_len - 1] = 1;
    return counted;
}

plans_rewritten plans_rewrite(const uint8_t *table, size_t table_len,
                              uint8_t *work, size_t work_len,
                              uint8_t *out, size_t out_len)
{
    plans_rewritten rewritten = real_plans_rewrite(table, table_len, work, work_len, out, out_len);

    if (is("REWRITTEN_BYTE") && rewritten.refusal == PLANS_OK)
        out[rewritten.length - 1] ^= 1;
    if (is("REWRITTEN_STATES") && rewritten.states > 100)
        rewritten.states--;
    return rewritten;
}

/* How many arcs a state has, by its content, and where one of them leads. */
static size_t arcs_of(const uint8_t *state)
{
    return (size_t)(state[-2] << 8 | state[-1]) / 3;
}

static unsigned target_of(const uint8_t *state, size_t arc)
{
    return (unsigned)(state[2 + 3 * arc] << 8 | state[3 + 3 * arc]);
}

/* Marks the states that accept and those with an arc to a marked one, by so many sweeps from the last state to the first. */
static void mark_ends(uint8_t *const *states, size_t count, size_t sweeps, uint8_t *marks)
{
    for (size_t state = 0; state < count; state++)
        marks[state] = states[state][0];
    for (; sweeps > 0; sweeps--)
        for (size_t state = count; state-- > 0;)
            for (size_t arc = 0; arc < arcs_of(states[state]); arc++)
                marks[state] |= marks[target_of(states[state], arc)];
}

/* A walk that takes arcs to marked states only, and stops before its first step where the start has no mark. */
static plans_walked walk_marked(uint8_t *const *states, const uint8_t *marks, const uint8_t *row, size_t row_len)
{
    plans_walked walked = {PLANS_OK, PLANS_STOPS, 0, 0, 0};
    const uint8_t *state = states[0];

    if (!marks[0])
        return walked;
    for (; walked.walked < row_len; walked.walked++) {
        size_t arc = 0;

        while (arc < arcs_of(state) && state[1 + 3 * arc] != row[walked.walked])
            arc++;
        if (arc == arcs_of(state) || !marks[target_of(state, arc)])
            break;
        state = states[target_of(state, arc)];
    }
    if (walked.walked == row_len)
        walked.outcome = state[0] ? PLANS_ADMITTED : PLANS_ON_THE_WAY;
    for (size_t arc = 0; arc < arcs_of(state); arc++)
        if (marks[target_of(state, arc)]) {
            walked.next_names |= UINT64_C(1) << state[1 + 3 * arc];
            walked.next_count++;
        }
    return walked;
}

/* What a walk over an accepted table tells, with a fault in how it heeds states that lead to no end. */
static plans_walked spoil_ends(const uint8_t *table, size_t table_len,
                               const uint8_t *row, size_t row_len,
                               uint8_t *work, plans_walked walked)
{
    uint8_t *states[PLANS_STATE_LIMIT], all[PLANS_STATE_LIMIT], marks[PLANS_STATE_LIMIT];
    size_t count = contents((uint8_t *)table, table_len, PLANS_STATE_MARK, states);
    int admits_none = real_plans_walk(table, table_len, NULL, 0, work, PLANS_WORK_BYTES).outcome == PLANS_STOPS;
    plans_walked by_arcs, from_beginning;

    memset(all, 1, sizeof all);
    by_arcs = walk_marked(states, all, row, row_len);
    from_beginning = walk_marked(states, all, row, walked.walked);
    if (is("DEAD_STATES"))
        walked = by_arcs;
    if (is("DEAD_OUTCOME") && !admits_none)
        walked.outcome = by_arcs.outcome;
    if (is("DEAD_BEGINNING") && !admits_none)
        walked.walked = by_arcs.walked;
    if ((is("DEAD_NAMES") && !admits_none) || (is("NOWHERE_NAMES") && admits_none)) {
        walked.next_names = from_beginning.next_names;
        walked.next_count = from_beginning.next_count;
    }
    if (is("NEXT_COUNT") && !admits_none)
        walked.next_count = from_beginning.next_count;
    if (is("DEAD_START") && row_len == 0 && admits_none)
        walked.outcome = PLANS_ON_THE_WAY;
    if (is("NOWHERE_BEGINNING") && admits_none)
        walked.walked = by_arcs.walked;
    /* a way to an end is found only where its numbers rise, or where they fall fewer than a hundred times */
    if (is("ONE_SWEEP")) {
        mark_ends(states, count, 1, marks);
        walked = walk_marked(states, marks, row, row_len);
    }
    if (is("HUNDRED_SWEEPS")) {
        mark_ends(states, count, 100, marks);
        walked = walk_marked(states, marks, row, row_len);
    }
    if (is("WALK_WORK") && walked.outcome != by_arcs.outcome)
        work[PLANS_WORK_BYTES - 1] = 1;
    return walked;
}

plans_walked plans_walk(const uint8_t *table, size_t table_len,
                        const uint8_t *row, size_t row_len,
                        uint8_t *work, size_t work_len)
{
    plans_walked walked = real_plans_walk(table, table_len, row, row_len, work, work_len);

    if (walked.refusal == PLANS_OK)
        walked = spoil_ends(table, table_len, row, row_len, work, walked);

    if (is("LONGER_WALK") && row_len == PLANS_ROW_LIMIT + 1)
        walked = real_plans_walk(table, table_len, row, PLANS_ROW_LIMIT, work, work_len);
    if (is("NEXT_NAMES"))
        walked.next_names &= ~(UINT64_C(1) << 63);
    return walked;
}

plans_written plans_list(const uint8_t *book, size_t book_len,
                         uint8_t *work, size_t work_len,
                         uint8_t *text, size_t text_len)
{
    plans_written written = real_plans_list(book, book_len, work, work_len, text, text_len);

    if (is("LISTING_BYTE") && written.refusal == PLANS_OK)
        text[written.length - 1] ^= 1;
    /* the last digit of the first line, to another digit */
    if (is("LISTING_DISTINCT") && written.refusal == PLANS_OK)
        ((uint8_t *)memchr(text, '\n', written.length))[-1] ^= 1;
    if (is("TEXT_TOUCHED") && written.refusal == PLANS_OUTPUT_TOO_SHORT && text_len > 0)
        text[0] ^= 1;
    return written;
}

/* Whether the tag whose name ends before this place is that of an empty element. */
static int is_empty(const uint8_t *plan, size_t plan_len, size_t at)
{
    while (at < plan_len && plan[at] != '/' && plan[at] != '>')
        at++;
    return at + 1 < plan_len && plan[at] == '/' && plan[at + 1] == '>';
}

/* Makes text of the tag whose name ends before this place. */
static void blank(uint8_t *plan, size_t at)
{
    while (plan[at - 1] != '<')
        at--;
    for (at--; plan[at] != '>'; at++)
        plan[at] = 'x';
}

/* Whether an accepted plan's outermost element is of the chosen name. */
static int is_outermost(const uint8_t *plan, const uint8_t *names, uint8_t chosen)
{
    size_t length;

    for (; chosen > 0; chosen--)
        names += 3 + names[2];
    length = names[2];
    while (*plan != '<')
        plan++;
    /* a `>` comes before the plan's end, and is in no name */
    return strncmp((const char *)plan + 1, (const char *)names + 3, length) == 0 && strchr(" \t\r\n/>", plan[1 + length]) != NULL;
}

/* Puts the first row behind the others. */
static void first_last(uint8_t *out, size_t length)
{
    uint8_t first[3 + PLANS_ROW_LIMIT];
    size_t part = 3 + (size_t)out[2];

    memcpy(first, out, part);
    memmove(out, out + part, length - part);
    memcpy(out + length - part, first, part);
}

/* The library's call, but an empty element may stand at any depth: as long as one is refused, it is made text. */
static plans_plan_rows read_deep(const uint8_t *plan, size_t plan_len,
                                 const uint8_t *names, size_t names_len, uint8_t chosen,
                                 uint8_t *work, size_t work_len,
                                 uint8_t *out, size_t out_len)
{
    uint8_t *copy = malloc(plan_len + 1);
    plans_plan_rows read;

    if (copy == NULL)
        abort();
    if (plan_len > 0)
        memcpy(copy, plan, plan_len);
    read = real_plans_read_rows(copy, plan_len, names, names_len, chosen, work, work_len, out, out_len);
    while (read.refusal == PLANS_TOO_DEEP && is_empty(copy, plan_len, read.at)) {
        blank(copy, read.at);
        read = real_plans_read_rows(copy, plan_len, names, names_len, chosen, work, work_len, out, out_len);
    }
    free(copy);
    return read;
}

plans_plan_rows plans_read_rows(const uint8_t *plan, size_t plan_len,
                                const uint8_t *names, size_t names_len, uint8_t chosen,
                                uint8_t *work, size_t work_len,
                                uint8_t *out, size_t out_len)
{
    plans_plan_rows read =
        (is("EMPTY_DEPTH") ? read_deep : real_plans_read_rows)(plan, plan_len, names, names_len, chosen, work, work_len, out, out_len);

    if (is("ROW_ORDER") && read.rows > 1 && is_outermost(plan, names, chosen))
        first_last(out, read.length);
    if (is("PLACE") && read.refusal == PLANS_BAD_PLAN && read.at == plan_len)
        read.at = 0;
    if (is("LONGEST_IN_PLAN") && read.refusal == PLANS_OK && has_longest(out, read.length))
        read.refusal = PLANS_BAD_ROW;
    if (is("ROWS_TOUCHED") && read.refusal == PLANS_TOO_MANY && out_len > 0)
        out[0] ^= 1;
    return read;
}

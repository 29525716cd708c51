/* The library used as the tablet's program uses it: builds a book, also with its counts, walks rows, offers the names that may come next,
 * also over tables in which some days, or all, have no end, lists a book, reads the rows of plans, and meets each refusal. All of it runs
 * in a thread with a stack of STACK_BYTES, which scripts/test-c sets; 0 leaves the system's own. */
#include <pthread.h>
#include <stdio.h>
#include <string.h>

#include "lent.h"
#include "plans_fields.h"

enum { NAMES = 4 };

static const char *const names[NAMES] = {"breakfast", "dinner", "lunch", "snack"};
static const char letters[] = "bdls";

/* Static: the thread's stack is small. */
static writing book;
static writing table;
static writing again;
static writing counts;
static writing plan;
static writing listed_names;

static size_t row_of(const char *day, uint8_t *row)
{
    size_t length = strlen(day);

    for (size_t i = 0; i < length; i++)
        row[i] = (uint8_t)(strchr(letters, day[i]) - letters);
    return length;
}

static void put_day(const char *day)
{
    uint8_t row[8];
    size_t length = row_of(day, row);

    put_field(&book, PLANS_ROW_MARK, row, length);
}

/* A book with the four names and the class, and no row. */
static void start_book(uint8_t kind, uint8_t first, uint8_t second)
{
    const uint8_t class_bytes[] = {kind, first, second};

    book.length = 0;
    for (size_t i = 0; i < NAMES; i++)
        put_field(&book, PLANS_NAME_MARK, names[i], strlen(names[i]));
    put_field(&book, PLANS_CLASS_MARK, class_bytes, sizeof class_bytes);
}

static plans_built build_all(void)
{
    return build(&book, PLANS_WORK_BYTES, PLANS_INPUT_LIMIT, &table);
}

static plans_counted count_all(void)
{
    return build_counted(&book, PLANS_WORK_BYTES, PLANS_TABLE_BYTES, PLANS_COUNTS_BYTES, &table, &counts);
}

static plans_walked walk_day(const char *day)
{
    uint8_t row[8];
    size_t length = row_of(day, row);

    return walk(&table, row, length, PLANS_WORK_BYTES);
}

/* Worked days P6 and P7 of docs/SCOPE.md. */
static void worked_days(void)
{
    static const char *const days[] = {"bsl", "dsl", "bsb"};
    plans_built built;
    plans_walked walked;

    for (uint8_t h = 1; h <= 2; h++) {
        start_book(PLANS_CONTEXT, 2, h);
        for (size_t i = 0; i < 3; i++)
            put_day(days[i]);
        built = build_all();
        check("the book is accepted", built.refusal == PLANS_OK);
        check("states and joins", built.states == (h == 1 ? 6u : 7u) && built.joins == (h == 1 ? 2u : 1u));
        check("its rows are different", built.distinct == 3);
        for (size_t i = 0; i < 3; i++)
            check("a row of the book is admitted", walk_day(days[i]).outcome == PLANS_ADMITTED);
        walked = walk_day("dsb");
        check("dsb", h == 1 ? walked.outcome == PLANS_ADMITTED : walked.outcome == PLANS_STOPS && walked.walked == 2);
    }
}

/* A day of four names, by the last four binary digits of a number: breakfast for 0 and snack for 1. */
static void put_number(unsigned number)
{
    uint8_t row[4];

    for (size_t i = 0; i < sizeof row; i++)
        row[i] = number >> i & 1 ? 3 : 0;
    put_field(&book, PLANS_ROW_MARK, row, sizeof row);
}

/* Forty days of which thirty are copies; days that are beginnings of others; and days without an entry. */
static void copied_days(void)
{
    start_book(PLANS_CONTEXT, 2, 1);
    for (unsigned i = 0; i < 10; i++)
        put_number(i);
    check("ten different days", build_all().distinct == 10);
    again = table;
    for (unsigned i = 0; i < 30; i++)
        put_number(i * 7 % 10);
    check("of forty days thirty are copies", build_all().distinct == 10);
    check("copies leave the table as it is", table.length == again.length && memcmp(table.bytes, again.bytes, table.length) == 0);
    put_day("bbb");
    check("a beginning of another day is a day of its own", build_all().distinct == 11);
    put_day("");
    put_day("");
    check("days without an entry are one more", build_all().distinct == 12);
    check("13: a refused build counts no rows", build(&book, PLANS_WORK_BYTES, 0, &again).distinct == 0);
    book.length--;
    check("2: nor does one of a book cut off", build_all().distinct == 0);
}

/* The rows s and ss in each kind of class; two of them are worked days P8 and P9. */
static void class_kinds(void)
{
    static const struct {
        uint8_t kind, first, second;
        uint32_t states;
    } kinds[] = {{PLANS_CONTEXT, 2, 1, 3}, {PLANS_SEEN_SET, 0, 0, 2}, {PLANS_LAST_NAMES, 0, 0, 1}};

    for (size_t i = 0; i < 3; i++) {
        start_book(kinds[i].kind, kinds[i].first, kinds[i].second);
        put_day("s");
        put_day("ss");
        check("a kind of class joins by its rule", build_all().states == kinds[i].states);
    }
}

/* The walk of a day, with the letters of the names that may come next. */
static plans_walked offer(const char *day, char offered[NAMES + 1])
{
    plans_walked walked = walk_day(day);

    offered[0] = '\0';
    for (size_t name = 0; name < NAMES; name++)
        if (walked.next_names >> name & 1)
            strncat(offered, &letters[name], 1);
    return walked;
}

/* The user taps names until the day is admitted: of those offered, always the last. */
static void tap_a_day(void)
{
    static const char *const offers[] = {"bd", "s", "bl", ""};
    char day[8] = "";

    start_book(PLANS_CONTEXT, 2, 1);
    put_day("bsl");
    put_day("dsl");
    put_day("bsb");
    build_all();
    for (size_t taps = 0; taps < 4; taps++) {
        char offered[NAMES + 1];
        plans_walked walked = offer(day, offered);

        check("the names offered", strcmp(offered, offers[taps]) == 0);
        check("how many they are", walked.next_count == strlen(offers[taps]));
        check("all taps are walked", walked.walked == taps);
        check("the outcome", walked.outcome == (taps == 3 ? PLANS_ADMITTED : PLANS_ON_THE_WAY));
        if (walked.next_count > 0)
            strncat(day, offered + walked.next_count - 1, 1);
    }
    check("the day tapped", strcmp(day, "dsl") == 0);
}

/* What a day's walk tells: its outcome, how many of its names can be kept, and the letters of the names that may come next. */
static void tells(const char *what, const char *day, uint8_t outcome, uint32_t walked, const char *next)
{
    char offered[NAMES + 1];
    plans_walked told = offer(day, offered);

    check(what, told.refusal == PLANS_OK && told.outcome == outcome && told.walked == walked);
    check(what, strcmp(offered, next) == 0 && told.next_count == strlen(next));
}

/* A table of the names breakfast and dinner, and no state. */
static void start_table(void)
{
    static const uint8_t class_bytes[] = {PLANS_CONTEXT, 2, 1};

    table.length = 0;
    put_field(&table, PLANS_NAME_MARK, names[0], strlen(names[0]));
    put_field(&table, PLANS_NAME_MARK, names[1], strlen(names[1]));
    put_field(&table, PLANS_CLASS_MARK, class_bytes, sizeof class_bytes);
}

/* A supplier's table: a day that begins with dinner goes on with breakfasts and never ends. */
static void no_way_to_an_end(void)
{
    static const uint8_t start[] = {0, 0, 0, 1, 1, 0, 2}, end[] = {1}, no_way[] = {0, 0, 0, 2};

    start_table();
    put_field(&table, PLANS_STATE_MARK, start, sizeof start);
    put_field(&table, PLANS_STATE_MARK, end, sizeof end);
    put_field(&table, PLANS_STATE_MARK, no_way, sizeof no_way);
    check("such a table is legal", rewrite(&table, PLANS_WORK_BYTES, table.length, &again).refusal == PLANS_OK);
    check("it is rewritten as it is", again.length == table.length && memcmp(again.bytes, table.bytes, table.length) == 0);
    tells("dinner is not offered", "", PLANS_ON_THE_WAY, 0, "b");
    tells("the day that ends", "b", PLANS_ADMITTED, 1, "");
    tells("a day that never ends is not on the way", "d", PLANS_STOPS, 0, "b");
    tells("nor is a longer one", "dbb", PLANS_STOPS, 0, "b");
    tells("a name more", "bd", PLANS_STOPS, 1, "");
    check("1: no working area", walk(&table, NULL, 0, 0).refusal == PLANS_BAD_SIZES);
    check("9: no name's number", walk(&table, (const uint8_t[]){1, 2}, 2, PLANS_WORK_BYTES).refusal == PLANS_BAD_ROW);
}

/* A table that admits no day. */
static void no_day_at_all(void)
{
    static const uint8_t onward[] = {0, 0, 0, 1}, back[] = {0, 0, 0, 0, 1, 0, 1};

    start_table();
    put_field(&table, PLANS_STATE_MARK, onward, sizeof onward);
    put_field(&table, PLANS_STATE_MARK, back, sizeof back);
    check("it is legal", rewrite(&table, PLANS_WORK_BYTES, table.length, &again).refusal == PLANS_OK);
    tells("the empty day stops", "", PLANS_STOPS, 0, "");
    tells("so does a day with arcs", "bb", PLANS_STOPS, 0, "");
    tells("and one without", "d", PLANS_STOPS, 0, "");
}

/* The field of a state in the table. */
static plans_field state_of(unsigned number)
{
    plans_reader from = plans_read_from(table.bytes, table.length);
    plans_field field = {0, NULL, 0};

    while (plans_read_field(&from, &field))
        if (field.mark == PLANS_STATE_MARK && number-- == 0)
            break;
    return field;
}

/* One number of the counts: a state's ends, or the passes of one of its arcs, counted from 0. */
static unsigned ends_of(unsigned state)
{
    return (unsigned)plans_count_of(counts.bytes, counts.length, state, 0);
}

static unsigned passes_of(unsigned state, size_t arc)
{
    return (unsigned)plans_count_of(counts.bytes, counts.length, state, 1 + arc);
}

/* Whether for each state arrivals, and at the start the rows, are departures and ends; the ends are as many as the rows; those that accept
 * have ends, and no other; and every arc is passed. */
static int counts_hold(plans_counted counted, unsigned rows)
{
    static unsigned arrivals[PLANS_STATE_LIMIT];
    unsigned all_ends = 0;
    int hold = 1;

    memset(arrivals, 0, sizeof arrivals);
    arrivals[0] = rows;
    for (unsigned state = 0; state < counted.states; state++) {
        plans_field field = state_of(state);

        for (size_t arc = 0; arc < field.length / 3; arc++)
            arrivals[field.content[2 + 3 * arc] << 8 | field.content[3 + 3 * arc]] += passes_of(state, arc);
    }
    for (unsigned state = 0; state < counted.states; state++) {
        plans_field field = state_of(state);
        unsigned departures = 0;

        for (size_t arc = 0; arc < field.length / 3; arc++) {
            hold = hold && passes_of(state, arc) > 0;
            departures += passes_of(state, arc);
        }
        hold = hold && arrivals[state] == departures + ends_of(state) && (ends_of(state) > 0) == field.content[0];
        all_ends += ends_of(state);
    }
    return hold && all_ends == rows;
}

/* Worked day P6 of docs/SCOPE.md, with its first row twice: its counts, byte by byte, and outputs of lengths about them. */
static void counted_days(void)
{
    static const uint8_t fields[] = {5, 0, 6, 0, 0, 0, 3, 0, 1, 5, 0, 4, 0, 0, 0, 3, 5, 0, 4, 0, 0, 0,
                                     1, 5, 0, 6, 0, 0, 0, 1, 0, 3, 5, 0, 2, 0, 1, 5, 0, 2, 0, 3};
    size_t length = sizeof fields;
    plans_built built;
    plans_counted counted;

    start_book(PLANS_CONTEXT, 2, 1);
    put_day("bsl");
    put_day("dsl");
    put_day("bsb");
    put_day("bsl");
    built = build_all();
    again = table;
    counted = count_all();
    check("a book is built with its counts", counted.refusal == PLANS_OK && counted.counts_length == length);
    check("they are", memcmp(counts.bytes, fields, length) == 0);
    check("its numbers are those without", counted.length == built.length && counted.states == built.states &&
                                               counted.joins == built.joins && counted.distinct == built.distinct);
    check("its table is that without", table.length == again.length && memcmp(table.bytes, again.bytes, table.length) == 0);
    counted = build_counted(&book, PLANS_WORK_BYTES, built.length, length, &again, &counts);
    check("outputs just long enough", counted.refusal == PLANS_OK);
    counted = build_counted(&book, PLANS_WORK_BYTES, built.length, length - 1, &again, &counts);
    check("13: counts one byte short", counted.refusal == PLANS_OUTPUT_TOO_SHORT);
    counted = build_counted(&book, PLANS_WORK_BYTES, built.length - 1, length, &again, &counts);
    check("13: a table one byte short", counted.refusal == PLANS_OUTPUT_TOO_SHORT);
    counted = build_counted(&book, PLANS_WORK_BYTES, built.length, 0, &again, &counts);
    check("13: no counts", counted.refusal == PLANS_OUTPUT_TOO_SHORT);
    counted = build_counted(&book, PLANS_WORK_BYTES, 0, 0, &again, &counts);
    check("13: no outputs", counted.refusal == PLANS_OUTPUT_TOO_SHORT);
    counted = build_counted(&book, PLANS_WORK_BYTES - 1, built.length, length, &again, &counts);
    check("1: a short working area", counted.refusal == PLANS_BAD_SIZES);
    check("1: no working area", build_counted(&book, 0, 0, 0, &again, &counts).refusal == PLANS_BAD_SIZES);
}

/* Forty days of which thirty are copies; then as many equal days as there may be. */
static void counted_copies(void)
{
    plans_counted counted;

    start_book(PLANS_CONTEXT, 2, 1);
    for (unsigned i = 0; i < 40; i++)
        put_number(i * 7 % 10);
    counted = count_all();
    check("copies are counted", counted.refusal == PLANS_OK && counts_hold(counted, 40));
    start_book(PLANS_CONTEXT, 1, 1);
    for (unsigned i = 0; i < PLANS_BOOK_ROWS; i++)
        put_day("sss");
    counted = count_all();
    check("256 equal days", counted.distinct == 1 && counted.states == 2 && counts_hold(counted, PLANS_BOOK_ROWS));
    check("all end in one state", ends_of(0) == 0 && ends_of(1) == 256);
    check("a day that passes an arc twice counts two", passes_of(0, 0) == 256 && passes_of(1, 0) == 512);
}

/* The user taps names: those offered come in the order of their passes, ties by number, and the first is taken. */
static void tap_common_first(void)
{
    static const char *const offers[] = {"bds", "s", "lb", ""};
    static const char *const days[] = {"bsl", "dsl", "bsb", "s", "bsl"};
    unsigned state = 0;

    start_book(PLANS_CONTEXT, 2, 1);
    for (size_t i = 0; i < 5; i++)
        put_day(days[i]);
    count_all();
    for (size_t taps = 0; taps < 4; taps++) {
        plans_field field = state_of(state);
        size_t order[NAMES];
        char offered[NAMES + 1] = "";

        for (size_t arc = 0; arc < field.length / 3; arc++) {
            size_t place = arc;

            for (; place > 0 && passes_of(state, order[place - 1]) < passes_of(state, arc); place--)
                order[place] = order[place - 1];
            order[place] = arc;
        }
        for (size_t i = 0; i < field.length / 3; i++)
            strncat(offered, &letters[field.content[1 + 3 * order[i]]], 1);
        check("the most common name is offered first", strcmp(offered, offers[taps]) == 0);
        if (field.length > 1)
            state = (unsigned)(field.content[2 + 3 * order[0]] << 8 | field.content[3 + 3 * order[0]]);
    }
    check("the day ends where most days end", ends_of(state) == 3);
}

static void rewrite_it(void)
{
    plans_built built = build_all();
    plans_rewritten rewritten = rewrite(&table, PLANS_WORK_BYTES, built.length, &again);

    check("a table is rewritten", rewritten.refusal == PLANS_OK && rewritten.states == built.states);
    check("to the same bytes", again.length == table.length && memcmp(again.bytes, table.bytes, table.length) == 0);
}

/* Worked day P2 of docs/SCOPE.md, whose listing is that of its example. */
static void list_it(void)
{
    static const char listing[] = "states 2 joins 1 distinct 1\n0 - snack>1\n1 + snack>1\n";
    size_t length = sizeof listing - 1;
    plans_written listed;

    start_book(PLANS_CONTEXT, 1, 1);
    put_day("ss");
    listed = list(&book, PLANS_WORK_BYTES, PLANS_LISTING_BYTES, &again);
    check("a book is listed", listed.refusal == PLANS_OK && listed.length == length);
    check("line by line", memcmp(again.bytes, listing, length) == 0);
    put_day("ss");
    listed = list(&book, PLANS_WORK_BYTES, PLANS_LISTING_BYTES, &again);
    check("with a copy of its row as before", listed.length == length && memcmp(again.bytes, listing, length) == 0);
    check("a text just long enough", list(&book, PLANS_WORK_BYTES, length, &again).refusal == PLANS_OK);
    check("13: a text one byte short", list(&book, PLANS_WORK_BYTES, length - 1, &again).refusal == PLANS_OUTPUT_TOO_SHORT);
    check("13: no text", list(&book, PLANS_WORK_BYTES, 0, &again).refusal == PLANS_OUTPUT_TOO_SHORT);
    check("1: a short working area", list(&book, PLANS_WORK_BYTES - 1, 0, &again).refusal == PLANS_BAD_SIZES);
    check("1: no working area", list(&book, 0, length, &again).refusal == PLANS_BAD_SIZES);
}

static void put_text(const char *text)
{
    memcpy(plan.bytes + plan.length, text, strlen(text));
    plan.length += strlen(text);
}

/* A text over and over. */
static void repeat(const char *text, size_t times)
{
    for (size_t i = 0; i < times; i++)
        put_text(text);
}

static plans_plan_rows read_into(size_t out_len)
{
    return read_rows(&plan, &listed_names, 0, PLANS_WORK_BYTES, out_len, &again);
}

static plans_plan_rows read_text(const char *text)
{
    plan.length = 0;
    put_text(text);
    return read_into(PLANS_ROWS_BYTES);
}

/* The list of the names b (number 0), d and l. */
static void start_list(void)
{
    listed_names.length = 0;
    put_field(&listed_names, PLANS_NAME_MARK, "b", 1);
    put_field(&listed_names, PLANS_NAME_MARK, "d", 1);
    put_field(&listed_names, PLANS_NAME_MARK, "l", 1);
}

/* The rows of a plan, and a book made of them. */
static void read_plans(void)
{
    static const uint8_t fields[] = {3, 0, 2, 0, 2, 3, 0, 0};
    static const char text[] = " <w>\n<d>x > y<b>soup</b ><l />\x80</d><d/></w>\r\t";
    plans_plan_rows read;

    start_list();
    plan.length = 0;
    put_text(text);
    read = read_rows(&plan, &listed_names, 1, PLANS_WORK_BYTES, PLANS_ROWS_BYTES, &again);
    check("a plan's rows are read", read.refusal == PLANS_OK && read.rows == 2 && read.length == sizeof fields);
    check("to row fields", memcmp(again.bytes, fields, sizeof fields) == 0);
    book = listed_names;
    memcpy(book.bytes + book.length, again.bytes, again.length);
    book.length += again.length;
    check("the list and the rows are a book", build_all().refusal == PLANS_OK);
    read = read_rows(&plan, &listed_names, 1, PLANS_WORK_BYTES, sizeof fields, &again);
    check("an output just long enough", read.refusal == PLANS_OK);
    read = read_rows(&plan, &listed_names, 1, PLANS_WORK_BYTES, sizeof fields - 1, &again);
    check("13: an output one byte short", read.refusal == PLANS_OUTPUT_TOO_SHORT);
    read = read_rows(&plan, &listed_names, 0, PLANS_WORK_BYTES, 0, &again);
    check("13: no output, for one row without entries", read.refusal == PLANS_OUTPUT_TOO_SHORT);
    read = read_text("<w><l/></w>");
    check("no such element is no refusal", read.refusal == PLANS_OK && read.rows == 0 && read.length == 0);
}

/* Refusals 1 to 9 of a plan's list and sizes. */
static void refused_lists(void)
{
    start_list();
    plan.length = 0;
    put_text("<w/>");
    check("9: no name has the number", read_rows(&plan, &listed_names, 3, PLANS_WORK_BYTES, 0, &again).refusal == PLANS_BAD_ROW);
    check("1: a short working area", read_rows(&plan, &listed_names, 0, PLANS_WORK_BYTES - 1, 0, &again).refusal == PLANS_BAD_SIZES);
    check("1: no working area", read_rows(&plan, &listed_names, 0, 0, 0, &again).refusal == PLANS_BAD_SIZES);
    plan.length = PLANS_INPUT_LIMIT + 1;
    memset(plan.bytes, ' ', plan.length);
    check("1: a plan of 65,536 bytes", read_into(0).refusal == PLANS_BAD_SIZES);
    plan.length--;
    check("14: one of 65,535", read_into(0).refusal == PLANS_BAD_PLAN);
    plan.length = 0;
    listed_names.length--;
    check("2: a name cut off", read_into(0).refusal == PLANS_CUT_OFF);
    listed_names.length = 0;
    check("4: no names", read_into(0).refusal == PLANS_UNFINISHED);
    put_field(&listed_names, PLANS_ROW_MARK, NULL, 0);
    check("3: a row in the list", read_into(0).refusal == PLANS_MISPLACED);
}

static void refused_text(const char *what, const char *text, uint8_t number, uint32_t at)
{
    plans_plan_rows read = read_text(text);

    check(what, read.refusal == number && read.at == at);
}

/* Refusals 14, 15 and 16, with their places, and 7 and 9 of a whole plan. */
static void refused_plans(void)
{
    start_list();
    refused_text("14: no element", "", PLANS_BAD_PLAN, 0);
    refused_text("14: a declaration", "<?xml?><w/>", PLANS_BAD_PLAN, 1);
    refused_text("14: the end of the plan", "<w>", PLANS_BAD_PLAN, 3);
    refused_text("14: another end tag", "<ab></a>", PLANS_BAD_PLAN, 7);
    refused_text("14: a second element", "<w/> <w/>", PLANS_BAD_PLAN, 5);
    refused_text("16: a child not in the list", "<b><w/></b>", PLANS_UNKNOWN_CHILD, 5);
    refused_text("14 comes before 16 at one byte", "<b><w=\"1\"/></b>", PLANS_BAD_PLAN, 5);
    refused_text("16 stands before a 14", "<b><w a=\"1\"/></b>", PLANS_UNKNOWN_CHILD, 5);
    plan.length = 0;
    repeat("<w>", PLANS_PLAN_DEPTH);
    repeat("</w>", PLANS_PLAN_DEPTH);
    check("sixteen levels", read_into(0).refusal == PLANS_OK);
    plan.length = 0;
    repeat("<w>", PLANS_PLAN_DEPTH);
    put_text("<w/>");
    check("15: a seventeenth", read_into(0).refusal == PLANS_TOO_DEEP);
    check("15: its place", read_into(0).at == 3 * PLANS_PLAN_DEPTH + 2);
    plan.length = 0;
    put_text("<w>");
    repeat("<b/>", PLANS_BOOK_ROWS + 1);
    put_text("</w>");
    check("7: a 257th row", read_into(PLANS_ROWS_BYTES).refusal == PLANS_TOO_MANY);
    plan.length = 0;
    put_text("<b>");
    repeat("<l/>", 41);
    put_text("</b>");
    check("9: a plan's row of 41", read_into(PLANS_ROWS_BYTES).refusal == PLANS_BAD_ROW);
    plan.length = 0;
    put_text("<b>");
    repeat("<l/>", 40);
    put_text("</b>");
    check("a plan's row of 40", read_into(PLANS_ROWS_BYTES).length == 3 + 40);
}

/* As many rows as there may be, each as long as may be: no plan's rows have more bytes. */
static void most_rows(void)
{
    plans_plan_rows read;

    start_list();
    plan.length = 0;
    put_text("<w>");
    for (size_t i = 0; i < PLANS_BOOK_ROWS; i++) {
        put_text("<b>");
        repeat("<l/>", PLANS_ROW_LIMIT);
        put_text("</b>");
    }
    put_text("</w>");
    read = read_into(PLANS_ROWS_BYTES);
    check("256 rows of 40", read.refusal == PLANS_OK && read.rows == 256 && read.length == 11008);
    check("they just fit", PLANS_ROWS_BYTES == 11008);
    check("13: an output one byte short", read_into(PLANS_ROWS_BYTES - 1).refusal == PLANS_OUTPUT_TOO_SHORT);
}

static void refused_build(const char *what, uint8_t number)
{
    check(what, build_all().refusal == number);
    check(what, count_all().refusal == number);
    check(what, list(&book, PLANS_WORK_BYTES, PLANS_LISTING_BYTES, &again).refusal == number);
}

/* Refusals 1 and 13: the lengths lent. */
static void refused_lengths(void)
{
    static const uint8_t row[] = {0};
    plans_built built = build_all();

    check("1: a short working area", build(&book, PLANS_WORK_BYTES - 1, 0, &again).refusal == PLANS_BAD_SIZES);
    check("1: no working area", build(&book, 0, 0, &again).refusal == PLANS_BAD_SIZES);
    check("1: no working area to rewrite", rewrite(&table, 0, 0, &again).refusal == PLANS_BAD_SIZES);
    check("1: no working area to walk", walk(&table, row, 1, 0).refusal == PLANS_BAD_SIZES);
    check("an output just long enough", build(&book, PLANS_WORK_BYTES, built.length, &again).refusal == PLANS_OK);
    built = build(&book, PLANS_WORK_BYTES, built.length - 1, &again);
    check("13: an output one byte short", built.refusal == PLANS_OUTPUT_TOO_SHORT);
    check("13: no output", rewrite(&table, PLANS_WORK_BYTES, 0, &again).refusal == PLANS_OUTPUT_TOO_SHORT);
    memset(book.bytes, 0, sizeof book.bytes);
    book.length = sizeof book.bytes;
    refused_build("1: a book of 65,536 bytes", PLANS_BAD_SIZES);
    book.length--;
    refused_build("3: one of 65,535", PLANS_MISPLACED);
}

/* Refusals 2 to 6, 8 and 9: one field is wrong. */
static void refused_fields(void)
{
    static const uint8_t entries[] = {NAMES};

    book.length = 0;
    refused_build("4: an empty book", PLANS_UNFINISHED);
    start_book(PLANS_CONTEXT, 2, 1);
    refused_build("4: a book with no row", PLANS_UNFINISHED);
    put_field(&book, PLANS_ROW_MARK, entries, 1);
    refused_build("9: an entry that is no name's number", PLANS_BAD_ROW);
    book.length--;
    refused_build("2: a field cut off", PLANS_CUT_OFF);
    start_book(PLANS_CONTEXT, 9, 1);
    refused_build("8: k = 9", PLANS_BAD_CLASS);
    book.length = 0;
    put_field(&book, PLANS_ROW_MARK, NULL, 0);
    refused_build("3: a row before any name", PLANS_MISPLACED);
    book.length = 0;
    put_field(&book, PLANS_NAME_MARK, "1", 1);
    refused_build("5: a name that starts with a digit", PLANS_BAD_NAME);
    book.length = 0;
    put_field(&book, PLANS_NAME_MARK, "b", 1);
    put_field(&book, PLANS_NAME_MARK, "a", 1);
    refused_build("6: names not in order", PLANS_NAME_ORDER);
}

/* A book of thirteen rows with different first names, twelve of 40 entries and the last of so many. */
static void thirteen_rows(size_t last)
{
    uint8_t row[40] = {0};

    book.length = 0;
    for (uint8_t i = 0; i < 13; i++) {
        const uint8_t name = (uint8_t)('a' + i);
        put_field(&book, PLANS_NAME_MARK, &name, 1);
    }
    for (row[0] = 0; row[0] < 13; row[0]++)
        put_field(&book, PLANS_ROW_MARK, row, row[0] == 12 ? last : sizeof row);
}

/* Refusals 7 and 10: one too many. */
static void refused_counts(void)
{
    plans_built built;

    book.length = 0;
    for (uint8_t i = 0; i < 65; i++) {
        const uint8_t name[] = {(uint8_t)('A' + i / 8), (uint8_t)('A' + i % 8)};
        put_field(&book, PLANS_NAME_MARK, name, sizeof name);
    }
    refused_build("7: a 65th name", PLANS_TOO_MANY);
    start_book(PLANS_CONTEXT, 2, 1);
    for (size_t i = 0; i < 257; i++)
        put_field(&book, PLANS_ROW_MARK, NULL, 0);
    refused_build("7: a 257th row", PLANS_TOO_MANY);
    thirteen_rows(31);
    built = build_all();
    check("a tree of 512 states", built.refusal == PLANS_OK && built.states + built.joins == 512);
    check("its counts", counts_hold(count_all(), 13));
    thirteen_rows(32);
    refused_build("10: a tree of 513 states", PLANS_TREE_TOO_LARGE);
}

/* A row of 40 passes and one of 41 gives 9, in a book and in a walk, though the table admits the longer one too. */
static void longest_rows(void)
{
    static const uint8_t breakfasts[41] = {0};

    start_book(PLANS_CONTEXT, 1, 1);
    put_field(&book, PLANS_ROW_MARK, breakfasts, 40);
    check("a row of 40", build_all().refusal == PLANS_OK);
    check("a walk of 40", walk(&table, breakfasts, 40, PLANS_WORK_BYTES).outcome == PLANS_ADMITTED);
    check("9: a walk of 41", walk(&table, breakfasts, 41, PLANS_WORK_BYTES).refusal == PLANS_BAD_ROW);
    start_book(PLANS_CONTEXT, 1, 1);
    put_field(&book, PLANS_ROW_MARK, breakfasts, 41);
    refused_build("9: a row of 41", PLANS_BAD_ROW);
}

static void refused_table(const char *what, uint8_t number)
{
    check(what, rewrite(&table, PLANS_WORK_BYTES, PLANS_INPUT_LIMIT, &again).refusal == number);
    check(what, walk(&table, NULL, 0, PLANS_WORK_BYTES).refusal == number);
}

/* Refusals 7, 11 and 12 of a table. */
static void refused_states(void)
{
    static const uint8_t not_accepting[] = {0};
    static const uint8_t wrong_first[] = {2};
    static const uint8_t to_no_state[] = {0, 0, 0, 9};

    start_book(PLANS_CONTEXT, 2, 1);
    table = book;
    put_field(&table, PLANS_STATE_MARK, wrong_first, sizeof wrong_first);
    refused_table("11: a state's first byte", PLANS_BAD_STATE);
    table = book;
    put_field(&table, PLANS_STATE_MARK, to_no_state, sizeof to_no_state);
    refused_table("12: an arc to no state", PLANS_BAD_NUMBERING);
    table = book;
    for (size_t i = 0; i < 513; i++)
        put_field(&table, PLANS_STATE_MARK, not_accepting, sizeof not_accepting);
    refused_table("7: a 513th state", PLANS_TOO_MANY);
    put_day("bsl");
    build_all();
    check("a walk of none", walk(&table, NULL, 0, PLANS_WORK_BYTES).outcome == PLANS_ON_THE_WAY);
}

static void *tablet(void *unused)
{
    worked_days();
    copied_days();
    class_kinds();
    tap_a_day();
    no_way_to_an_end();
    no_day_at_all();
    counted_days();
    counted_copies();
    tap_common_first();
    rewrite_it();
    list_it();
    refused_lengths();
    refused_fields();
    refused_counts();
    longest_rows();
    refused_states();
    read_plans();
    refused_lists();
    refused_plans();
    most_rows();
    return unused;
}

int main(void)
{
    pthread_attr_t attributes;
    pthread_t thread;
    int ready = pthread_attr_init(&attributes) == 0;

    if (STACK_BYTES > 0)
        ready = ready && pthread_attr_setstacksize(&attributes, STACK_BYTES) == 0;
    ready = ready && pthread_create(&thread, &attributes, tablet, NULL) == 0 && pthread_join(thread, NULL) == 0;
    check("the thread runs", ready);
    return summed_up() != 0;
}

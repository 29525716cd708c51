/* Walks rows over two tables, and prints how each walk ends: over that of the example of docs/SCOPE.md, whose one name is snack, and over
 * the supplier's of docs/FORMATS.md, in which dinner leads to a state that leads to no end. Then it rewrites the first. `make example`
 * builds it, runs it and compares what it prints with examples/walk.stdout. */
#include <stdio.h>
#include <string.h>

#include "plans_fields.h"

static const uint8_t table[] = {
    0x01, 0x00, 0x05, 0x73, 0x6E, 0x61, 0x63, 0x6B, /* the name snack */
    0x02, 0x00, 0x03, 0x00, 0x01, 0x01,             /* context, k = 1, h = 1 */
    0x04, 0x00, 0x04, 0x00, 0x00, 0x00, 0x01,       /* state 0: snack leads to 1 */
    0x04, 0x00, 0x04, 0x01, 0x00, 0x00, 0x01,       /* state 1 accepts: snack leads to 1 */
};

static const uint8_t suppliers[] = {
    0x01, 0x00, 0x09, 0x62, 0x72, 0x65, 0x61, 0x6B, 0x66, 0x61, 0x73, 0x74, /* the name breakfast */
    0x01, 0x00, 0x06, 0x64, 0x69, 0x6E, 0x6E, 0x65, 0x72,                   /* the name dinner */
    0x02, 0x00, 0x03, 0x00, 0x02, 0x01,                                     /* context, k = 2, h = 1 */
    0x04, 0x00, 0x07, 0x00, 0x00, 0x00, 0x01, 0x01, 0x00, 0x02,             /* state 0: breakfast leads to 1, dinner to 2 */
    0x04, 0x00, 0x01, 0x01,                                                 /* state 1 accepts */
    0x04, 0x00, 0x04, 0x00, 0x00, 0x00, 0x02,                               /* state 2: breakfast leads to 2, and nothing further */
};

static uint8_t work[PLANS_WORK_BYTES];

/* The row in the table's names; a number that is no name's as '?'. */
static void print_row(const uint8_t *over, size_t over_len, const uint8_t *row, size_t length)
{
    plans_field name;

    if (length == 0)
        printf("empty");
    for (size_t i = 0; i < length; i++) {
        printf("%s", i == 0 ? "" : " ");
        if (plans_name_of(over, over_len, row[i], &name))
            printf("%.*s", (int)name.length, (const char *)name.content);
        else
            printf("?");
    }
}

static void print_walk(const uint8_t *over, size_t over_len, const uint8_t *row, size_t row_len)
{
    static const char *const outcomes[] = {"", "admitted", "on the way", "stops"};
    plans_walked w = plans_walk(over, over_len, row, row_len, work, sizeof work);

    print_row(over, over_len, row, row_len);
    if (w.refusal != PLANS_OK) {
        printf(": refused %u, %s\n", w.refusal, plans_refusal_text(w.refusal));
        return;
    }
    printf(": %s, walked %u, next names %u (set %llx)\n", outcomes[w.outcome], (unsigned)w.walked, w.next_count,
           (unsigned long long)w.next_names);
}

int main(void)
{
    static const uint8_t snacks[] = {0, 0, 0};
    static const uint8_t unknown[] = {0, 1};
    static const uint8_t breakfast[] = {0};
    static const uint8_t dinner[] = {1, 0};
    uint8_t out[sizeof table + 1];
    plans_rewritten again;

    print_walk(table, sizeof table, NULL, 0);
    print_walk(table, sizeof table, snacks, 1);
    print_walk(table, sizeof table, snacks, 2);
    print_walk(table, sizeof table, snacks, 3);
    print_walk(table, sizeof table, unknown, 2);

    printf("the supplier's table:\n");
    print_walk(suppliers, sizeof suppliers, NULL, 0);
    print_walk(suppliers, sizeof suppliers, breakfast, 1);
    print_walk(suppliers, sizeof suppliers, dinner, 2);

    memset(out, 0xEE, sizeof out);
    again = plans_rewrite(table, sizeof table, work, sizeof work, out, sizeof out);
    printf("rewritten: refusal %u, %u bytes, %u states, %s, the byte after it %s\n", again.refusal, (unsigned)again.length,
           (unsigned)again.states, memcmp(out, table, sizeof table) == 0 ? "the same bytes" : "OTHER BYTES",
           out[sizeof table] == 0xEE ? "untouched" : "TOUCHED");
    again = plans_rewrite(table, sizeof table, work, sizeof work, out, sizeof table - 1);
    printf("in an output one byte shorter: refusal %u\n", again.refusal);
    return 0;
}

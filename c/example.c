/* A claim file on three sites (copies 0, 1, 2), and a dock where two of their records meet. Prints what each step answers. */
#include <stddef.h>
#include <stdint.h>
#include <stdio.h>

#include "stamps.h"

enum { SITES = 3 };

static uint8_t table[STAMP_TABLE_SIZE(SITES)];

static const char *const order_name[] = {"equal", "older", "newer", "conflicting"};

/* The answer of a call that is done or refused. */
static void say(const char *step, uint8_t number) {
    if (number == STAMP_OK) {
        printf("%s: ok\n", step);
    } else {
        printf("%s: refused %d\n", step, number);
    }
}

/* How site a stands against site b. */
static void say_order(size_t a, size_t b) {
    uint8_t order;
    uint8_t number = stamp_compare(table, sizeof table, a, b, &order);
    if (number == STAMP_OK) {
        printf("site %d against site %d: %s\n", (int)a, (int)b, order_name[order]);
    } else {
        say("compare", number);
    }
}

/* Takes site i's record out of the table and puts it, as the radio would carry it, into a dock's buffer. */
static size_t copy_record(uint8_t *dock, size_t i) {
    size_t start, size;
    if (stamp_lend(table, sizeof table, i, &start, &size) != STAMP_OK) {
        return 0;
    }
    for (size_t k = 0; k < size; k++) {
        dock[k] = table[start + k];
    }
    return size;
}

int main(void) {
    static uint8_t first[STAMP_RECORD_SIZE(SITES)], second[STAMP_RECORD_SIZE(SITES)];
    uint8_t order, mask, count;
    size_t first_size, second_size;

    say("fresh", stamp_make_fresh(table, sizeof table, SITES));
    say("site 0 edits", stamp_update(table, sizeof table, 0));
    say_order(0, 1);
    say("site 2 edits", stamp_update(table, sizeof table, 2));
    say_order(0, 2);
    say("1 meets 2", stamp_meet(table, sizeof table, 1, 2));
    say_order(1, 2);

    /* Two loose records in a dock: compare, meet, compare again by a new copy of the bytes. */
    first_size = copy_record(first, 0);
    second_size = copy_record(second, 1);
    if (stamp_compare_records(first, first_size, second, second_size, &order) == STAMP_OK) {
        printf("in the dock: %s\n", order_name[order]);
    }
    say("dock meeting", stamp_meet_records(first, first_size, second, second_size));
    if (stamp_compare_records(first, first_size, second, second_size, &order) == STAMP_OK) {
        printf("in the dock: %s\n", order_name[order]);
    }

    /* Which copies could be thrown away: some other copy is equal or newer. */
    say("0 meets 1", stamp_meet(table, sizeof table, 0, 1));
    if (stamp_superfluous(table, sizeof table, &mask, &count) == STAMP_OK) {
        printf("superfluous: mask %d, count %d\n", mask, count);
    }

    /* What does not fit is refused, and nothing has changed. */
    say("site 3 edits", stamp_update(table, sizeof table, 3));
    say("1 meets 1", stamp_meet(table, sizeof table, 1, 1));
    say("one byte short", stamp_check(table, sizeof table - 1));
    table[4] = 0;
    say("a row of length 0", stamp_check(table, sizeof table));
    return 0;
}

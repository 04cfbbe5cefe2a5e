/* A plain C implementation of document 01's calls on a table, to measure the library against: the check looks at each byte once, with
 * a 64-bit set for 'all different' and for the principal set; a step then works in place. Nothing is proved of it. */
#include "plain.h"

#include "stamps.h"

enum { UNUSED = 0xFF };

static const uint8_t *row_at(const uint8_t *slice, size_t n, size_t k) {
    return slice + k * (n + 1);
}

static const uint8_t *slice_at(const uint8_t *t, size_t n, size_t c, size_t p) {
    return t + c * STAMP_RECORD_SIZE(n) + 4 + p * (n * (n + 1));
}

/* The row's symbols as a set, or 0 where it is not well formed. */
static uint64_t row_set(const uint8_t *row, size_t n) {
    uint64_t set = 0;
    size_t length = row[0], c;
    if (length < 1 || length > n) {
        return 0;
    }
    for (c = 1; c <= length; c++) {
        if (row[c] >= n * n || set >> row[c] & 1) {
            return 0;
        }
        set |= (uint64_t)1 << row[c];
    }
    for (; c <= n; c++) {
        if (row[c] != UNUSED) {
            return 0;
        }
    }
    return set;
}

static int record_ok(const uint8_t *r, size_t n, size_t own) {
    if (r[0] != 0xB5 || r[1] != 0x0A || r[2] != n || r[3] != own) {
        return 0;
    }
    const uint8_t *row = r + 4;
    for (size_t p = 0; p < n; p++) {
        uint64_t heads = 0, principal = 0;
        for (size_t k = 0; k < n; k++, row += n + 1) {
            uint64_t set = row_set(row, n);
            if (set == 0) {
                return 0;
            }
            heads |= (uint64_t)1 << row[1];
            if (k == own) {
                principal = set;
            }
        }
        if (heads != principal) {
            return 0;
        }
    }
    return 1;
}

/* Refusals 1 to 4 of a table. */
static uint8_t checked(const uint8_t *t, size_t length) {
    if (length < 4 || t[0] != 0xB5 || t[1] != 0x0A) {
        return STAMP_UNMARKED;
    }
    size_t n = t[2];
    if (n < 2 || n > 8) {
        return STAMP_WRONG_N;
    }
    if (length != STAMP_TABLE_SIZE(n)) {
        return STAMP_WRONG_LENGTH;
    }
    for (size_t c = 0; c < n; c++) {
        if (!record_ok(t + c * STAMP_RECORD_SIZE(n), n, c)) {
            return STAMP_NOT_WELL_FORMED;
        }
    }
    return STAMP_OK;
}

uint8_t plain_check(const uint8_t *t, size_t length) {
    return checked(t, length);
}

uint8_t plain_update(uint8_t *t, size_t length, size_t p) {
    uint8_t refused = checked(t, length);
    if (refused != STAMP_OK) {
        return refused;
    }
    size_t n = t[2];
    if (p >= n) {
        return STAMP_NO_SUCH_COPY;
    }
    uint8_t *slice = (uint8_t *)slice_at(t, n, p, p);
    uint64_t used = 0, heads = 0;
    for (size_t k = 0; k < n; k++) {
        const uint8_t *row = row_at(slice, n, k);
        for (size_t c = 1; c <= row[0]; c++) {
            used |= (uint64_t)1 << row[c];
        }
        if (k != p) {
            heads |= (uint64_t)1 << row[1];
        }
    }
    uint8_t *row = (uint8_t *)row_at(slice, n, p);
    uint8_t after[9] = {0, (uint8_t)__builtin_ctzll(~used), UNUSED, UNUSED, UNUSED, UNUSED, UNUSED, UNUSED, UNUSED};
    size_t kept = 1;
    for (size_t c = 1; c <= row[0]; c++) {
        if (heads >> row[c] & 1) {
            after[++kept] = row[c];
        }
    }
    after[0] = (uint8_t)kept;
    for (size_t c = 0; c <= n; c++) {
        row[c] = after[c];
    }
    return STAMP_OK;
}

/* The place of a symbol in a row, from 1; 0 where it is not there. */
static size_t find(const uint8_t *row, uint8_t symbol) {
    for (size_t c = 1; c <= row[0]; c++) {
        if (row[c] == symbol) {
            return c;
        }
    }
    return 0;
}

/* The order of copies a and b of a well-formed table. */
static uint8_t order_of(const uint8_t *t, size_t n, size_t a, size_t b, uint8_t *order) {
    uint8_t behind = 0, ahead = 0;
    for (size_t p = 0; p < n; p++) {
        const uint8_t *x = row_at(slice_at(t, n, a, p), n, a), *y = row_at(slice_at(t, n, b, p), n, b);
        if (x[1] == y[1]) {
            continue;
        }
        int x_found = find(y, x[1]) != 0, y_found = find(x, y[1]) != 0;
        if (x_found == y_found) {
            return STAMP_UNRELATED;
        }
        if (x_found) {
            behind = STAMP_OLDER;
        } else {
            ahead = STAMP_NEWER;
        }
    }
    *order = behind | ahead;
    return STAMP_OK;
}

uint8_t plain_compare(const uint8_t *t, size_t length, size_t a, size_t b, uint8_t *order) {
    uint8_t refused = checked(t, length);
    if (refused != STAMP_OK) {
        return refused;
    }
    if (a >= t[2] || b >= t[2]) {
        return STAMP_NO_SUCH_COPY;
    }
    return order_of(t, t[2], a, b, order);
}

uint8_t plain_superfluous(const uint8_t *t, size_t length, uint8_t *mask, uint8_t *count) {
    uint8_t refused = checked(t, length), set = 0;
    if (refused != STAMP_OK) {
        return refused;
    }
    size_t n = t[2];
    for (size_t a = 0; a < n; a++) {
        for (size_t b = a + 1; b < n; b++) {
            uint8_t order;
            if (order_of(t, n, a, b, &order) != STAMP_OK) {
                return STAMP_UNRELATED;
            }
            if (order == STAMP_EQUAL || order == STAMP_OLDER) {
                set |= (uint8_t)(1 << a);
            }
            if (order == STAMP_EQUAL || order == STAMP_NEWER) {
                set |= (uint8_t)(1 << b);
            }
        }
    }
    *mask = set;
    *count = (uint8_t)__builtin_popcount(set);
    return STAMP_OK;
}

static void copy_row(uint8_t *to, const uint8_t *from, size_t n) {
    for (size_t c = 0; c <= n; c++) {
        to[c] = from[c];
    }
}

/* Slice by slice: new heads from the winning row, which is cut down to them; another row is taken over where its head changed. */
static void meet_slice(uint8_t *of_a, uint8_t *of_b, size_t n, size_t a, size_t b) {
    const uint8_t *x = row_at(of_a, n, a), *y = row_at(of_b, n, b);
    int b_wins = find(y, x[1]) != 0;
    const uint8_t *won = b_wins ? y : x, *loser = b_wins ? of_a : of_b, *winner = b_wins ? of_b : of_a;
    uint64_t heads = (uint64_t)1 << won[1];
    for (size_t k = 0; k < n; k++) {
        if (k == a || k == b) {
            continue;
        }
        uint8_t lost = row_at(loser, n, k)[1], kept = row_at(winner, n, k)[1];
        size_t place = find(won, lost);
        uint8_t head = place != 0 && place < find(won, kept) ? lost : kept;
        heads |= (uint64_t)1 << head;
        uint8_t *row_a = (uint8_t *)row_at(of_a, n, k), *row_b = (uint8_t *)row_at(of_b, n, k);
        if (row_a[1] != head) {
            copy_row(row_a, row_b, n);
        } else if (row_b[1] != head) {
            copy_row(row_b, row_a, n);
        }
    }
    uint8_t cut[9] = {0, UNUSED, UNUSED, UNUSED, UNUSED, UNUSED, UNUSED, UNUSED, UNUSED};
    for (size_t c = 1; c <= won[0]; c++) {
        if (heads >> won[c] & 1) {
            cut[++cut[0]] = won[c];
        }
    }
    copy_row((uint8_t *)row_at(of_a, n, a), cut, n);
    copy_row((uint8_t *)row_at(of_a, n, b), cut, n);
    copy_row((uint8_t *)row_at(of_b, n, a), cut, n);
    copy_row((uint8_t *)row_at(of_b, n, b), cut, n);
}

uint8_t plain_meet(uint8_t *t, size_t length, size_t a, size_t b) {
    uint8_t order, refused = checked(t, length);
    if (refused != STAMP_OK) {
        return refused;
    }
    size_t n = t[2];
    if (a >= n || b >= n) {
        return STAMP_NO_SUCH_COPY;
    }
    if (a == b) {
        return STAMP_SAME_COPY;
    }
    refused = order_of(t, n, a, b, &order);
    if (refused != STAMP_OK) {
        return refused;
    }
    for (size_t p = 0; p < n; p++) {
        meet_slice((uint8_t *)slice_at(t, n, a, p), (uint8_t *)slice_at(t, n, b, p), n, a, b);
    }
    return STAMP_OK;
}

/* Makes the calls of stamps.h for another program: reads frames on standard input, writes an answer to each on standard output.
 *
 * A frame, numbers little-endian: the call (1 byte, by the table in `make_call`; with 0x80 added the first buffer is not sent but taken
 * as the last call left it), two numbers (8 bytes each), what the out-parameters hold before (8 bytes each), the lengths of the two
 * buffers (4 bytes each), the buffers. Rows are passed in the second buffer, 64 lengths and 512 cells.
 * An answer: the number returned (1 byte), 1 if nothing beside the buffers and out-parameters was written (1 byte), the
 * out-parameters (8 bytes each), both buffers. Ends with the input; a frame that cannot be read ends it with status 2. */
#include <stddef.h>
#include <stdint.h>

#include "stamps.h"

/* Of the C library. */
extern long read(int file, void *to, size_t most);
extern long write(int file, const void *from, size_t length);
extern void *memcpy(void *restrict to, const void *restrict from, size_t length);
extern _Noreturn void _exit(int status);

enum { GUARD = 64, MOST = 1 << 14, LENGTHS = 64, CELLS = 512, KEPT = 0x80, HEADER = 41 };

/* ---- Standard input and output, in blocks */

static uint8_t in[1 << 16], out[1 << 16];
static size_t in_at, in_end, out_end;

static void flush(void) {
    size_t done = 0;
    while (done < out_end) {
        long n = write(1, out + done, out_end - done);
        if (n <= 0) {
            _exit(2);
        }
        done += (size_t)n;
    }
    out_end = 0;
}

/* Reads exactly so many bytes; 0 at the end of the input before the first of them. */
static int take(uint8_t *to, size_t length) {
    size_t done = 0;
    while (done < length) {
        if (in_at == in_end) {
            long n;
            flush();
            n = read(0, in, sizeof in);
            if (n <= 0) {
                if (n == 0 && done == 0) {
                    return 0;
                }
                _exit(2);
            }
            in_at = 0;
            in_end = (size_t)n;
        }
        size_t some = length - done < in_end - in_at ? length - done : in_end - in_at;
        memcpy(to + done, in + in_at, some);
        done += some;
        in_at += some;
    }
    return 1;
}

static void give(const uint8_t *from, size_t length) {
    while (length > 0) {
        if (out_end == sizeof out) {
            flush();
        }
        size_t some = length < sizeof out - out_end ? length : sizeof out - out_end;
        memcpy(out + out_end, from, some);
        out_end += some;
        from += some;
        length -= some;
    }
}

static uint64_t number_at(const uint8_t *from, size_t bytes) {
    uint64_t x = 0;
    while (bytes > 0) {
        x = x << 8 | from[--bytes];
    }
    return x;
}

static void give_number(uint64_t x) {
    uint8_t bytes[8];
    for (int i = 0; i < 8; i++) {
        bytes[i] = (uint8_t)(x >> 8 * i);
    }
    give(bytes, sizeof bytes);
}

/* ---- Rooms: bytes to be lent, between guards, at any alignment */

struct room {
    uint8_t bytes[GUARD + 16 + MOST + GUARD];
    uint8_t *at;
    size_t length;
};

static uint8_t guard_at(size_t i) {
    return (uint8_t)(0x3C + 7 * i);
}

/* Places a buffer of this length, with guards on both sides, `shift` bytes further than the room's start. */
static void place(struct room *r, size_t length, size_t shift) {
    r->at = r->bytes + GUARD + shift;
    r->length = length;
    for (size_t i = 0; i < GUARD; i++) {
        r->at[length + i] = guard_at(i);
        r->bytes[shift + i] = guard_at(i);
    }
}

static int guarded(const struct room *r) {
    int whole = 1;
    for (size_t i = 0; i < GUARD; i++) {
        whole &= r->at[r->length + i] == guard_at(i);
        whole &= r->at[(ptrdiff_t)i - GUARD] == guard_at(i);
    }
    return whole;
}

static struct room first, second, third, outs[2];

/* ---- One call */

static uint8_t make_call(uint8_t call, size_t x, size_t y) {
    uint8_t *small[2] = {outs[0].at, outs[1].at};
    size_t *wide[2] = {(size_t *)(void *)outs[0].at, (size_t *)(void *)outs[1].at};
    switch (call) {
    case 1: return stamp_make_fresh(first.at, first.length, x);
    case 2: return stamp_check(first.at, first.length);
    case 3: return stamp_update(first.at, first.length, x);
    case 4: return stamp_meet(first.at, first.length, x, y);
    case 5: return stamp_compare(first.at, first.length, x, y, small[0]);
    case 6: return stamp_lend(first.at, first.length, x, wide[0], wide[1]);
    case 7: return stamp_superfluous(first.at, first.length, small[0], small[1]);
    case 8: return stamp_check_record(first.at, first.length);
    case 9: return stamp_compare_records(first.at, first.length, second.at, second.length, small[0]);
    case 10: return stamp_meet_records(first.at, first.length, second.at, second.length);
    case 11: return stamp_read_rows(first.at, first.length, wide[0], wide[1], second.at, third.at);
    case 12: return stamp_write_rows(first.at, first.length, x, y, second.at, third.at);
    default: _exit(2);
    }
}

/* The bytes of one out-parameter of this call. */
static size_t out_size(uint8_t call) {
    return call == 6 || call == 11 ? sizeof(size_t) : 1;
}

static void serve(const uint8_t *frame, size_t turn) {
    uint8_t call = frame[0] & (KEPT - 1);
    int rows = call == 11 || call == 12;
    size_t first_length = number_at(frame + 33, 4), second_length = number_at(frame + 37, 4);
    if (first_length > MOST || second_length > MOST || (rows && second_length != LENGTHS + CELLS)) {
        _exit(2);
    }
    if (!(frame[0] & KEPT)) {
        place(&first, first_length, turn % 16);
        if (!take(first.at, first_length)) {
            _exit(2);
        }
    } else if (first.length != first_length) {
        _exit(2);
    }
    place(&second, rows ? LENGTHS : second_length, turn / 16 % 16);
    place(&third, rows ? CELLS : 0, turn / 256 % 16);
    if (second_length > 0 && (!take(second.at, second.length) || (rows && !take(third.at, third.length)))) {
        _exit(2);
    }
    for (int i = 0; i < 2; i++) {
        place(&outs[i], out_size(call), 0);
        memcpy(outs[i].at, frame + 17 + 8 * i, out_size(call));
    }

    uint8_t head[2];
    head[0] = make_call(call, number_at(frame + 1, 8), number_at(frame + 9, 8));
    head[1] = (uint8_t)(guarded(&first) && guarded(&second) && guarded(&third) && guarded(&outs[0]) && guarded(&outs[1]));
    give(head, sizeof head);
    for (int i = 0; i < 2; i++) {
        give_number(number_at(outs[i].at, out_size(call)));
    }
    give(first.at, first.length);
    give(second.at, second.length);
    give(third.at, third.length);
}

int main(void) {
    uint8_t frame[HEADER];
    for (size_t turn = 0; take(frame, sizeof frame); turn++) {
        serve(frame, turn);
    }
    flush();
    return 0;
}

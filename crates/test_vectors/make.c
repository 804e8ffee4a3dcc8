/* Writes the vectors that this crate replays, one to a line of 36 bytes, as the machine's own conversions give them:
 *
 *   n X Y   the f64 of bits X as f32 by the C cast, given back at 64 bits: an infinity where it is too large
 *   r X Y   the f64 of bits X rounded by rint (to nearest, ties to even), as a two's complement number;
 *           8000000000000000 where that is outside 32 bits
 *   w X Y   the whole number X, two's complement, as an f64 by the C cast
 *
 * Made by  cc make.c -lm -o make && ./make > stdin  on x86-64, in the default rounding mode. Nothing here is shared with the proved code.
 * First come the places where results change (ties, the ends of ranges, subnormal numbers, zeros), then numbers spread by a fixed generator.
 */
#include <inttypes.h>
#include <math.h>
#include <stdint.h>
#include <stdio.h>
#include <string.h>

static double of_bits(uint64_t b) { double x; memcpy(&x, &b, 8); return x; }
static uint64_t bits_of(double x) { uint64_t b; memcpy(&b, &x, 8); return b; }

static void line(char k, uint64_t x, uint64_t y) { printf("%c %016" PRIx64 " %016" PRIx64 "\n", k, x, y); }

static void narrow(uint64_t b) { volatile float f = (float)of_bits(b); line('n', b, bits_of((double)f)); }

static void rounded(uint64_t b) {
    double r = rint(of_bits(b));
    int in = r >= -2147483648.0 && r <= 2147483647.0;
    line('r', b, in ? (uint64_t)(int64_t)r : UINT64_C(0x8000000000000000));
}

static void whole(int64_t z) { line('w', (uint64_t)z, bits_of((double)z)); }

static uint64_t state = 88172645463325252u;
static uint64_t next(void) { state ^= state << 13; state ^= state >> 7; state ^= state << 17; return state; }

/* b, its two neighbours, and the same below zero */
static void around(void (*f)(uint64_t), uint64_t b) {
    const uint64_t sign = UINT64_C(1) << 63;
    for (int64_t d = -1; d <= 1; d++) {
        if (b == 0 && d < 0) continue;
        f(b + (uint64_t)d);
        f((b + (uint64_t)d) | sign);
    }
}

static uint64_t field(unsigned e, uint64_t digits) { return ((uint64_t)e << 52) | digits; }

int main(void) {
    /* ties of 32 bits, the kept digits even and odd: normal, at the least normal exponent, subnormal, at the top */
    static const unsigned at[] = {1023, 1024, 1150, 897, 898, 900, 1149};
    for (unsigned i = 0; i < sizeof at / sizeof *at; i++) {
        around(narrow, field(at[i], UINT64_C(0x0000010000000)));
        around(narrow, field(at[i], UINT64_C(0x0000030000000)));
        around(narrow, field(at[i], UINT64_C(0xfffffd0000000)));
        around(narrow, field(at[i], UINT64_C(0xffffff0000000)));
        around(narrow, field(at[i], 0));
    }
    for (unsigned e = 871; e <= 897; e++) {
        around(narrow, field(e, 0));
        around(narrow, field(e, UINT64_C(0x8000000000000)));
    }
    around(narrow, 0);
    around(narrow, UINT64_C(0x000fffffffffffff));
    around(narrow, UINT64_C(0x47efffffe0000000));
    around(narrow, UINT64_C(0x47efffffefffffff));
    around(narrow, UINT64_C(0x47f0000000000000));
    around(narrow, UINT64_C(0x7feffffffffffffe));
    for (int i = 0; i < 200; i++) narrow((next() & UINT64_C(0x800fffffffffffff)) | ((uint64_t)(870 + next() % 285) << 52));
    for (int i = 0; i < 60; i++) narrow((next() & UINT64_C(0x800fffffe0000000)) | UINT64_C(0x10000000) | ((uint64_t)(897 + next() % 253) << 52));

    /* halves and their neighbours; the ends of 32 bits */
    for (int k = 0; k < 12; k++) around(rounded, bits_of(k + 0.5));
    static const double ends[] = {0.0, 0.25, 0.75, 1.0, 32767.5, 32768.5, 65535.5, 2147483646.5, 2147483647.0, 2147483647.5, 2147483648.0,
                                  2147483648.5, 2147483649.0, 4294967295.5, 4294967296.0, 8589934592.0, 9007199254740992.0, 1e300};
    for (unsigned i = 0; i < sizeof ends / sizeof *ends; i++) around(rounded, bits_of(ends[i]));
    around(rounded, 1);
    around(rounded, UINT64_C(0x7feffffffffffffe));
    for (int i = 0; i < 100; i++) rounded((next() & UINT64_C(0x800fffffffffffff)) | ((uint64_t)(1020 + next() % 36) << 52));
    for (int i = 0; i < 100; i++) rounded(bits_of((double)(int32_t)next() + 0.5));

    /* whole numbers of both signs, to the ends of 32 bits and of an f64's digits */
    static const int64_t z[] = {0, 1, 32767, 32768, 16777216, 16777217, 2147483647, 2147483648, 2147483649, 4294967296, 9007199254740991, 9007199254740992};
    for (unsigned i = 0; i < sizeof z / sizeof *z; i++) { whole(z[i]); whole(-z[i]); }
    for (int i = 0; i < 100; i++) whole((int64_t)(int32_t)next());
    return 0;
}

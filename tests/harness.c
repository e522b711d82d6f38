// Holds the bench's calls beside the processor's own instructions, with its rounding control and status bits, over both sources.
//
// usage: harness VECTORS CASES
//
// The processor decides pattern, invalid, zero-divide, overflow, underflow and inexact of fuse (vfmadd), divide (divss) and root
// (sqrtss); it detects tininess after rounding, as our rule does. Where its rules are not ours, the rule is computed here:
//  - a NaN result is 7FC00000;
//  - denormal is raised exactly when an operand is subnormal and the result is no NaN;
//  - infinity times zero is invalid whatever the addend, a quiet NaN included;
//  - the remainder is the C library's remainderf in nearest, which is exact in every mode; its flags follow from the operands.
// Count is held beside whole-number division.
#include <fenv.h>
#include <math.h>
#include <stdint.h>
#include <stdio.h>
#include <stdlib.h>
#include <string.h>

uint64_t bench_fuse(uint32_t source, uint32_t mode, uint32_t p, uint32_t q, uint32_t r);
uint64_t bench_divide(uint32_t source, uint32_t mode, uint32_t a, uint32_t b);
uint64_t bench_root(uint32_t source, uint32_t mode, uint32_t a);
uint64_t bench_remainder(uint32_t source, uint32_t mode, uint32_t x, uint32_t y);
uint64_t bench_count(uint32_t source, int32_t a, int32_t b);

enum { INVALID = 1, ZERO_DIVIDE = 2, OVERFLOW_ = 4, UNDERFLOW_ = 8, INEXACT = 16, DENORMAL = 32 };
static const int ROUNDING[4] = { FE_TONEAREST, FE_DOWNWARD, FE_UPWARD, FE_TOWARDZERO };
static const uint64_t REFUSED = 1ull << 63;

static float number(uint32_t bits) { float x; memcpy(&x, &bits, 4); return x; }
static uint32_t pattern(float x) { uint32_t b; memcpy(&b, &x, 4); return b; }
static uint32_t size(uint32_t b) { return b & 0x7FFFFFFFu; }
static int is_nan(uint32_t b) { return size(b) > 0x7F800000u; }
static int is_signalling(uint32_t b) { return is_nan(b) && !(b >> 22 & 1); }
static int is_infinite(uint32_t b) { return size(b) == 0x7F800000u; }
static int is_zero(uint32_t b) { return size(b) == 0; }
static int is_subnormal(uint32_t b) { return size(b) > 0 && size(b) < 0x800000u; }

static uint64_t answer(uint32_t bits, unsigned flags, int subnormal) {
    if (is_nan(bits)) return 0x7FC00000u | (uint64_t)(flags & INVALID) << 32;
    return bits | (uint64_t)(flags | (subnormal ? DENORMAL : 0)) << 32;
}

static unsigned status(void) {
    int e = fetestexcept(FE_ALL_EXCEPT);
    return (e & FE_INVALID ? INVALID : 0) | (e & FE_DIVBYZERO ? ZERO_DIVIDE : 0) | (e & FE_OVERFLOW ? OVERFLOW_ : 0)
        | (e & FE_UNDERFLOW ? UNDERFLOW_ : 0) | (e & FE_INEXACT ? INEXACT : 0);
}

// one instruction in a mode; the operands are read and the result written through volatile, so that nothing moves across
#define IN_MODE(mode, expression) \
    do { fesetround(ROUNDING[mode]); feclearexcept(FE_ALL_EXCEPT); z = (expression); flags = status(); fesetround(FE_TONEAREST); } while (0)

static uint64_t fuse(uint32_t mode, uint32_t p, uint32_t q, uint32_t r) {
    volatile float a = number(p), b = number(q), c = number(r), z;
    unsigned flags;
    IN_MODE(mode, __builtin_fmaf(a, b, c));
    if ((is_infinite(p) && is_zero(q)) || (is_zero(p) && is_infinite(q))) return answer(0x7FC00000u, INVALID, 0);
    return answer(pattern(z), flags, is_subnormal(p) || is_subnormal(q) || is_subnormal(r));
}

static uint64_t divide(uint32_t mode, uint32_t x, uint32_t y) {
    volatile float a = number(x), b = number(y), z;
    unsigned flags;
    IN_MODE(mode, a / b);
    return answer(pattern(z), flags, is_subnormal(x) || is_subnormal(y));
}

static uint64_t root(uint32_t mode, uint32_t x) {
    volatile float a = number(x), z;
    unsigned flags;
    IN_MODE(mode, __builtin_sqrtf(a));
    return answer(pattern(z), flags, is_subnormal(x));
}

static uint64_t remain(uint32_t x, uint32_t y) {
    int subnormal = is_subnormal(x) || is_subnormal(y);
    if (is_signalling(x) || is_signalling(y)) return answer(0x7FC00000u, INVALID, 0);
    if (is_nan(x) || is_nan(y)) return answer(0x7FC00000u, 0, 0);
    if (is_infinite(x) || is_zero(y)) return answer(0x7FC00000u, INVALID, 0);
    volatile float z = remainderf(number(x), number(y));
    return answer(pattern(z), 0, subnormal);
}

static uint64_t count(int32_t a, int32_t b) {
    if (labs((long)a) > 16777215 || labs((long)b) > 16777215) return REFUSED | 3;
    if (b == 0) return REFUSED | 2;
    return (uint32_t)(a / b) | (uint64_t)((uint32_t)(a % b) & 0x7FFFFFFFu) << 32;
}

static unsigned long long tried;

static void same(const char *call, uint32_t source, uint32_t mode, uint32_t a, uint32_t b, uint32_t c, uint64_t got, uint64_t want) {
    tried++;
    if (got == want) return;
    fprintf(stderr, "%s over source %u in mode %u of %08X %08X %08X: %llx, expected %llx\n", call, source, mode, a, b, c, (unsigned long long)got, (unsigned long long)want);
    exit(1);
}

static void try_pair(uint32_t mode, uint32_t a, uint32_t b) {
    uint64_t want = divide(mode, a, b), rest = remain(a, b);
    for (uint32_t s = 0; s < 2; s++) {
        same("divide", s, mode, a, b, 0, bench_divide(s, mode, a, b), want);
        same("remainder", s, mode, a, b, 0, bench_remainder(s, mode, a, b), rest);
    }
}

static void try_root(uint32_t mode, uint32_t a) {
    uint64_t want = root(mode, a);
    for (uint32_t s = 0; s < 2; s++) same("root", s, mode, a, 0, 0, bench_root(s, mode, a), want);
}

static void try_fuse(uint32_t mode, uint32_t p, uint32_t q, uint32_t r) {
    same("fuse", 0, mode, p, q, r, bench_fuse(0, mode, p, q, r), fuse(mode, p, q, r));
}

static void try_count(int32_t a, int32_t b) {
    uint64_t want = count(a, b);
    for (uint32_t s = 0; s < 2; s++) same("count", s, 0, (uint32_t)a, (uint32_t)b, 0, bench_count(s, a, b), want);
}

// ---- operands

static uint64_t state = 0x9E3779B97F4A7C15ull;
static uint32_t next(void) {
    state ^= state << 13; state ^= state >> 7; state ^= state << 17;
    return (uint32_t)(state >> 32);
}
static uint32_t below(uint32_t n) { return next() % n; }

static const uint32_t SPECIAL[] = {
    0, 1, 2, 3, 0x7FFFFF, 0x7FFFFE, 0x800000, 0x800001, 0xFFFFFF, 0x1000000, 0x3F800000, 0x3F7FFFFF, 0x3F800001, 0x40000000, 0x40400000,
    0x34000000, 0x33800000, 0x4B800000, 0x4B7FFFFF, 0x7F000000, 0x7F7FFFFE, 0x7F7FFFFF, 0x7F800000, 0x7F800001, 0x7FBFFFFF, 0x7FC00000, 0x7FFFFFFF,
};
enum { SPECIALS = sizeof SPECIAL / sizeof SPECIAL[0] };

static uint32_t made(uint32_t sign, int exponent, uint32_t significand) {
    // significand of 24 bits times 2^exponent, cut to the pattern's range
    if (exponent < 0) { int k = -exponent; return sign << 31 | (k > 24 ? 0 : significand >> k); }
    if (exponent > 253) return sign << 31 | 0x7F7FFFFF;
    return sign << 31 | ((uint32_t)exponent * 0x800000u + significand);
}

static uint32_t digits24(void) {
    switch (below(6)) {
        case 0: return 0x800000;
        case 1: return 0xFFFFFF;
        case 2: return 0x800000 | 1u << below(23);
        case 3: return 0x800000 | next() >> 9 << below(20) % 0x800000;
        default: return 0x800000 | next() >> 9;
    }
}

static uint32_t operand(void) {
    switch (below(8)) {
        case 0: return SPECIAL[below(SPECIALS)] | below(2) << 31;
        case 1: return next();
        case 2: return below(2) << 31 | below(0x1000000);
        case 3: return made(below(2), 253 - (int)below(30), digits24() & 0xFFFFFF);
        default: return made(below(2), 127 + (int)below(60) - 30, digits24() & 0xFFFFFF);
    }
}

// a dividend near b times a number of 24 or 25 bits: exact quotients and neighbours of middles
static void hard_quotient(uint32_t mode) {
    uint64_t b = digits24() & 0xFFFFFF, q = (1u << (23 + below(2))) | (next() >> 9);
    uint64_t a = b * q;
    int k = 0;
    while (a >> 24) { a >>= 1; k++; }
    a += below(3) - 1;
    if (a < 0x800000 || a > 0xFFFFFF) a = 0x800000;
    int eb = (int)below(254), ea = (int)below(254);
    if (below(2)) ea = eb - 126 + (int)below(8);            // quotients at the subnormal end
    try_pair(mode, made(below(2), ea < 0 ? 0 : ea, (uint32_t)a), made(below(2), eb, (uint32_t)b));
}

// squares of 12-bit and of 24-bit numbers, and their neighbours
static void hard_root(uint32_t mode) {
    uint64_t n = below(2) ? 0x800 | below(0x800) : 0x800000 | (next() >> 9);
    uint64_t a = n * n;
    while (a >> 24) a >>= 1;
    while (!(a >> 23)) a <<= 1;
    a += below(3) - 1;
    if (a < 0x800000 || a > 0xFFFFFF) a = 0xFFFFFF;
    try_root(mode, made(0, (int)below(254), (uint32_t)a));
}

// a sum that cancels to a few last places, and sums beside the ends
static void hard_fuse(uint32_t mode) {
    uint32_t p = operand(), q = operand();
    volatile float a = number(p), b = number(q);
    volatile float product = a * b;
    uint32_t r = pattern(product) ^ 0x80000000u;
    if (!is_nan(r) && below(2)) r += below(3) - 1;
    try_fuse(mode, p, q, r);
}

static int32_t whole(void) {
    switch (below(6)) {
        case 0: return (int32_t)below(40) - 20;
        case 1: return (below(2) ? 1 : -1) * (int32_t)(16777215 + below(3) - 1);
        case 2: return (int32_t)next();
        case 3: return below(2) ? INT32_MIN : INT32_MAX;
        default: return (int32_t)below(33554431) - 16777215;
    }
}

static void specials(void) {
    for (uint32_t mode = 0; mode < 4; mode++)
        for (uint32_t i = 0; i < 2 * SPECIALS; i++) {
            uint32_t a = SPECIAL[i / 2] | (i & 1) << 31;
            try_root(mode, a);
            for (uint32_t j = 0; j < 2 * SPECIALS; j++) {
                uint32_t b = SPECIAL[j / 2] | (j & 1) << 31;
                try_pair(mode, a, b);
                for (uint32_t k = 0; k < 2 * SPECIALS; k++) try_fuse(mode, a, b, SPECIAL[k / 2] | (k & 1) << 31);
            }
        }
}

static void random_cases(unsigned long long cases) {
    for (unsigned long long i = 0; i < cases; i++) {
        uint32_t mode = next() >> 30;
        switch (i % 6) {
            case 0: try_pair(mode, operand(), operand()); break;
            case 1: hard_quotient(mode); break;
            case 2: try_root(mode, operand() & (below(8) ? 0x7FFFFFFF : 0xFFFFFFFF)); break;
            case 3: hard_root(mode); break;
            case 4: below(2) ? hard_fuse(mode) : try_fuse(mode, operand(), operand(), operand()); break;
            default: try_count(whole(), whole()); break;
        }
    }
}

// ---- published vectors: their flags are invalid, zero-divide, overflow, underflow and inexact

static unsigned flags_of(const char *text) {
    unsigned flags = 0;
    for (int i = 0; i < 5; i++) if (text[i] != '-') flags |= 1u << i;
    return flags;
}

static void vectors(const char *path) {
    FILE *f = fopen(path, "r");
    if (!f) { perror(path); exit(1); }
    char line[200], call[20], flags[20];
    uint32_t m, a, b, c, r;
    while (fgets(line, sizeof line, f)) {
        uint64_t got = 0;
        for (uint32_t s = 0; s < 2; s++) {
            if (sscanf(line, "fuse %u %x %x %x %x %19s", &m, &a, &b, &c, &r, flags) == 6) got = bench_fuse(s, m, a, b, c);
            else if (sscanf(line, "remainder %u %x %x %x %19s", &m, &a, &b, &r, flags) == 5) got = bench_remainder(s, m, a, b), c = 0;
            else if (sscanf(line, "root %u %x %x %19s", &m, &a, &r, flags) == 4) got = bench_root(s, m, a), b = c = 0;
            else if (sscanf(line, "%19s", call) != 1 || call[0] == '#') break;
            else { fprintf(stderr, "no vector: %s", line); exit(1); }
            same("vector", s, m, a, b, c, got & ~((uint64_t)DENORMAL << 32), r | (uint64_t)flags_of(flags) << 32);
        }
    }
    fclose(f);
}

int main(int argc, char **argv) {
    if (argc != 3) { fprintf(stderr, "usage: harness VECTORS CASES\n"); return 2; }
    vectors(argv[1]);
    unsigned long long published = tried;
    specials();
    unsigned long long special = tried;
    random_cases(strtoull(argv[2], NULL, 10));
    printf("%llu published vectors, %llu special and %llu random and hard cases agree, over both sources\n", published, special - published, tried - special);
    return 0;
}

/* The kernels that the library exports beside plain C versions: the same bytes, time, stack, and single calls for a counter of instructions.
   bench check | time | stack | count */
#include "clock.h"
#include "kernels.h"
#include "plain.h"
#include "stack.h"

#include <stdio.h>
#include <stdlib.h>
#include <string.h>

enum { BLOCKS = 1024, PERMUTATIONS = 64, VECTOR = 4096, RUNS = 1500 };

/* Of a text one byte short of whole blocks the padding fills the last one. */
enum { TEXT = 168 * PERMUTATIONS - 1 };

static uint8_t key[16], buf[16 * BLOCKS], text[TEXT], out[32], left[VECTOR], right[VECTOR];
static volatile uint32_t kept;

static void encrypt_ours(void) { kept = kernels_encrypt(key, sizeof key, buf, sizeof buf); }
static void encrypt_plain(void) { plain_encrypt(key, buf, BLOCKS); }
static void shake_ours(void) { kernels_shake(text, TEXT, out, sizeof out); }
static void shake_plain(void) { plain_shake(text, TEXT, out, sizeof out); }
static void dot_ours(void) { kept = kernels_dot(left, VECTOR, right, VECTOR); }
static void dot_plain(void) { kept = plain_dot(left, right, VECTOR); }
static void scaled_ours(void) { kept = kernels_add_scaled(left, VECTOR, 0xa7, right, VECTOR); }
static void scaled_plain(void) { plain_add_scaled(left, 0xa7, right, VECTOR); }

static const struct kernel {
    const char *name;
    void (*ours)(void), (*plain)(void);
    double units;
} kernels[] = {
    {"encrypt", encrypt_ours, encrypt_plain, BLOCKS},
    {"shake", shake_ours, shake_plain, PERMUTATIONS},
    {"dot", dot_ours, dot_plain, VECTOR},
    {"add_scaled", scaled_ours, scaled_plain, VECTOR},
};
enum { KERNELS = sizeof kernels / sizeof kernels[0] };

static uint8_t drawn(void)
{
    static uint32_t state = 1;
    state = state * 1103515245 + 12345;
    return (uint8_t)(state >> 16);
}

static void draw(uint8_t *p, size_t n)
{
    for (size_t i = 0; i < n; i++)
        p[i] = drawn();
}

/* Before anything is timed or counted every buffer is cleared, and so in memory; inputs then hold bytes that differ. */
static void prepare(void)
{
    memset(key, 0, sizeof key);
    memset(buf, 0, sizeof buf);
    memset(text, 0, sizeof text);
    memset(out, 0, sizeof out);
    memset(left, 0, sizeof left);
    memset(right, 0, sizeof right);
    draw(key, sizeof key);
    draw(buf, sizeof buf);
    draw(text, sizeof text);
    draw(left, sizeof left);
    draw(right, sizeof right);
}

/* ---- the same bytes */

static void expect(int good, const char *what)
{
    if (!good) {
        fprintf(stderr, "bench: %s\n", what);
        exit(1);
    }
}

static void check_encrypt(void)
{
    static const uint8_t cipher[16] = {0x69, 0xc4, 0xe0, 0xd8, 0x6a, 0x7b, 0x04, 0x30, 0xd8, 0xcd, 0xb7, 0x80, 0x70, 0xb4, 0xc5, 0x5a};
    uint8_t a[160], b[160];
    for (int i = 0; i < 16; i++) {
        key[i] = (uint8_t)i;
        a[i] = b[i] = (uint8_t)(17 * i);
    }
    expect(kernels_encrypt(key, 16, a, 16) == 0 && memcmp(a, cipher, 16) == 0, "FIPS 197, C.1, by the library");
    plain_encrypt(key, b, 1);
    expect(memcmp(b, cipher, 16) == 0, "FIPS 197, C.1, by plain C");
    for (int round = 0; round < 100; round++) {
        size_t blocks = (size_t)(round % 11);
        draw(key, sizeof key);
        draw(a, sizeof a);
        memcpy(b, a, sizeof b);
        expect(kernels_encrypt(key, 16, a, 16 * blocks) == 0, "blocks refused");
        plain_encrypt(key, b, blocks);
        expect(memcmp(a, b, sizeof a) == 0, "encrypt: other bytes than plain C");
    }
    expect(kernels_encrypt(key, 15, a, 16) == 1 && kernels_encrypt(key, 16, a, 17) == 1, "encrypt: a wrong length is not refused");
    expect(memcmp(a, b, sizeof a) == 0, "encrypt: a refusal writes");
}

static void check_shake(void)
{
    static const uint8_t empty[8] = {0x7f, 0x9c, 0x2b, 0xa4, 0xe8, 0x8f, 0x82, 0x7d};
    uint8_t a[400], b[400];
    kernels_shake(text, 0, a, 8);
    plain_shake(text, 0, b, 8);
    expect(memcmp(a, empty, 8) == 0, "SHAKE-128 of nothing, by the library");
    expect(memcmp(b, empty, 8) == 0, "SHAKE-128 of nothing, by plain C");
    draw(text, sizeof text);
    for (size_t n = 0; n < 700; n++) {
        kernels_shake(text, n, a, n * 7 % 401);
        plain_shake(text, n, b, n * 7 % 401);
        expect(memcmp(a, b, n * 7 % 401) == 0, "shake: other bytes than plain C");
    }
}

static void check_field(void)
{
    uint8_t a[300], b[300], c[300];
    for (size_t n = 0; n <= 300; n++) {
        uint8_t w = drawn();
        draw(a, sizeof a);
        draw(b, sizeof b);
        memcpy(c, a, sizeof c);
        expect(kernels_dot(a, n, b, n) == plain_dot(a, b, n), "dot: another answer than plain C");
        expect(kernels_add_scaled(a, n, w, b, n) == 0, "add_scaled refused");
        plain_add_scaled(c, w, b, n);
        expect(memcmp(a, c, sizeof a) == 0, "add_scaled: other bytes than plain C");
    }
    expect(kernels_dot(a, 3, b, 4) == 256 && kernels_add_scaled(a, 3, 1, b, 4) == 1, "a vector of another length is not refused");
    expect(memcmp(a, c, sizeof a) == 0, "add_scaled: a refusal writes");
}

/* ---- time: the best of many runs, ours and plain by turns */

static void time_all(void)
{
    for (int k = 0; k < KERNELS; k++) {
        double ours = 1e18, plain = 1e18;
        prepare();
        for (int i = 0; i < RUNS; i++) {
            double a = nanoseconds(kernels[k].ours), b = nanoseconds(kernels[k].plain);
            ours = a < ours ? a : ours;
            plain = b < plain ? b : plain;
        }
        printf("%s %.4f %.4f\n", kernels[k].name, ours / kernels[k].units, plain / kernels[k].units);
    }
}

int main(int argc, char **argv)
{
    plain_start();
    if (argc == 2 && strcmp(argv[1], "check") == 0) {
        check_encrypt();
        check_shake();
        check_field();
    } else if (argc == 2 && strcmp(argv[1], "time") == 0) {
        time_all();
    } else if (argc == 2 && strcmp(argv[1], "stack") == 0) {
        prepare();
        for (int k = 0; k < KERNELS; k++)
            printf("%s %zu %zu\n", kernels[k].name, stack_of(kernels[k].ours), stack_of(kernels[k].plain));
    } else if (argc == 2 && strcmp(argv[1], "count") == 0) {
        prepare();
        for (int k = 0; k < KERNELS; k++) {
            kernels[k].ours();
            kernels[k].plain();
            printf("%s %.0f\n", kernels[k].name, kernels[k].units);
        }
    } else {
        fprintf(stderr, "usage: bench check | time | stack | count\n");
        return 2;
    }
    return 0;
}

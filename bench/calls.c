/* The library's calls beside the second program's: the same bytes and numbers, time, stack, and single calls for a counter of instructions.
   calls check | time | stack | count */
#include "../second/field.h"
#include "../second/mqom2.h"
#include "../second/symmetric.h"
#include "clock.h"
#include "stack.h"
#include "timed.h"

#include <stdio.h>
#include <stdlib.h>
#include <string.h>

/* The first nonce that passes for these inputs is the 1,332nd. */
enum { TRIES = 1332, RUNS = 40 };

/* What takes less than a microsecond is timed over this many calls. */
enum { SHORT = 1000 };

static const uint8_t msg[5] = "hello";
static bits256 seed;
static bits128 salt, mseed;
static public_key pk, second_pk;
static secret_key sk, second_sk;
static signature sig, second_sig;
static uint8_t work[65536], cell[120], read_back[60];
static volatile int kept;

static void prepare(void)
{
    memset(work, 0, sizeof work);
    memset(&pk, 0, sizeof pk);
    memset(&sk, 0, sizeof sk);
    memset(&sig, 0, sizeof sig);
    memset(cell, 0, sizeof cell);
    memset(read_back, 0, sizeof read_back);
    for (int i = 0; i < 32; i++)
        seed.b[i] = (uint8_t)i;
    for (int i = 0; i < 16; i++) {
        salt.b[i] = (uint8_t)(100 + i);
        mseed.b[i] = (uint8_t)(200 + i);
    }
}

/* libcrypto looks its primitives up at their first use, which is no part of a call. */
static void wake_libcrypto(void)
{
    uint8_t block[16] = {0};
    cipher *c = cipher_new();
    cipher_set_key(c, block);
    Enc(c, block, block);
    cipher_free(c);
    xof *h = XOF_open(0);
    XOF_close(h, block, sizeof block);
}

static int make_keys(void)
{
    return timed_make_keys(seed.b, 32, (uint8_t *)&pk, sizeof pk, (uint8_t *)&sk, sizeof sk, work, sizeof work);
}

static int sign(uint32_t tries)
{
    return timed_sign((const uint8_t *)&sk, sizeof sk, msg, sizeof msg, salt.b, 16, mseed.b, 16, tries, (uint8_t *)&sig, sizeof sig, work, sizeof work);
}

static int check(void)
{
    return timed_check((const uint8_t *)&pk, sizeof pk, msg, sizeof msg, (const uint8_t *)&sig, sizeof sig, work, sizeof work);
}

static void ours_make(void) { kept = make_keys(); }
static void ours_sign(void) { kept = sign(TRIES); }
static void ours_check(void) { kept = check(); }
static void ours_write(void) { kept = timed_write_cell((const uint8_t *)&pk, sizeof pk, cell, sizeof cell); }
static void ours_read(void) { kept = timed_read_cell(cell, sizeof cell, read_back, sizeof read_back); }
static void ours_same(void) { kept = timed_same_signer(cell, sizeof cell, cell, sizeof cell); }
static void second_make(void) { KeyGen(&seed, &second_pk, &second_sk); }
static void second_sign(void) { kept = Sign(&second_sk, msg, sizeof msg, &mseed, &salt, TRIES, &second_sig); }
static void second_check(void) { kept = Verif(&second_pk, msg, sizeof msg, &second_sig); }

/* in an order in which each has its inputs from those before it */
static struct call {
    const char *name;
    void (*ours)(void), (*second)(void);
} calls[] = {
    {"make_keys", ours_make, second_make}, {"sign", ours_sign, second_sign}, {"check", ours_check, second_check},
    {"write_cell", ours_write, NULL},      {"read_cell", ours_read, NULL},   {"same_signer", ours_same, NULL},
};
enum { CALLS = sizeof calls / sizeof calls[0] };

static void expect(int good, const char *what)
{
    if (!good) {
        fprintf(stderr, "calls: %s\n", what);
        exit(1);
    }
}

static int zero(void)
{
    for (size_t i = 0; i < sizeof work; i++)
        if (work[i] != 0)
            return 0;
    return 1;
}

static void check_all(void)
{
    second_make();
    second_sign();
    expect(kept == 0, "second: no signature");
    second_check();
    expect(kept == 0, "second: not accepted");
    expect(make_keys() == 0 && zero(), "make_keys: another number, or a workspace that is not clear");
    expect(memcmp(&pk, &second_pk, sizeof pk) == 0 && memcmp(&sk, &second_sk, sizeof sk) == 0, "make_keys: other bytes than the second program");
    expect(sign(TRIES - 1) == 5 && zero(), "sign: one try fewer than the nonce's place");
    expect(sign(TRIES) == 0 && zero(), "sign: another number, or a workspace that is not clear");
    expect(memcmp(&sig, &second_sig, sizeof sig) == 0, "sign: other bytes than the second program");
    expect(check() == 0 && zero(), "check: another number, or a workspace that is not clear");
    ((uint8_t *)&sig)[1000] ^= 1;
    expect(check() == 6 && zero(), "check: a damaged signature");
    ours_write();
    expect(kept == 0, "write_cell: another number");
    ours_read();
    expect(kept == 0 && memcmp(read_back, &pk, sizeof pk) == 0, "read_cell: another key");
    ours_same();
    expect(kept == 1, "same_signer: not itself");
}

static void (*short_call)(void);

static void many(void)
{
    for (int i = 0; i < SHORT; i++)
        short_call();
}

/* The best of many runs, ours and the second program's by turns. */
static void time_call(struct call *c)
{
    void (*runs[2])(void) = {c->ours, c->second};
    double least[2] = {-1, -1};
    for (int i = 0; i < 2 * RUNS; i++) {
        void (*run)(void) = runs[i % 2];
        if (!run)
            continue;
        double t = nanoseconds(run);
        if (t < 1000) {
            short_call = run;
            t = nanoseconds(many) / SHORT;
        }
        if (least[i % 2] < 0 || t < least[i % 2])
            least[i % 2] = t;
    }
    printf("%s %.1f %.1f\n", c->name, least[0], least[1]);
}

static void stack_call(struct call *c)
{
    printf("%s %ld %ld\n", c->name, c->ours ? (long)stack_of(c->ours) : -1, c->second ? (long)stack_of(c->second) : -1);
}

int main(int argc, char **argv)
{
    const char *mode = argc == 2 ? argv[1] : "";
    field_init();
    prepare();
    wake_libcrypto();
    if (strcmp(mode, "check") == 0) {
        check_all();
        return 0;
    }
    if (strcmp(mode, "time") != 0 && strcmp(mode, "stack") != 0 && strcmp(mode, "count") != 0) {
        fprintf(stderr, "usage: calls check | time | stack | count\n");
        return 2;
    }
    /* each of them once; this is what a counter sees. Every call gives 0 but the last, which gives true. */
    for (int k = 0; k < CALLS; k++) {
        kept = 0;
        if (calls[k].second)
            calls[k].second();
        expect(kept == 0, "the second program refuses");
        if (calls[k].ours)
            calls[k].ours();
        else
            memcpy(&sig, &second_sig, sizeof sig);
        expect(kept == (k == CALLS - 1), calls[k].name);
    }
    for (int k = 0; k < CALLS; k++) {
        if (strcmp(mode, "time") == 0)
            time_call(&calls[k]);
        if (strcmp(mode, "stack") == 0)
            stack_call(&calls[k]);
    }
    return 0;
}

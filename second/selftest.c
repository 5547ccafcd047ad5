/* AES-128 on FIPS 197, appendices B and C.1; SHAKE128 on the example values that
   go with FIPS 202; the fields, the lift, the points and the tweak of document
   001, sections 3.1 and 2.5.4. */
#include "selftest.h"

#include <stdio.h>
#include <string.h>

#include "mqom2.h"
#include "symmetric.h"

static int passed, failed;

static void expect(int ok, const char *what)
{
    if (ok)
        passed++;
    else
        printf("selftest: %s\n", what);
    failed += !ok;
}

/* Whether bytes are those that the hexadecimal text names. */
static int same(const uint8_t *bytes, const char *hex)
{
    char text[3];
    for (size_t i = 0; hex[2 * i] != '\0'; i++) {
        snprintf(text, sizeof text, "%02x", bytes[i]);
        if (memcmp(text, hex + 2 * i, 2) != 0)
            return 0;
    }
    return 1;
}

static void test_cipher(void)
{
    static const uint8_t key_b[16] = {0x2b, 0x7e, 0x15, 0x16, 0x28, 0xae, 0xd2, 0xa6,
                                      0xab, 0xf7, 0x15, 0x88, 0x09, 0xcf, 0x4f, 0x3c};
    static const uint8_t ptx_b[16] = {0x32, 0x43, 0xf6, 0xa8, 0x88, 0x5a, 0x30, 0x8d,
                                      0x31, 0x31, 0x98, 0xa2, 0xe0, 0x37, 0x07, 0x34};
    uint8_t key_c[16], ptx_c[16], ctx[16];
    cipher *c = cipher_new();
    for (unsigned i = 0; i < 16; i++) {
        key_c[i] = (uint8_t)i;
        ptx_c[i] = (uint8_t)(0x11 * i);
    }
    cipher_set_key(c, key_b);
    Enc(c, ptx_b, ctx);
    expect(same(ctx, "3925841d02dc09fbdc118597196a0b32"), "FIPS 197, appendix B");
    cipher_set_key(c, key_c);
    Enc(c, ptx_c, ctx);
    expect(same(ctx, "69c4e0d86a7b0430d8cdb78070b4c55a"), "FIPS 197, appendix C.1");
    Enc(c, ptx_c, ctx);
    expect(same(ctx, "69c4e0d86a7b0430d8cdb78070b4c55a"), "Enc keeps no state");
    cipher_free(c);
}

static void test_xof(void)
{
    uint8_t out[200], a3[200];
    XOF_close(XOF_open_plain(), out, sizeof out);
    expect(same(out, "7f9c2ba4e88f827d616045507605853ed73b8093f6efbc88eb1a6eacfa66ef26"
                     "3cb1eea988004b93103cfb0aeefd2a686e01fa4a58e8a3639ca8a1e3f9ae57e2"),
           "SHAKE128 of nothing");
    xof *h = XOF_open_plain();
    XOF_add(h, "abc", 3);
    XOF_close(h, out, 32);
    expect(same(out, "5881092dd818bf5cf8a3ddb793fbcba74097d5c526a6d35f97b83351940f2cc8"),
           "SHAKE128 of abc");
    memset(a3, 0xa3, sizeof a3);
    h = XOF_open_plain();
    XOF_add(h, a3, 100);
    XOF_add(h, a3 + 100, 100);
    XOF_close(h, out, 32);
    expect(same(out, "131ab8d2b594946b9c81333f9bb6e0ce75c3b93104fa3469d3917457385da037"),
           "SHAKE128 of 200 bytes a3, in two parts");
    h = XOF_open('a');
    XOF_add(h, "bc", 2);
    XOF_close(h, out, 32);
    expect(same(out, "5881092dd818bf5cf8a3ddb793fbcba74097d5c526a6d35f97b83351940f2cc8"),
           "XOF_i prefixes the byte i");
}

/* The product in F = F_2[rho] / (rho^4 + rho + 1). */
static uint8_t F_mul(uint8_t a, uint8_t b)
{
    unsigned sum = 0;
    for (int i = 0; i < 4; i++)
        if (b >> i & 1)
            sum ^= (unsigned)a << i;
    for (int i = 6; i >= 4; i--)
        if (sum >> i & 1)
            sum ^= 0x13u << (i - 4);
    return (uint8_t)sum;
}

static void test_fields(void)
{
    expect(K_mul(0x57, 0x83) == 0xc1, "57 times 83 is c1");
    expect(K_mul(0x57, 0x13) == 0xfe, "57 times 13 is fe");
    K rho = lift(2), rho2 = K_mul(rho, rho);
    expect(rho == 0xe0, "the lift of rho is e0");
    expect((K_mul(rho2, rho2) ^ rho ^ 1) == 0, "rho^4 + rho + 1 = 0 in K");
    int morphism = 1, inverses = 0;
    for (uint8_t a = 0; a < 16; a++)
        for (uint8_t b = 0; b < 16; b++)
            morphism = morphism && lift(a ^ b) == (lift(a) ^ lift(b)) &&
                       lift(F_mul(a, b)) == K_mul(lift(a), lift(b));
    expect(morphism && lift(1) == 1, "the lift is a morphism of fields");
    for (unsigned a = 0; a < 256; a++)
        for (unsigned b = 0; b < 256; b++)
            inverses += K_mul((K)a, (K)b) == 1;
    expect(inverses == 255, "every element of K but 0 has one inverse");
}

static void test_points(void)
{
    static const uint8_t gray[8][2] = {{0, 0}, {1, 1}, {2, 3},     {3, 2},
                                       {7, 4}, {8, 12}, {128, 192}, {255, 128}};
    uint8_t seen[256] = {0};
    int distinct = 0, steps = 0;
    for (unsigned i = 0; i < 8; i++)
        expect(omega(gray[i][0]) == gray[i][1], "Gray code points");
    for (unsigned i = 0; i < 256; i++) {
        distinct += !seen[omega(i)];
        seen[omega(i)] = 1;
        unsigned change = omega(i) ^ omega((i + 1) % 256);
        steps += change != 0 && (change & (change - 1)) == 0;
    }
    expect(distinct == 256, "256 points");
    expect(steps == 256, "neighbouring points differ in one bit");
}

static void test_tweak(void)
{
    bits128 zero = {{0}};
    bits128 t = TweakSalt(zero, 3, 16, 103);
    expect(same(t.b, "43670000000000000000000000000000"), "TweakSalt(0, 3, 16, 103)");
    t = TweakSalt(t, 3, 16, 103);
    expect(memcmp(&t, &zero, sizeof t) == 0, "TweakSalt twice");
}

int selftest(void)
{
    passed = failed = 0;
    test_cipher();
    test_xof();
    test_fields();
    test_points();
    test_tweak();
    printf("%d passed, %d failed\n", passed, failed);
    return failed > 0;
}

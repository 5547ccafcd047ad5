/* AES-128 with four tables of words, Keccak-f[1600] on 25 local lanes, SHAKE-128, and byte loops over vectors of GF(256): what a C programmer
   writes who wants speed and no assembly, no intrinsics. */
#include "plain.h"

#include <string.h>

/* ---- GF(256) */

static uint8_t twice(uint8_t a) { return (uint8_t)(a << 1 ^ (a >> 7) * 0x1b); }

static inline uint8_t product(uint8_t a, uint8_t b)
{
    uint8_t r = 0;
    for (int i = 0; i < 8; i++) {
        r ^= (uint8_t)(a & -(b & 1));
        a = (uint8_t)(a << 1 ^ (a >> 7) * 0x1b);
        b >>= 1;
    }
    return r;
}

uint8_t plain_dot(const uint8_t *a, const uint8_t *b, size_t n)
{
    uint8_t r = 0;
    for (size_t i = 0; i < n; i++)
        r ^= product(a[i], b[i]);
    return r;
}

void plain_add_scaled(uint8_t *restrict dst, uint8_t w, const uint8_t *restrict src, size_t n)
{
    for (size_t i = 0; i < n; i++)
        dst[i] ^= product(w, src[i]);
}

/* ---- AES-128 */

static uint8_t sbox[256];

/* FIPS 197, 5.1.1, as it stands: the inverse, then the affine map. */
void plain_start(void)
{
    for (int x = 0; x < 256; x++) {
        int inverse = 0, s = 0;
        for (int y = 0; y < 256; y++)
            if (product((uint8_t)x, (uint8_t)y) == 1)
                inverse = y;
        for (int i = 0; i < 8; i++) {
            int bit = inverse >> i ^ inverse >> (i + 4) % 8 ^ inverse >> (i + 5) % 8 ^ inverse >> (i + 6) % 8 ^ inverse >> (i + 7) % 8 ^ 0x63 >> i;
            s |= (bit & 1) << i;
        }
        sbox[x] = (uint8_t)s;
    }
}

static uint32_t word(const uint8_t *s)
{
    return (uint32_t)s[0] | (uint32_t)s[1] << 8 | (uint32_t)s[2] << 16 | (uint32_t)s[3] << 24;
}

static void put(uint8_t *s, uint32_t w)
{
    s[0] = (uint8_t)w;
    s[1] = (uint8_t)(w >> 8);
    s[2] = (uint8_t)(w >> 16);
    s[3] = (uint8_t)(w >> 24);
}

struct tables {
    uint32_t t0[256], t1[256], t2[256], t3[256];
};

static void make_tables(struct tables *t)
{
    for (int x = 0; x < 256; x++) {
        uint32_t s = sbox[x], d = twice((uint8_t)s), e = s ^ d;
        t->t0[x] = d | s << 8 | s << 16 | e << 24;
        t->t1[x] = e | d << 8 | s << 16 | s << 24;
        t->t2[x] = s | e << 8 | d << 16 | s << 24;
        t->t3[x] = s | s << 8 | e << 16 | d << 24;
    }
}

static void expand(const uint8_t key[16], uint32_t k[44])
{
    uint8_t rc = 1;
    for (int i = 0; i < 4; i++)
        k[i] = word(key + 4 * i);
    for (int i = 4; i < 44; i++) {
        uint32_t w = k[i - 1];
        if (i % 4 == 0) {
            w = (uint32_t)sbox[w >> 8 & 255] | (uint32_t)sbox[w >> 16 & 255] << 8 | (uint32_t)sbox[w >> 24] << 16 | (uint32_t)sbox[w & 255] << 24;
            w ^= rc;
            rc = twice(rc);
        }
        k[i] = k[i - 4] ^ w;
    }
}

#define MIXED(a, b, c, d) (t->t0[(a) & 255] ^ t->t1[(b) >> 8 & 255] ^ t->t2[(c) >> 16 & 255] ^ t->t3[(d) >> 24])
#define SHIFTED(a, b, c, d) \
    ((uint32_t)sbox[(a) & 255] | (uint32_t)sbox[(b) >> 8 & 255] << 8 | (uint32_t)sbox[(c) >> 16 & 255] << 16 | (uint32_t)sbox[(d) >> 24] << 24)

static void encrypt(const struct tables *t, const uint32_t k[44], uint8_t s[16])
{
    uint32_t a = word(s) ^ k[0], b = word(s + 4) ^ k[1], c = word(s + 8) ^ k[2], d = word(s + 12) ^ k[3];
    for (int r = 4; r < 40; r += 4) {
        uint32_t e = MIXED(a, b, c, d) ^ k[r], f = MIXED(b, c, d, a) ^ k[r + 1];
        uint32_t g = MIXED(c, d, a, b) ^ k[r + 2], h = MIXED(d, a, b, c) ^ k[r + 3];
        a = e;
        b = f;
        c = g;
        d = h;
    }
    put(s, SHIFTED(a, b, c, d) ^ k[40]);
    put(s + 4, SHIFTED(b, c, d, a) ^ k[41]);
    put(s + 8, SHIFTED(c, d, a, b) ^ k[42]);
    put(s + 12, SHIFTED(d, a, b, c) ^ k[43]);
}

void plain_encrypt(const uint8_t key[16], uint8_t *buf, size_t blocks)
{
    struct tables t;
    uint32_t k[44];
    make_tables(&t);
    expand(key, k);
    for (size_t i = 0; i < blocks; i++)
        encrypt(&t, k, buf + 16 * i);
}

/* ---- Keccak-f[1600] and SHAKE-128 */

static const uint64_t constants[24] = {
    0x0000000000000001, 0x0000000000008082, 0x800000000000808a, 0x8000000080008000, 0x000000000000808b, 0x0000000080000001,
    0x8000000080008081, 0x8000000000008009, 0x000000000000008a, 0x0000000000000088, 0x0000000080008009, 0x000000008000000a,
    0x000000008000808b, 0x800000000000008b, 0x8000000000008089, 0x8000000000008003, 0x8000000000008002, 0x8000000000000080,
    0x000000000000800a, 0x800000008000000a, 0x8000000080008081, 0x8000000000008080, 0x0000000080000001, 0x8000000080008008,
};

#define TURN(x, n) ((x) << (n) | (x) >> (64 - (n)))
#define COLUMN(x) (a##x##0 ^ a##x##1 ^ a##x##2 ^ a##x##3 ^ a##x##4)
#define ADD(x, d) (a##x##0 ^= d, a##x##1 ^= d, a##x##2 ^= d, a##x##3 ^= d, a##x##4 ^= d)
#define ROW(y) \
    (a0##y = b0 ^ (~b1 & b2), a1##y = b1 ^ (~b2 & b3), a2##y = b2 ^ (~b3 & b4), a3##y = b3 ^ (~b4 & b0), a4##y = b4 ^ (~b0 & b1))

__attribute__((noinline)) void plain_permute(uint64_t s[25])
{
    /* axy is the lane at x, y */
    uint64_t a00 = s[0], a10 = s[1], a20 = s[2], a30 = s[3], a40 = s[4];
    uint64_t a01 = s[5], a11 = s[6], a21 = s[7], a31 = s[8], a41 = s[9];
    uint64_t a02 = s[10], a12 = s[11], a22 = s[12], a32 = s[13], a42 = s[14];
    uint64_t a03 = s[15], a13 = s[16], a23 = s[17], a33 = s[18], a43 = s[19];
    uint64_t a04 = s[20], a14 = s[21], a24 = s[22], a34 = s[23], a44 = s[24];
    for (int i = 0; i < 24; i++) {
        uint64_t c0 = COLUMN(0), c1 = COLUMN(1), c2 = COLUMN(2), c3 = COLUMN(3), c4 = COLUMN(4);
        uint64_t d0 = c4 ^ TURN(c1, 1), d1 = c0 ^ TURN(c2, 1), d2 = c1 ^ TURN(c3, 1), d3 = c2 ^ TURN(c4, 1), d4 = c3 ^ TURN(c0, 1);
        ADD(0, d0);
        ADD(1, d1);
        ADD(2, d2);
        ADD(3, d3);
        ADD(4, d4);
        uint64_t e01 = TURN(a30, 28), e11 = TURN(a41, 20), e21 = TURN(a02, 3), e31 = TURN(a13, 45), e41 = TURN(a24, 61);
        uint64_t e02 = TURN(a10, 1), e12 = TURN(a21, 6), e22 = TURN(a32, 25), e32 = TURN(a43, 8), e42 = TURN(a04, 18);
        uint64_t e03 = TURN(a40, 27), e13 = TURN(a01, 36), e23 = TURN(a12, 10), e33 = TURN(a23, 15), e43 = TURN(a34, 56);
        uint64_t e04 = TURN(a20, 62), e14 = TURN(a31, 55), e24 = TURN(a42, 39), e34 = TURN(a03, 41), e44 = TURN(a14, 2);
        uint64_t b0 = a00, b1 = TURN(a11, 44), b2 = TURN(a22, 43), b3 = TURN(a33, 21), b4 = TURN(a44, 14);
        ROW(0);
        a00 ^= constants[i];
        b0 = e01, b1 = e11, b2 = e21, b3 = e31, b4 = e41;
        ROW(1);
        b0 = e02, b1 = e12, b2 = e22, b3 = e32, b4 = e42;
        ROW(2);
        b0 = e03, b1 = e13, b2 = e23, b3 = e33, b4 = e43;
        ROW(3);
        b0 = e04, b1 = e14, b2 = e24, b3 = e34, b4 = e44;
        ROW(4);
    }
    s[0] = a00, s[1] = a10, s[2] = a20, s[3] = a30, s[4] = a40;
    s[5] = a01, s[6] = a11, s[7] = a21, s[8] = a31, s[9] = a41;
    s[10] = a02, s[11] = a12, s[12] = a22, s[13] = a32, s[14] = a42;
    s[15] = a03, s[16] = a13, s[17] = a23, s[18] = a33, s[19] = a43;
    s[20] = a04, s[21] = a14, s[22] = a24, s[23] = a34, s[24] = a44;
}

static uint64_t lane(const uint8_t *p)
{
    return (uint64_t)word(p) | (uint64_t)word(p + 4) << 32;
}

void plain_shake(const uint8_t *text, size_t n, uint8_t *out, size_t m)
{
    uint64_t a[25] = {0};
    uint8_t last[168] = {0};
    for (; n >= 168; n -= 168, text += 168) {
        for (int i = 0; i < 21; i++)
            a[i] ^= lane(text + 8 * i);
        plain_permute(a);
    }
    if (n > 0)
        memcpy(last, text, n);
    last[n] ^= 0x1f;
    last[167] ^= 0x80;
    for (int i = 0; i < 21; i++)
        a[i] ^= lane(last + 8 * i);
    plain_permute(a);
    for (size_t i = 0, j = 0; i < m; i++, j++) {
        if (j == 168) {
            plain_permute(a);
            j = 0;
        }
        out[i] = (uint8_t)(a[j / 8] >> 8 * (j % 8));
    }
}

/* Seeds, GGM trees and the batch line commitment: document 001, algorithms 10 to
   12 and 14 to 20. Minus is plus in characteristic 2. */
#include "trees.h"

#include <string.h>

#include "symmetric.h"

/* Selectors of algorithm 17; commitments use SEL_COMMIT and SEL_COMMIT + 1. */
enum { SEL_COMMIT = 0, SEL_DERIVE = 2, SEL_PRG = 3 };

enum { RAW_8 = X_8 + U_8, EXP_8 = RAW_8 - LAMBDA_8 };

static bits128 xor128(bits128 x, bits128 y)
{
    for (int i = 0; i < LAMBDA_8; i++)
        x.b[i] ^= y.b[i];
    return x;
}

/* psi(x_l || x_r) = (x_l + x_r || x_l), equation 13. */
static bits128 psi(bits128 x)
{
    bits128 out;
    for (int i = 0; i < LAMBDA_8 / 2; i++) {
        out.b[i] = x.b[i] ^ x.b[LAMBDA_8 / 2 + i];
        out.b[LAMBDA_8 / 2 + i] = x.b[i];
    }
    return out;
}

/* Algorithm 17. Bits_lambda puts the low byte first. */
bits128 TweakSalt(bits128 salt, unsigned sel, unsigned e, unsigned j)
{
    unsigned tweak = sel + 4 * e + 256 * j;
    salt.b[0] ^= tweak & 0xff;
    salt.b[1] ^= tweak >> 8 & 0xff;
    return salt;
}

/* Algorithm 18; c is keyed with tweaked_salt. */
static bits128 SeedDerive(cipher *c, bits128 seed)
{
    bits128 new_seed;
    Enc(c, seed.b, new_seed.b);
    return xor128(new_seed, psi(seed));
}

/* Algorithm 19; c[0] is keyed with tweaked_salt, c[1] with tweaked_salt + Bits(1).
   Each half is computed as in algorithm 18. */
static bits256 SeedCommit(cipher *const c[2], bits128 seed)
{
    bits256 seed_com;
    for (int half = 0; half < 2; half++) {
        bits128 com = SeedDerive(c[half], seed);
        memcpy(seed_com.b + half * LAMBDA_8, com.b, LAMBDA_8);
    }
    return seed_com;
}

/* Algorithm 20; a block is computed as in algorithm 18. */
void PRG(bits128 salt, unsigned e, const bits128 *seed, size_t count, size_t n_bytes,
         uint8_t *out)
{
    cipher *c = cipher_new();
    size_t n_blocks = (n_bytes + LAMBDA_8 - 1) / LAMBDA_8;
    for (size_t i = 0; i < n_blocks; i++) {
        bits128 tweaked_salt = TweakSalt(salt, SEL_PRG, e, (unsigned)i);
        size_t at = i * LAMBDA_8;
        size_t len = n_bytes - at < LAMBDA_8 ? n_bytes - at : LAMBDA_8;
        cipher_set_key(c, tweaked_salt.b);
        for (size_t s = 0; s < count; s++) {
            bits128 block = SeedDerive(c, seed[s]);
            memcpy(out + s * n_bytes + at, block.b, len);
        }
    }
    cipher_free(c);
}

/* Algorithm 14, lines 3 to 7, and algorithm 16, lines 6 to 11: the children of
   every known node. */
static void derive_nodes(const bits128 *salt, unsigned e, bits128 node[2 * N],
                         uint8_t known[2 * N])
{
    cipher *c = cipher_new();
    for (unsigned j = 1; j < LOG2_N; j++) {
        bits128 tweaked_salt = TweakSalt(*salt, SEL_DERIVE, e, j);
        cipher_set_key(c, tweaked_salt.b);
        for (unsigned k = 1u << j; k < 2u << j; k++) {
            if (!known[k])
                continue;
            node[2 * k] = SeedDerive(c, node[k]);
            node[2 * k + 1] = xor128(node[2 * k], node[k]);
            known[2 * k] = known[2 * k + 1] = 1;
        }
    }
    cipher_free(c);
}

/* Algorithm 14; lseed[i] is node[N + i]. */
static void GGMTree_Expand(const bits128 *salt, bits128 rseed, unsigned e, bits128 delta,
                           bits128 node[2 * N])
{
    uint8_t known[2 * N] = {0};
    node[2] = rseed;
    node[3] = xor128(rseed, delta);
    known[2] = known[3] = 1;
    derive_nodes(salt, e, node, known);
}

/* Algorithm 15. */
static void GGMTree_Open(const bits128 node[2 * N], unsigned i_star, bits128 path[LOG2_N])
{
    unsigned i = N + i_star;
    for (unsigned j = 0; j < LOG2_N; j++) {
        path[j] = node[i ^ 1];
        i /= 2;
    }
}

/* Algorithm 16; the hidden leaf stays zero, and what is made of it is not used. */
static void GGMTree_PartiallyExpand(const bits128 *salt, const bits128 path[LOG2_N],
                                    unsigned e, unsigned i_star, bits128 node[2 * N])
{
    uint8_t known[2 * N] = {0};
    unsigned i = N + i_star;
    for (unsigned j = 0; j < LOG2_N; j++) {
        node[i ^ 1] = path[j];
        known[i ^ 1] = 1;
        i /= 2;
    }
    derive_nodes(salt, e, node, known);
}

/* Algorithm 10, lines 5 to 9: commitments and tapes raw_i = lseed[i] || exp[i]. */
static void commit_leaves(const bits128 *salt, unsigned e, const bits128 lseed[N],
                          bits256 ls_com[N], uint8_t raw[N][RAW_8])
{
    cipher *c[2];
    for (unsigned half = 0; half < 2; half++) {
        bits128 tweaked_salt = TweakSalt(*salt, SEL_COMMIT + half, e, 0);
        c[half] = cipher_new();
        cipher_set_key(c[half], tweaked_salt.b);
    }
    uint8_t expanded[N][EXP_8];
    PRG(*salt, e, lseed, N, EXP_8, expanded[0]);
    for (unsigned i = 0; i < N; i++) {
        ls_com[i] = SeedCommit(c, lseed[i]);
        memcpy(raw[i], lseed[i].b, LAMBDA_8);
        memcpy(raw[i] + LAMBDA_8, expanded[i], EXP_8);
    }
    cipher_free(c[0]);
    cipher_free(c[1]);
}

/* (x_i, u_i) = Parse(raw_i) */
static void parse_raw(const uint8_t raw[RAW_8], Fn *x, Keta *u)
{
    memcpy(x->b, raw, X_8);
    memcpy(u->e, raw + X_8, U_8);
}

K lift_element(const Fn *v, unsigned j)
{
    uint8_t pair = v->b[j / 2];
    return lift(j % 2 == 0 ? pair & 15 : pair >> 4);
}

/* sum + factor * v */
static void add_scaled_Fn(Kn *sum, K factor, const Fn *v)
{
    for (unsigned j = 0; j < N_VAR; j++)
        sum->e[j] ^= K_mul(factor, lift_element(v, j));
}

static void add_scaled_Keta(Keta *sum, K factor, const Keta *v)
{
    for (unsigned j = 0; j < ETA; j++)
        sum->e[j] ^= K_mul(factor, v->e[j]);
}

static void Hash6(const bits256 ls_com[N], bits256 *out)
{
    xof *h = XOF_open(6);
    XOF_add(h, ls_com, N * sizeof *ls_com);
    XOF_close(h, out, sizeof *out);
}

static void Hash7(const bits256 hash_ls_com[TAU], const bits96 delta_x1[TAU], bits256 *out)
{
    xof *h = XOF_open(7);
    XOF_add(h, hash_ls_com, TAU * sizeof *hash_ls_com);
    XOF_add(h, delta_x1, TAU * sizeof *delta_x1);
    XOF_close(h, out, sizeof *out);
}

void BLC_Commit(const bits128 *mseed, const bits128 *salt, const Fn *x, bits256 *com1,
                blc_key *key, Kn x0[TAU], Keta u0[TAU], Keta u1[TAU])
{
    bits128 zero = {{0}}, rseed[TAU], delta;
    bits256 hash_ls_com[TAU];
    uint8_t raw[N][RAW_8];

    PRG(zero, 0, mseed, 1, sizeof rseed, rseed[0].b);
    memcpy(delta.b, x->b, LAMBDA_8);
    memset(key, 0, sizeof *key);
    memset(x0, 0, TAU * sizeof *x0);
    memset(u0, 0, TAU * sizeof *u0);
    memset(u1, 0, TAU * sizeof *u1);
    for (unsigned e = 0; e < TAU; e++) {
        GGMTree_Expand(salt, rseed[e], e, delta, key->node[e]);
        commit_leaves(salt, e, key->node[e] + N, key->ls_com[e], raw);
        Hash6(key->ls_com[e], &hash_ls_com[e]);
        Fn delta_x = *x;
        for (unsigned i = 0; i < N; i++) {
            Fn x_i;
            Keta u_i;
            parse_raw(raw[i], &x_i, &u_i);
            add_scaled_Keta(&u0[e], omega(i), &u_i);
            add_scaled_Keta(&u1[e], 1, &u_i);
            add_scaled_Fn(&x0[e], omega(i), &x_i);
            for (unsigned b = 0; b < X_8; b++)
                delta_x.b[b] ^= x_i.b[b];
        }
        memcpy(key->delta_x1[e].b, delta_x.b + LAMBDA_8, DELTA_8);
    }
    Hash7(hash_ls_com, key->delta_x1, com1);
}

void BLC_Open(const blc_key *key, const uint8_t i_star[TAU], blc_opening *opening)
{
    for (unsigned e = 0; e < TAU; e++) {
        GGMTree_Open(key->node[e], i_star[e], opening->path[e]);
        opening->out_ls_com[e] = key->ls_com[e][i_star[e]];
    }
    memcpy(opening->delta_x1, key->delta_x1, sizeof opening->delta_x1);
}

int BLC_Eval(const bits128 *salt, const bits256 *com, const blc_opening *opening,
             const uint8_t i_star[TAU], Kn x_eval[TAU], Keta u_eval[TAU])
{
    bits256 ls_com[N], hash_ls_com[TAU], com_again;
    uint8_t raw[N][RAW_8];

    memset(x_eval, 0, TAU * sizeof *x_eval);
    memset(u_eval, 0, TAU * sizeof *u_eval);
    for (unsigned e = 0; e < TAU; e++) {
        bits128 node[2 * N] = {{{0}}};
        GGMTree_PartiallyExpand(salt, opening->path[e], e, i_star[e], node);
        commit_leaves(salt, e, node + N, ls_com, raw);
        ls_com[i_star[e]] = opening->out_ls_com[e];
        Hash6(ls_com, &hash_ls_com[e]);
        K r = omega(i_star[e]);
        Fn delta_x = {{0}};
        memcpy(delta_x.b + LAMBDA_8, opening->delta_x1[e].b, DELTA_8);
        add_scaled_Fn(&x_eval[e], r, &delta_x);
        for (unsigned i = 0; i < N; i++) {
            Fn x_i;
            Keta u_i;
            if (i == i_star[e])
                continue;
            parse_raw(raw[i], &x_i, &u_i);
            add_scaled_Fn(&x_eval[e], r ^ omega(i), &x_i);
            add_scaled_Keta(&u_eval[e], r ^ omega(i), &u_i);
        }
    }
    Hash7(hash_ls_com, opening->delta_x1, &com_again);
    return memcmp(&com_again, com, sizeof com_again) == 0;
}

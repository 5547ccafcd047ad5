/* Key generation, signing, verification and the arithmetic routines: document
   001, algorithms 1 to 9. Minus is plus in characteristic 2, and without batching
   Gamma is the identity. */
#include "mqom2.h"

#include <string.h>

#include "symmetric.h"
#include "trees.h"

enum { NB_EQ = N_VAR + N_VAR * (N_VAR + 1) / 2 };   /* algorithm 2, lines 1 and 2 */

/* The packed equations. */
typedef struct {
    Kn A[M_HAT][N_VAR];         /* rows of lower triangular matrices */
    Kn b[M_HAT];
} equations;

/* The challenge of XOF_5: 17 indexes of 8 bits, then 9 bits. */
typedef struct {
    uint8_t i_star[TAU];
    unsigned val;
} challenge;

static Kn lift_vector(const Fn *v)
{
    Kn out;
    for (unsigned j = 0; j < N_VAR; j++)
        out.e[j] = lift_element(v, j);
    return out;
}

/* v^T w */
static K dot(const Kn *v, const Kn *w)
{
    K sum = 0;
    for (unsigned j = 0; j < N_VAR; j++)
        sum ^= K_mul(v->e[j], w->e[j]);
    return sum;
}

/* A v; entries right of the diagonal are zero and left out. */
static Kn apply(const Kn A[N_VAR], const Kn *v)
{
    Kn out;
    for (unsigned j = 0; j < N_VAR; j++) {
        K sum = 0;
        for (unsigned k = 0; k <= j; k++)
            sum ^= K_mul(A[j].e[k], v->e[k]);
        out.e[j] = sum;
    }
    return out;
}

/* v + factor * w */
static void add_scaled(Kn *v, K factor, const Kn *w)
{
    for (unsigned j = 0; j < N_VAR; j++)
        v->e[j] ^= K_mul(factor, w->e[j]);
}

/* Algorithm 2. */
static void ExpandEquations(const bits256 *mseed_eq, equations *eq)
{
    bits128 zero = {{0}}, seed_eq[M_HAT];
    uint8_t bytes[M_HAT][NB_EQ];

    for (unsigned i = 0; i < M_HAT; i++) {
        uint8_t index[2] = {(uint8_t)i, 0};     /* Bits_16, low byte first */
        xof *h = XOF_open(1);
        XOF_add(h, mseed_eq, sizeof *mseed_eq);
        XOF_add(h, index, sizeof index);
        XOF_close(h, &seed_eq[i], sizeof seed_eq[i]);
    }
    PRG(zero, 0, seed_eq, M_HAT, NB_EQ, bytes[0]);
    memset(eq, 0, sizeof *eq);
    for (unsigned i = 0; i < M_HAT; i++) {
        const uint8_t *row = bytes[i];
        for (unsigned j = 0; j < N_VAR; j++) {
            memcpy(eq->A[i][j].e, row, j + 1);
            row += j + 1;
        }
        memcpy(eq->b[i].e, row, N_VAR);
    }
}

/* Algorithm 1, lines 3 to 6. */
static Keta output_of(const bits256 *mseed_eq, const Fn *x)
{
    equations eq;
    Keta y;
    Kn v = lift_vector(x);
    ExpandEquations(mseed_eq, &eq);
    for (unsigned i = 0; i < M_HAT; i++) {
        Kn Av = apply(eq.A[i], &v);
        y.e[i] = dot(&v, &Av) ^ dot(&eq.b[i], &v);
    }
    return y;
}

/* Algorithm 1. */
void KeyGen(const bits256 *seed_key, public_key *pk, secret_key *sk)
{
    uint8_t out[sizeof sk->x + sizeof pk->mseed_eq];
    xof *h = XOF_open(0);
    XOF_add(h, seed_key, sizeof *seed_key);
    XOF_close(h, out, sizeof out);
    memcpy(&sk->x, out, sizeof sk->x);
    memcpy(&pk->mseed_eq, out + sizeof sk->x, sizeof pk->mseed_eq);
    pk->y = output_of(&pk->mseed_eq, &sk->x);
    sk->pk = *pk;
}

/* Algorithm 7. */
static void ComputePz(const Kn *x0, const Kn *x, const equations *eq, Keta *z0, Keta *z1)
{
    for (unsigned i = 0; i < M_HAT; i++) {
        Kn t0 = apply(eq->A[i], x0);
        Kn t1 = apply(eq->A[i], x);
        add_scaled(&t1, 1, &eq->b[i]);
        z0->e[i] = dot(&t0, x0);
        z1->e[i] = dot(&t0, x) ^ dot(&t1, x0);
    }
}

/* Algorithm 6. */
static void ComputePAlpha(const Kn x0[TAU], const Keta u0[TAU], const Keta u1[TAU],
                          const Fn *x, const bits256 *mseed_eq, Keta alpha0[TAU],
                          Keta alpha1[TAU])
{
    equations eq;
    Kn v = lift_vector(x);
    ExpandEquations(mseed_eq, &eq);
    for (unsigned e = 0; e < TAU; e++) {
        Keta z0, z1;
        ComputePz(&x0[e], &v, &eq, &z0, &z1);
        for (unsigned i = 0; i < ETA; i++) {
            alpha0[e].e[i] = u0[e].e[i] ^ z0.e[i];
            alpha1[e].e[i] = u1[e].e[i] ^ z1.e[i];
        }
    }
}

/* Algorithm 9. */
static Keta ComputePzEval(K r, const Kn *v_x, const equations *eq, const Keta *y)
{
    Keta v_z;
    for (unsigned i = 0; i < M_HAT; i++) {
        Kn v_t = apply(eq->A[i], v_x);
        add_scaled(&v_t, r, &eq->b[i]);
        v_z.e[i] = dot(&v_t, v_x) ^ K_mul(y->e[i], K_mul(r, r));
    }
    return v_z;
}

/* Algorithm 8. */
static void RecomputePAlpha(const Keta alpha1[TAU], const uint8_t i_star[TAU],
                            const Kn x_eval[TAU], const Keta u_eval[TAU],
                            const bits256 *mseed_eq, const Keta *y, Keta alpha0[TAU])
{
    equations eq;
    ExpandEquations(mseed_eq, &eq);
    for (unsigned e = 0; e < TAU; e++) {
        K r = omega(i_star[e]);
        Keta v_z = ComputePzEval(r, &x_eval[e], &eq, y);
        for (unsigned i = 0; i < ETA; i++) {
            K v_alpha = u_eval[e].e[i] ^ v_z.e[i];
            alpha0[e].e[i] = v_alpha ^ K_mul(alpha1[e].e[i], r);
        }
    }
}

static bits256 Hash2(const uint8_t *msg, size_t mlen)
{
    bits256 out;
    xof *h = XOF_open(2);
    XOF_add(h, msg, mlen);
    XOF_close(h, &out, sizeof out);
    return out;
}

static bits256 Hash3(const Keta alpha0[TAU], const Keta alpha1[TAU])
{
    bits256 out;
    xof *h = XOF_open(3);
    XOF_add(h, alpha0, TAU * sizeof *alpha0);
    XOF_add(h, alpha1, TAU * sizeof *alpha1);
    XOF_close(h, &out, sizeof out);
    return out;
}

static bits256 Hash4(const public_key *pk, const bits256 *com1, const bits256 *com2,
                     const bits256 *msg_hash)
{
    bits256 out;
    xof *h = XOF_open(4);
    XOF_add(h, pk, sizeof *pk);
    XOF_add(h, com1, sizeof *com1);
    XOF_add(h, com2, sizeof *com2);
    XOF_add(h, msg_hash, sizeof *msg_hash);
    XOF_close(h, &out, sizeof out);
    return out;
}

/* Parse(XOF_5((hash, nonce), tau * log2(N) + w)): 145 bits in 19 bytes, the last
   bit lowest in the last byte. */
static challenge XOF5(const bits256 *hash, const uint8_t nonce[4])
{
    uint8_t out[(TAU * LOG2_N + W + 7) / 8];
    challenge ch;
    xof *h = XOF_open(5);
    XOF_add(h, hash, sizeof *hash);
    XOF_add(h, nonce, 4);
    XOF_close(h, out, sizeof out);
    memcpy(ch.i_star, out, TAU);
    ch.val = out[TAU] + 256u * (out[TAU + 1] & 1u);
    return ch;
}

/* Algorithm 4, of which at most the given tries are made. */
static int SampleChallenge(const bits256 *hash, uint32_t tries, challenge *ch,
                           uint8_t nonce[4])
{
    for (uint32_t count = 0; count < tries; count++) {
        for (unsigned b = 0; b < 4; b++)
            nonce[b] = count >> 8 * b & 0xff;
        *ch = XOF5(hash, nonce);
        if (ch->val == 0)
            return DONE;
    }
    return NO_NONCE;
}

/* Algorithm 3, lines 5 to 9: the signature up to its opening. */
static bits256 commit(const secret_key *sk, const uint8_t *msg, size_t mlen,
                      const bits128 *mseed, const bits128 *salt, signature *s, blc_key *key)
{
    Kn x0[TAU];
    Keta u0[TAU], u1[TAU], alpha0[TAU];

    s->salt = *salt;
    bits256 msg_hash = Hash2(msg, mlen);
    BLC_Commit(mseed, salt, &sk->x, &s->com1, key, x0, u0, u1);
    ComputePAlpha(x0, u0, u1, &sk->x, &sk->pk.mseed_eq, alpha0, s->alpha1);
    s->com2 = Hash3(alpha0, s->alpha1);
    return Hash4(&sk->pk, &s->com1, &s->com2, &msg_hash);
}

/* Algorithm 3, after the refusal of a secret key that holds no solution. */
int Sign(const secret_key *sk, const uint8_t *msg, size_t mlen, const bits128 *mseed,
         const bits128 *salt, uint32_t tries, signature *sig)
{
    signature s;
    blc_key key;
    challenge ch;

    Keta y = output_of(&sk->pk.mseed_eq, &sk->x);
    if (memcmp(&y, &sk->pk.y, sizeof y) != 0)
        return NO_SOLUTION;
    bits256 hash = commit(sk, msg, mlen, mseed, salt, &s, &key);
    if (SampleChallenge(&hash, tries, &ch, s.nonce) != DONE)
        return NO_NONCE;
    BLC_Open(&key, ch.i_star, &s.opening);
    *sig = s;
    return DONE;
}

void SignAt(const secret_key *sk, const uint8_t *msg, size_t mlen, const bits128 *mseed,
            const bits128 *salt, const uint8_t nonce[4], signature *sig)
{
    blc_key key;
    bits256 hash = commit(sk, msg, mlen, mseed, salt, sig, &key);
    challenge ch = XOF5(&hash, nonce);
    memcpy(sig->nonce, nonce, sizeof sig->nonce);
    BLC_Open(&key, ch.i_star, &sig->opening);
}

/* Algorithm 5. */
int Verif(const public_key *pk, const uint8_t *msg, size_t mlen, const signature *sig)
{
    Kn x_eval[TAU];
    Keta u_eval[TAU], alpha0[TAU];

    bits256 msg_hash = Hash2(msg, mlen);
    bits256 hash = Hash4(pk, &sig->com1, &sig->com2, &msg_hash);
    challenge ch = XOF5(&hash, sig->nonce);
    if (ch.val != 0)
        return REJECTED;
    if (!BLC_Eval(&sig->salt, &sig->com1, &sig->opening, ch.i_star, x_eval, u_eval))
        return REJECTED;
    RecomputePAlpha(sig->alpha1, ch.i_star, x_eval, u_eval, &pk->mseed_eq, &pk->y, alpha0);
    bits256 com2 = Hash3(alpha0, sig->alpha1);
    if (memcmp(&com2, &sig->com2, sizeof com2) != 0)
        return REJECTED;
    return DONE;
}

uint32_t nonce_of(const signature *sig)
{
    uint32_t nonce = 0;
    for (unsigned b = 0; b < 4; b++)
        nonce |= (uint32_t)sig->nonce[b] << 8 * b;
    return nonce;
}

/* MQOM v2.1, set MQOM2-L1-gf16-fast-r3: key generation, signing, verification.
   Follows document 001, section 2, with the row of table 6 for this set.

   A second program for tests: it is neither constant-time nor wipes its memory. */
#ifndef MQOM2_H
#define MQOM2_H

#include <stddef.h>
#include <stdint.h>

#include "field.h"

enum {
    LAMBDA_8 = 16,      /* lambda / 8 */
    N_VAR = 56,         /* n, unknowns */
    MU = 2,             /* equations in a packed one */
    M_HAT = 28,         /* packed equations */
    ETA = 28,           /* no batching: eta = m_hat */
    TAU = 17,           /* repetitions */
    LOG2_N = 8,
    N = 1 << LOG2_N,    /* leaves of a tree */
    W = 9,              /* grinding bits */
    X_8 = N_VAR / 2,    /* |x|_8 */
    U_8 = ETA,          /* |u|_8 */
    DELTA_8 = X_8 - LAMBDA_8
};

/* Section 2.3. Every type below is made of bytes alone, so its bytes in memory
   are its serialization, and Serialize and Parse are copies. */
typedef struct { uint8_t b[LAMBDA_8]; } bits128;        /* {0,1}^lambda */
typedef struct { uint8_t b[2 * LAMBDA_8]; } bits256;    /* {0,1}^(2 lambda) */
typedef struct { uint8_t b[DELTA_8]; } bits96;         /* {0,1}^(|x|_2 - lambda) */
typedef struct { uint8_t b[X_8]; } Fn;                  /* F^n */
typedef struct { K e[N_VAR]; } Kn;                      /* K^n */
typedef struct { K e[ETA]; } Keta;                      /* K^eta and K^m_hat */

typedef struct {
    bits256 mseed_eq;
    Keta y;
} public_key;

typedef struct {
    public_key pk;
    Fn x;
} secret_key;

/* What BLC.Open gives and BLC.Eval takes. */
typedef struct {
    bits128 path[TAU][LOG2_N];          /* from leaf to root */
    bits256 out_ls_com[TAU];
    bits96 delta_x1[TAU];
} blc_opening;

typedef struct {
    bits128 salt;
    bits256 com1, com2;
    Keta alpha1[TAU];
    blc_opening opening;
    uint8_t nonce[4];                   /* low byte first */
} signature;

_Static_assert(sizeof(public_key) == 60, "P");
_Static_assert(sizeof(secret_key) == 88, "Q");
_Static_assert(sizeof(signature) == 3484, "S");

/* What the calls below answer. */
enum {
    DONE = 0,
    NO_SOLUTION = 4,    /* x does not satisfy the equations of the secret key */
    NO_NONCE = 5,       /* none of the allowed tries passes */
    REJECTED = 6
};

/* Algorithm 1, with seed_key as an input. */
void KeyGen(const bits256 *seed_key, public_key *pk, secret_key *sk);

/* Algorithm 3, with mseed, salt and the allowed tries as inputs: DONE,
   NO_SOLUTION or NO_NONCE. sig is written with DONE alone. */
int Sign(const secret_key *sk, const uint8_t *msg, size_t mlen, const bits128 *mseed,
         const bits128 *salt, uint32_t tries, signature *sig);

/* For tests: algorithm 3 with this nonce in line 10, whether it passes or not, and
   with any x. */
void SignAt(const secret_key *sk, const uint8_t *msg, size_t mlen, const bits128 *mseed,
            const bits128 *salt, const uint8_t nonce[4], signature *sig);

/* Algorithm 5: DONE for True, REJECTED for False. */
int Verif(const public_key *pk, const uint8_t *msg, size_t mlen, const signature *sig);

/* The nonce of a signature as a number. */
uint32_t nonce_of(const signature *sig);

/* Algorithm 17, for the self test. */
bits128 TweakSalt(bits128 salt, unsigned sel, unsigned e, unsigned j);

#endif

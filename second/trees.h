/* Seeds, GGM trees and the batch line commitment: document 001, sections 2.5.2
   to 2.5.4. Trees know nothing of equations. */
#ifndef TREES_H
#define TREES_H

#include "mqom2.h"

/* The opening key of BLC.Commit: all nodes, commitments and corrections. */
typedef struct {
    bits128 node[TAU][2 * N];           /* from index 2 on */
    bits256 ls_com[TAU][N];
    bits96 delta_x1[TAU];
} blc_key;

/* Algorithm 10. */
void BLC_Commit(const bits128 *mseed, const bits128 *salt, const Fn *x, bits256 *com1,
                blc_key *key, Kn x0[TAU], Keta u0[TAU], Keta u1[TAU]);

/* Algorithm 11. */
void BLC_Open(const blc_key *key, const uint8_t i_star[TAU], blc_opening *opening);

/* Algorithm 12: 1 for True, 0 for False; with 0 the evaluations mean nothing. */
int BLC_Eval(const bits128 *salt, const bits256 *com, const blc_opening *opening,
             const uint8_t i_star[TAU], Kn x_eval[TAU], Keta u_eval[TAU]);

/* Algorithm 20 for count seeds under one salt and one e: out holds n_bytes for
   each seed in turn. The key of block i depends on salt, e and i alone. */
void PRG(bits128 salt, unsigned e, const bits128 *seed, size_t count, size_t n_bytes,
         uint8_t *out);

/* Element j of a vector of F^n, lifted into K; the first of a byte is low. */
K lift_element(const Fn *v, unsigned j);

#endif

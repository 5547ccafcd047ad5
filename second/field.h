/* The fields F = F_16 and K = F_256, the lift of F into K and the evaluation
   points: document 001, sections 2.3 and 3.1, table 5. */
#ifndef FIELD_H
#define FIELD_H

#include <stdint.h>

/* sum of e_i * xi^i, with e_i in bit i; addition and subtraction are both ^ */
typedef uint8_t K;

/* xi^7 + xi^6 + xi^5, where the lift takes rho */
#define LIFT_RHO 0xe0

/* To be called once before any other function here. */
void field_init(void);

/* the product of every two elements, made by field_init */
extern K K_product[256][256];

static inline K K_mul(K a, K b)
{
    return K_product[a][b];
}

/* e is sum of e_i * rho^i with e_i in bit i, for i = 0..3. */
K lift(uint8_t e);

/* omega_i, for i = 0..255, in Gray code order */
K omega(unsigned i);

#endif

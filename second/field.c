/* The fields, the lift and the evaluation points: document 001, section 3.1. */
#include "field.h"

K K_product[256][256];
static K lifted[16];

/* K is F_2[xi] / (xi^8 + xi^4 + xi^3 + xi + 1). */
static K times_xi(K a)
{
    return (K)((a << 1) ^ (a & 0x80 ? 0x1b : 0));
}

static K mul_by_definition(K a, K b)
{
    K sum = 0;
    for (int i = 0; i < 8; i++) {
        if (b >> i & 1)
            sum ^= a;
        a = times_xi(a);
    }
    return sum;
}

/* The image of e under the morphism that takes rho to LIFT_RHO. */
static K lift_by_definition(uint8_t e)
{
    K sum = 0, power = 1;
    for (int i = 0; i < 4; i++) {
        if (e >> i & 1)
            sum ^= power;
        power = mul_by_definition(power, LIFT_RHO);
    }
    return sum;
}

void field_init(void)
{
    for (unsigned a = 0; a < 256; a++)
        for (unsigned b = 0; b < 256; b++)
            K_product[a][b] = mul_by_definition((K)a, (K)b);
    for (unsigned e = 0; e < 16; e++)
        lifted[e] = lift_by_definition((uint8_t)e);
}

K lift(uint8_t e)
{
    return lifted[e & 15];
}

/* Coordinate j of omega_i is i_j + i_(j+1). */
K omega(unsigned i)
{
    K sum = 0;
    for (unsigned j = 0; j < 8; j++)
        sum |= (K)(((i >> j ^ i >> (j + 1)) & 1) << j);
    return sum;
}

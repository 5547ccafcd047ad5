/* What crates/timed exports: a slice is a pointer and a count. */
#ifndef TIMED_H
#define TIMED_H

#include <stdbool.h>
#include <stddef.h>
#include <stdint.h>

uint8_t timed_make_keys(const uint8_t *seed, size_t seed_count, uint8_t *pk, size_t pk_count, uint8_t *sk, size_t sk_count, uint8_t *work, size_t work_count);

uint8_t timed_sign(const uint8_t *sk, size_t sk_count, const uint8_t *msg, size_t msg_count, const uint8_t *salt, size_t salt_count, const uint8_t *mseed,
                   size_t mseed_count, uint32_t tries, uint8_t *sig, size_t sig_count, uint8_t *work, size_t work_count);

uint8_t timed_check(const uint8_t *pk, size_t pk_count, const uint8_t *msg, size_t msg_count, const uint8_t *sig, size_t sig_count, uint8_t *work,
                    size_t work_count);

uint8_t timed_read_cell(const uint8_t *cell, size_t cell_count, uint8_t *out, size_t out_count);
uint8_t timed_write_cell(const uint8_t *key, size_t key_count, uint8_t *out, size_t out_count);
bool timed_same_signer(const uint8_t *a, size_t a_count, const uint8_t *b, size_t b_count);

#endif

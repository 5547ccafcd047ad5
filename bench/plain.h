/* Plain C versions of what crates/kernels exports, for lengths that fit. */
#ifndef PLAIN_H
#define PLAIN_H

#include <stddef.h>
#include <stdint.h>

/* Makes the substitution box: once, before plain_encrypt. */
void plain_start(void);

void plain_encrypt(const uint8_t key[16], uint8_t *buf, size_t blocks);
void plain_permute(uint64_t lanes[25]);
void plain_shake(const uint8_t *text, size_t text_count, uint8_t *out, size_t out_count);
uint8_t plain_dot(const uint8_t *a, const uint8_t *b, size_t n);
void plain_add_scaled(uint8_t *dst, uint8_t w, const uint8_t *src, size_t n);

#endif

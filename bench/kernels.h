/* What crates/kernels exports: a slice is a pointer and a count. */
#ifndef KERNELS_H
#define KERNELS_H

#include <stddef.h>
#include <stdint.h>

uint8_t kernels_encrypt(const uint8_t *key, size_t key_count, uint8_t *buf, size_t buf_count);
void kernels_shake(const uint8_t *text, size_t text_count, uint8_t *out, size_t out_count);
uint32_t kernels_dot(const uint8_t *a, size_t a_count, const uint8_t *b, size_t b_count);
uint8_t kernels_add_scaled(uint8_t *dst, size_t dst_count, uint8_t w, const uint8_t *src, size_t src_count);

#endif

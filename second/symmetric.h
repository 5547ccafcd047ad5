/* Symmetric primitives: document 001, section 2.5.5, table 4, category I.
   Enc is AES-128 (FIPS 197), XOF is SHAKE128 (FIPS 202), both from libcrypto. */
#ifndef SYMMETRIC_H
#define SYMMETRIC_H

#include <stddef.h>
#include <stdint.h>

/* Enc with its key set. */
typedef struct evp_cipher_ctx_st cipher;

cipher *cipher_new(void);
void cipher_set_key(cipher *c, const uint8_t key[16]);
void Enc(cipher *c, const uint8_t ptx[16], uint8_t ctx[16]);
void cipher_free(cipher *c);

/* XOF_i(in, len): open with i, add the parts of in, close with len in bytes.
   XOF_open_plain leaves out the prefixed byte i. Hash_i is XOF_i with 32 bytes. */
typedef struct evp_md_ctx_st xof;

xof *XOF_open_plain(void);
xof *XOF_open(uint8_t i);
void XOF_add(xof *h, const void *in, size_t len);
void XOF_close(xof *h, void *out, size_t len);

#endif

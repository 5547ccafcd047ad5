/* Symmetric primitives over libcrypto: document 001, section 2.5.5. */
#include "symmetric.h"

#include <openssl/evp.h>
#include <stdio.h>
#include <stdlib.h>

/* A failure of libcrypto leaves nothing to compute with. */
static void must(int ok, const char *what)
{
    if (ok)
        return;
    fprintf(stderr, "second: libcrypto: %s failed\n", what);
    abort();
}

cipher *cipher_new(void)
{
    static EVP_CIPHER *aes;
    if (aes == NULL)
        aes = EVP_CIPHER_fetch(NULL, "AES-128-ECB", NULL);
    must(aes != NULL, "EVP_CIPHER_fetch");
    cipher *c = EVP_CIPHER_CTX_new();
    must(c != NULL, "EVP_CIPHER_CTX_new");
    must(EVP_EncryptInit_ex2(c, aes, NULL, NULL, NULL) == 1, "EVP_EncryptInit_ex2");
    must(EVP_CIPHER_CTX_set_padding(c, 0) == 1, "EVP_CIPHER_CTX_set_padding");
    return c;
}

void cipher_set_key(cipher *c, const uint8_t key[16])
{
    must(EVP_EncryptInit_ex2(c, NULL, key, NULL, NULL) == 1, "EVP_EncryptInit_ex2");
}

void Enc(cipher *c, const uint8_t ptx[16], uint8_t ctx[16])
{
    int len = 0;
    must(EVP_EncryptUpdate(c, ctx, &len, ptx, 16) == 1 && len == 16, "EVP_EncryptUpdate");
}

void cipher_free(cipher *c)
{
    EVP_CIPHER_CTX_free(c);
}

xof *XOF_open_plain(void)
{
    static EVP_MD *shake;
    if (shake == NULL)
        shake = EVP_MD_fetch(NULL, "SHAKE128", NULL);
    must(shake != NULL, "EVP_MD_fetch");
    xof *h = EVP_MD_CTX_new();
    must(h != NULL, "EVP_MD_CTX_new");
    must(EVP_DigestInit_ex2(h, shake, NULL) == 1, "EVP_DigestInit_ex2");
    return h;
}

xof *XOF_open(uint8_t i)
{
    xof *h = XOF_open_plain();
    XOF_add(h, &i, 1);
    return h;
}

void XOF_add(xof *h, const void *in, size_t len)
{
    if (len > 0)
        must(EVP_DigestUpdate(h, in, len) == 1, "EVP_DigestUpdate");
}

void XOF_close(xof *h, void *out, size_t len)
{
    must(EVP_DigestFinalXOF(h, out, len) == 1, "EVP_DigestFinalXOF");
    EVP_MD_CTX_free(h);
}

/* Making and checking files of known answers. A record of our own form holds
   count, seed_key, pk, sk, mlen, msg, salt, mseed, place, sig; place is the passing
   nonce's place, counted from 1. A record of a PQCsignKAT file holds count, seed,
   mlen, msg, pk, sk, smlen, sm. */
#include "rsp.h"

#include <stdio.h>
#include <stdlib.h>
#include <string.h>

#include "jobs.h"
#include "mqom2.h"
#include "rsp_file.h"
#include "symmetric.h"

typedef struct {
    bits256 seed_key;
    bits128 salt, mseed;
    public_key pk;
    secret_key sk;
    signature sig;
} vector;

static void print_hex(const char *name, const void *bytes, size_t len)
{
    const uint8_t *b = bytes;
    printf("%s = ", name);
    for (size_t i = 0; i < len; i++)
        printf("%02x", b[i]);
    putchar('\n');
}

enum { RSP_MAX_MESSAGE = 1024 };

/* Inputs of vector number count: SHAKE128 of the seed's text and the number. */
static void draw(vector *v, const char *seed, unsigned long count, uint8_t *msg, size_t *mlen)
{
    uint8_t out[64 + 2 + RSP_MAX_MESSAGE], number[4];
    for (unsigned b = 0; b < 4; b++)
        number[b] = count >> 8 * b & 0xff;
    xof *h = XOF_open_plain();
    XOF_add(h, seed, strlen(seed));
    XOF_add(h, number, sizeof number);
    XOF_close(h, out, sizeof out);
    memcpy(&v->seed_key, out, 32);
    memcpy(&v->salt, out + 32, 16);
    memcpy(&v->mseed, out + 48, 16);
    *mlen = (out[64] + 256u * out[65]) % (RSP_MAX_MESSAGE + 1);
    memcpy(msg, out + 66, *mlen);
}

int rsp_make(const char *count, const char *seed)
{
    if (*count == '\0' || strlen(count) > 6 || strspn(count, "0123456789") != strlen(count)) {
        fprintf(stderr, "second: COUNT is a decimal number below 1000000\n");
        return 2;
    }
    unsigned long total = strtoul(count, NULL, 10);
    printf("# MQOM2-L1-gf16-fast-r3, version 2.1\n\n");
    for (unsigned long i = 0; i < total; i++) {
        vector v;
        uint8_t msg[RSP_MAX_MESSAGE];
        size_t mlen;
        draw(&v, seed, i, msg, &mlen);
        KeyGen(&v.seed_key, &v.pk, &v.sk);
        if (Sign(&v.sk, msg, mlen, &v.mseed, &v.salt, MAX_TRIES, &v.sig) != DONE) {
            fprintf(stderr, "second: vector %lu does not sign\n", i);
            return 1;
        }
        printf("count = %lu\n", i);
        print_hex("seed_key", &v.seed_key, sizeof v.seed_key);
        print_hex("pk", &v.pk, sizeof v.pk);
        print_hex("sk", &v.sk, sizeof v.sk);
        printf("mlen = %zu\n", mlen);
        print_hex("msg", msg, mlen);
        print_hex("salt", &v.salt, sizeof v.salt);
        print_hex("mseed", &v.mseed, sizeof v.mseed);
        printf("place = %lu\n", nonce_of(&v.sig) + 1ul);
        print_hex("sig", &v.sig, sizeof v.sig);
        putchar('\n');
    }
    return 0;
}

/* NULL, or what is wrong with the record. */
static const char *check_vector(const rsp_record *r, const uint8_t *msg, size_t mlen)
{
    vector given, made;
    if (rsp_number(r, "mlen") != (long)mlen)
        return "mlen";
    if (!rsp_exactly(r, "seed_key", &given.seed_key, sizeof given.seed_key) ||
        !rsp_exactly(r, "pk", &given.pk, sizeof given.pk) ||
        !rsp_exactly(r, "sk", &given.sk, sizeof given.sk) ||
        !rsp_exactly(r, "salt", &given.salt, sizeof given.salt) ||
        !rsp_exactly(r, "mseed", &given.mseed, sizeof given.mseed) ||
        !rsp_exactly(r, "sig", &given.sig, sizeof given.sig))
        return "a field is missing, or not hexadecimal of its length";
    KeyGen(&given.seed_key, &made.pk, &made.sk);
    if (memcmp(&made.pk, &given.pk, sizeof made.pk) != 0)
        return "pk";
    if (memcmp(&made.sk, &given.sk, sizeof made.sk) != 0)
        return "sk";
    if (Sign(&made.sk, msg, mlen, &given.mseed, &given.salt, MAX_TRIES, &made.sig) != DONE)
        return "signing gives no signature";
    if (rsp_number(r, "place") != nonce_of(&made.sig) + 1l)
        return "place";
    if (memcmp(&made.sig, &given.sig, sizeof made.sig) != 0)
        return "sig";
    if (Verif(&given.pk, msg, mlen, &given.sig) != DONE)
        return "verification rejects";
    return NULL;
}

/* How often each arrangement of a signed message was met. */
typedef struct {
    int sig_first, msg_first, either;
} arrangements;

/* The same for a record of a PQCsignKAT file, with Verif alone. The signature is
   what remains of sm without the message, which stands before or after it. */
static const char *check_signed(const rsp_record *r, const uint8_t *msg, size_t mlen,
                                const uint8_t *sm, size_t smlen, arrangements *met)
{
    public_key pk;
    signature sig;
    if (rsp_number(r, "mlen") != (long)mlen)
        return "mlen";
    if (rsp_number(r, "smlen") != (long)smlen || smlen != sizeof sig + mlen)
        return "smlen";
    if (!rsp_exactly(r, "pk", &pk, sizeof pk))
        return "pk is not hexadecimal of 60 bytes";
    int sig_first = mlen == 0 || memcmp(sm + sizeof sig, msg, mlen) == 0;
    int msg_first = mlen == 0 || memcmp(sm, msg, mlen) == 0;
    if (!sig_first && !msg_first)
        return "sm does not hold msg at either end";
    met->sig_first += sig_first && !msg_first;
    met->msg_first += msg_first && !sig_first;
    met->either += sig_first && msg_first;
    for (int order = 0; order < 2; order++) {
        if (!(order == 0 ? sig_first : msg_first))
            continue;
        memcpy(&sig, order == 0 ? sm : sm + mlen, sizeof sig);
        if (Verif(&pk, msg, mlen, &sig) == DONE)
            return NULL;
    }
    return "verification rejects";
}

static const char *check_record(const rsp_record *r, arrangements *met)
{
    size_t mlen, smlen;
    uint8_t *msg = rsp_bytes(r, "msg", &mlen);
    if (msg == NULL)
        return "msg";
    const char *wrong = "sm";
    if (met == NULL) {
        wrong = check_vector(r, msg, mlen);
    } else {
        uint8_t *sm = rsp_bytes(r, "sm", &smlen);
        if (sm != NULL)
            wrong = check_signed(r, msg, mlen, sm, smlen, met);
        free(sm);
    }
    free(msg);
    return wrong;
}

/* Checks every record. A file that cannot be read, holds no record or has a
   malformed line is a failure of its own. */
static int check_all(const char *path, arrangements *met)
{
    rsp_reader reader;
    rsp_record record;
    int passed = 0, failed = 0;
    if (!rsp_open(&reader, path)) {
        printf("%s: cannot be read\n0 passed, 1 failed\n", path);
        return 1;
    }
    while (rsp_next(&reader, &record)) {
        const char *wrong = check_record(&record, met);
        const char *count = rsp_text(&record, "count");
        if (wrong == NULL)
            passed++;
        else
            printf("%s: count %s: %s\n", path, count == NULL ? "?" : count, wrong);
        failed += wrong != NULL;
        rsp_free(&record);
    }
    if (reader.malformed > 0 || ferror(reader.file) || passed + failed == 0) {
        printf("%s: %s\n", path, passed + failed == 0 ? "no vectors" : "malformed lines");
        failed++;
    }
    rsp_close(&reader);
    if (met != NULL)
        printf("signature then message: %d, message then signature: %d, either: %d\n",
               met->sig_first, met->msg_first, met->either);
    printf("%d passed, %d failed\n", passed, failed);
    return failed > 0;
}

int rsp_check(const char *path)
{
    return check_all(path, NULL);
}

int rsp_kat(const char *path)
{
    arrangements met = {0, 0, 0};
    return check_all(path, &met);
}

/* make_key SEED PUBLIC SECRET
   sign_file SECRET MESSAGE SALT MASTER TRIES SIGNATURE
   check_file PUBLIC MESSAGE SIGNATURE
   sign_at SECRET MESSAGE SALT MASTER NONCE SIGNATURE, which only tests need
   Files hold raw bytes. The lowest number that applies is answered, and output
   files are written with 0 alone. An output that cannot be written is number 1. */
#include "jobs.h"

#include <errno.h>
#include <fcntl.h>
#include <stdio.h>
#include <string.h>
#include <unistd.h>

#include "mqom2.h"

/* Reads up to max bytes into buf: their number, or -1 when the file cannot be read. */
static long read_file(const char *path, uint8_t *buf, size_t max)
{
    FILE *f = fopen(path, "rb");
    if (f == NULL)
        return -1;
    size_t len = fread(buf, 1, max, f);
    int failed = ferror(f);
    fclose(f);
    return failed ? -1 : (long)len;
}

/* Whether the file holds exactly len bytes, at most 4096; they are put into out. */
static int read_exactly(const char *path, void *out, size_t len)
{
    uint8_t buf[4097];
    if (len + 1 > sizeof buf || read_file(path, buf, len + 1) != (long)len)
        return 0;
    memcpy(out, buf, len);
    return 1;
}

/* A message with room for the byte that makes it too long. */
typedef struct {
    uint8_t bytes[MAX_MESSAGE + 1];
    long len;
} message;

static int read_message(const char *path, message *msg)
{
    msg->len = read_file(path, msg->bytes, sizeof msg->bytes);
    return msg->len >= 0;
}

typedef struct {
    const char *path;
    const void *bytes;
    size_t len;
    mode_t mode;
    int fd, created;
} output;

static int open_output(output *o)
{
    o->fd = open(o->path, O_WRONLY | O_CREAT | O_EXCL, o->mode);
    o->created = o->fd >= 0;
    if (o->fd < 0)
        o->fd = open(o->path, O_WRONLY);
    return o->fd >= 0;
}

static int fill_output(const output *o)
{
    const uint8_t *p = o->bytes;
    size_t left = o->len;
    if (ftruncate(o->fd, 0) != 0 && errno != EINVAL)    /* a device has no length */
        return 0;
    while (left > 0) {
        ssize_t done = write(o->fd, p, left);
        if (done <= 0)
            return 0;
        p += done;
        left -= (size_t)done;
    }
    return 1;
}

/* Nothing is written unless all can be opened. */
static int write_outputs(output *o, int count)
{
    int ok = 1;
    for (int i = 0; i < count; i++)
        ok = open_output(&o[i]) && ok;
    for (int i = 0; i < count && ok; i++)
        ok = fill_output(&o[i]);
    for (int i = 0; i < count; i++)
        if (o[i].fd >= 0 && close(o[i].fd) != 0)
            ok = 0;
    for (int i = 0; i < count && !ok; i++)
        if (o[i].created)
            unlink(o[i].path);
    return ok ? DONE : WRONG_LENGTH;
}

static int make_key(char *const files[])
{
    bits256 seed_key;
    public_key pk;
    secret_key sk;
    if (!read_exactly(files[0], &seed_key, sizeof seed_key))
        return WRONG_LENGTH;
    KeyGen(&seed_key, &pk, &sk);
    output out[2] = {
        {.path = files[1], .bytes = &pk, .len = sizeof pk, .mode = 0644},
        {.path = files[2], .bytes = &sk, .len = sizeof sk, .mode = 0600},
    };
    return write_outputs(out, 2);
}

/* What the two ways to sign are given; number is that of allowed tries or a nonce. */
typedef struct {
    secret_key sk;
    message msg;
    bits128 salt, mseed;
    uint8_t number[4];
} signing;

static int read_signing(char *const files[], signing *s)
{
    if (!read_exactly(files[0], &s->sk, sizeof s->sk) || !read_message(files[1], &s->msg) ||
        !read_exactly(files[2], &s->salt, sizeof s->salt) ||
        !read_exactly(files[3], &s->mseed, sizeof s->mseed) ||
        !read_exactly(files[4], s->number, sizeof s->number))
        return WRONG_LENGTH;
    return s->msg.len > MAX_MESSAGE ? MESSAGE_TOO_LONG : DONE;
}

static int write_signature(const char *path, const signature *sig)
{
    output out = {.path = path, .bytes = sig, .len = sizeof *sig, .mode = 0644};
    return write_outputs(&out, 1);
}

static int sign_file(char *const files[])
{
    static signing s;
    signature sig;
    int answer = read_signing(files, &s);
    if (answer != DONE)
        return answer;
    uint32_t tries = 0;
    for (unsigned b = 0; b < 4; b++)
        tries |= (uint32_t)s.number[b] << 8 * b;
    if (tries == 0 || tries > MAX_TRIES)
        return WRONG_TRIES;
    answer = Sign(&s.sk, s.msg.bytes, (size_t)s.msg.len, &s.mseed, &s.salt, tries, &sig);
    return answer == DONE ? write_signature(files[5], &sig) : answer;
}

static int sign_at(char *const files[])
{
    static signing s;
    signature sig;
    int answer = read_signing(files, &s);
    if (answer != DONE)
        return answer;
    SignAt(&s.sk, s.msg.bytes, (size_t)s.msg.len, &s.mseed, &s.salt, s.number, &sig);
    return write_signature(files[5], &sig);
}

static int check_file(char *const files[])
{
    static message msg;
    public_key pk;
    signature sig;

    if (!read_exactly(files[0], &pk, sizeof pk) || !read_message(files[1], &msg) ||
        !read_exactly(files[2], &sig, sizeof sig))
        return WRONG_LENGTH;
    if (msg.len > MAX_MESSAGE)
        return MESSAGE_TOO_LONG;
    return Verif(&pk, msg.bytes, (size_t)msg.len, &sig);
}

int run_job(int count, char *const words[])
{
    static const struct {
        const char *name;
        int files;
        int (*run)(char *const files[]);
    } jobs[] = {
        {"make_key", 3, make_key},
        {"sign_file", 6, sign_file},
        {"check_file", 3, check_file},
        {"sign_at", 6, sign_at},
    };
    for (size_t i = 0; count > 0 && i < sizeof jobs / sizeof *jobs; i++)
        if (strcmp(words[0], jobs[i].name) == 0)
            return count == 1 + jobs[i].files ? jobs[i].run(words + 1) : WRONG_LENGTH;
    return -1;
}

/* Reading .rsp files. */
#include "rsp_file.h"

#include <ctype.h>
#include <stdlib.h>
#include <string.h>

static void *must_have(void *p)
{
    if (p == NULL) {
        fprintf(stderr, "second: out of memory\n");
        abort();
    }
    return p;
}

int rsp_open(rsp_reader *r, const char *path)
{
    memset(r, 0, sizeof *r);
    r->file = fopen(path, "r");
    return r->file != NULL;
}

void rsp_close(rsp_reader *r)
{
    free(r->line);
    fclose(r->file);
}

/* The text between the spaces at both ends. */
static char *trim(char *s)
{
    while (isspace((unsigned char)*s))
        s++;
    size_t len = strlen(s);
    while (len > 0 && isspace((unsigned char)s[len - 1]))
        s[--len] = '\0';
    return s;
}

/* Splits "name = value" in place; 0 when it is no such line. */
static int split(char *line, char **name, char **value)
{
    char *equals = strchr(line, '=');
    if (equals == NULL)
        return 0;
    *equals = '\0';
    *name = trim(line);
    *value = trim(equals + 1);
    return **name != '\0';
}

static int starts_record(const char *line)
{
    while (isspace((unsigned char)*line))
        line++;
    return strncmp(line, "count", 5) == 0 && (line[5] == ' ' || line[5] == '=');
}

static void add_field(rsp_reader *r, rsp_record *record)
{
    char *name, *value, *text = trim(r->line);
    if (*text == '\0' || *text == '#')
        return;
    if (record->fields == MAX_FIELDS || !split(text, &name, &value)) {
        r->malformed++;
        return;
    }
    record->name[record->fields] = must_have(strdup(name));
    record->value[record->fields] = must_have(strdup(value));
    record->fields++;
}

int rsp_next(rsp_reader *r, rsp_record *record)
{
    memset(record, 0, sizeof *record);
    for (;;) {
        if (!r->pending && getline(&r->line, &r->capacity, r->file) < 0)
            return record->fields > 0;
        r->pending = 0;
        if (starts_record(r->line) && record->fields > 0) {
            r->pending = 1;
            return 1;
        }
        add_field(r, record);
    }
}

void rsp_free(rsp_record *record)
{
    for (size_t i = 0; i < record->fields; i++) {
        free(record->name[i]);
        free(record->value[i]);
    }
}

const char *rsp_text(const rsp_record *record, const char *name)
{
    for (size_t i = 0; i < record->fields; i++)
        if (strcmp(record->name[i], name) == 0)
            return record->value[i];
    return NULL;
}

long rsp_number(const rsp_record *record, const char *name)
{
    const char *text = rsp_text(record, name);
    if (text == NULL || *text == '\0' || strlen(text) > 9 ||
        strspn(text, "0123456789") != strlen(text))
        return -1;
    return strtol(text, NULL, 10);
}

static int digit(char c)
{
    static const char digits[] = "0123456789abcdef";
    const char *at = strchr(digits, tolower((unsigned char)c));
    return c != '\0' && at != NULL ? (int)(at - digits) : -1;
}

uint8_t *rsp_bytes(const rsp_record *record, const char *name, size_t *len)
{
    const char *text = rsp_text(record, name);
    if (text == NULL || strlen(text) % 2 != 0)
        return NULL;
    *len = strlen(text) / 2;
    uint8_t *bytes = must_have(malloc(*len + 1));
    for (size_t i = 0; i < *len; i++) {
        int high = digit(text[2 * i]), low = digit(text[2 * i + 1]);
        if (high < 0 || low < 0) {
            free(bytes);
            return NULL;
        }
        bytes[i] = (uint8_t)(high << 4 | low);
    }
    return bytes;
}

int rsp_exactly(const rsp_record *record, const char *name, void *out, size_t len)
{
    size_t have;
    uint8_t *bytes = rsp_bytes(record, name, &have);
    if (bytes == NULL)
        return 0;
    int ok = have == len;
    if (ok)
        memcpy(out, bytes, len);
    free(bytes);
    return ok;
}

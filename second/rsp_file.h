/* Reading .rsp files: lines "name = value", records that start with "count". */
#ifndef RSP_FILE_H
#define RSP_FILE_H

#include <stddef.h>
#include <stdint.h>
#include <stdio.h>

typedef struct {
    FILE *file;
    char *line;         /* the last line read */
    size_t capacity;
    int pending;        /* line is the first of the next record */
    int malformed;      /* lines that are neither fields nor comments nor blank */
} rsp_reader;

enum { MAX_FIELDS = 16 };

typedef struct {
    char *name[MAX_FIELDS], *value[MAX_FIELDS];
    size_t fields;
} rsp_record;

int rsp_open(rsp_reader *r, const char *path);
void rsp_close(rsp_reader *r);

/* 1 with the next record, which is then to be freed; 0 when there is none. */
int rsp_next(rsp_reader *r, rsp_record *record);
void rsp_free(rsp_record *record);

/* The field's text, or NULL. */
const char *rsp_text(const rsp_record *record, const char *name);

/* The field's decimal number, or -1. */
long rsp_number(const rsp_record *record, const char *name);

/* The field's hexadecimal bytes, to be freed, and their number; NULL when it is
   missing or no such text. */
uint8_t *rsp_bytes(const rsp_record *record, const char *name, size_t *len);

/* 1 and len bytes in out when the field holds exactly len bytes. */
int rsp_exactly(const rsp_record *record, const char *name, void *out, size_t len);

#endif

/* Files of known answers: our own form and that of PQCsignKAT files. */
#ifndef RSP_H
#define RSP_H

/* Each answers the exit status: 0 when all passed. */
int rsp_make(const char *count, const char *seed);
int rsp_check(const char *path);
int rsp_kat(const char *path);

#endif

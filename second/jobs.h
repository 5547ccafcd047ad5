/* The jobs over named files, and the number each of them answers. */
#ifndef JOBS_H
#define JOBS_H

enum {
    WRONG_LENGTH = 1,
    MESSAGE_TOO_LONG = 2,
    WRONG_TRIES = 3,
    MAX_MESSAGE = 65536,
    MAX_TRIES = 1048576
};

/* words[0] is the job's name, the others are its files. Answers the number, or -1
   when there is no such job. */
int run_job(int count, char *const words[]);

#endif

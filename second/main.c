/* The command line of the second program; see README.md. */
#include <stdio.h>
#include <stdlib.h>
#include <string.h>

#include "field.h"
#include "jobs.h"
#include "rsp.h"
#include "selftest.h"

static const char usage[] =
    "second make_key SEED PUBLIC SECRET\n"
    "second sign_file SECRET MESSAGE SALT MASTER TRIES SIGNATURE\n"
    "second check_file PUBLIC MESSAGE SIGNATURE\n"
    "second sign_at SECRET MESSAGE SALT MASTER NONCE SIGNATURE\n"
    "second batch          jobs as above, one on each line of the input\n"
    "second rsp COUNT SEED\n"
    "second check_rsp FILE\n"
    "second kat FILE\n"
    "second selftest\n";

/* One number for each line; a line that names no job gives "-". */
static int batch(void)
{
    char *line = NULL, *words[8];
    size_t capacity = 0;
    while (getline(&line, &capacity, stdin) >= 0) {
        int count = 0;
        char *rest = NULL;
        for (char *w = strtok_r(line, " \t\r\n", &rest); w != NULL && count < 8;
             w = strtok_r(NULL, " \t\r\n", &rest))
            words[count++] = w;
        int number = run_job(count, words);
        if (number < 0)
            puts("-");
        else
            printf("%d\n", number);
        fflush(stdout);
    }
    free(line);
    return 0;
}

int main(int argc, char **argv)
{
    field_init();
    int number = run_job(argc - 1, argv + 1);
    if (number >= 0) {
        printf("%d\n", number);
        return 0;
    }
    const char *command = argc > 1 ? argv[1] : "";
    if (argc == 2 && strcmp(command, "batch") == 0)
        return batch();
    if (argc == 2 && strcmp(command, "selftest") == 0)
        return selftest();
    if (argc == 4 && strcmp(command, "rsp") == 0)
        return rsp_make(argv[2], argv[3]);
    if (argc == 3 && strcmp(command, "check_rsp") == 0)
        return rsp_check(argv[2]);
    if (argc == 3 && strcmp(command, "kat") == 0)
        return rsp_kat(argv[2]);
    fputs(usage, stderr);
    return 2;
}

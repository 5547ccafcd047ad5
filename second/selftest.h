/* Primitives and field facts on published values. */
#ifndef SELFTEST_H
#define SELFTEST_H

/* Prints what fails and a last line of counts; answers the exit status. */
int selftest(void);

#endif

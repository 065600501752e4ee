/* The cases of DPDK's tests, each with a name of its own, so that each can run by itself. */
#ifndef CASES_H
#define CASES_H 1

/* Adds a case: `run(which)` returns 0 if it passes, and below 0 if it fails. */
void case_add(const char *name, int (*run)(unsigned), unsigned which);

/* What a case returns that can't be built over the headers: it reads a structure's inside. */
#define CASE_CANT_BE 78

#endif

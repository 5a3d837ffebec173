/* What the program tells on standard error of why something can't be done. */
#ifndef REGTX_HINTS_H
#define REGTX_HINTS_H

#include <sys/types.h>

/* A file for the program's standard error; negative, if there is none, and it has the caller's. */
int regtx_hints_open(void);

/* Keeps what was told since so many bytes, for regtx_hints; nothing, if there is no file. */
void regtx_hints_take(int file, off_t *told);

/* The caller's environment, by which the program tells hints without a terminal too; to be freed.
 * NULL, if there is no memory. */
char **regtx_hints_environment(void);

#endif

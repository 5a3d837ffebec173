/* What the program tells on standard error: a file in memory, which is read after a failure. */
#define _GNU_SOURCE /* memfd_create */

#include "regtx_hints.h"

#include "regtx_client.h"

#include <stdbool.h>
#include <stdlib.h>
#include <string.h>
#include <sys/mman.h>
#include <unistd.h>

extern char **environ;

enum { MOST_HINTS = 4096 };

static const char switched_on[] = "REGTX_HINTS=1";

/* what was told last in this thread */
static _Thread_local char last_told[MOST_HINTS + 1];

const char *regtx_hints(void)
{
    return last_told;
}

int regtx_hints_open(void)
{
    return memfd_create("regtx", MFD_CLOEXEC);
}

void regtx_hints_take(int file, off_t *told)
{
    ssize_t size = file < 0 ? 0 : pread(file, last_told, MOST_HINTS, *told);
    size = size < 0 ? 0 : size;
    *told += size;
    last_told[size] = 0;
    if (size > 0 && last_told[size - 1] == '\n')
        last_told[size - 1] = 0;
}

char **regtx_hints_environment(void)
{
    size_t count = 0, kept = 0;
    while (environ && environ[count])
        count++;
    char **all = calloc(count + 2, sizeof *all);
    if (!all)
        return NULL;
    for (size_t at = 0; at < count; at++)
        if (strncmp(environ[at], switched_on, sizeof switched_on - 2) != 0)
            all[kept++] = environ[at];
    all[kept] = (char *)switched_on;
    return all;
}

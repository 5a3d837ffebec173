/* Messages of the broker. */
#include "messages.h"

#include <errno.h>
#include <stdarg.h>
#include <stdio.h>
#include <stdlib.h>
#include <string.h>

void say(const char *format, ...)
{
    va_list words;
    va_start(words, format);
    fputs("regtxd: ", stderr);
    vfprintf(stderr, format, words);
    fputc('\n', stderr);
    va_end(words);
}

void say_errno(const char *what)
{
    say("%s: %s", what, strerror(errno));
}

_Noreturn void die(const char *what)
{
    say_errno(what);
    exit(EXIT_FAILURE);
}

void print_line(const char *line, size_t size)
{
    if (fwrite(line, 1, size, stdout) != size || fputc('\n', stdout) == EOF
        || fflush(stdout) == EOF)
        say_errno("standard output");
}

/* The words that the broker is started with. */
#ifndef REGTXD_OPTIONS_H
#define REGTXD_OPTIONS_H

#include <stdbool.h>
#include <stdint.h>
#include <sys/types.h>
#include <sys/un.h>

/* bytes of a socket's path, with the zero after it */
enum { PATH_SIZE = sizeof((struct sockaddr_un *)0)->sun_path };

struct options {
    const char *path;
    const char *store; /* the folder in which the socket's path is told; NULL: it isn't */
    char **command;
    mode_t mode;
    gid_t group;
    bool has_mode, has_group, is_verbose;
    int most;     /* clients at a time, 1 to PLACES */
    int64_t idle; /* milliseconds; 0: for ever */
};

/* Reads the words of `main`; answers whether they are right. If not, a word that isn't understood
   is told; the usage isn't. */
bool parse_options(struct options *options, int count, char **words);

/* Reads a number of this base, up to `most`, that is the whole text; answers whether it is one. */
bool parse_number(const char *text, unsigned long most, int base, unsigned long *number);

#endif

/* The Unix socket that clients connect to, and its file. */
#ifndef REGTXD_LISTENER_H
#define REGTXD_LISTENER_H

#include <stdbool.h>
#include <stdint.h>
#include <sys/types.h>

#include "options.h"

struct listener {
    int fd;            /* -1: none is open */
    bool is_inherited; /* systemd made it */
    dev_t device;
    ino_t file;           /* 0: there is no file that is to be removed */
    int64_t paused_until; /* milliseconds of the clock: no accept before */
};

/* Whether the folder of the socket's path is the broker's own or root's, and nobody else may write
   it. If not, that is told. */
bool is_folder_safe(const char *path);

/* Begins to listen at the path, unless systemd's socket listens already. A socket that an earlier
   broker of this user left is removed. Answers whether that could be done; if not, why is told. */
bool open_listener(struct listener *listener, const struct options *options);

/* Removes the socket's file, if this broker made it and it is there still. */
void remove_socket_file(struct listener *listener, const char *path);

/* Removes the file, and listens no more. */
void close_listener(struct listener *listener, const char *path);

#endif

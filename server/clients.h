/* The clients: their places, their connections, and the replies that they didn't read yet. */
#ifndef REGTXD_CLIENTS_H
#define REGTXD_CLIENTS_H

#include <stdbool.h>
#include <stddef.h>
#include <stdint.h>

#include "frames.h"

struct broker;
struct pollfd;

struct client {
    int fd;         /* -1: nobody is connected */
    bool is_taken;  /* from `open` to the program's `end` */
    bool is_sent;   /* the program hasn't taken the last `data` of it */
    bool is_owed;   /* the program waits for `more` */
    bool has_ended; /* `end` or `gone` was told */
    int64_t moved;  /* milliseconds of the clock: when a byte of it moved last */
    size_t at, len; /* of the replies: those before `at` were sent */
    char replies[CHUNK];
};

/* Accepts a connection, and gives it a place or refuses it. Answers the place, or -1. Who has gone
   is told to the program before. */
int accept_client(struct broker *broker);

/* Whether bytes of a client may be read: nothing else waits for the program, and that has taken
   what the client sent before. */
bool may_read(const struct broker *broker, const struct client *client);

/* Does what poll answered of a client's connection: nothing if that is another by now. */
void serve_client(struct broker *broker, int place, const struct pollfd *polled);

/* Keeps replies of so many bytes, for which the program waits for `more`, if their client is there
   still. If they are the last of their frame, what is there is sent. */
void keep_replies(struct broker *broker, int place, const char *bytes, size_t count);

/* The program has ended a client's session. The place is free, for the program at once, and for
   another client once the last replies of this one are sent. */
void end_session(struct broker *broker, int place);

/* Closes connections that moved no byte for as long as the options say. Answers after how many
   milliseconds the next may have to be closed; -1 if none may. */
int64_t close_idle_clients(struct broker *broker, int64_t time);

/* Sends clients that read the replies that are there, for LINGER milliseconds at most, and then
   closes all connections. */
void close_clients(struct broker *broker);

#endif

/* The state of a broker, which its parts share, and what begins and ends its service. */
#ifndef REGTXD_BROKER_H
#define REGTXD_BROKER_H

#include <stdbool.h>
#include <stdint.h>

#include "clients.h"
#include "frames.h"
#include "listener.h"
#include "options.h"
#include "program.h"
#include "served_file.h"
#include "systemd.h"

struct broker {
    struct options options;
    struct listener listener;
    struct served_file served_file;
    struct notify_socket notify_socket;
    struct program program;
    struct queue queue;
    struct reader reader;
    struct client clients[PLACES];
    int first;        /* the place that is served first in the next turn */
    int wake;         /* bytes of the signals that came are read here */
    bool is_stopping; /* the service ends */
    bool is_asked;    /* a signal asked for that */
};

/* Milliseconds of a clock that is never set back. */
int64_t now(struct broker *broker);

/* The program is ready: listens, and tells whoever started the broker. If it can't, the service
   stops. */
void start_service(struct broker *broker);

/* No client comes in any more. What is left on the way to the program is written, and then its
   input ends: a frame that were cut would be none. */
void stop(struct broker *broker);

/* Ends the process, with status 1, since a call failed just now that nothing goes on without. The
   program's input ends with the process, as at a stop. */
_Noreturn void give_up(struct broker *broker, const char *what);

#endif

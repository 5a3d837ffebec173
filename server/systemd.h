/* What systemd hands over to a service that it starts, and what that tells it. */
#ifndef REGTXD_SYSTEMD_H
#define REGTXD_SYSTEMD_H

#include <sys/socket.h>
#include <sys/un.h>

#include "listener.h"
#include "options.h"

struct notify_socket {
    struct sockaddr_un address;
    socklen_t size; /* 0: systemd doesn't wait for this */
};

/* Takes the socket of LISTEN_FDS, if there is one, and the address of NOTIFY_SOCKET, and removes
   both from the environment. Ends the process with status 2 if what is handed over isn't one
   listening stream socket with a path, or if options give that a mode or a group. */
void take_environment(struct listener *listener, struct notify_socket *notify_socket,
                      const struct options *options);

/* Tells systemd a state such as `READY=1`, if that started this. A failure is told, and ends
   nothing. */
void notify(const struct notify_socket *notify_socket, const char *state);

#endif

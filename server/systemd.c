/* What systemd hands over to a service that it starts, and what that tells it. */
#define _GNU_SOURCE

#include "systemd.h"

#include <fcntl.h>
#include <limits.h>
#include <stddef.h>
#include <stdlib.h>
#include <string.h>
#include <unistd.h>

#include "messages.h"

/* the first descriptor that systemd hands over */
enum { LISTEN_FDS_START = 3 };

static int integer_option(int fd, int name)
{
    int value;
    socklen_t size = sizeof value;
    return getsockopt(fd, SOL_SOCKET, name, &value, &size) == 0 ? value : -1;
}

/* Whether the first descriptor is a listening stream socket with a path. */
static bool is_listener(void)
{
    struct sockaddr_un address = {.sun_family = AF_UNSPEC};
    socklen_t size = sizeof address;
    return integer_option(LISTEN_FDS_START, SO_TYPE) == SOCK_STREAM
           && integer_option(LISTEN_FDS_START, SO_ACCEPTCONN) == 1
           && getsockname(LISTEN_FDS_START, (struct sockaddr *)&address, &size) == 0
           && address.sun_family == AF_UNIX && address.sun_path[0] != 0;
}

/* Takes the socket that systemd hands over, if there is one. It has a file, by whose mode clients
   come in. */
static void take_listener(struct listener *listener, const struct options *options)
{
    const char *process = getenv("LISTEN_PID"), *count = getenv("LISTEN_FDS");
    unsigned long number;
    if (!process || !count || !parse_number(process, ULONG_MAX, 10, &number)
        || number != (unsigned long)getpid())
        return;
    bool is_one = strcmp(count, "1") == 0 && is_listener();
    if (!is_one || options->has_mode || options->has_group) {
        say(is_one ? "the socket that is handed over has its mode and group already"
                   : "one listening stream socket with a path has to be handed over");
        exit(2);
    }
    if (fcntl(LISTEN_FDS_START, F_SETFD, FD_CLOEXEC) != 0
        || fcntl(LISTEN_FDS_START, F_SETFL, O_NONBLOCK) != 0)
        die("fcntl");
    listener->fd = LISTEN_FDS_START;
    listener->is_inherited = true;
}

static void take_notify_socket(struct notify_socket *notify_socket)
{
    struct sockaddr_un *address = &notify_socket->address;
    const char *path = getenv("NOTIFY_SOCKET");
    size_t size = path ? strlen(path) : 0;
    if (size >= sizeof address->sun_path) {
        say("NOTIFY_SOCKET: its path is too long");
    } else if (size > 0) {
        address->sun_family = AF_UNIX;
        memcpy(address->sun_path, path, size);
        /* a name that begins with @ is abstract */
        if (path[0] == '@')
            address->sun_path[0] = 0;
        notify_socket->size = (socklen_t)(offsetof(struct sockaddr_un, sun_path) + size);
    }
}

/* What systemd tells this process isn't for the program. */
void take_environment(struct listener *listener, struct notify_socket *notify_socket,
                      const struct options *options)
{
    static const char *const names[] = {"LISTEN_PID", "LISTEN_FDS", "LISTEN_FDNAMES",
                                        "NOTIFY_SOCKET"};
    take_listener(listener, options);
    take_notify_socket(notify_socket);
    for (size_t at = 0; at < sizeof names / sizeof names[0]; at++)
        if (unsetenv(names[at]) != 0)
            die("unsetenv");
}

void notify(const struct notify_socket *notify_socket, const char *state)
{
    if (notify_socket->size == 0)
        return;
    int fd = socket(AF_UNIX, SOCK_DGRAM | SOCK_CLOEXEC, 0);
    if (fd < 0
        || sendto(fd, state, strlen(state), MSG_NOSIGNAL,
                  (const struct sockaddr *)&notify_socket->address, notify_socket->size)
               < 0)
        say_errno("NOTIFY_SOCKET");
    if (fd >= 0)
        close(fd);
}

/* Connections to a server of a store, by a Unix socket. */
#define _GNU_SOURCE /* struct ucred, SOCK_CLOEXEC */

#include "regtx_run.h"

#include <errno.h>
#include <stdlib.h>
#include <string.h>
#include <sys/socket.h>
#include <sys/un.h>
#include <unistd.h>

/* Root's servers, the caller's own and those of one more user are trusted. */
static int judge_server(const regtx_store *store, int socket)
{
    struct ucred peer;
    socklen_t size = sizeof peer;
    if (getsockopt(socket, SOL_SOCKET, SO_PEERCRED, &peer, &size) != 0)
        return REGTX_IO;
    bool is_trusted =
        peer.uid == 0 || peer.uid == geteuid() || (int64_t)peer.uid == store->server_uid;
    return is_trusted ? REGTX_OK : REGTX_NOT_TRUSTED;
}

static int set_timeout(const regtx_store *store, int socket)
{
    struct timeval longest = {.tv_sec = store->timeout};
    if (store->timeout == 0)
        return REGTX_OK;
    return setsockopt(socket, SOL_SOCKET, SO_RCVTIMEO, &longest, sizeof longest) != 0
                   || setsockopt(socket, SOL_SOCKET, SO_SNDTIMEO, &longest, sizeof longest) != 0
               ? REGTX_IO
               : REGTX_OK;
}

/* Connects, once nothing interrupts it. */
static int connect_socket(const regtx_store *store, int socket)
{
    struct sockaddr_un address = {.sun_family = AF_UNIX};
    int code = set_timeout(store, socket);
    if (code)
        return code;
    strcpy(address.sun_path, store->path);
    while (connect(socket, (struct sockaddr *)&address, sizeof address) != 0)
        if (errno != EINTR)
            return errno == EAGAIN ? REGTX_ENDED : REGTX_IO;
    return judge_server(store, socket);
}

int regtx_link_connect(regtx_store *store, uint32_t session)
{
    struct regtx_link *link = &store->links[session], *before = store->link;
    if (strlen(store->path) >= sizeof ((struct sockaddr_un *)NULL)->sun_path) {
        errno = ENAMETOOLONG;
        return REGTX_IO;
    }
    int peer = socket(AF_UNIX, SOCK_STREAM | SOCK_CLOEXEC, 0);
    if (peer < 0)
        return REGTX_IO;
    *link = (struct regtx_link){.lines = peer, .replies = peer, .is_socket = true};
    int code = connect_socket(store, peer);
    store->link = link;
    if (code == REGTX_OK) {
        uint64_t opened_at = 0;
        code = regtx_read_opened(store, &opened_at);
        if (session == REGTX_FIRST_SESSION)
            store->opened_at = opened_at;
    }
    if (code) {
        int why = errno;
        close(peer);
        free(link->text);
        *link = (struct regtx_link){.lines = -1, .replies = -1};
        store->link = before;
        errno = why;
    }
    return code;
}

int regtx_link_hang_up(regtx_store *store, uint32_t session)
{
    struct regtx_link *link = &store->links[session];
    int code = link->broken;
    if (link->lines < 0)
        return REGTX_OK;
    if (regtx_check_process(store) == REGTX_OK && code == REGTX_OK
        && shutdown(link->lines, SHUT_WR) == 0)
        /* replies that nobody read; and then the end, once the session has ended */
        do {
            code = regtx_read_line(link);
        } while (code == REGTX_OK || code == REGTX_REPLY);
    close(link->lines);
    free(link->text);
    code = link->broken;
    *link = (struct regtx_link){.lines = -1, .replies = -1};
    return code;
}

int regtx_connect(const char *path, int64_t server_uid, unsigned timeout_seconds,
                  regtx_store **store)
{
    *store = calloc(1, sizeof **store);
    char *copy = malloc(strlen(path) + 1);
    if (!*store || !copy) {
        free(copy);
        free(*store);
        *store = NULL;
        return REGTX_CLIENT_MEMORY;
    }
    (*store)->path = strcpy(copy, path);
    (*store)->server_uid = server_uid;
    (*store)->timeout = timeout_seconds;
    (*store)->maker = getpid();
    (*store)->hints = -1;
    (*store)->chosen = REGTX_NOW;
    (*store)->sessions[REGTX_FIRST_SESSION] = true;
    for (size_t at = 0; at < SESSIONS; at++)
        (*store)->links[at].lines = (*store)->links[at].replies = -1;
    int code = regtx_link_connect(*store, REGTX_FIRST_SESSION);
    if (code) {
        int why = errno;
        regtx_free(*store);
        *store = NULL;
        errno = why;
    }
    return code;
}

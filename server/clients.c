/* The clients: their places, their connections, and the replies that they didn't read yet. */
#define _GNU_SOURCE /* accept4, struct ucred */

#include "clients.h"

#include <errno.h>
#include <poll.h>
#include <string.h>
#include <sys/socket.h>
#include <unistd.h>

#include "broker.h"
#include "messages.h"

enum {
    /* milliseconds: for clients to read their last replies, and a pause after a failed accept */
    LINGER = 1000,
    PAUSE = 200,
};

/* --- connections --- */

static void say_place(const struct broker *broker, int place, const char *what)
{
    if (broker->options.is_verbose)
        say("place %d: %s", place, what);
}

/* Closes a connection so that the other side reads all that was sent, and then its end: bytes of it
   that nobody read would make that end a failure. */
static void close_connection(int fd)
{
    /* it can send no more from here on, so this ends */
    if (shutdown(fd, SHUT_RDWR) == 0) {
        char unread[4096];
        while (recv(fd, unread, sizeof unread, MSG_DONTWAIT) > 0)
            ;
    }
    close(fd);
}

static void close_client(struct client *client)
{
    if (client->fd >= 0)
        close_connection(client->fd);
    client->fd = -1;
    client->at = client->len = 0;
}

/* A client has gone, or is cut off. Its place stays taken until the program ends its session. */
static void drop_client(struct broker *broker, int place, const char *why)
{
    struct client *client = &broker->clients[place];
    close_client(client);
    say_place(broker, place, why);
    client->has_ended = true;
    if (client->is_taken)
        tell(broker, "gone", place);
}

/* --- what they are sent, and what they send --- */

/* Sends the replies that are there. Once all of a frame are sent the program may write the next;
   once its session has ended, too, the connection ends. */
static void send_replies(struct broker *broker, int place)
{
    struct client *client = &broker->clients[place];
    while (client->at < client->len) {
        ssize_t sent =
            send(client->fd, client->replies + client->at, client->len - client->at, MSG_NOSIGNAL);
        if (sent < 0 && errno == EINTR)
            continue;
        if (sent < 0 && errno == EAGAIN)
            return;
        if (sent < 0) {
            drop_client(broker, place, "it reads no more");
            return;
        }
        client->at += (size_t)sent;
        client->moved = now(broker);
    }
    bool is_whole = broker->reader.left == 0 || broker->reader.place != place;
    client->at = client->len = is_whole ? 0 : client->len;
    if (client->is_taken && client->is_owed && is_whole) {
        client->is_owed = false;
        tell(broker, "more", place);
    } else if (!client->is_taken) {
        close_client(client);
    }
}

void keep_replies(struct broker *broker, int place, const char *bytes, size_t count)
{
    struct client *client = &broker->clients[place];
    if (client->fd < 0)
        return;
    memcpy(client->replies + client->len, bytes, count);
    client->len += count;
    if (broker->reader.left == 0)
        send_replies(broker, place);
}

/* Nothing of the place is told to the program before the next `open`. */
void end_session(struct broker *broker, int place)
{
    struct client *client = &broker->clients[place];
    say_place(broker, place, "its session has ended");
    client->is_taken = false;
    if (client->at == client->len)
        close_client(client);
}

bool may_read(const struct broker *broker, const struct client *client)
{
    return client->fd >= 0 && client->is_taken && !client->is_sent && !client->has_ended
           && !broker->is_stopping && is_queue_empty(&broker->queue);
}

/* Hands on what a client sent, or that it sends no more. Since it may be read, neither broker nor
   program holds more than a frame of it. */
static void read_client(struct broker *broker, int place)
{
    struct client *client = &broker->clients[place];
    ssize_t got = recv(client->fd, data_room(&broker->queue), CHUNK, 0);
    if (got < 0 && errno != EINTR && errno != EAGAIN)
        drop_client(broker, place, strerror(errno));
    if (got < 0)
        return;
    if (got == 0) {
        client->has_ended = true;
        tell(broker, "end", place);
        return;
    }
    client->is_sent = true;
    client->moved = now(broker);
    tell_data(broker, place, (size_t)got);
}

/* A client that has gone is told to be so, whatever it sent that nobody read yet. */
void serve_client(struct broker *broker, int place, const struct pollfd *polled)
{
    struct client *client = &broker->clients[place];
    if (polled->revents == 0 || client->fd != polled->fd)
        return;
    if (polled->revents & (POLLHUP | POLLERR | POLLNVAL)) {
        drop_client(broker, place, "it has gone");
        return;
    }
    if (polled->revents & POLLOUT)
        send_replies(broker, place);
    if ((polled->revents & POLLIN) && may_read(broker, client))
        read_client(broker, place);
}

/* --- who comes --- */

/* Who has gone is told before who has come: whoever comes and asks what was done of another's work
   may rest on it that no more of that begins. */
static void tell_hangups(struct broker *broker)
{
    struct pollfd polled[PLACES];
    for (int place = 0; place < PLACES; place++)
        polled[place] = (struct pollfd){.fd = broker->clients[place].fd};
    int count;
    do {
        count = poll(polled, PLACES, 0);
    } while (count < 0 && errno == EINTR);
    if (count < 0)
        give_up(broker, "poll");
    for (int place = 0; place < PLACES; place++)
        if (polled[place].revents)
            drop_client(broker, place, "it has gone");
}

static bool is_free(const struct client *client)
{
    return client->fd < 0 && !client->is_taken;
}

/* A place for a client of this user, or -1. The broker's own user takes place 0 last, and nobody
   else takes it: so an operator gets in when all other places are taken. */
static int free_place(const struct broker *broker, uid_t user)
{
    for (int place = 1; place < broker->options.most; place++)
        if (is_free(&broker->clients[place]))
            return place;
    return user == geteuid() && is_free(&broker->clients[0]) ? 0 : -1;
}

static void add_client(struct broker *broker, int place, int fd, const struct ucred *peer)
{
    struct client *client = &broker->clients[place];
    memset(client, 0, offsetof(struct client, replies));
    client->fd = fd;
    client->is_taken = true;
    client->moved = now(broker);
    if (broker->options.is_verbose)
        say("place %d: taken by process %ld of user %lu", place, (long)peer->pid,
            (unsigned long)peer->uid);
    tell(broker, "open", place);
}

static void refuse_client(const struct broker *broker, int fd, const struct ucred *peer)
{
    static const char full[] = "E10 NoSeat\n";
    if (broker->options.is_verbose)
        say("no place for process %ld of user %lu", (long)peer->pid, (unsigned long)peer->uid);
    if (send(fd, full, sizeof full - 1, MSG_NOSIGNAL) < 0 && broker->options.is_verbose)
        say_errno("E10 NoSeat");
    close_connection(fd);
}

/* What follows a failure of accept, by errno. */
static void pause_listener(struct broker *broker)
{
    if (errno == EAGAIN || errno == EINTR || errno == ECONNABORTED)
        return;
    say_errno("accept");
    /* the connection waits still: without a pause this would turn at once */
    broker->listener.paused_until = now(broker) + PAUSE;
}

int accept_client(struct broker *broker)
{
    int fd = accept4(broker->listener.fd, NULL, NULL, SOCK_CLOEXEC | SOCK_NONBLOCK);
    if (fd < 0) {
        pause_listener(broker);
        return -1;
    }
    tell_hangups(broker);
    struct ucred peer;
    socklen_t size = sizeof peer;
    if (getsockopt(fd, SOL_SOCKET, SO_PEERCRED, &peer, &size) != 0) {
        say_errno("SO_PEERCRED");
        close_connection(fd);
        return -1;
    }
    int place = free_place(broker, peer.uid);
    if (place >= 0)
        add_client(broker, place, fd, &peer);
    else
        refuse_client(broker, fd, &peer);
    return place;
}

/* --- ends --- */

int64_t close_idle_clients(struct broker *broker, int64_t time)
{
    int64_t next = -1;
    for (int place = 0; broker->options.idle > 0 && place < PLACES; place++) {
        if (broker->clients[place].fd < 0)
            continue;
        int64_t left = broker->clients[place].moved + broker->options.idle - time;
        if (left <= 0)
            drop_client(broker, place, "it moved no byte for too long");
        else if (next < 0 || left < next)
            next = left;
    }
    return next;
}

/* Clients that read get the replies that are here. */
static void send_last_replies(struct broker *broker)
{
    int64_t end = now(broker) + LINGER;
    for (;;) {
        struct pollfd polled[PLACES];
        int64_t left = end - now(broker);
        bool is_waiting = false;
        for (int place = 0; place < PLACES; place++) {
            const struct client *client = &broker->clients[place];
            bool has_more = client->fd >= 0 && client->at < client->len;
            is_waiting |= has_more;
            polled[place] = (struct pollfd){.fd = has_more ? client->fd : -1, .events = POLLOUT};
        }
        if (!is_waiting || left <= 0)
            return;
        if (poll(polled, PLACES, (int)left) < 0 && errno != EINTR)
            give_up(broker, "poll");
        for (int place = 0; place < PLACES; place++)
            if (polled[place].fd >= 0 && polled[place].revents)
                send_replies(broker, place);
    }
}

void close_clients(struct broker *broker)
{
    send_last_replies(broker);
    for (int place = 0; place < PLACES; place++)
        close_client(&broker->clients[place]);
}

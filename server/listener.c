/* The Unix socket that clients connect to, and its file. */
#define _GNU_SOURCE

#include "listener.h"

#include <errno.h>
#include <stdio.h>
#include <string.h>
#include <sys/socket.h>
#include <sys/stat.h>
#include <unistd.h>

#include "messages.h"

enum { BACKLOG = 64 };

/* Whoever may write the folder may put a socket of his own in the place of this one. */
bool is_folder_safe(const char *path)
{
    char folder[PATH_SIZE];
    snprintf(folder, sizeof folder, "%s", path);
    char *slash = strrchr(folder, '/');
    if (!slash)
        snprintf(folder, sizeof folder, ".");
    else
        slash[slash == folder] = 0;
    struct stat found;
    if (stat(folder, &found) != 0) {
        say_errno(folder);
        return false;
    }
    bool is_own = found.st_uid == geteuid() || found.st_uid == 0;
    if (is_own && (found.st_mode & (S_IWGRP | S_IWOTH)) == 0)
        return true;
    say("%s: others than its owner may write this folder, or its owner is another user", folder);
    return false;
}

static struct sockaddr_un address_of(const char *path)
{
    struct sockaddr_un address = {.sun_family = AF_UNIX};
    snprintf(address.sun_path, sizeof address.sun_path, "%s", path);
    return address;
}

/* Whether nobody listens at the socket that is there already. Else it is that of another store's
   broker, since this one's program holds this store. */
static bool is_stale(const char *path)
{
    struct sockaddr_un address = address_of(path);
    int fd = socket(AF_UNIX, SOCK_STREAM | SOCK_CLOEXEC | SOCK_NONBLOCK, 0);
    if (fd < 0)
        die("socket");
    bool is =
        connect(fd, (struct sockaddr *)&address, sizeof address) != 0 && errno == ECONNREFUSED;
    close(fd);
    return is;
}

/* Removes a socket that an earlier broker of this user left. */
static bool remove_stale(const char *path)
{
    struct stat found;
    if (lstat(path, &found) != 0) {
        if (errno == ENOENT)
            return true;
        say_errno(path);
        return false;
    }
    if (!S_ISSOCK(found.st_mode) || found.st_uid != geteuid()) {
        say("%s: what is there isn't a socket of this user", path);
        return false;
    }
    if (!is_stale(path)) {
        say("%s: another program has this socket", path);
        return false;
    }
    if (unlink(path) == 0)
        return true;
    say_errno(path);
    return false;
}

/* The file is for its owner alone until it has its group; then its mode opens it to others. */
static bool bind_listener(struct listener *listener, const struct options *options)
{
    struct sockaddr_un address = address_of(options->path);
    struct stat made;
    listener->fd = socket(AF_UNIX, SOCK_STREAM | SOCK_CLOEXEC | SOCK_NONBLOCK, 0);
    if (listener->fd < 0)
        return false;
    mode_t before = umask(0177);
    int failed = bind(listener->fd, (struct sockaddr *)&address, sizeof address);
    int why = errno;
    umask(before);
    errno = why;
    if (failed || lstat(options->path, &made) != 0)
        return false;
    listener->device = made.st_dev;
    listener->file = made.st_ino;
    return listen(listener->fd, BACKLOG) == 0
           && (!options->has_group || chown(options->path, (uid_t)-1, options->group) == 0)
           && chmod(options->path, options->mode) == 0;
}

bool open_listener(struct listener *listener, const struct options *options)
{
    if (listener->is_inherited)
        return true;
    if (!remove_stale(options->path))
        return false;
    if (bind_listener(listener, options))
        return true;
    say_errno(options->path);
    return false;
}

void remove_socket_file(struct listener *listener, const char *path)
{
    struct stat found;
    /* another broker's socket may be there by now */
    if (listener->file && lstat(path, &found) == 0 && found.st_dev == listener->device
        && found.st_ino == listener->file && unlink(path) != 0)
        say_errno(path);
    listener->file = 0;
}

void close_listener(struct listener *listener, const char *path)
{
    remove_socket_file(listener, path);
    if (listener->fd >= 0)
        close(listener->fd);
    listener->fd = -1;
}

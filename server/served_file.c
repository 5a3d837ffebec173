/* The file `served` of a store's folder, which tells at which socket the store is served. */
#define _GNU_SOURCE

#include "served_file.h"

#include <errno.h>
#include <fcntl.h>
#include <limits.h>
#include <stdbool.h>
#include <stdio.h>
#include <string.h>
#include <sys/socket.h>
#include <sys/stat.h>
#include <sys/un.h>
#include <unistd.h>

#include "messages.h"

enum { TEXT_SIZE = PATH_MAX + sizeof((struct sockaddr_un *)0)->sun_path + 2 };

/* Whether the path of the file has room. */
static bool name_file(char path[PATH_MAX], const char *folder)
{
    int size = snprintf(path, PATH_MAX, "%s/served", folder);
    if (size < PATH_MAX)
        return true;
    errno = ENAMETOOLONG;
    return false;
}

/* The path of the socket from the root on, and LF. A path that doesn't begin there is one from the
   folder in which the broker was started. */
static bool read_text(char text[TEXT_SIZE], int listener)
{
    struct sockaddr_un address = {.sun_family = AF_UNSPEC};
    socklen_t size = sizeof address;
    char here[PATH_MAX] = "";
    if (getsockname(listener, (struct sockaddr *)&address, &size) != 0)
        return false;
    const char *path = address.sun_path;
    if (path[0] != '/' && !getcwd(here, sizeof here))
        return false;
    snprintf(text, TEXT_SIZE, "%s%s%.*s\n", here, here[0] ? "/" : "",
             (int)sizeof address.sun_path, path);
    return true;
}

static bool write_text(struct served_file *served_file, int fd, const char *text)
{
    struct stat made;
    ssize_t size = (ssize_t)strlen(text);
    if (fstat(fd, &made) != 0)
        return false;
    served_file->device = made.st_dev;
    served_file->file = made.st_ino;
    ssize_t put = write(fd, text, (size_t)size);
    if (put >= 0 && put < size)
        errno = ENOSPC;
    return put == size && fchmod(fd, 0644) == 0;
}

/* What stands there is replaced, and a link isn't followed. */
void write_served_file(struct served_file *served_file, const char *folder, int listener)
{
    char path[PATH_MAX], text[TEXT_SIZE];
    if (!folder)
        return;
    if (!name_file(path, folder) || !read_text(text, listener)) {
        say_errno(folder);
        return;
    }
    int fd = -1;
    if (unlink(path) == 0 || errno == ENOENT)
        fd = open(path, O_WRONLY | O_CREAT | O_EXCL | O_NOFOLLOW | O_CLOEXEC, 0600);
    if (fd < 0 || !write_text(served_file, fd, text))
        say_errno(path);
    if (fd >= 0)
        close(fd);
}

void remove_served_file(struct served_file *served_file, const char *folder)
{
    char path[PATH_MAX];
    struct stat found;
    /* another broker may have written its own by now */
    if (served_file->file && name_file(path, folder) && lstat(path, &found) == 0
        && found.st_dev == served_file->device && found.st_ino == served_file->file
        && unlink(path) != 0)
        say_errno(path);
    served_file->file = 0;
}

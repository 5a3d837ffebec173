/* A program whose part a test plays: puppet SOCKET. It connects, hands its standard input and output over with the names of its
   environment in a line and those of its files in the next, and ends with the status that it is told. */
#define _GNU_SOURCE
#include <dirent.h>
#include <stdio.h>
#include <stdlib.h>
#include <string.h>
#include <sys/socket.h>
#include <sys/un.h>
#include <unistd.h>

extern char **environ;

static char names[1 << 16];

static void put(const char *name, size_t size, const char *after)
{
    size_t used = strlen(names);
    snprintf(names + used, sizeof names - used, "%.*s%s", (int)size, name, after);
}

static void put_names(void)
{
    DIR *files = opendir("/proc/self/fd");
    if (!files)
        exit(111);
    for (char **at = environ; *at; at++)
        put(*at, strcspn(*at, "="), " ");
    put("", 0, "\n");
    for (struct dirent *entry; (entry = readdir(files)) != NULL;)
        if (entry->d_name[0] != '.')
            put(entry->d_name, strlen(entry->d_name), " ");
    closedir(files);
}

int main(int count, char **words)
{
    struct sockaddr_un to = {.sun_family = AF_UNIX};
    union {
        struct cmsghdr head;
        char room[CMSG_SPACE(2 * sizeof(int))];
    } files = {.head = {.cmsg_len = CMSG_LEN(2 * sizeof(int)), .cmsg_level = SOL_SOCKET, .cmsg_type = SCM_RIGHTS}};
    struct iovec piece = {.iov_base = names};
    struct msghdr message = {.msg_iov = &piece, .msg_iovlen = 1, .msg_control = &files, .msg_controllen = sizeof files};
    int master = socket(AF_UNIX, SOCK_STREAM, 0), handed[] = {STDIN_FILENO, STDOUT_FILENO};
    unsigned char status = 0;
    if (count != 2 || snprintf(to.sun_path, sizeof to.sun_path, "%s", words[1]) >= (int)sizeof to.sun_path)
        return 111;
    if (master < 0 || connect(master, (struct sockaddr *)&to, sizeof to) != 0)
        return 111;
    put_names();
    piece.iov_len = strlen(names);
    memcpy(CMSG_DATA(&files.head), handed, sizeof handed);
    if (sendmsg(master, &message, 0) < 0)
        return 111;
    close(STDIN_FILENO);
    close(STDOUT_FILENO);
    return recv(master, &status, 1, 0) == 1 ? status : 0;
}

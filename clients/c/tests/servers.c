/* Servers of stores for the tests: the broker, and ones that say what a test wants. */
#define _GNU_SOURCE /* accept4 */

#include "check.h"

#include <fcntl.h>
#include <signal.h>
#include <spawn.h>
#include <stdio.h>
#include <stdlib.h>
#include <string.h>
#include <sys/socket.h>
#include <sys/un.h>
#include <sys/wait.h>
#include <unistd.h>

extern char **environ;

enum { NAME = 80, WORDS = 12 };

static char path[NAME];

const char *socket_path(void)
{
    snprintf(path, sizeof path, "%s.socket", folder());
    return path;
}

/* Starts a program whose standard output is a pipe. */
static int start(const char *words[], FILE **printed)
{
    int ends[2];
    pid_t process = -1;
    posix_spawn_file_actions_t actions;
    CHECK(pipe2(ends, O_CLOEXEC) == 0 && posix_spawn_file_actions_init(&actions) == 0);
    CHECK(posix_spawn_file_actions_adddup2(&actions, ends[1], STDOUT_FILENO) == 0);
    /* it tells there of a program that is killed */
    CHECK(posix_spawn_file_actions_addopen(&actions, STDERR_FILENO, "/dev/null", O_WRONLY, 0) == 0);
    CHECK(posix_spawn(&process, words[0], &actions, NULL, (char **)words, environ) == 0);
    posix_spawn_file_actions_destroy(&actions);
    close(ends[1]);
    *printed = fdopen(ends[0], "r");
    return process;
}

static int serve_by(const char *option, const char *value, const char *backups)
{
    const char *words[WORDS] = {broker}, *rest[] = {socket_path(), program,  "wait",  "60",
                                                    "serve",       folder(), backups, NULL};
    char said[NAME] = "";
    size_t count = 1;
    FILE *printed;
    if (option) {
        words[count++] = option;
        words[count++] = value;
    }
    memcpy(words + count, rest, sizeof rest);
    int process = start(words, &printed);
    CHECK(printed && fgets(said, sizeof said, printed) && strcmp(said, "ready\n") == 0);
    if (printed)
        fclose(printed);
    return process;
}

int serve(const char *option, const char *value)
{
    return serve_by(option, value, NULL);
}

int serve_with_backups(const char *backups)
{
    return serve_by(NULL, NULL, backups);
}

regtx_store *connected(void)
{
    regtx_store *store = NULL;
    CHECK(regtx_connect(socket_path(), REGTX_NO_USER, 60, &store) == REGTX_OK);
    return store;
}

int end_broker(int process, int number)
{
    int status = 0;
    if (number)
        CHECK(kill(process, number) == 0);
    CHECK(waitpid(process, &status, 0) == process);
    return WIFEXITED(status) ? WEXITSTATUS(status) : -WTERMSIG(status);
}

void kill_server(int process)
{
    char name[NAME];
    int child = 0;
    snprintf(name, sizeof name, "/proc/%d/task/%d/children", process, process);
    FILE *file = fopen(name, "r");
    CHECK(file && fscanf(file, "%d", &child) == 1 && kill(child, SIGKILL) == 0);
    if (file)
        fclose(file);
}

static void say(int client, const char *const parts[])
{
    static char come[1 << 16];
    FILE *file = fopen("came", "w");
    for (bool is_first = true; file && *parts; parts++, is_first = false) {
        ssize_t size = is_first ? 0 : read(client, come, sizeof come);
        if (size < 0)
            break;
        if (!is_first)
            fprintf(file, "%.*s|", (int)size, come);
        if (**parts && send(client, *parts, strlen(*parts), MSG_NOSIGNAL) < 0)
            break;
    }
    if (file)
        fclose(file);
}

int fake_server(const char *const parts[])
{
    struct sockaddr_un address = {.sun_family = AF_UNIX};
    int listener = socket(AF_UNIX, SOCK_STREAM | SOCK_CLOEXEC, 0);
    strcpy(address.sun_path, socket_path());
    unlink(address.sun_path);
    CHECK(bind(listener, (struct sockaddr *)&address, sizeof address) == 0);
    CHECK(listen(listener, 1) == 0);
    int process = fork();
    if (process == 0) {
        say(accept4(listener, NULL, NULL, SOCK_CLOEXEC), parts);
        _exit(0);
    }
    close(listener);
    return process;
}

bool server_got(int process, const char *came)
{
    static char found[1 << 16];
    int ended = end_broker(process, 0);
    FILE *file = fopen("came", "r");
    size_t size = file ? fread(found, 1, sizeof found - 1, file) : 0;
    found[size] = 0;
    if (file)
        fclose(file);
    if (strcmp(found, came) != 0)
        printf("wanted: %s\nfound: %s\n", came, found);
    return ended == 0 && strcmp(found, came) == 0;
}

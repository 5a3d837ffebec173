/* The program that the broker starts. */
#define _GNU_SOURCE /* pipe2 */

#include "program.h"

#include <errno.h>
#include <fcntl.h>
#include <signal.h>
#include <spawn.h>
#include <stdlib.h>
#include <unistd.h>

#include "messages.h"

extern char **environ;

/* In a process group of its own, since Ctrl-C is for the broker, which ends the program's input. */
static int set_attributes(posix_spawnattr_t *attributes)
{
    sigset_t defaults, none;
    sigemptyset(&none);
    sigemptyset(&defaults);
    sigaddset(&defaults, SIGPIPE);
    int failed = posix_spawnattr_setflags(attributes, POSIX_SPAWN_SETPGROUP | POSIX_SPAWN_SETSIGDEF
                                                          | POSIX_SPAWN_SETSIGMASK);
    if (failed == 0)
        failed = posix_spawnattr_setpgroup(attributes, 0);
    if (failed == 0)
        failed = posix_spawnattr_setsigdefault(attributes, &defaults);
    if (failed == 0)
        failed = posix_spawnattr_setsigmask(attributes, &none);
    return failed;
}

/* Starts a command with these files as its standard input and output; answers an errno, or 0. */
static int spawn(pid_t *pid, char **command, int input, int output)
{
    posix_spawn_file_actions_t actions;
    posix_spawnattr_t attributes;
    int failed = posix_spawn_file_actions_init(&actions);
    if (failed)
        return failed;
    failed = posix_spawnattr_init(&attributes);
    if (failed == 0) {
        failed = posix_spawn_file_actions_adddup2(&actions, input, STDIN_FILENO);
        if (failed == 0)
            failed = posix_spawn_file_actions_adddup2(&actions, output, STDOUT_FILENO);
        if (failed == 0)
            failed = set_attributes(&attributes);
        if (failed == 0)
            failed = posix_spawnp(pid, command[0], &actions, &attributes, command, environ);
        posix_spawnattr_destroy(&attributes);
    }
    posix_spawn_file_actions_destroy(&actions);
    return failed;
}

/* Its ends of the pipes are its own, so that those of the broker don't wait. Its hints say on standard
   error which file the system refused, though that is no terminal: unless the caller chose otherwise. */
void start_program(struct program *program, char **command)
{
    int input[2], output[2];
    if (setenv("REGTX_HINTS", "1", 0) != 0)
        die("setenv");
    if (pipe2(input, O_CLOEXEC) != 0 || pipe2(output, O_CLOEXEC) != 0)
        die("pipe");
    errno = spawn(&program->pid, command, input[0], output[1]);
    if (errno)
        die(command[0]);
    close(input[0]);
    close(output[1]);
    program->input = input[1];
    program->output = output[0];
    if (fcntl(program->input, F_SETFL, O_NONBLOCK) != 0
        || fcntl(program->output, F_SETFL, O_NONBLOCK) != 0)
        die("fcntl");
}

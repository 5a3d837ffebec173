/* A run of the program: how its process begins and ends. */
#define _GNU_SOURCE /* pipe2 */

#include "regtx_run.h"

#include "regtx_hints.h"

#include <errno.h>
#include <fcntl.h>
#include <spawn.h>
#include <stdlib.h>
#include <string.h>
#include <sys/wait.h>
#include <unistd.h>

/* A pipe that other programs of the caller don't get. */
static int make_pipe(int ends[2])
{
    return pipe2(ends, O_CLOEXEC) == 0 ? REGTX_OK : REGTX_IO;
}

/* In a process group of its own, since Ctrl-C is for the caller, who can still flush and close. */
static int spawn_by(posix_spawn_file_actions_t *actions, regtx_store *store, char *const words[])
{
    posix_spawnattr_t how;
    char **environment = regtx_hints_environment();
    int failed = environment ? posix_spawnattr_init(&how) : ENOMEM;
    if (failed) {
        free(environment);
        return failed;
    }
    failed = posix_spawnattr_setflags(&how, POSIX_SPAWN_SETPGROUP);
    if (failed == 0)
        failed = posix_spawnattr_setpgroup(&how, 0);
    if (failed == 0)
        failed = posix_spawnp(&store->child, words[0], actions, &how, words, environment);
    posix_spawnattr_destroy(&how);
    free(environment);
    return failed;
}

static int spawn(regtx_store *store, char *const words[], int input, int output)
{
    posix_spawn_file_actions_t actions;
    int failed = posix_spawn_file_actions_init(&actions);
    if (failed == 0) {
        failed = posix_spawn_file_actions_adddup2(&actions, input, STDIN_FILENO);
        if (failed == 0)
            failed = posix_spawn_file_actions_adddup2(&actions, output, STDOUT_FILENO);
        if (failed == 0 && store->hints >= 0)
            failed = posix_spawn_file_actions_adddup2(&actions, store->hints, STDERR_FILENO);
        if (failed == 0)
            failed = spawn_by(&actions, store, words);
        posix_spawn_file_actions_destroy(&actions);
    }
    errno = failed;
    return failed ? REGTX_IO : REGTX_OK;
}

static void close_both(int one, int other)
{
    int why = errno;
    close(one);
    close(other);
    errno = why;
}

/* Starts the program with these words. */
static int start(regtx_store *store, char *const words[])
{
    int script[2], replies[2];
    if (make_pipe(script))
        return REGTX_IO;
    if (make_pipe(replies)) {
        close_both(script[0], script[1]);
        return REGTX_IO;
    }
    store->hints = regtx_hints_open();
    int code = spawn(store, words, script[0], replies[1]);
    close_both(script[0], replies[1]);
    if (code) {
        close_both(script[1], replies[0]);
        close_both(store->hints, -1);
    }
    store->link = &store->links[REGTX_FIRST_SESSION];
    store->link->lines = script[1];
    store->link->replies = replies[0];
    store->maker = getpid();
    return code;
}

/* Waits for the program's end; answers its status, or REGTX_IO. */
static int reap(const regtx_store *store, int *status)
{
    pid_t ended;
    do {
        ended = waitpid(store->child, status, 0);
    } while (ended < 0 && errno == EINTR);
    return ended < 0 ? REGTX_IO : REGTX_OK;
}

/* By the statuses of docs/USING.md: 1 is also that of a run in which a line was refused. */
static int judge_end(const regtx_store *store, int status, int last)
{
    if (!WIFEXITED(status))
        return REGTX_ENDED;
    if (last)
        return last;
    bool is_well = WEXITSTATUS(status) == 0 || (WEXITSTATUS(status) == 1 && store->was_refused);
    return is_well ? REGTX_OK : REGTX_ENDED;
}

/* Ends the script, reads what is left, and waits for the program's end. */
static int end_run(regtx_store *store)
{
    struct regtx_link *link = store->link;
    int last = REGTX_OK, status = 0, code;
    close(link->lines);
    while ((code = regtx_read_line(link)) == REGTX_OK || code == REGTX_REPLY)
        last = code                           ? code
               : regtx_refusal_of(link->text) ? regtx_refusal_of(link->text)
                                              : REGTX_REPLY;
    if (code == REGTX_ENDED && link->used > 0)
        last = REGTX_REPLY;
    close(link->replies);
    int reaped = reap(store, &status);
    regtx_hints_take(store->hints, &store->told);
    if (link->broken || reaped)
        return link->broken ? link->broken : reaped;
    return code != REGTX_ENDED ? code : judge_end(store, status, last);
}

/* Ends the connections, of which the first tells how they went. */
static int hang_up(regtx_store *store)
{
    for (uint32_t session = REGTX_FIRST_SESSION + 1; session < SESSIONS; session++)
        regtx_link_hang_up(store, session);
    return regtx_link_hang_up(store, REGTX_FIRST_SESSION);
}

int regtx_end(regtx_store *store)
{
    int code = REGTX_OK;
    bool is_makers = regtx_check_process(store) == REGTX_OK;
    if (store->path)
        code = hang_up(store);
    else if (is_makers)
        code = end_run(store);
    else
        close_both(store->link->lines, store->link->replies);
    close_both(store->hints, -1);
    regtx_free(store);
    return is_makers ? code : REGTX_OK;
}

void regtx_free(regtx_store *store)
{
    for (size_t at = 0; at < SESSIONS; at++)
        free(store->links[at].text);
    free(store->path);
    free(store);
}

/* A copy of a file's name: one that begins with a hyphen isn't taken for an option so. */
static char *file_word(const char *file)
{
    size_t size = strlen(file) + 3;
    char *word = malloc(size);
    if (word)
        snprintf(word, size, "%s%s", file[0] == '-' ? "./" : "", file);
    return word;
}

int regtx_launch(const char *words[], size_t place, size_t files, regtx_store **store)
{
    size_t copied = 0;
    *store = calloc(1, sizeof **store);
    words[0] = words[0] ? words[0] : "regtx";
    while (*store && copied < files
           && (words[place + copied] = file_word(words[place + copied])) != NULL)
        copied++;
    /* the program's words are constant, though posix_spawn doesn't say so */
    int code = *store && copied == files ? start(*store, (char **)words) : REGTX_CLIENT_MEMORY;
    int why = errno;
    while (copied > 0)
        free((char *)words[place + --copied]);
    if (code) {
        off_t told = 0;
        regtx_hints_take(-1, &told);
        free(*store);
        *store = NULL;
    }
    errno = why;
    return code;
}

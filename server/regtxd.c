/* regtxd: hands what the clients of a Unix socket send on to one program, and each its replies.

       regtxd [-m MODE] [-g GROUP] [-n CLIENTS] [-s FOLDER] [-t SECONDS] [-v] SOCKET COMMAND ..

   README.md of this folder has the options, the statuses and the protocol between the broker and
   its program. The broker reads no line of a client. It waits neither for a client nor for the
   program alone: what can't be written yet is kept, and nothing more of its kind is taken before.
   So it holds at most CHUNK bytes of replies for each client, and one frame for the program.

   This file has its loop, the signals, and its end. */
#define _GNU_SOURCE /* pipe2 */

#include <errno.h>
#include <fcntl.h>
#include <poll.h>
#include <signal.h>
#include <stdio.h>
#include <stdlib.h>
#include <string.h>
#include <sys/resource.h>
#include <sys/wait.h>
#include <unistd.h>

#include "broker.h"
#include "messages.h"

/* those of all clients, one that is turned away, and the broker's own */
enum { DESCRIPTORS = 48 };

/* the places of the descriptors that are polled; the client of place K is at CLIENTS + K */
enum { WAKE, OUTPUT, INPUT, LISTENER, CLIENTS };

/* --- signals --- */

/* where the handler writes a byte for each signal, which the loop reads */
static int wake_input;

static void on_signal(int number)
{
    int before = errno;
    char told = number == SIGCHLD ? 'c' : 's';
    /* each turn empties the pipe, so it isn't full */
    ssize_t put = write(wake_input, &told, 1);
    (void)put;
    errno = before;
}

static void handle(int number)
{
    struct sigaction action = {.sa_handler = on_signal, .sa_flags = SA_RESTART};
    sigemptyset(&action.sa_mask);
    sigset_t one;
    sigemptyset(&one);
    sigaddset(&one, number);
    if (sigaction(number, &action, NULL) != 0 || sigprocmask(SIG_UNBLOCK, &one, NULL) != 0)
        die("sigaction");
}

/* Answers the descriptor at which the bytes of the handler are read. */
static int handle_signals(void)
{
    int wake[2];
    struct sigaction before, ignored = {.sa_handler = SIG_IGN};
    sigemptyset(&ignored.sa_mask);
    if (pipe2(wake, O_CLOEXEC | O_NONBLOCK) != 0)
        die("pipe");
    wake_input = wake[1];
    if (sigaction(SIGPIPE, &ignored, NULL) != 0 || sigaction(SIGINT, NULL, &before) != 0)
        die("sigaction");
    handle(SIGTERM);
    handle(SIGCHLD);
    /* a shell without job control has what it starts beside itself ignore Ctrl-C */
    if (before.sa_handler != SIG_IGN)
        handle(SIGINT);
    return wake[0];
}

/* Takes the program's status if it has ended. If `how` is 0, and not WNOHANG, this waits for it. */
static void reap(struct broker *broker, int how)
{
    struct program *program = &broker->program;
    pid_t ended;
    do {
        ended = waitpid(program->pid, &program->status, how);
    } while (ended < 0 && errno == EINTR);
    if (ended < 0)
        give_up(broker, "waitpid");
    program->has_ended = ended == program->pid;
}

static void take_signals(struct broker *broker)
{
    char told[64];
    ssize_t got;
    while ((got = read(broker->wake, told, sizeof told)) > 0)
        if (memchr(told, 's', (size_t)got)) {
            broker->is_asked |= !broker->is_stopping;
            stop(broker);
        }
    if (!broker->program.has_ended)
        reap(broker, WNOHANG);
}

/* --- one turn --- */

/* Closes what is idle, and answers how long poll may wait, in milliseconds; -1: for ever. */
static int take_timeouts(struct broker *broker)
{
    int64_t time = now(broker), next = close_idle_clients(broker, time);
    int64_t pause = broker->listener.paused_until - time;
    if (pause > 0 && (next < 0 || pause < next))
        next = pause;
    return next > INT32_MAX ? INT32_MAX : (int)next;
}

static void fill(struct broker *broker, struct pollfd *polled)
{
    bool is_open = broker->program.is_ready && now(broker) >= broker->listener.paused_until;
    short input_events = is_queue_empty(&broker->queue) ? 0 : POLLOUT;
    polled[WAKE] = (struct pollfd){.fd = broker->wake, .events = POLLIN};
    polled[OUTPUT] = (struct pollfd){.fd = broker->program.output, .events = POLLIN};
    polled[INPUT] = (struct pollfd){.fd = broker->program.input, .events = input_events};
    polled[LISTENER] = (struct pollfd){.fd = is_open ? broker->listener.fd : -1, .events = POLLIN};
    for (int place = 0; place < PLACES; place++) {
        const struct client *client = &broker->clients[place];
        int events =
            (may_read(broker, client) ? POLLIN : 0) | (client->at < client->len ? POLLOUT : 0);
        polled[CLIENTS + place] = (struct pollfd){.fd = client->fd, .events = (short)events};
    }
}

static void serve_program(struct broker *broker, const struct pollfd *output,
                          const struct pollfd *input, bool had_ended)
{
    if (output->revents)
        read_program(broker);
    else if (had_ended)
        /* all that it wrote was read, though another may have its output */
        broker->program.is_over = true;
    if (input->revents & POLLOUT)
        write_queue(broker);
    else if (input->revents) {
        end_input(broker);
        stop(broker);
    }
    if (broker->is_stopping && is_queue_empty(&broker->queue))
        end_input(broker);
}

/* Each turn begins with another client, so that none has to wait for those before it. */
static void turn(struct broker *broker)
{
    struct pollfd polled[CLIENTS + PLACES];
    bool had_ended = broker->program.has_ended;
    int wait = take_timeouts(broker);
    fill(broker, polled);
    if (poll(polled, CLIENTS + PLACES, had_ended ? 0 : wait) < 0) {
        if (errno != EINTR)
            give_up(broker, "poll");
        return;
    }
    if (polled[WAKE].revents)
        take_signals(broker);
    serve_program(broker, &polled[OUTPUT], &polled[INPUT], had_ended);
    if (polled[LISTENER].revents && !broker->is_stopping) {
        int place = accept_client(broker);
        /* what was found there was a former client's */
        if (place >= 0)
            polled[CLIENTS + place].revents = 0;
    }
    for (int count = 0; count < PLACES && !broker->program.is_over; count++) {
        int place = (broker->first + count) % PLACES;
        serve_client(broker, place, &polled[CLIENTS + place]);
    }
    broker->first = (broker->first + 1) % PLACES;
}

/* --- the end --- */

/* Status of a stop that was asked for: that of the program. Else 1, or why the program never was
   ready. */
static int exit_status(const struct broker *broker)
{
    const struct program *program = &broker->program;
    bool has_exited = WIFEXITED(program->status);
    int status = has_exited ? WEXITSTATUS(program->status) : EXIT_FAILURE;
    if (!has_exited)
        say("the program ended by signal %d", WTERMSIG(program->status));
    else if (!broker->is_asked && !program->is_wrong)
        say("the program ended unasked, with status %d", status);
    bool counts = (broker->is_asked && !program->is_wrong) || (!program->is_ready && status != 0);
    return counts ? status : EXIT_FAILURE;
}

static int finish(struct broker *broker)
{
    stop(broker);
    end_input(broker);
    /* a program that still writes fails at it, and ends */
    close(broker->program.output);
    close_clients(broker);
    if (!broker->program.has_ended)
        reap(broker, 0);
    return exit_status(broker);
}

/* --- the beginning --- */

/* Pipes get other numbers than those of the standard files. */
static void reserve_standard_files(void)
{
    for (int fd = STDIN_FILENO; fd <= STDERR_FILENO; fd++)
        if (fcntl(fd, F_GETFD) < 0 && open("/dev/null", O_RDWR) != fd)
            exit(EXIT_FAILURE);
}

/* With fewer descriptors poll refuses all that are looked at. */
static void check_limit(void)
{
    struct rlimit limit;
    if (getrlimit(RLIMIT_NOFILE, &limit) != 0)
        die("getrlimit");
    if (limit.rlim_cur >= DESCRIPTORS)
        return;
    say("%d descriptors are needed: ulimit -n", DESCRIPTORS);
    exit(EXIT_FAILURE);
}

/* Nothing is open yet, and nobody is connected. */
static void reset(struct broker *broker)
{
    broker->listener.fd = broker->program.input = broker->program.output = -1;
    for (int place = 0; place < PLACES; place++)
        broker->clients[place].fd = -1;
}

int main(int count, char **words)
{
    /* too large for the stack */
    static struct broker broker;
    reserve_standard_files();
    if (!parse_options(&broker.options, count, words)) {
        fputs(
            "usage: regtxd [-m MODE] [-g GROUP] [-n CLIENTS] [-s FOLDER] [-t SECONDS] [-v] SOCKET "
            "COMMAND ..\n",
            stderr);
        return 2;
    }
    reset(&broker);
    check_limit();
    take_environment(&broker.listener, &broker.notify_socket, &broker.options);
    if (!broker.listener.is_inherited && !is_folder_safe(broker.options.path))
        return EXIT_FAILURE;
    broker.wake = handle_signals();
    start_program(&broker.program, broker.options.command);
    while (!broker.program.is_over)
        turn(&broker);
    return finish(&broker);
}

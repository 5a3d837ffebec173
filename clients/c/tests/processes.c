/* Other processes: what Ctrl-C reaches, and stores after a fork. */
#define _POSIX_C_SOURCE 200809L

#include "check.h"

#include <signal.h>
#include <stdio.h>
#include <sys/wait.h>
#include <unistd.h>

static volatile sig_atomic_t interrupts;

static void note_interrupt(int number)
{
    (void)number;
    interrupts++;
}

/* In a process group of its own, since the signal is for all of it: how many calls went wrong. */
static int interrupted(void)
{
    struct sigaction noting = {.sa_handler = note_interrupt};
    uint64_t number = 0;
    setpgid(0, 0);
    sigaction(SIGINT, &noting, NULL);
    regtx_store *store = open_again();
    int wrong = set_number(store, REGTX_ALONE, "v", 1) != REGTX_OK;
    wrong += kill(0, SIGINT) != 0 || interrupts != 1;
    wrong += regtx_flush(store, &number) != REGTX_OK || number != 2;
    return wrong + (regtx_close(store) != REGTX_OK);
}

static void an_interrupt_is_for_the_caller_alone(void)
{
    int status = -1;
    CHECK(regtx_close(new_store()) == REGTX_OK);
    pid_t child = fork();
    if (child == 0)
        _exit(interrupted());
    CHECK(child > 0 && waitpid(child, &status, 0) == child && status == 0);
    CHECK(answers("get 0:Software v\n", "value 4 01000000\n"));
}

enum { FORKS = 10, READS = 500 };

/* How many calls aren't refused of what another process opened. */
static int misused(regtx_store *store, regtx_tx tx, uint32_t session)
{
    regtx_uuid uuid = unit(9);
    regtx_tx other;
    unsigned char data[4];
    size_t size = sizeof data;
    uint32_t more;
    bool active;
    int codes[] = {regtx_get_value(store, REGTX_ALONE, 0, "Software", "v", NULL, data, &size),
                   regtx_get_value(store, tx, 0, "Software", "v", NULL, data, &size),
                   set_number(store, REGTX_ALONE, "v", 9),
                   set_number(store, tx, "v", 9),
                   regtx_session(store, &more),
                   regtx_transaction(store, session, &uuid, &other),
                   regtx_is_active(store, tx, &active),
                   regtx_kept(store, &uuid, NULL),
                   regtx_flush(store, NULL),
                   regtx_fold(store, NULL),
                   regtx_at(store, REGTX_NOW),
                   regtx_at(store, 7),
                   regtx_commit(store, tx, NULL),
                   regtx_session_end(store, session)};
    int wrong = 0;
    for (size_t at = 0; at < sizeof codes / sizeof codes[0]; at++)
        wrong += codes[at] != REGTX_OTHER_PROCESS;
    return wrong + (regtx_close(store) != REGTX_OK);
}

/* How many of so many reads of the maker go wrong. */
static int misread(regtx_store *store)
{
    int wrong = 0;
    for (int at = 0; at < READS; at++) {
        unsigned char data[4];
        size_t size = sizeof data;
        uint32_t number = 0;
        wrong +=
            regtx_get_value(store, REGTX_ALONE, 0, "Software", "v", NULL, data, &size) != REGTX_OK
            || regtx_to_dword(data, size, &number) != REGTX_OK || number != 7;
    }
    return wrong;
}

static void a_fork_refuses_what_it_did_not_open(void)
{
    regtx_store *store = new_store();
    regtx_uuid uuid = unit(1);
    regtx_tx tx = 0;
    uint32_t session = 0;
    pid_t children[FORKS];
    int status = -1;
    CHECK(set_number(store, REGTX_ALONE, "v", 7) == REGTX_OK);
    CHECK(regtx_session(store, &session) == REGTX_OK);
    CHECK(regtx_transaction(store, REGTX_FIRST_SESSION, &uuid, &tx) == REGTX_OK);
    CHECK(regtx_create_key(store, tx, 0, "Mine", NULL, NULL) == REGTX_OK);
    for (int at = 0; at < FORKS; at++)
        if ((children[at] = fork()) == 0)
            _exit(misused(store, tx, session));
    CHECK(misread(store) == 0);
    for (int at = 0; at < FORKS; at++)
        CHECK(waitpid(children[at], &status, 0) == children[at] && status == 0);
    CHECK(regtx_commit(store, tx, NULL) == REGTX_OK);
    CHECK(regtx_session_end(store, session) == REGTX_OK && regtx_close(store) == REGTX_OK);
    CHECK(answers("keys 0:\nget 0:Software v\n", "keys 2 Mine Software\nvalue 4 07000000\n"));
}

void test_processes(void)
{
    a_fork_refuses_what_it_did_not_open();
    an_interrupt_is_for_the_caller_alone();
}

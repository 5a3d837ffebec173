/* Runs that can't begin, that end early, or that fail at their end. */
#define _POSIX_C_SOURCE 200809L

#include "check.h"

#include <errno.h>
#include <signal.h>
#include <stdio.h>
#include <string.h>
#include <sys/wait.h>

static void other_programs_are_told(void)
{
    regtx_uuid id = unit(0);
    regtx_store *store;
    errno = 0;
    CHECK(regtx_open("none", "./none", 0, &store) == REGTX_IO && errno == ENOENT && !store);
    CHECK(regtx_create("none", &id, 1, "./none") == REGTX_IO);
    CHECK(regtx_open("none", "true", 0, &store) == REGTX_ENDED && !store);
    CHECK(regtx_open("none", "echo", 0, &store) == REGTX_REPLY && !store);
    CHECK(regtx_create("none", &id, 1, "true") == REGTX_ENDED);
    CHECK(regtx_open("none", program, 86401, &store) == REGTX_REPLY);
    CHECK(regtx_close(NULL) == REGTX_OK);
}

static void a_store_in_use_is_waited_for(void)
{
    regtx_store *store = new_store(), *other;
    char command[256];
    CHECK(regtx_open(folder(), program, 0, &other) == REGTX_CANNOT_OPEN && !other);
    CHECK(regtx_open(folder(), program, 1, &other) == REGTX_CANNOT_OPEN);
    CHECK(regtx_close(store) == REGTX_OK);
    /* another run holds the store for a while; it has opened it once it prints so */
    snprintf(command, sizeof command, "sleep 0.2 | '%s' run %s /dev/stdin", program, folder());
    FILE *run = popen(command, "r");
    CHECK(run && fgetc(run) == 'o');
    CHECK(regtx_open(folder(), program, 60, &other) == REGTX_OK && regtx_close(other) == REGTX_OK);
    CHECK(run && pclose(run) == 0);
}

static void two_stores_end_by_themselves(void)
{
    regtx_store *one = new_store(), *two = new_store();
    CHECK(regtx_close(one) == REGTX_OK);
    CHECK(set_number(two, REGTX_ALONE, "v", 1) == REGTX_OK && regtx_close(two) == REGTX_OK);
}

static void a_killed_run_has_ended(void)
{
    size_t size = 0;
    CHECK(regtx_close(new_store()) == REGTX_OK);
    regtx_store *store = open_to_kill();
    kill_run();
    CHECK(regtx_get_value(store, REGTX_ALONE, 0, "Software", "v", NULL, NULL, &size)
          == REGTX_ENDED);
    CHECK(regtx_flush(store, NULL) == REGTX_ENDED);
    CHECK(regtx_close(store) == REGTX_ENDED);
}

/* SIGPIPE doesn't end the caller, and what it asked of that signal stays. */
static void the_signal_of_the_pipe_is_kept_back(void)
{
    static unsigned char data[1 << 20];
    struct sigaction before, after;
    sigset_t mask, pending;
    CHECK(regtx_close(new_store()) == REGTX_OK);
    CHECK(sigaction(SIGPIPE, NULL, &before) == 0 && before.sa_handler == SIG_DFL);
    regtx_store *store = open_to_kill();
    kill_run();
    /* waits for its end, and leaves its status */
    siginfo_t ended;
    CHECK(waitid(P_ALL, 0, &ended, WEXITED | WNOWAIT) == 0);
    CHECK(regtx_set_value(store, REGTX_ALONE, 0, "Software", "v", 3, data, sizeof data, NULL)
          == REGTX_ENDED);
    CHECK(sigaction(SIGPIPE, NULL, &after) == 0 && after.sa_handler == SIG_DFL);
    CHECK(sigprocmask(SIG_SETMASK, NULL, &mask) == 0 && sigismember(&mask, SIGPIPE) == 0);
    CHECK(sigpending(&pending) == 0 && sigismember(&pending, SIGPIPE) == 0);
    CHECK(regtx_close(store) == REGTX_ENDED);
}

static void a_commit_without_an_answer_is_unknown(void)
{
    regtx_uuid uuid = unit(7);
    regtx_tx tx = 0;
    CHECK(regtx_close(new_store()) == REGTX_OK);
    regtx_store *store = open_to_kill();
    CHECK(regtx_transaction(store, REGTX_FIRST_SESSION, &uuid, &tx) == REGTX_OK);
    CHECK(set_number(store, tx, "v", 1) == REGTX_OK);
    /* its moment is known, so that no other line is sent before the commit */
    CHECK(regtx_at(store, 7) == REGTX_OK);
    kill_run();
    CHECK(regtx_commit(store, tx, NULL) == REGTX_COMMIT_UNKNOWN
          && regtx_cause(store) == REGTX_ENDED);
    CHECK(regtx_close(store) == REGTX_ENDED);
    store = open_again();
    CHECK(regtx_kept(store, &uuid, NULL) == REGTX_NOT_FOUND);
    CHECK(regtx_close(store) == REGTX_OK);
}

static void a_commit_that_is_not_sent_is_not_done(void)
{
    regtx_uuid uuid = unit(7);
    regtx_tx tx = 0;
    CHECK(regtx_close(new_store()) == REGTX_OK);
    regtx_store *store = open_to_kill();
    CHECK(regtx_transaction(store, REGTX_FIRST_SESSION, &uuid, &tx) == REGTX_OK);
    CHECK(set_number(store, tx, "v", 1) == REGTX_OK);
    kill_run();
    CHECK(regtx_flush(store, NULL) == REGTX_ENDED);
    CHECK(regtx_commit(store, tx, NULL) == REGTX_ENDED && regtx_close(store) == REGTX_ENDED);
}

static void some_refusals_leave_a_commit_unknown(void)
{
    static const struct {
        const char *reply;
        int code, cause;
    } answers_to_commit[] = {
        {"ok\nE1 NoMemory\nok\n", REGTX_COMMIT_UNKNOWN, REGTX_NO_MEMORY},
        {"ok\nE13 DiskFault\nok\n", REGTX_COMMIT_UNKNOWN, REGTX_DISK_FAULT},
        {"ok\nE14 Faulted\nok\n", REGTX_COMMIT_UNKNOWN, REGTX_FAULTED},
        {"ok\ncommitted\nok\n", REGTX_COMMIT_UNKNOWN, REGTX_REPLY},
        {"ok\nE11 JournalFull\nok\n", REGTX_JOURNAL_FULL, REGTX_OK},
        {"ok\ncommitted 5\nok\n", REGTX_OK, REGTX_OK},
    };
    for (size_t at = 0; at < sizeof answers_to_commit / sizeof answers_to_commit[0]; at++) {
        regtx_uuid uuid = unit(1);
        regtx_tx tx = 0;
        regtx_store *store = fake(answers_to_commit[at].reply, "exit 0");
        CHECK(regtx_transaction(store, REGTX_FIRST_SESSION, &uuid, &tx) == REGTX_OK);
        CHECK(regtx_commit(store, tx, NULL) == answers_to_commit[at].code);
        CHECK(regtx_cause(store) == answers_to_commit[at].cause);
        CHECK(regtx_close(store) == REGTX_OK);
    }
}

static void the_end_of_a_run_is_judged(void)
{
    CHECK(regtx_close(fake("", "exit 0")) == REGTX_OK);
    CHECK(regtx_close(fake("", "echo 'E13 DiskFault'; exit 1")) == REGTX_DISK_FAULT);
    CHECK(regtx_close(fake("", "exit 1")) == REGTX_ENDED);
    CHECK(regtx_close(fake("", "exit 2")) == REGTX_ENDED);
    CHECK(regtx_close(fake("", "kill -KILL $$")) == REGTX_ENDED);
    CHECK(regtx_close(fake("", "echo E13; exit 1")) == REGTX_REPLY);
    CHECK(regtx_close(fake("", "printf E13; exit 1")) == REGTX_REPLY);
}

/* What a program tells on standard error, if it is asked to. */
static void hints_are_told(void)
{
    regtx_store *store;
    regtx_uuid id = unit(0);
    const char *tell = "tell() { test \"$REGTX_HINTS\" = 1 && echo \"regtx: $1\" >&2; }\n";
    char lines[512];
    snprintf(lines, sizeof lines, "%stell one; tell two; echo cannot open store; exit 1", tell);
    CHECK(regtx_open("x", shell_script(lines), 0, &store) == REGTX_CANNOT_OPEN);
    CHECK(strcmp(regtx_hints(), "regtx: one\nregtx: two") == 0);
    snprintf(lines, sizeof lines, "%stell why; echo cannot make store; exit 1", tell);
    CHECK(regtx_create("x", &id, 1, shell_script(lines)) == REGTX_CANNOT_MAKE);
    CHECK(strcmp(regtx_hints(), "regtx: why") == 0);
    snprintf(lines, sizeof lines,
             "%secho opened 0; read line; tell full; echo E13 DiskFault; read line\n"
             "echo E14 Faulted; read line; tell end; exit 3",
             tell);
    CHECK(regtx_open("x", shell_script(lines), 0, &store) == REGTX_OK);
    CHECK(regtx_flush(store, NULL) == REGTX_DISK_FAULT
          && strcmp(regtx_hints(), "regtx: full") == 0);
    CHECK(regtx_flush(store, NULL) == REGTX_FAULTED && strcmp(regtx_hints(), "") == 0);
    CHECK(regtx_close(store) == REGTX_ENDED && strcmp(regtx_hints(), "regtx: end") == 0);
    CHECK(regtx_open("x", "./none", 0, &store) == REGTX_IO && strcmp(regtx_hints(), "") == 0);
}

static void replies_are_read_whole(void)
{
    static const char *const values[] = {
        "value 4\n",  "value x -\n",          "value 4 0\n",  "value 4 0g\n", "value 4 00 \n",
        "value 4 \n", "value 4294967296 -\n", "value -1 -\n", "E2\n",         "ok\n",
        "\n"};
    static const char *const lists[] = {
        "keys 2 a\n", "keys 0 a\n", "keys 1 %00\n", "keys 1 %00zz\n",
        "keys\n",     "values 0\n", "keys 0 \n",    "keys 99999999999999999999 a\n"};
    size_t size = 0;
    regtx_store *store;
    for (size_t at = 0; at < sizeof values / sizeof values[0]; at++) {
        store = fake(values[at], "exit 0");
        CHECK(regtx_get_value(store, REGTX_ALONE, 0, "", "v", NULL, NULL, &size) == REGTX_REPLY);
        CHECK(regtx_close(store) == REGTX_OK);
    }
    for (size_t at = 0; at < sizeof lists / sizeof lists[0]; at++) {
        store = fake(lists[at], "exit 0");
        CHECK(regtx_subkeys(store, REGTX_ALONE, 0, "", NULL, &size, NULL) == REGTX_REPLY);
        CHECK(regtx_close(store) == REGTX_OK);
    }
    /* half a reply, of a run that was killed in the midst of it; and a zero in one */
    const char *half = "echo 'opened 0'; read -r at; echo ok; read -r line; printf 'accepted 1'";
    const char *zero =
        "echo 'opened 0'; read -r at; echo ok; read -r line; printf 'accepted 1\\0\\n'";
    CHECK(regtx_open("none", shell_script(half), 0, &store) == REGTX_OK);
    CHECK(set_number(store, REGTX_ALONE, "v", 1) == REGTX_ENDED
          && regtx_close(store) == REGTX_ENDED);
    CHECK(regtx_open("none", shell_script(zero), 0, &store) == REGTX_OK);
    CHECK(set_number(store, REGTX_ALONE, "v", 1) == REGTX_REPLY && regtx_close(store) == REGTX_OK);
}

void test_runs(void)
{
    other_programs_are_told();
    a_store_in_use_is_waited_for();
    two_stores_end_by_themselves();
    a_killed_run_has_ended();
    the_signal_of_the_pipe_is_kept_back();
    a_commit_without_an_answer_is_unknown();
    a_commit_that_is_not_sent_is_not_done();
    some_refusals_leave_a_commit_unknown();
    the_end_of_a_run_is_judged();
    hints_are_told();
    replies_are_read_whole();
}

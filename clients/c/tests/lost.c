/* Connections that don't begin, that are lost, or that belong to another process. */
#define _GNU_SOURCE /* setresuid */

#include "check.h"

#include <errno.h>
#include <signal.h>
#include <stdio.h>
#include <string.h>
#include <sys/stat.h>
#include <sys/wait.h>
#include <unistd.h>

enum { NOBODY = 65534, FORKS = 5 };

static const char *const opened = "opened 0\n";

/* A connection to a server that says this. */
static regtx_store *to_fake(const char *const parts[], int *process)
{
    *process = fake_server(parts);
    return connected();
}

static int flushed(regtx_store *store)
{
    return regtx_flush(store, NULL);
}

static void connections_that_do_not_begin_are_told(void)
{
    static const struct {
        const char *said;
        int code;
    } first[] = {{"E10 NoSeat\n", REGTX_NO_SEAT}, {"E14 Faulted\n", REGTX_FAULTED},
                 {"", REGTX_ENDED},               {"opened 7", REGTX_ENDED},
                 {"hello\n", REGTX_REPLY},        {"opened x\n", REGTX_REPLY}};
    regtx_store *store = NULL;
    char long_path[120];
    memset(long_path, 's', sizeof long_path - 1);
    long_path[sizeof long_path - 1] = 0;
    CHECK(regtx_connect("none", REGTX_NO_USER, 0, &store) == REGTX_IO && errno == ENOENT && !store);
    CHECK(regtx_connect(long_path, REGTX_NO_USER, 0, &store) == REGTX_IO
          && errno == ENAMETOOLONG);
    for (size_t at = 0; at < sizeof first / sizeof first[0]; at++) {
        const char *parts[] = {first[at].said, NULL};
        int process = fake_server(parts);
        CHECK(regtx_connect(socket_path(), REGTX_NO_USER, 60, &store) == first[at].code && !store);
        CHECK(server_got(process, ""));
    }
}

static void a_server_of_another_user_is_not_trusted(void)
{
    static const char *const silent[] = {"", "", NULL}, *const well[] = {opened, "", NULL};
    static const int64_t refused[] = {REGTX_NO_USER, 1, -2};
    regtx_store *store = NULL;
    if (geteuid() != 0)
        return;
    /* the folder is root's, so the socket's file is made while this is another user in part */
    CHECK(chmod(".", 0777) == 0);
    for (size_t at = 0; at <= sizeof refused / sizeof refused[0]; at++) {
        bool is_trusted = at == sizeof refused / sizeof refused[0];
        CHECK(remove(socket_path()) == 0 || errno == ENOENT);
        CHECK(remove("came") == 0 || errno == ENOENT);
        CHECK(setresuid((uid_t)-1, NOBODY, 0) == 0);
        int process = fake_server(is_trusted ? well : silent);
        CHECK(setresuid((uid_t)-1, 0, 0) == 0);
        int code =
            regtx_connect(socket_path(), is_trusted ? NOBODY : refused[at], 60, &store);
        CHECK(code == (is_trusted ? REGTX_OK : REGTX_NOT_TRUSTED));
        CHECK(regtx_close(store) == REGTX_OK);
        CHECK(server_got(process, "|"));
    }
    CHECK(remove(socket_path()) == 0 && remove("came") == 0 && chmod(".", 0755) == 0);
}

static void a_lost_connection_has_ended(void)
{
    static const char *const said[] = {"", "flushed 1", "line 1: not understood\n"};
    for (size_t at = 0; at < sizeof said / sizeof said[0]; at++) {
        const char *parts[] = {opened, said[at], NULL};
        uint32_t session;
        int process;
        regtx_store *store = to_fake(parts, &process);
        CHECK(flushed(store) == (at == 2 ? REGTX_REPLY : REGTX_ENDED));
        CHECK(flushed(store) == REGTX_ENDED);
        CHECK(regtx_session(store, &session) == REGTX_ENDED);
        CHECK(regtx_close(store) == REGTX_ENDED);
        CHECK(server_got(process, "flush\n|"));
    }
}

static void a_commit_without_an_answer_is_unknown(void)
{
    static const struct {
        const char *reply;
        int code, cause;
    } replies[] = {{"", REGTX_COMMIT_UNKNOWN, REGTX_ENDED},
                   {"committed", REGTX_COMMIT_UNKNOWN, REGTX_ENDED},
                   {"E14 Faulted\nok\n", REGTX_COMMIT_UNKNOWN, REGTX_FAULTED},
                   {"E1 NoMemory\nok\n", REGTX_COMMIT_UNKNOWN, REGTX_NO_MEMORY},
                   {"E12 HistoryFull\nok\n", REGTX_HISTORY_FULL, REGTX_OK},
                   /* the reply to the line after it isn't needed */
                   {"committed 3\n", REGTX_OK, REGTX_OK}};
    for (size_t at = 0; at < sizeof replies / sizeof replies[0]; at++) {
        const char *parts[] = {opened, "ok\n", "ok\n", replies[at].reply, NULL};
        regtx_uuid uuid = unit(1);
        regtx_tx tx = 0;
        uint64_t number = 0;
        int process;
        regtx_store *store = to_fake(parts, &process);
        CHECK(regtx_at(store, 5) == REGTX_OK);
        CHECK(regtx_transaction(store, 0, &uuid, &tx) == REGTX_OK);
        CHECK(regtx_commit(store, tx, &number) == replies[at].code);
        CHECK(regtx_cause(store) == replies[at].cause);
        CHECK(number == (replies[at].code == REGTX_OK ? 3 : 0));
        regtx_close(store);
        CHECK(server_got(process,
                         "at 5\n|begin 1 6b000000-0000-0000-0000-000000000001\n|commit 1\nclose "
                         "1\n|"));
    }
}

static void a_commit_that_is_not_sent_is_not_done(void)
{
    static const char *const parts[] = {opened, "ok\n", "", NULL};
    regtx_uuid uuid = unit(1);
    regtx_tx tx = 0;
    int process;
    regtx_store *store = to_fake(parts, &process);
    CHECK(regtx_transaction(store, 0, &uuid, &tx) == REGTX_OK && flushed(store) == REGTX_ENDED);
    CHECK(regtx_commit(store, tx, NULL) == REGTX_ENDED);
    CHECK(regtx_close(store) == REGTX_ENDED);
    CHECK(server_got(process, "begin 1 6b000000-0000-0000-0000-000000000001\n|flush\n|"));
}

/* Writes that are sent to such a server at the moment 5; what it got after that. */
static void check_sent(const char *const parts[], bool is_once, int count, uint64_t number,
                       const char *came)
{
    regtx_uuid uuid = unit(1);
    regtx_writes *writes = NULL;
    uint64_t found = 0;
    char whole[512];
    int process;
    regtx_store *store = to_fake(parts, &process);
    CHECK(regtx_writes_new(&writes) == REGTX_OK && regtx_at(store, 5) == REGTX_OK);
    for (int at = 0; at < count; at++)
        CHECK(regtx_writes_delete_key(writes, 0, "K") == REGTX_OK);
    CHECK((is_once ? regtx_once_writes : regtx_transact_writes)(store, 0, &uuid, 1, writes, &found)
          == REGTX_OK);
    CHECK(found == number);
    regtx_writes_free(writes);
    regtx_close(store);
    snprintf(whole, sizeof whole, "at 5\n|%s", came);
    CHECK(server_got(process, whole));
}

#define UNIT "6b000000-0000-0000-0000-000000000001"

static void lines_are_sent_together(void)
{
    const char *one[] = {opened, "ok\n", "ok\nok\ncommitted 1\nok\n", NULL};
    const char *two[] = {opened, "ok\n", "ok\nok\nok\n", "committed 2\nok\n", NULL};
    const char *once[] = {opened, "ok\n", "ok\nE2 NotFound\n", "ok\ncommitted 3\nok\n", NULL};
    const char *twice[] = {opened, "ok\n", "ok\nE2 NotFound\n", "ok\nok\n", "committed 3\nok\n",
                           NULL};
    const char *done[] = {opened, "ok\n", "ok\ncommitted 9\n", "ok\n", NULL};
    check_sent(one, false, 1, 1, "begin 1 " UNIT "\ntx 1 delete 0:K\ncommit 1\nclose 1\n|");
    check_sent(two, false, 2, 2,
               "begin 1 " UNIT "\ntx 1 delete 0:K\ntx 1 delete 0:K\n|commit 1\nclose 1\n|");
    check_sent(once, true, 1, 3,
               "begin 1 " UNIT "\nkept " UNIT "\n|tx 1 delete 0:K\ncommit 1\nclose 1\n|");
    check_sent(twice, true, 2, 3,
               "begin 1 " UNIT "\nkept " UNIT
               "\n|tx 1 delete 0:K\ntx 1 delete 0:K\n|commit 1\nclose 1\n|");
    check_sent(done, true, 2, 9, "begin 1 " UNIT "\nkept " UNIT "\n|close 1\n|");
}

static int delete_key(regtx_store *store, regtx_tx tx, void *context)
{
    return regtx_delete_key(store, tx, 0, context, NULL);
}

static void a_transaction_that_the_server_ended_is_begun_again(void)
{
    static const char *const parts[] = {opened, "ok\n", "E9 NoSuchHandle\n", "E9 NoSuchHandle\n",
                                        "ok\n", "ok\n", "committed 1\nok\n", NULL};
    regtx_uuid uuid = unit(1);
    uint64_t number = 0;
    int process;
    regtx_store *store = to_fake(parts, &process);
    /* as it is at first, so that no line tells it */
    CHECK(regtx_at(store, 0) == REGTX_OK);
    CHECK(regtx_transact(store, 0, &uuid, 2, delete_key, "K", &number) == REGTX_OK && number == 1);
    regtx_close(store);
    CHECK(server_got(process, "begin 1 " UNIT "\n|tx 1 delete 0:K\n|close 1\n|begin 1 " UNIT
                              "\n|tx 1 delete 0:K\n|commit 1\nclose 1\n|"));
}

/* What is sent with the begin of a second transaction, which is refused, must not reach a first one
 * that couldn't be closed. */
static void a_label_that_is_in_use_is_not_given_again(void)
{
    static const char *const parts[] = {
        opened, "ok\n", "E1 NoMemory\n",
        "E7 Conflict\nE9 NoSuchHandle\nE9 NoSuchHandle\nE9 NoSuchHandle\n", NULL};
    regtx_uuid uuid = unit(1);
    regtx_writes *writes = NULL;
    regtx_tx tx = 0;
    int process;
    regtx_store *store = to_fake(parts, &process);
    CHECK(regtx_at(store, 0) == REGTX_OK && regtx_writes_new(&writes) == REGTX_OK);
    CHECK(regtx_writes_delete_key(writes, 0, "K") == REGTX_OK);
    CHECK(regtx_transaction(store, 0, &uuid, &tx) == REGTX_OK && tx == 1);
    CHECK(regtx_rollback(store, tx) == REGTX_NO_MEMORY);
    CHECK(regtx_transact_writes(store, 0, &uuid, 1, writes, NULL) == REGTX_CONFLICT);
    regtx_writes_free(writes);
    regtx_close(store);
    CHECK(server_got(process, "begin 1 " UNIT "\n|close 1\n|begin 2 " UNIT
                              "\ntx 2 delete 0:K\ncommit 2\nclose 2\n|"));
}

static void a_reply_that_takes_too_long_ends_the_connection(void)
{
    static const char *const parts[] = {opened, "", "", NULL};
    regtx_store *store;
    int process = fake_server(parts);
    CHECK(regtx_connect(socket_path(), REGTX_NO_USER, 1, &store) == REGTX_OK);
    CHECK(flushed(store) == REGTX_ENDED && flushed(store) == REGTX_ENDED);
    /* the server sees its end, and no second line */
    CHECK(server_got(process, "flush\n||"));
    CHECK(regtx_close(store) == REGTX_ENDED);
}

static void a_killed_server_is_told_and_work_is_done_once(void)
{
    unsigned lives = 4;
    CHECK(regtx_close(new_store()) == REGTX_OK);
    for (unsigned life = 0; life < lives; life++) {
        regtx_uuid uuid = unit(100 + life);
        regtx_writes *writes = NULL;
        uint64_t number = 0, again = 0;
        int process = serve(NULL, NULL);
        regtx_store *store = connected();
        CHECK(regtx_writes_new(&writes) == REGTX_OK
              && regtx_writes_create_key(writes, 1, "K") == REGTX_OK
              && regtx_writes_set_value(writes, 1, "K", "v", 3, &life, 1) == REGTX_OK);
        CHECK(regtx_once_writes(store, 0, &uuid, 1, writes, &number) == REGTX_OK && number > 0);
        if (life % 2 == 0)
            kill_server(process);
        CHECK(end_broker(process, life % 2 == 0 ? 0 : SIGKILL) == (life % 2 == 0 ? 1 : -SIGKILL));
        CHECK(regtx_once_writes(store, 0, &uuid, 1, writes, NULL) == REGTX_ENDED);
        CHECK(regtx_close(store) == REGTX_ENDED);
        process = serve(NULL, NULL);
        store = connected();
        CHECK(regtx_once_writes(store, 0, &uuid, 1, writes, &again) == REGTX_OK && again == number);
        CHECK(regtx_close(store) == REGTX_OK && end_broker(process, SIGTERM) == 0);
        regtx_writes_free(writes);
    }
    CHECK(answers("get 1:K v\n", "value 3 03\n"));
}

/* How many calls aren't refused of what another process opened. */
static int misused(regtx_store *store, regtx_tx tx, uint32_t session)
{
    regtx_uuid uuid = unit(9);
    regtx_writes *writes = NULL;
    regtx_tx other;
    uint32_t more;
    int wrong = regtx_writes_new(&writes) + regtx_writes_create_key(writes, 1, "X");
    int codes[] = {set_number(store, REGTX_ALONE, "v", 9),
                   set_number(store, tx, "v", 9),
                   regtx_session(store, &more),
                   regtx_transaction(store, session, &uuid, &other),
                   regtx_transact_writes(store, session, &uuid, 1, writes, NULL),
                   regtx_once_writes(store, session, &uuid, 1, writes, NULL),
                   regtx_kept(store, &uuid, NULL),
                   flushed(store),
                   regtx_fold(store, NULL),
                   regtx_at(store, REGTX_NOW),
                   regtx_at(store, 7),
                   regtx_commit(store, tx, NULL),
                   regtx_session_end(store, session)};
    for (size_t at = 0; at < sizeof codes / sizeof codes[0]; at++)
        wrong += codes[at] != REGTX_OTHER_PROCESS;
    regtx_writes_free(writes);
    return wrong + (regtx_close(store) != REGTX_OK);
}

static void a_fork_refuses_what_it_did_not_open(void)
{
    regtx_uuid uuid = unit(1);
    regtx_tx tx = 0;
    uint32_t session = 0;
    pid_t children[FORKS];
    int status = -1;
    CHECK(regtx_close(new_store()) == REGTX_OK);
    int process = serve(NULL, NULL);
    regtx_store *store = connected();
    CHECK(regtx_session(store, &session) == REGTX_OK);
    CHECK(regtx_transaction(store, session, &uuid, &tx) == REGTX_OK);
    CHECK(regtx_create_key(store, tx, 1, "Mine", NULL, NULL) == REGTX_OK);
    fflush(stdout);
    for (int at = 0; at < FORKS; at++)
        if ((children[at] = fork()) == 0)
            _exit(misused(store, tx, session));
    for (int at = 0; at < FORKS; at++)
        CHECK(waitpid(children[at], &status, 0) == children[at] && status == 0);
    CHECK(regtx_commit(store, tx, NULL) == REGTX_OK);
    CHECK(regtx_session_end(store, session) == REGTX_OK && regtx_close(store) == REGTX_OK);
    CHECK(end_broker(process, SIGTERM) == 0);
    CHECK(answers("keys 1:\n", "keys 1 Mine\n"));
}

void test_lost_connections(void)
{
    connections_that_do_not_begin_are_told();
    a_server_of_another_user_is_not_trusted();
    a_lost_connection_has_ended();
    a_commit_without_an_answer_is_unknown();
    a_commit_that_is_not_sent_is_not_done();
    lines_are_sent_together();
    a_transaction_that_the_server_ended_is_begun_again();
    a_label_that_is_in_use_is_not_given_again();
    a_reply_that_takes_too_long_ends_the_connection();
    a_killed_server_is_told_and_work_is_done_once();
    a_fork_refuses_what_it_did_not_open();
}

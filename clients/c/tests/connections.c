/* Stores that a server has: what several connections see, and work that is done once. */
#define _POSIX_C_SOURCE 200809L

#include "check.h"

#include <fcntl.h>
#include <signal.h>
#include <stdio.h>
#include <string.h>
#include <sys/wait.h>
#include <unistd.h>

enum { CLIENTS = 4, TURNS = 10, TOO_LONG = 2100000 };

static const uint64_t moment = UINT64_C(133536834155000000);

static regtx_tx begun(regtx_store *store, uint32_t session, unsigned number)
{
    regtx_uuid uuid = unit(number);
    regtx_tx tx = 0;
    CHECK(regtx_transaction(store, session, &uuid, &tx) == REGTX_OK && tx != REGTX_ALONE);
    return tx;
}

static void close_store(regtx_store *store)
{
    CHECK(regtx_close(store) == REGTX_OK);
}

static void two_connections_use_one_store(void)
{
    uint64_t number = 0;
    regtx_uuid uuid = unit(1);
    close_store(new_store());
    int process = serve(NULL, NULL);
    regtx_store *one = connected(), *two = connected(), *late;
    CHECK(regtx_opened_at(one) == 1);
    CHECK(regtx_create_key(one, REGTX_ALONE, 1, "A", NULL, &number) == REGTX_OK && number == 2);
    regtx_tx first = begun(one, 0, 1), second = begun(two, 0, 2);
    CHECK(set_number(one, first, "v", 1) == REGTX_OK);
    CHECK(set_number(two, second, "w", 2) == REGTX_CONFLICT);
    CHECK(regtx_delete_value(two, REGTX_ALONE, 0, "Software", "v", NULL) == REGTX_NOT_FOUND);
    CHECK(regtx_commit(one, first, &number) == REGTX_OK && number == 3);
    CHECK(set_number(two, second, "w", 2) == REGTX_OK);
    CHECK(regtx_commit(two, second, &number) == REGTX_OK && number == 4);
    CHECK(regtx_kept(two, &uuid, &number) == REGTX_OK && number == 3);
    CHECK(regtx_fold(one, NULL) == REGTX_UNSUPPORTED);
    CHECK(regtx_flush(one, &number) == REGTX_OK && number == 4);
    late = connected();
    CHECK(regtx_opened_at(late) == 4);
    close_store(late);
    close_store(one);
    close_store(two);
    CHECK(end_broker(process, SIGTERM) == 0);
    CHECK(answers("values 0:Software\nkeys 1:\n", "values 2 v w\nkeys 1 A\n"));
}

static void a_session_is_a_connection(void)
{
    uint32_t session = 0, more = 0;
    struct regtx_key_info info;
    close_store(new_store());
    int process = serve("-n", "2");
    regtx_store *store = connected(), *other = store;
    CHECK(regtx_at(store, moment) == REGTX_OK);
    CHECK(regtx_session(store, &session) == REGTX_OK && session != REGTX_FIRST_SESSION);
    CHECK(regtx_session(store, &more) == REGTX_NO_SEAT);
    CHECK(regtx_connect(socket_path(), REGTX_NO_USER, 0, &other) == REGTX_NO_SEAT && !other);
    regtx_tx tx = begun(store, session, 1), conflicting = begun(store, REGTX_FIRST_SESSION, 2);
    CHECK(set_number(store, tx, "v", 1) == REGTX_OK);
    CHECK(set_number(store, conflicting, "v", 2) == REGTX_CONFLICT);
    CHECK(regtx_commit(store, tx, NULL) == REGTX_OK);
    CHECK(regtx_key_info(store, REGTX_ALONE, 0, "Software", &info) == REGTX_OK);
    CHECK(info.written == moment);
    CHECK(regtx_rollback(store, conflicting) == REGTX_OK);
    /* its place is free, and its transactions are gone, once it has ended */
    for (int turn = 0; turn < 5; turn++) {
        tx = begun(store, session, 1);
        CHECK(set_number(store, tx, "v", 1) == REGTX_OK);
        CHECK(regtx_session_end(store, session) == REGTX_OK);
        CHECK(regtx_commit(store, tx, NULL) == REGTX_NO_SUCH_HANDLE);
        CHECK(regtx_session_end(store, session) == REGTX_NO_SUCH_HANDLE);
        CHECK(regtx_session(store, &session) == REGTX_OK);
    }
    CHECK(regtx_at(store, REGTX_NOW) == REGTX_OK);
    begun(store, session, 1);
    close_store(store);
    close_store(connected());
    CHECK(end_broker(process, SIGTERM) == 0);
}

static void a_line_that_is_too_long_is_not_sent(void)
{
    static unsigned char data[TOO_LONG];
    uint64_t number = 0;
    close_store(new_store());
    int process = serve(NULL, NULL);
    regtx_store *store = connected();
    CHECK(regtx_set_value(store, REGTX_ALONE, 0, "", "v", 3, data, sizeof data, NULL)
          == REGTX_TOO_LARGE);
    regtx_tx tx = begun(store, 0, 1);
    CHECK(regtx_set_value(store, tx, 0, "", "v", 3, data, sizeof data, NULL) == REGTX_TOO_LARGE);
    CHECK(set_number(store, tx, "v", 1) == REGTX_OK);
    CHECK(regtx_commit(store, tx, &number) == REGTX_OK && number == 2);
    close_store(store);
    CHECK(end_broker(process, SIGTERM) == 0);
}

/* Writes of a key, a number and so many further values. */
static regtx_writes *writes_of(const char *key, int values)
{
    static unsigned char data[200];
    regtx_writes *writes = NULL;
    CHECK(regtx_writes_new(&writes) == REGTX_OK);
    CHECK(regtx_writes_create_key(writes, 1, key) == REGTX_OK);
    for (int at = 0; at < values; at++) {
        char name[16];
        snprintf(name, sizeof name, "v%d", at);
        CHECK(regtx_writes_set_value(writes, 1, key, name, 3, data, sizeof data) == REGTX_OK);
    }
    return writes;
}

static int create_key(regtx_store *store, regtx_tx tx, void *context)
{
    ++*(int *)context;
    return regtx_create_key(store, tx, 1, "Once", NULL, NULL);
}

static int end_by_itself(regtx_store *store, regtx_tx tx, void *context)
{
    ++*(int *)context;
    return regtx_commit(store, tx, NULL);
}

static int fail(regtx_store *store, regtx_tx tx, void *context)
{
    return regtx_delete_key(store, tx, 1, context, NULL);
}

static void writes_are_carried_out_together(regtx_store *store)
{
    regtx_uuid uuid = unit(21), other = unit(22);
    uint64_t number = 0, before = regtx_opened_at(store);
    size_t size = 0, count = 0;
    regtx_writes *one = writes_of("One", 0), *many = writes_of("Many", 600), *none = NULL;
    CHECK(regtx_writes_new(&none) == REGTX_OK);
    CHECK(regtx_transact_writes(store, 0, &uuid, 1, one, &number) == REGTX_OK);
    CHECK(number == before + 1);
    CHECK(regtx_transact_writes(store, 0, &other, 1, many, &number) == REGTX_OK);
    CHECK(number == before + 2);
    CHECK(regtx_value_names(store, REGTX_ALONE, 1, "Many", NULL, &size, &count) == REGTX_TOO_SMALL
          && count == 600);
    CHECK(regtx_transact_writes(store, 0, &other, 1, none, &number) == REGTX_OK && number == 0);
    /* both are done by now */
    CHECK(regtx_once_writes(store, 0, &uuid, 1, many, &number) == REGTX_OK);
    CHECK(number == before + 1);
    CHECK(regtx_writes_delete_key(many, 1, "None") == REGTX_OK);
    CHECK(regtx_transact_writes(store, 0, &uuid, 1, many, NULL) == REGTX_NOT_FOUND);
    CHECK(regtx_writes_delete_value(one, 1, "One", "none") == REGTX_OK);
    CHECK(regtx_writes_create_key(one, 1, "Later") == REGTX_OK);
    regtx_tx tx = begun(store, 0, 1);
    CHECK(regtx_write_all(store, tx, none) == REGTX_OK);
    CHECK(regtx_write_all(store, tx, one) == REGTX_NOT_FOUND);
    CHECK(regtx_rollback(store, tx) == REGTX_OK);
    CHECK(regtx_write_all(store, tx, one) == REGTX_NO_SUCH_HANDLE);
    CHECK(regtx_writes_create_key(one, 1, "a\nb") == REGTX_WRONG_NAME);
    CHECK(regtx_flush(store, &number) == REGTX_OK && number == before + 2);
    regtx_writes_free(one);
    regtx_writes_free(many);
    regtx_writes_free(none);
    regtx_writes_free(NULL);
}

static void a_unit_is_done_once(regtx_store *store)
{
    regtx_uuid uuid = unit(31), other = unit(32);
    uint64_t number = 0, first = 0;
    int times = 0;
    CHECK(regtx_once(store, 0, &uuid, 1, create_key, &times, &first) == REGTX_OK && first > 0);
    CHECK(regtx_once(store, 0, &uuid, 1, create_key, &times, &number) == REGTX_OK);
    CHECK(number == first && times == 1);
    CHECK(regtx_once(store, 0, &uuid, 1, create_key, &times, NULL) == REGTX_OK);
    CHECK(regtx_once(store, 0, &other, 1, fail, "Nothing", &number) == REGTX_NOT_FOUND);
    CHECK(regtx_kept(store, &other, NULL) == REGTX_NOT_FOUND);
    /* what ends the transaction by itself isn't tried again */
    times = 0;
    CHECK(regtx_transact(store, 0, &other, 5, end_by_itself, &times, NULL) == REGTX_NO_SUCH_HANDLE);
    CHECK(times == 1);
    /* nothing is left at hand */
    for (int turn = 0; turn < 1100; turn++)
        if (regtx_once(store, 0, &uuid, 1, create_key, &times, NULL) != REGTX_OK)
            times = 99;
    CHECK(times == 1);
}

static void calls_are_alike(void)
{
    regtx_store *store = new_store();
    close_store(store);
    store = open_again();
    writes_are_carried_out_together(store);
    a_unit_is_done_once(store);
    close_store(store);
    close_store(new_store());
    int process = serve(NULL, NULL);
    store = connected();
    writes_are_carried_out_together(store);
    a_unit_is_done_once(store);
    close_store(store);
    CHECK(end_broker(process, SIGTERM) == 0);
}

/* One more in a value of all; from its first write on no other transaction writes there. */
static int count(regtx_store *store, regtx_tx tx, void *context)
{
    unsigned char data[4];
    size_t size = sizeof data;
    uint32_t number = 0;
    (void)context;
    int code = set_number(store, tx, "turn", 0);
    if (code == REGTX_OK)
        code = regtx_get_value(store, tx, 0, "Software", "count", NULL, data, &size);
    if (code == REGTX_OK)
        code = regtx_to_dword(data, size, &number);
    return code ? code : set_number(store, tx, "count", number + 1);
}

static int count_as_client(int client)
{
    regtx_uuid all = unit(4000);
    int wrong = 0;
    regtx_store *store = connected();
    for (int turn = 0; turn < TURNS; turn++) {
        regtx_uuid mine = unit((unsigned)(100 * client + turn));
        wrong += regtx_transact(store, 0, &mine, 1000, count, NULL, NULL) != REGTX_OK;
    }
    wrong += regtx_once(store, 0, &all, 40, count, NULL, NULL) != REGTX_OK;
    return wrong + (regtx_close(store) != REGTX_OK);
}

static void programs_count_together(void)
{
    pid_t clients[CLIENTS];
    int status = -1;
    regtx_store *store = new_store();
    CHECK(set_number(store, REGTX_ALONE, "count", 0) == REGTX_OK);
    close_store(store);
    int process = serve(NULL, NULL);
    fflush(stdout);
    for (int client = 0; client < CLIENTS; client++)
        if ((clients[client] = fork()) == 0)
            _exit(count_as_client(client));
    for (int client = 0; client < CLIENTS; client++)
        CHECK(waitpid(clients[client], &status, 0) == clients[client] && status == 0);
    CHECK(end_broker(process, SIGTERM) == 0);
    /* 4 times 10, and one unit of all */
    CHECK(answers("get 0:Software count\n", "value 4 29000000\n"));
}

static void a_unit_at_hand_elsewhere_is_waited_for(void)
{
    regtx_uuid uuid = unit(1);
    regtx_tx tx = 0;
    int times = 0, status = -1;
    uint64_t number = 0;
    close_store(new_store());
    int process = serve(NULL, NULL);
    regtx_store *store = connected(), *other = connected();
    regtx_tx held = begun(other, 0, 1);
    CHECK(regtx_create_key(other, held, 1, "Held", NULL, NULL) == REGTX_OK);
    CHECK(regtx_transaction(store, 0, &uuid, &tx) == REGTX_CONFLICT);
    CHECK(regtx_once(store, 0, &uuid, 2, create_key, &times, NULL) == REGTX_CONFLICT);
    fflush(stdout);
    pid_t waiting = fork();
    if (waiting == 0) {
        regtx_store *mine = connected();
        int code = regtx_once(mine, 0, &uuid, 20, create_key, &times, &number);
        _exit(code != REGTX_OK || number != 2 || times != 0 || regtx_close(mine) != REGTX_OK);
    }
    CHECK(regtx_commit(other, held, &number) == REGTX_OK && number == 2);
    CHECK(waitpid(waiting, &status, 0) == waiting && status == 0);
    close_store(store);
    close_store(other);
    CHECK(end_broker(process, SIGTERM) == 0);
    CHECK(answers("keys 1:\n", "keys 1 Held\n"));
}

/* Programs that are started don't get the socket. */
static void sockets_are_not_inherited(void)
{
    close_store(new_store());
    int process = serve(NULL, NULL), found = 0;
    regtx_store *store = connected();
    FILE *list = popen("ls -l /proc/self/fd | grep -c socket:", "r");
    CHECK(list && fscanf(list, "%d", &found) == 1 && found == 0);
    if (list)
        pclose(list);
    close_store(store);
    CHECK(end_broker(process, SIGTERM) == 0);
}

void test_connections(void)
{
    two_connections_use_one_store();
    a_session_is_a_connection();
    a_line_that_is_too_long_is_not_sent();
    calls_are_alike();
    programs_count_together();
    a_unit_at_hand_elsewhere_is_waited_for();
    sockets_are_not_inherited();
}

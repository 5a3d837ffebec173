/* Those who follow or watch a server's store, and backups. */
#define _POSIX_C_SOURCE 200809L

#include "check.h"

#include <pthread.h>
#include <signal.h>
#include <stdio.h>
#include <string.h>
#include <sys/stat.h>
#include <time.h>

enum { NAME = 96 };

static void close_store(regtx_store *store)
{
    CHECK(regtx_close(store) == REGTX_OK);
}

static void a_backup_is_a_store(void)
{
    char backups[NAME], copy[2 * NAME], long_name[257] = "";
    uint64_t number = 0;
    regtx_store *saved = NULL;
    close_store(new_store());
    snprintf(backups, sizeof backups, "%s.backups", folder());
    CHECK(mkdir(backups, 0700) == 0);
    int process = serve_with_backups(backups);
    regtx_store *store = connected();
    CHECK(regtx_backup(store, "one", &number) == REGTX_OK && number == 1);
    CHECK(regtx_create_key(store, REGTX_ALONE, 1, "Later", NULL, NULL) == REGTX_OK);
    CHECK(regtx_backup(store, "one", NULL) == REGTX_CONFLICT);
    struct regtx_server_stats stats = {0};
    CHECK(regtx_stats(store, &stats) == REGTX_OK && stats.number == 2 && stats.durable == 2);
    CHECK(stats.clients == 1 && stats.waiting == 0 && stats.room > 65);
    memset(long_name, 'a', 256);
    const char *wrong[] = {"", ".a", "a b", "a/b", "a\n", "\303\244", "@", long_name};
    for (size_t at = 0; at < sizeof wrong / sizeof wrong[0]; at++)
        CHECK(regtx_backup(store, wrong[at], NULL) == REGTX_BAD_NAME);
    CHECK(regtx_backup(store, long_name + 1, &number) == REGTX_OK && number == 2);
    snprintf(copy, sizeof copy, "%s/one", backups);
    CHECK(regtx_open(copy, program, 0, &saved) == REGTX_OK && regtx_opened_at(saved) == 1);
    CHECK(regtx_delete_key(saved, REGTX_ALONE, 0, "Software", NULL) == REGTX_OK);
    CHECK(regtx_delete_key(saved, REGTX_ALONE, 1, "Later", NULL) == REGTX_NOT_FOUND);
    close_store(saved);
    close_store(store);
    CHECK(end_broker(process, SIGTERM) == 0);
}

/* Of a run nothing is sent. */
static void what_is_no_servers_is_not_followed(void)
{
    regtx_follower *follower;
    regtx_store *store = new_store();
    struct regtx_server_stats stats = {0};
    CHECK(regtx_stats(store, &stats) == REGTX_UNSUPPORTED && stats.number == 0);
    CHECK(regtx_backup(store, "one", NULL) == REGTX_UNSUPPORTED);
    CHECK(regtx_follow(store, 0, &follower) == REGTX_UNSUPPORTED && !follower);
    CHECK(regtx_watch(store, 0, "Software", &follower) == REGTX_UNSUPPORTED && !follower);
    CHECK(set_number(store, REGTX_ALONE, "v", 1) == REGTX_OK);
    close_store(store);
}

static void is_change(regtx_follower *follower, uint64_t number, const regtx_uuid *uuid,
                      const char *line)
{
    struct regtx_change change;
    CHECK(regtx_next_change(follower, &change) == REGTX_OK);
    CHECK(change.number == number && change.moment == number && regtx_followed(follower) == number);
    CHECK(change.has_unit == (uuid != NULL));
    CHECK(!uuid || memcmp(&change.unit, uuid, sizeof *uuid) == 0);
    CHECK(change.count > 0 && strcmp(change.lines[change.count - 1], line) == 0);
}

static void changes_come_as_they_are_durable(void)
{
    regtx_follower *follower = NULL, *watcher = NULL, *ahead = NULL;
    struct regtx_change change;
    uint64_t number = 0;
    regtx_uuid uuid = unit(7);
    regtx_tx tx = 0;
    close_store(new_store());
    int process = serve(NULL, NULL);
    regtx_store *store = connected();
    CHECK(regtx_backup(store, "one", NULL) == REGTX_UNSUPPORTED);
    CHECK(regtx_follow(store, 1, &follower) == REGTX_OK);
    CHECK(regtx_watch(store, 0, "software\\a b", &watcher) == REGTX_OK);
    CHECK(regtx_followed(follower) == 1 && regtx_followed(watcher) == 1);
    CHECK(regtx_next_changed(follower, &number) == REGTX_UNSUPPORTED);
    CHECK(regtx_next_change(watcher, &change) == REGTX_UNSUPPORTED);
    CHECK(regtx_at(store, 2) == REGTX_OK);
    CHECK(regtx_create_key(store, REGTX_ALONE, 0, "Software\\a b", NULL, NULL) == REGTX_OK);
    CHECK(regtx_at(store, 3) == REGTX_OK);
    CHECK(regtx_transaction(store, 0, &uuid, &tx) == REGTX_OK);
    CHECK(set_number(store, tx, "v", 1) == REGTX_OK && set_number(store, tx, "w", 2) == REGTX_OK);
    CHECK(regtx_commit(store, tx, &number) == REGTX_OK && number == 3);
    is_change(follower, 2, NULL, "create 0:Software\\a%0020b");
    is_change(follower, 3, &uuid, "set 0:Software w 4 02000000");
    CHECK(regtx_next_changed(watcher, &number) == REGTX_OK && number == 2);
    CHECK(regtx_follow(store, 99, &ahead) == REGTX_OK);
    for (int turn = 0; turn < 2; turn++)
        CHECK(regtx_next_change(ahead, &change) == REGTX_CANNOT_FOLLOW);
    CHECK(regtx_followed(ahead) == 3 && change.count == 0);
    regtx_follower_free(ahead);
    CHECK(regtx_watch(store, 0, "a\\\\b", &ahead) == REGTX_WRONG_NAME && !ahead);
    close_store(store);
    CHECK(end_broker(process, SIGTERM) == 0);
    for (int turn = 0; turn < 2; turn++) {
        CHECK(regtx_next_change(follower, &change) == REGTX_FOLLOWED);
        CHECK(regtx_next_changed(watcher, &number) == REGTX_FOLLOWED);
    }
    CHECK(regtx_followed(follower) == 3 && regtx_followed(watcher) == 3);
    regtx_follower_free(follower);
    regtx_follower_free(watcher);
    regtx_follower_free(NULL);
}

static void *next_code(void *follower)
{
    static int code;
    struct regtx_change change;
    code = regtx_next_change(follower, &change);
    return &code;
}

/* One who has gone may have its place a little longer, until its session has ended. */
static int follow_soon(regtx_store *store, regtx_follower **follower)
{
    struct timespec pause = {0, 10000000};
    int code = regtx_follow(store, 1, follower);
    for (int tries = 0; code == REGTX_NO_SEAT && tries < 3000; tries++) {
        nanosleep(&pause, NULL);
        code = regtx_follow(store, 1, follower);
    }
    return code;
}

static void another_thread_ends_one_who_follows(void)
{
    close_store(new_store());
    int process = serve("-n", "2");
    regtx_store *store = connected();
    for (int turn = 0; turn < 5; turn++) {
        regtx_follower *follower = NULL;
        pthread_t thread;
        void *code = NULL;
        CHECK(follow_soon(store, &follower) == REGTX_OK);
        CHECK(pthread_create(&thread, NULL, next_code, follower) == 0);
        regtx_follower_end(follower);
        CHECK(pthread_join(thread, &code) == 0 && code && *(int *)code == REGTX_FOLLOWED);
        /* its place is free then */
        regtx_follower_free(follower);
    }
    close_store(store);
    CHECK(end_broker(process, SIGTERM) == 0);
}

static void a_loss_is_no_end(void)
{
    regtx_follower *follower = NULL, *watcher = NULL;
    struct regtx_change change;
    uint64_t number = 0;
    close_store(new_store());
    int process = serve(NULL, NULL);
    regtx_store *store = connected();
    CHECK(regtx_follow(store, 1, &follower) == REGTX_OK);
    CHECK(regtx_watch(store, 1, "", &watcher) == REGTX_OK);
    CHECK(regtx_create_key(store, REGTX_ALONE, 1, "A", NULL, NULL) == REGTX_OK);
    CHECK(regtx_flush(store, NULL) == REGTX_OK);
    CHECK(regtx_next_change(follower, &change) == REGTX_OK && change.number == 2);
    CHECK(regtx_next_changed(watcher, &number) == REGTX_OK && number == 2);
    kill_server(process);
    CHECK(end_broker(process, 0) == 1);
    CHECK(regtx_next_change(follower, &change) == REGTX_ENDED);
    CHECK(regtx_next_changed(watcher, &number) == REGTX_ENDED);
    CHECK(regtx_followed(follower) == 2 && regtx_followed(watcher) == 2);
    regtx_follower_free(follower);
    regtx_follower_free(watcher);
    CHECK(regtx_flush(store, NULL) == REGTX_ENDED);
    CHECK(regtx_close(store) == REGTX_ENDED);
}

void test_following(void)
{
    a_backup_is_a_store();
    what_is_no_servers_is_not_followed();
    changes_come_as_they_are_durable();
    another_thread_ends_one_who_follows();
    a_loss_is_no_end();
}

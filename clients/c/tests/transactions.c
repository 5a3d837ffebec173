/* Transactions: commits, conflicts, sessions, and what is kept of them. */
#include "check.h"

#include <stdio.h>
#include <string.h>

enum { ROUNDS = 1100, SESSION_ROUNDS = 40, MEBIBYTE = 1048576 };

static regtx_tx begun(regtx_store *store, uint32_t session, unsigned number)
{
    regtx_uuid uuid = unit(number);
    regtx_tx tx = 0;
    CHECK(regtx_transaction(store, session, &uuid, &tx) == REGTX_OK && tx != REGTX_ALONE);
    return tx;
}

static int kept(regtx_store *store, unsigned number, uint64_t *found)
{
    regtx_uuid uuid = unit(number);
    return regtx_kept(store, &uuid, found);
}

static void a_commit_changes_all_hives_at_once(void)
{
    regtx_store *store = new_store();
    regtx_tx tx = begun(store, REGTX_FIRST_SESSION, 1);
    struct regtx_key_info info;
    uint32_t levels = 99;
    uint64_t number = 99;
    size_t size = 0;
    CHECK(regtx_create_key(store, tx, 1, "Services", &levels, &number) == REGTX_OK);
    CHECK(levels == 1 && number == 0);
    CHECK(regtx_create_key(store, tx, 0, "Software", &levels, NULL) == REGTX_OK && levels == 0);
    CHECK(set_number(store, tx, "v", 1) == REGTX_OK);
    CHECK(regtx_get_value(store, tx, 0, "Software", "v", NULL, NULL, &size) == REGTX_TOO_SMALL
          && size == 4);
    CHECK(regtx_get_value(store, REGTX_ALONE, 0, "Software", "v", NULL, NULL, &size)
          == REGTX_NOT_FOUND);
    CHECK(regtx_key_info(store, REGTX_ALONE, 1, "Services", &info) == REGTX_NOT_FOUND);
    CHECK(regtx_commit(store, tx, &number) == REGTX_OK && number == 2);
    /* the transaction is gone */
    CHECK(set_number(store, tx, "v", 2) == REGTX_NO_SUCH_HANDLE);
    CHECK(regtx_commit(store, tx, NULL) == REGTX_NO_SUCH_HANDLE);
    CHECK(regtx_rollback(store, tx) == REGTX_NO_SUCH_HANDLE);
    CHECK(regtx_close(store) == REGTX_OK);
    CHECK(answers("get 0:Software v\nkeys 1:\n", "value 4 01000000\nkeys 1 Services\n"));
}

static void a_rollback_leaves_nothing(void)
{
    regtx_store *store = new_store();
    regtx_tx tx = begun(store, REGTX_FIRST_SESSION, 1);
    CHECK(set_number(store, tx, "v", 1) == REGTX_OK);
    CHECK(regtx_rollback(store, tx) == REGTX_OK);
    /* its claim is gone */
    tx = begun(store, REGTX_FIRST_SESSION, 2);
    CHECK(set_number(store, tx, "v", 2) == REGTX_OK);
    CHECK(regtx_delete_key(store, tx, 0, "None", NULL) == REGTX_NOT_FOUND);
    CHECK(regtx_close(store) == REGTX_OK);
    CHECK(answers("values 0:Software\n", "values 0\n"));
}

static void two_sessions_conflict(void)
{
    regtx_store *store = new_store();
    uint32_t one = 0, two = 0;
    uint64_t number = 99;
    CHECK(regtx_session(store, &one) == REGTX_OK && regtx_session(store, &two) == REGTX_OK);
    CHECK(one != two && one != REGTX_FIRST_SESSION);
    regtx_tx first = begun(store, one, 1), second = begun(store, two, 2),
             third = begun(store, one, 3);
    CHECK(set_number(store, first, "v", 1) == REGTX_OK);
    CHECK(set_number(store, second, "w", 2) == REGTX_CONFLICT);
    CHECK(regtx_create_key(store, second, 1, "Services", NULL, NULL) == REGTX_OK);
    CHECK(regtx_commit(store, first, &number) == REGTX_OK && number == 2);
    CHECK(set_number(store, second, "w", 2) == REGTX_OK);
    CHECK(regtx_create_key(store, third, 1, "Other", NULL, NULL) == REGTX_OK);
    CHECK(regtx_commit(store, second, &number) == REGTX_OK && number == 3);
    CHECK(regtx_session_end(store, one) == REGTX_OK);
    CHECK(regtx_commit(store, third, NULL) == REGTX_NO_SUCH_HANDLE);
    CHECK(regtx_session_end(store, one) == REGTX_NO_SUCH_HANDLE);
    CHECK(regtx_session_end(store, REGTX_FIRST_SESSION) == REGTX_NO_SUCH_HANDLE);
    CHECK(regtx_close(store) == REGTX_OK);
    CHECK(answers("values 0:Software\nkeys 1:\n", "values 2 v w\nkeys 1 Services\n"));
}

static void a_write_alone_rolls_back_what_conflicts(void)
{
    regtx_store *store = new_store();
    regtx_tx tx = begun(store, REGTX_FIRST_SESSION, 1),
             other = begun(store, REGTX_FIRST_SESSION, 2);
    bool active = false, other_active = false;
    CHECK(set_number(store, tx, "v", 1) == REGTX_OK);
    CHECK(regtx_create_key(store, other, 1, "Services", NULL, NULL) == REGTX_OK);
    CHECK(regtx_is_active(store, tx, &active) == REGTX_OK && active);
    CHECK(set_number(store, REGTX_ALONE, "v", 9) == REGTX_OK);
    CHECK(regtx_is_active(store, tx, &active) == REGTX_OK && !active);
    CHECK(regtx_is_active(store, other, &other_active) == REGTX_OK && other_active);
    CHECK(set_number(store, tx, "v", 1) == REGTX_NOT_ACTIVE);
    CHECK(regtx_commit(store, tx, NULL) == REGTX_NOT_ACTIVE);
    CHECK(regtx_commit(store, other, NULL) == REGTX_OK);
    CHECK(regtx_close(store) == REGTX_OK);
    CHECK(answers("get 0:Software v\nkeys 1:\n", "value 4 09000000\nkeys 1 Services\n"));
}

static void outcomes_are_kept_for_later_runs(void)
{
    regtx_store *store = new_store();
    uint64_t number = 99;
    for (unsigned done = 1; done <= 2; done++) {
        regtx_tx tx = begun(store, REGTX_FIRST_SESSION, done);
        CHECK(set_number(store, tx, "v", done) == REGTX_OK
              && regtx_commit(store, tx, NULL) == REGTX_OK);
    }
    /* without writes nothing is kept */
    CHECK(regtx_commit(store, begun(store, REGTX_FIRST_SESSION, 3), &number) == REGTX_OK
          && number == 0);
    CHECK(regtx_close(store) == REGTX_OK);
    store = open_again();
    CHECK(kept(store, 1, &number) == REGTX_OK && number == 2);
    CHECK(kept(store, 2, &number) == REGTX_OK && number == 3);
    CHECK(kept(store, 2, NULL) == REGTX_OK);
    CHECK(kept(store, 3, &number) == REGTX_NOT_FOUND);
    CHECK(regtx_close(store) == REGTX_OK);
}

static void places_are_freed(void)
{
    regtx_store *store = new_store();
    uint32_t session = 0;
    uint64_t number = 0;
    int wrong = 0;
    for (unsigned round = 0; round < ROUNDS; round++) {
        regtx_tx tx = begun(store, REGTX_FIRST_SESSION, round);
        wrong +=
            (round % 2 ? regtx_commit(store, tx, NULL) : regtx_rollback(store, tx)) != REGTX_OK;
    }
    for (int round = 0; round < SESSION_ROUNDS; round++) {
        wrong += regtx_session(store, &session) != REGTX_OK;
        wrong += regtx_rollback(store, begun(store, session, 1)) != REGTX_OK;
        wrong += regtx_session_end(store, session) != REGTX_OK;
    }
    CHECK(wrong == 0);
    CHECK(regtx_session(store, &session) == REGTX_OK);
    regtx_tx tx = begun(store, session, 1);
    CHECK(regtx_fold(store, &number) == REGTX_OK && number == 1);
    CHECK(set_number(store, tx, "v", 1) == REGTX_NO_SUCH_HANDLE);
    regtx_uuid uuid = unit(1);
    CHECK(regtx_transaction(store, session, &uuid, &tx) == REGTX_NO_SUCH_HANDLE);
    CHECK(regtx_session(store, &session) == REGTX_OK);
    CHECK(set_number(store, begun(store, session, 1), "v", 1) == REGTX_OK);
    CHECK(set_number(store, REGTX_ALONE, "v", 1) == REGTX_OK);
    CHECK(regtx_close(store) == REGTX_OK);
}

static void places_are_limited(void)
{
    regtx_store *store = new_store();
    uint32_t session = 0;
    regtx_uuid uuid = unit(1);
    regtx_tx tx = 0;
    int wrong = 0;
    for (int opened = 1; opened < 32; opened++)
        wrong += regtx_session(store, &session) != REGTX_OK;
    for (int held = 0; held < 1024; held++)
        wrong += regtx_transaction(store, session, &uuid, &tx) != REGTX_OK;
    CHECK(wrong == 0);
    CHECK(regtx_session(store, &session) == REGTX_NO_SEAT);
    CHECK(regtx_transaction(store, REGTX_FIRST_SESSION, &uuid, &tx) == REGTX_NO_SEAT);
    CHECK(regtx_transaction(store, 99, &uuid, &tx) == REGTX_NO_SUCH_HANDLE);
    CHECK(regtx_session_end(store, session) == REGTX_OK);
    CHECK(regtx_transaction(store, REGTX_FIRST_SESSION, &uuid, &tx) == REGTX_OK);
    CHECK(regtx_close(store) == REGTX_OK);
}

static void a_large_transaction_is_refused(void)
{
    static unsigned char data[MEBIBYTE];
    regtx_store *store = new_store();
    regtx_tx tx = begun(store, REGTX_FIRST_SESSION, 1);
    int code = REGTX_OK;
    for (int value = 0; value < 5 && code == REGTX_OK; value++) {
        char name[] = {(char)('a' + value), 0};
        code = regtx_set_value(store, tx, 0, "Software", name, 3, data, sizeof data, NULL);
    }
    code = code ? code : regtx_commit(store, tx, NULL);
    CHECK(code == REGTX_TOO_LARGE);
    CHECK(regtx_close(store) == REGTX_OK);
    CHECK(answers("values 0:Software\n", "values 0\n"));
}

void test_transactions(void)
{
    a_commit_changes_all_hives_at_once();
    a_rollback_leaves_nothing();
    two_sessions_conflict();
    a_write_alone_rolls_back_what_conflicts();
    outcomes_are_kept_for_later_runs();
    places_are_freed();
    places_are_limited();
    a_large_transaction_is_refused();
}

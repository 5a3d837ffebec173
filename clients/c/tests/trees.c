/* What is below a key, and work that is tried again. */
#define _POSIX_C_SOURCE 200809L

#include "check.h"

#include <stdio.h>
#include <string.h>

/* What was seen, as text; and how many calls are left before the answer is a code of the test's. */
struct seen {
    char text[512];
    int left, answer;
};

static int see_key(const char *path, void *context)
{
    struct seen *seen = context;
    strcat(strcat(seen->text, path), "\n");
    return seen->left-- ? REGTX_OK : seen->answer;
}

static int see_item(const char *name, uint32_t type, const void *data, size_t size, void *context)
{
    struct seen *seen = context;
    char line[64];
    snprintf(line, sizeof line, "%s %u %zu %d\n", name, (unsigned)type, size,
             size ? *(const unsigned char *)data : -1);
    strcat(seen->text, line);
    return seen->left-- ? REGTX_OK : seen->answer;
}

static bool walks(regtx_store *store, regtx_tx tx, const char *path, const char *wanted)
{
    struct seen seen = {"", -1, 0};
    return regtx_walk(store, tx, 1, path, see_key, &seen) == REGTX_OK
           && strcmp(seen.text, wanted) == 0;
}

static const char all[] = "\nT\nT\\A 50%\nT\\A 50%\\x\nT\\A 50%\\x\\y\nT\\B\nU\n";

static regtx_store *tree(void)
{
    regtx_store *store = new_store();
    CHECK(regtx_create_key(store, REGTX_ALONE, 1, "T\\A 50%\\x\\y", NULL, NULL) == REGTX_OK);
    CHECK(regtx_create_key(store, REGTX_ALONE, 1, "T\\B", NULL, NULL) == REGTX_OK);
    CHECK(regtx_create_key(store, REGTX_ALONE, 1, "U", NULL, NULL) == REGTX_OK);
    return store;
}

static void items_are_read(void)
{
    static unsigned char large[1 << 16];
    regtx_store *store = new_store();
    struct seen seen = {"", -1, 0}, ended = {"", 1, 7};
    CHECK(set_number(store, REGTX_ALONE, "n", 9) == REGTX_OK
          && set_number(store, REGTX_ALONE, "", 8) == REGTX_OK);
    CHECK(regtx_set_value(store, REGTX_ALONE, 0, "Software", "@", 3, large, sizeof large, NULL)
          == REGTX_OK);
    CHECK(regtx_set_value(store, REGTX_ALONE, 0, "Software", "z", 0, NULL, 0, NULL) == REGTX_OK);
    CHECK(regtx_items(store, REGTX_ALONE, 0, "Software", see_item, &seen) == REGTX_OK);
    CHECK(strcmp(seen.text, " 4 4 8\n@ 3 65536 0\nn 4 4 9\nz 0 0 -1\n") == 0);
    CHECK(regtx_items(store, REGTX_ALONE, 0, "Software", see_item, &ended) == 7);
    CHECK(strcmp(ended.text, " 4 4 8\n@ 3 65536 0\n") == 0);
    CHECK(regtx_items(store, REGTX_ALONE, 1, "", see_item, &ended) == REGTX_OK);
    CHECK(regtx_items(store, REGTX_ALONE, 0, "None", see_item, &ended) == REGTX_NOT_FOUND);
    CHECK(regtx_close(store) == REGTX_OK);
}

static void trees_are_walked(void)
{
    regtx_store *store = tree();
    struct seen seen = {"", 1, 7};
    CHECK(walks(store, REGTX_ALONE, "", all));
    CHECK(walks(store, REGTX_ALONE, "T\\A 50%", "T\\A 50%\nT\\A 50%\\x\nT\\A 50%\\x\\y\n"));
    CHECK(walks(store, REGTX_ALONE, "U", "U\n"));
    CHECK(regtx_walk(store, REGTX_ALONE, 1, "T", see_key, &seen) == 7);
    CHECK(strcmp(seen.text, "T\nT\\A 50%\n") == 0);
    CHECK(regtx_walk(store, REGTX_ALONE, 1, "None", see_key, &seen) == REGTX_NOT_FOUND);
    CHECK(regtx_walk(store, REGTX_ALONE, 1, "\n", see_key, &seen) == REGTX_WRONG_NAME);
    CHECK(regtx_close(store) == REGTX_OK);
}

static void trees_are_deleted(void)
{
    regtx_store *store = tree();
    regtx_uuid uuid = unit(1);
    regtx_tx tx = 0;
    uint32_t keys = 99;
    uint64_t number = 99;
    bool active = false;
    CHECK(regtx_delete_tree(store, REGTX_ALONE, 1, "None", &keys, NULL) == REGTX_NOT_FOUND);
    CHECK(regtx_delete_tree(store, REGTX_ALONE, 1, "", &keys, NULL) == REGTX_FIXED);
    CHECK(walks(store, REGTX_ALONE, "", all));
    CHECK(regtx_transaction(store, REGTX_FIRST_SESSION, &uuid, &tx) == REGTX_OK);
    CHECK(regtx_delete_tree(store, tx, 1, "T\\A 50%", &keys, &number) == REGTX_OK);
    CHECK(keys == 3 && number == 0 && walks(store, tx, "T", "T\nT\\B\n"));
    CHECK(walks(store, REGTX_ALONE, "", all));
    CHECK(regtx_delete_tree(store, REGTX_ALONE, 1, "T", &keys, NULL) == REGTX_CONFLICT);
    CHECK(regtx_is_active(store, tx, &active) == REGTX_OK && active);
    CHECK(regtx_rollback(store, tx) == REGTX_OK);
    CHECK(regtx_delete_tree(store, REGTX_ALONE, 1, "T", &keys, &number) == REGTX_OK);
    CHECK(keys == 5 && number == 5 && walks(store, REGTX_ALONE, "", "\nU\n"));
    CHECK(regtx_delete_tree(store, REGTX_ALONE, 1, "U", NULL, NULL) == REGTX_OK);
    CHECK(regtx_close(store) == REGTX_OK);
    CHECK(answers("keys 1:\n", "keys 0\n"));
}

/* Work that conflicts with another transaction, until that ends. */
struct work {
    unsigned calls, end_at;
    regtx_tx other;
    int answer;
};

static int conflict(regtx_store *store, regtx_tx tx, void *context)
{
    struct work *work = context;
    if (++work->calls == work->end_at)
        CHECK(regtx_rollback(store, work->other) == REGTX_OK);
    int code = set_number(store, tx, "v", work->calls);
    return code ? code : work->answer;
}

static void work_is_tried_again(void)
{
    regtx_store *store = new_store();
    regtx_uuid one = unit(1), two = unit(2);
    regtx_tx other = 0;
    uint32_t session = 0;
    uint64_t number = 99;
    size_t size = 0;
    CHECK(regtx_session(store, &session) == REGTX_OK);
    CHECK(regtx_transaction(store, session, &one, &other) == REGTX_OK);
    CHECK(set_number(store, other, "v", 0) == REGTX_OK);
    struct work vain = {0, 0, other, REGTX_OK}, done = {0, 3, other, REGTX_OK}, own = {0, 0, 0, 77};
    CHECK(regtx_transact(store, REGTX_FIRST_SESSION, &two, 3, conflict, &vain, &number)
          == REGTX_CONFLICT);
    CHECK(vain.calls == 3);
    CHECK(regtx_transact(store, REGTX_FIRST_SESSION, &two, 0, conflict, &vain, NULL)
          == REGTX_CONFLICT);
    CHECK(vain.calls == 4);
    CHECK(regtx_get_value(store, REGTX_ALONE, 0, "Software", "v", NULL, NULL, &size)
          == REGTX_NOT_FOUND);
    CHECK(regtx_transact(store, REGTX_FIRST_SESSION, &two, 10, conflict, &done, &number)
          == REGTX_OK);
    CHECK(done.calls == 3 && number == 2 && regtx_kept(store, &two, NULL) == REGTX_OK);
    CHECK(regtx_transact(store, session, &one, 10, conflict, &own, NULL) == 77 && own.calls == 1);
    CHECK(regtx_close(store) == REGTX_OK);
    CHECK(answers("get 0:Software v\n", "value 4 03000000\n"));
}

void test_trees(void)
{
    items_are_read();
    trees_are_walked();
    trees_are_deleted();
    work_is_tried_again();
}

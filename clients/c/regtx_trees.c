/* What is below a key: read, walked and deleted. */
#define _POSIX_C_SOURCE 200809L

#include "regtx_client.h"

#include <stdbool.h>
#include <stdlib.h>
#include <string.h>

/* Bytes that grow: names, or the data of a value. */
struct bytes {
    void *at;
    size_t room, size;
};

/* Paths, each of which is allocated. */
struct paths {
    char **at;
    size_t count, room;
};

/* The place in which requests are made. */
struct place {
    regtx_store *store;
    regtx_tx tx;
    uint8_t hive;
};

/* Makes room for what was too large. */
static int grow(struct bytes *bytes)
{
    void *at = realloc(bytes->at, bytes->size);
    if (!at)
        return REGTX_CLIENT_MEMORY;
    bytes->at = at;
    bytes->room = bytes->size;
    return REGTX_OK;
}

/* Names of subkeys or of values, in a buffer that grows if it has to. */
static int read_names(const struct place *in, const char *path, bool of_values, struct bytes *names,
                      size_t *count)
{
    int code;
    do {
        names->size = names->room;
        code = (of_values ? regtx_value_names : regtx_subkeys)(in->store, in->tx, in->hive, path,
                                                               names->at, &names->size, count);
    } while (code == REGTX_TOO_SMALL && (code = grow(names)) == REGTX_OK);
    return code;
}

static int read_value(const struct place *in, const char *path, const char *name, uint32_t *type,
                      struct bytes *data)
{
    int code;
    do {
        data->size = data->room;
        code =
            regtx_get_value(in->store, in->tx, in->hive, path, name, type, data->at, &data->size);
    } while (code == REGTX_TOO_SMALL && (code = grow(data)) == REGTX_OK);
    return code;
}

int regtx_items(regtx_store *store, regtx_tx tx, uint8_t hive, const char *path,
                regtx_each_item *each, void *context)
{
    struct place place = {store, tx, hive};
    struct bytes names = {NULL, 0, 0}, data = {NULL, 0, 0};
    size_t count = 0;
    int code = read_names(&place, path, true, &names, &count);
    const char *name = names.at;
    for (; code == REGTX_OK && count > 0; count--) {
        uint32_t type;
        code = read_value(&place, path, name, &type, &data);
        if (code == REGTX_OK)
            code = each(name, type, data.at, data.size, context);
        name += strlen(name) + 1;
    }
    free(names.at);
    free(data.at);
    return code;
}

/* Adds a path, which is freed if it can't be added; NULL is one that could not be allocated. */
static int add(struct paths *paths, char *path)
{
    if (path && paths->count == paths->room) {
        size_t room = paths->room ? 2 * paths->room : 64;
        char **at = realloc(paths->at, room * sizeof *at);
        if (at) {
            paths->at = at;
            paths->room = room;
        }
    }
    if (!path || paths->count == paths->room) {
        free(path);
        return REGTX_CLIENT_MEMORY;
    }
    paths->at[paths->count++] = path;
    return REGTX_OK;
}

static void free_paths(struct paths *paths)
{
    while (paths->count > 0)
        free(paths->at[--paths->count]);
    free(paths->at);
}

/* The path of a subkey, allocated; or NULL. */
static char *joined(const char *path, const char *name)
{
    size_t above = strlen(path), size = strlen(name) + 1;
    char *whole = malloc(above + 1 + size);
    if (!whole)
        return NULL;
    memcpy(whole, path, above);
    if (above)
        whole[above++] = '\\';
    memcpy(whole + above, name, size);
    return whole;
}

/* Adds the subkeys of a path, the first of them last. */
static int add_subkeys(const struct place *place, const char *path, struct bytes *names,
                       struct paths *left)
{
    size_t count = 0, first = left->count;
    int code = read_names(place, path, false, names, &count);
    const char *name = names->at;
    for (; code == REGTX_OK && count > 0; count--) {
        code = add(left, joined(path, name));
        name += strlen(name) + 1;
    }
    for (size_t low = first, high = left->count; low + 1 < high; low++, high--) {
        char *moved = left->at[low];
        left->at[low] = left->at[high - 1];
        left->at[high - 1] = moved;
    }
    return code;
}

/* The paths of a key and of all keys below it, each before those below it. */
static int find_all(const struct place *place, const char *path, struct paths *found)
{
    struct paths left = {NULL, 0, 0};
    struct bytes names = {NULL, 0, 0};
    int code = add(&left, joined("", path));
    while (code == REGTX_OK && left.count > 0) {
        char *each = left.at[--left.count];
        code = add(found, each);
        if (code == REGTX_OK)
            code = add_subkeys(place, each, &names, &left);
    }
    free_paths(&left);
    free(names.at);
    return code;
}

int regtx_walk(regtx_store *store, regtx_tx tx, uint8_t hive, const char *path,
               regtx_each_key *each, void *context)
{
    struct place place = {store, tx, hive};
    struct paths found = {NULL, 0, 0};
    int code = find_all(&place, path, &found);
    for (size_t at = 0; code == REGTX_OK && at < found.count; at++)
        code = each(found.at[at], context);
    free_paths(&found);
    return code;
}

/* Deletes a key with all below it in a transaction. */
static int delete_all(const struct place *place, const char *path, uint32_t *keys)
{
    struct paths found = {NULL, 0, 0};
    int code = find_all(place, path, &found);
    for (size_t left = found.count; code == REGTX_OK && left > 0; left--)
        code = regtx_delete_key(place->store, place->tx, place->hive, found.at[left - 1], NULL);
    if (code == REGTX_OK && keys)
        *keys = (uint32_t)found.count;
    free_paths(&found);
    return code;
}

int regtx_delete_tree(regtx_store *store, regtx_tx tx, uint8_t hive, const char *path,
                      uint32_t *keys, uint64_t *number)
{
    struct place place = {store, tx, hive};
    if (tx != REGTX_ALONE) {
        if (number)
            *number = 0;
        return delete_all(&place, path, keys);
    }
    regtx_uuid unit;
    int code = regtx_uuid_random(&unit);
    if (code == REGTX_OK)
        code = regtx_transaction(store, REGTX_FIRST_SESSION, &unit, &place.tx);
    if (code)
        return code;
    code = delete_all(&place, path, keys);
    if (code == REGTX_OK)
        return regtx_commit(store, place.tx, number);
    regtx_rollback(store, place.tx);
    return code;
}

/* Those who follow a server's store, each by a connection of its own; its backups; and its state. */
#define _POSIX_C_SOURCE 200809L

#include "regtx_client.h"
#include "regtx_requests.h"
#include "regtx_run.h"

#include <inttypes.h>
#include <stdatomic.h>
#include <stdlib.h>
#include <string.h>
#include <sys/socket.h>

enum { MOST_BACKUP_NAME = 255 };

struct regtx_follower {
    regtx_store *store; /* the connection */
    bool is_watcher;
    struct regtx_request watched;
    char *path;
    uint64_t number;
    bool is_asked; /* the line is to be answered */
    bool was_last; /* the last line that came told the end of that */
    atomic_bool is_ended;
    int over; /* what each further call answers; REGTX_OK: nothing yet */
    char **lines;
    size_t count, room;
};

int regtx_backup(regtx_store *store, const char *name, uint64_t *number)
{
    static const char letters[] = "ABCDEFGHIJKLMNOPQRSTUVWXYZabcdefghijklmnopqrstuvwxyz"
                                  "0123456789_-.";
    size_t size = strlen(name);
    struct regtx_lines lines;
    int code = regtx_check_process(store);
    if (code == REGTX_OK && !store->path)
        code = REGTX_UNSUPPORTED;
    if (code)
        return code;
    if (size == 0 || size > MOST_BACKUP_NAME || strspn(name, letters) != size || name[0] == '.')
        return REGTX_BAD_NAME;
    regtx_enter_any(store);
    regtx_lines_begin(store, &lines, false);
    regtx_lines_add(&lines, "backup %s\n", name);
    code = regtx_lines_send(store, &lines);
    if (code == REGTX_OK)
        code = regtx_next(store);
    return code ? code : regtx_read_number(store, "saved", number);
}

/* Takes a name and its number. */
static bool take_stat(const char **at, const char *name, uint64_t *number)
{
    return regtx_take_word(at, name) && regtx_take_number(at, number);
}

/* Takes the blank between a number and the next name. */
static bool take_blank(const char **at)
{
    return *(*at)++ == ' ';
}

static int read_stats(const char *at, struct regtx_server_stats *stats)
{
    struct regtx_server_stats read;
    if (!regtx_take_word(&at, "stats") || !take_stat(&at, "number", &read.number) ||
        !take_blank(&at) || !take_stat(&at, "durable", &read.durable) || !take_blank(&at) ||
        !take_stat(&at, "room", &read.room) || !take_blank(&at) ||
        !take_stat(&at, "clients", &read.clients) || !take_blank(&at) ||
        !take_stat(&at, "waiting", &read.waiting) || *at)
        return REGTX_REPLY;
    *stats = read;
    return REGTX_OK;
}

int regtx_stats(regtx_store *store, struct regtx_server_stats *stats)
{
    struct regtx_lines lines;
    int code = regtx_check_process(store);
    if (code == REGTX_OK && !store->path)
        code = REGTX_UNSUPPORTED;
    if (code)
        return code;
    regtx_enter_any(store);
    regtx_lines_begin(store, &lines, false);
    regtx_lines_add(&lines, "stats\n");
    code = regtx_lines_send(store, &lines);
    if (code == REGTX_OK)
        code = regtx_next(store);
    return code ? code : read_stats(store->link->text, stats);
}

/* Asks at first, and after a pause of the server. */
static int ask(regtx_follower *follower)
{
    struct regtx_lines lines;
    if (follower->is_asked)
        return REGTX_OK;
    regtx_lines_begin(follower->store, &lines, false);
    if (!follower->is_watcher)
        regtx_lines_add(&lines, "follow %" PRIu64 "\n", follower->number);
    else if (lines.file)
        regtx_request_print(lines.file, &follower->watched);
    int code = regtx_lines_send(follower->store, &lines);
    follower->is_asked = code == REGTX_OK;
    return code;
}

/* Reads the next line. REGTX_FOLLOWED, if the server has ended the connection after it had told
 * all, or this side has. */
static int read_next(regtx_follower *follower)
{
    int code = regtx_check_process(follower->store);
    if (code)
        return code;
    code = regtx_read_line(follower->store->link);
    bool is_end = follower->is_ended || (code == REGTX_ENDED && follower->was_last);
    follower->was_last = false;
    return code && is_end ? REGTX_FOLLOWED : code;
}

/* What a line tells beside a change: its number; or its refusal. */
static int read_told(regtx_follower *follower, uint64_t *number)
{
    const regtx_store *store = follower->store;
    if (regtx_read_number(store, "E2 NotFound after", &follower->number) == REGTX_OK)
        return REGTX_CANNOT_FOLLOW;
    int code = regtx_refusal_of(store->link->text);
    if (code)
        return code;
    if (regtx_read_number(store, "followed", number) == REGTX_OK) {
        follower->is_asked = false;
        follower->was_last = true;
        return REGTX_OK;
    }
    code = regtx_read_number(store, "changed", number);
    return code ? regtx_read_number(store, "watching", number) : code;
}

static void forget_lines(regtx_follower *follower)
{
    while (follower->count > 0)
        free(follower->lines[--follower->count]);
}

static int keep_line(regtx_follower *follower, const char *line)
{
    if (follower->count == follower->room) {
        size_t room = follower->room ? 2 * follower->room : 16;
        char **lines = realloc(follower->lines, room * sizeof *lines);
        if (!lines)
            return REGTX_CLIENT_MEMORY;
        follower->lines = lines;
        follower->room = room;
    }
    char *copy = strdup(line);
    if (!copy)
        return REGTX_CLIENT_MEMORY;
    follower->lines[follower->count++] = copy;
    return REGTX_OK;
}

/* Reads `change NUMBER MOMENT LINES UNIT`; answers whether it is that. */
static bool read_head(const char *at, struct regtx_change *change, uint64_t *lines)
{
    if (!regtx_take_word(&at, "change") || !regtx_take_number(&at, &change->number)
        || *at++ != ' ' || !regtx_take_number(&at, &change->moment) || *at++ != ' '
        || !regtx_take_number(&at, lines) || *at++ != ' ')
        return false;
    change->has_unit = strcmp(at, "-") != 0;
    return !change->has_unit || regtx_uuid_parse(at, &change->unit) == REGTX_OK;
}

static int read_lines(regtx_follower *follower, uint64_t lines)
{
    int code = REGTX_OK;
    while (code == REGTX_OK && follower->count < lines) {
        code = read_next(follower);
        if (code == REGTX_OK)
            code = keep_line(follower, follower->store->link->text);
    }
    return code;
}

static int next_change(regtx_follower *follower, struct regtx_change *change)
{
    for (;;) {
        uint64_t lines;
        int code = ask(follower);
        if (code == REGTX_OK)
            code = read_next(follower);
        if (code)
            return code;
        if (read_head(follower->store->link->text, change, &lines)) {
            code = read_lines(follower, lines);
            if (code == REGTX_OK)
                follower->number = change->number;
            change->count = follower->count;
            change->lines = (const char *const *)follower->lines;
            return code;
        }
        code = read_told(follower, &follower->number);
        if (code)
            return code;
    }
}

static int next_changed(regtx_follower *follower, uint64_t *number)
{
    for (;;) {
        uint64_t told, before = follower->number;
        int code = ask(follower);
        if (code == REGTX_OK)
            code = read_next(follower);
        if (code == REGTX_OK)
            code = read_told(follower, &told);
        if (code)
            return code;
        if (told > before)
            follower->number = told;
        if (told > before && !follower->was_last) {
            *number = told;
            return REGTX_OK;
        }
    }
}

int regtx_next_change(regtx_follower *follower, struct regtx_change *change)
{
    *change = (struct regtx_change){.number = 0};
    forget_lines(follower);
    if (follower->is_watcher)
        return REGTX_UNSUPPORTED;
    if (follower->over == REGTX_OK)
        follower->over = next_change(follower, change);
    return follower->over;
}

int regtx_next_changed(regtx_follower *follower, uint64_t *number)
{
    if (!follower->is_watcher)
        return REGTX_UNSUPPORTED;
    if (follower->over == REGTX_OK)
        follower->over = next_changed(follower, number);
    return follower->over;
}

uint64_t regtx_followed(const regtx_follower *follower)
{
    return follower->number;
}

/* Connects beside a store. */
static int begin(const regtx_store *store, regtx_follower **follower)
{
    int code = regtx_check_process(store);
    *follower = NULL;
    if (code == REGTX_OK && !store->path)
        code = REGTX_UNSUPPORTED;
    if (code == REGTX_OK)
        code = store->links[REGTX_FIRST_SESSION].broken;
    if (code)
        return code;
    *follower = calloc(1, sizeof **follower);
    if (!*follower)
        return REGTX_CLIENT_MEMORY;
    code = regtx_connect(store->path, store->server_uid, 0, &(*follower)->store);
    if (code) {
        free(*follower);
        *follower = NULL;
    }
    return code;
}

int regtx_follow(regtx_store *store, uint64_t after, regtx_follower **follower)
{
    int code = begin(store, follower);
    if (code)
        return code;
    (*follower)->number = after;
    return REGTX_OK;
}

/* Reads how far the changes go as it begins. */
static int begin_watch(regtx_follower *follower, uint8_t hive, const char *path)
{
    follower->path = strdup(path);
    if (!follower->path)
        return REGTX_CLIENT_MEMORY;
    follower->watched =
        (struct regtx_request){.verb = "watch", .hive = hive, .path = follower->path};
    follower->is_watcher = true;
    int code = ask(follower);
    if (code == REGTX_OK)
        code = read_next(follower);
    return code ? code : read_told(follower, &follower->number);
}

int regtx_watch(regtx_store *store, uint8_t hive, const char *path, regtx_follower **follower)
{
    struct regtx_request asked = {.path = path};
    int code = regtx_request_check(&asked);
    *follower = NULL;
    if (code == REGTX_OK)
        code = begin(store, follower);
    if (code == REGTX_OK)
        code = begin_watch(*follower, hive, path);
    if (code) {
        regtx_follower_free(*follower);
        *follower = NULL;
    }
    return code;
}

void regtx_follower_end(regtx_follower *follower)
{
    follower->is_ended = true;
    shutdown(follower->store->link->lines, SHUT_RDWR);
}

void regtx_follower_free(regtx_follower *follower)
{
    if (!follower)
        return;
    regtx_close(follower->store);
    forget_lines(follower);
    free(follower->lines);
    free(follower->path);
    free(follower);
}

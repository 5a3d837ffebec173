/* Stores, sessions and transactions. */
#define _POSIX_C_SOURCE 200809L

#include "regtx_client.h"
#include "regtx_run.h"

#include <errno.h>
#include <inttypes.h>
#include <stdio.h>
#include <string.h>

int regtx_open(const char *folder, const char *program, unsigned wait_seconds, regtx_store **store)
{
    char seconds[DIGITS];
    snprintf(seconds, sizeof seconds, "%u", wait_seconds);
    const char *words[] = {program, "wait", seconds, "run", folder, "/dev/stdin", NULL};
    int code = regtx_launch(words, 4, 1, store);
    if (code)
        return code;
    (*store)->sessions[REGTX_FIRST_SESSION] = true;
    (*store)->chosen = REGTX_NOW;
    code = regtx_read_opened(*store, &(*store)->opened_at);
    if (code) {
        int why = errno;
        regtx_end(*store);
        *store = NULL;
        errno = why;
    }
    return code;
}

int regtx_read_opened(regtx_store *store, uint64_t *opened_at)
{
    int code = regtx_read_line(store->link);
    if (code == REGTX_OK)
        code = regtx_failure_of(store->link->text);
    return code ? code : regtx_read_number(store, "opened", opened_at);
}

int regtx_close(regtx_store *store)
{
    return store ? regtx_end(store) : REGTX_OK;
}

uint64_t regtx_opened_at(const regtx_store *store)
{
    return store->opened_at;
}

static bool is_open(const regtx_store *store, uint32_t session)
{
    return session < SESSIONS && store->sessions[session];
}

/* A session is a connection of its own. */
static int connect_beside(regtx_store *store, uint32_t session)
{
    int code = store->links[REGTX_FIRST_SESSION].broken;
    return code ? code : regtx_link_connect(store, session);
}

int regtx_session(regtx_store *store, uint32_t *session)
{
    uint32_t free_one = 0;
    while (free_one < SESSIONS && store->sessions[free_one])
        free_one++;
    if (free_one == SESSIONS)
        return REGTX_NO_SEAT;
    int code = regtx_check_process(store);
    if (code == REGTX_OK)
        code = store->path ? connect_beside(store, free_one) : regtx_enter(store, free_one);
    if (code)
        return code;
    store->sessions[free_one] = true;
    *session = free_one;
    return REGTX_OK;
}

int regtx_session_end(regtx_store *store, uint32_t session)
{
    if (session == REGTX_FIRST_SESSION || !is_open(store, session))
        return REGTX_NO_SUCH_HANDLE;
    int code = regtx_check_process(store);
    if (code)
        return code;
    store->sessions[session] = false;
    for (size_t at = 0; at < TRANSACTIONS; at++)
        if (store->transactions[at].session == session)
            store->transactions[at].is_there = store->transactions[at].is_named = false;
    if (store->path)
        return regtx_link_hang_up(store, session);
    if (store->current == session)
        store->current = NO_SESSION;
    return regtx_judge_ok(store, regtx_ask(store, "end %" PRIu32 "\n", session));
}

static bool is_used(const regtx_store *store, regtx_tx tx)
{
    return store->transactions[tx - 1].is_there || store->transactions[tx - 1].is_named;
}

int regtx_find_place(regtx_store *store, uint32_t session, regtx_tx *tx)
{
    if (!is_open(store, session))
        return REGTX_NO_SUCH_HANDLE;
    for (*tx = 1; *tx <= TRANSACTIONS && is_used(store, *tx);)
        ++*tx;
    return *tx > TRANSACTIONS ? REGTX_NO_SEAT : regtx_enter(store, session);
}

void regtx_take_place(regtx_store *store, regtx_tx tx, uint32_t session)
{
    store->transactions[tx - 1].is_there = true;
    store->transactions[tx - 1].session = session;
}

void regtx_forget(regtx_store *store, regtx_tx tx, int closed)
{
    store->transactions[tx - 1].is_there = false;
    store->transactions[tx - 1].is_named = closed != REGTX_OK && closed != REGTX_NO_SUCH_HANDLE;
}

/* Reads the reply to a begin, and that to a question for the unit's outcome. */
static int read_begun(regtx_store *store, struct regtx_kept *kept)
{
    int code = regtx_judge_ok(store, regtx_next(store));
    if (kept) {
        kept->code = regtx_next(store);
        if (kept->code == REGTX_OK)
            kept->code = regtx_read_number(store, "committed", &kept->number);
    }
    return code;
}

int regtx_begin(regtx_store *store, uint32_t session, const regtx_uuid *unit,
                struct regtx_kept *kept, regtx_tx *tx)
{
    char uuid[REGTX_UUID_TEXT];
    struct regtx_lines lines;
    regtx_tx place;
    int code = regtx_find_place(store, session, &place);
    if (code)
        return code;
    regtx_uuid_print(unit, uuid);
    regtx_lines_begin(store, &lines, false);
    regtx_lines_add(&lines, "begin %" PRIu32 " %s\n", place, uuid);
    if (kept)
        regtx_lines_add(&lines, "kept %s\n", uuid);
    code = regtx_lines_send(store, &lines);
    if (code == REGTX_OK)
        code = read_begun(store, kept);
    if (code)
        return code;
    regtx_take_place(store, place, session);
    *tx = place;
    return REGTX_OK;
}

int regtx_transaction(regtx_store *store, uint32_t session, const regtx_uuid *unit, regtx_tx *tx)
{
    return regtx_begin(store, session, unit, NULL, tx);
}

/* Frees a transaction's place in the run; one that is active is rolled back. */
static int release(regtx_store *store, regtx_tx tx)
{
    int code = regtx_enter_transaction(store, tx);
    if (code == REGTX_OK)
        code = regtx_judge_ok(store, regtx_ask(store, "close %" PRIu32 "\n", tx));
    if (regtx_is_there(store, tx))
        regtx_forget(store, tx, code);
    return code;
}

/* Whether a commit that is answered so was surely not done. */
static bool is_surely_refused(int code)
{
    return code == REGTX_OTHER_PROCESS
           || (code > REGTX_OK && code <= REGTX_FIXED && code != REGTX_NO_MEMORY
               && code != REGTX_DISK_FAULT && code != REGTX_FAULTED);
}

/* Judges a commit that was sent. */
static int judge_commit(regtx_store *store, int code)
{
    if (code == REGTX_OK || is_surely_refused(code))
        return code;
    store->cause = code;
    return REGTX_COMMIT_UNKNOWN;
}

int regtx_commit_lines(regtx_store *store, struct regtx_lines *lines, regtx_tx tx,
                       uint64_t *number)
{
    size_t before = lines->count;
    int was_broken = store->link->broken, first = REGTX_OK;
    regtx_lines_add(lines, "commit %" PRIu32 "\n", tx);
    regtx_lines_add(lines, "close %" PRIu32 "\n", tx);
    int code = regtx_lines_send(store, lines);
    /* a commit that isn't sent isn't done */
    if (code)
        return was_broken || !store->link->broken ? code : judge_commit(store, code);
    for (; before > 0; before--) {
        int each = regtx_next(store);
        first = first ? first : each;
    }
    code = regtx_next(store);
    if (code == REGTX_OK)
        code = regtx_read_number(store, "committed", number);
    regtx_forget(store, tx, regtx_judge_ok(store, regtx_next(store)));
    /* what was refused before it left it nothing to do, and a loss leaves it open */
    if (first != REGTX_OK && !store->link->broken)
        return first;
    return judge_commit(store, code);
}

int regtx_commit(regtx_store *store, regtx_tx tx, uint64_t *number)
{
    struct regtx_lines lines;
    int code = regtx_enter_transaction(store, tx);
    if (code == REGTX_OK) {
        regtx_lines_begin(store, &lines, true);
        code = regtx_commit_lines(store, &lines, tx, number);
    }
    /* nothing was sent; if this fails, too, each later call says so */
    if (regtx_is_there(store, tx))
        release(store, tx);
    return code;
}

int regtx_cause(const regtx_store *store)
{
    return store->cause;
}

int regtx_rollback(regtx_store *store, regtx_tx tx)
{
    return release(store, tx);
}

int regtx_is_active(regtx_store *store, regtx_tx tx, bool *active)
{
    int code = regtx_enter_transaction(store, tx);
    if (code == REGTX_OK)
        code = regtx_ask(store, "outcome %" PRIu32 "\n", tx);
    if (code)
        return code;
    *active = strcmp(store->link->text, "active") == 0;
    return *active || strcmp(store->link->text, "rolledback") == 0 ? REGTX_OK : REGTX_REPLY;
}

int regtx_kept(regtx_store *store, const regtx_uuid *unit, uint64_t *number)
{
    char uuid[REGTX_UUID_TEXT];
    regtx_uuid_print(unit, uuid);
    regtx_enter_any(store);
    int code = regtx_ask(store, "kept %s\n", uuid);
    return code ? code : regtx_read_number(store, "committed", number);
}

int regtx_flush(regtx_store *store, uint64_t *number)
{
    regtx_enter_any(store);
    int code = regtx_ask(store, "flush\n");
    return code ? code : regtx_read_number(store, "flushed", number);
}

int regtx_fold(regtx_store *store, uint64_t *number)
{
    int code = regtx_check_process(store);
    /* a server does so by itself */
    if (code == REGTX_OK)
        code = store->path ? REGTX_UNSUPPORTED : regtx_ask(store, "fold\n");
    if (code == REGTX_OK)
        code = regtx_read_number(store, "folded", number);
    if (code)
        return code;
    memset(store->sessions, 0, sizeof store->sessions);
    memset(store->transactions, 0, sizeof store->transactions);
    store->sessions[REGTX_FIRST_SESSION] = true;
    store->current = REGTX_FIRST_SESSION;
    return REGTX_OK;
}

int regtx_at(regtx_store *store, uint64_t moment)
{
    store->chosen = moment;
    regtx_enter_any(store);
    return moment == REGTX_NOW ? regtx_check_process(store) : regtx_stamp(store);
}

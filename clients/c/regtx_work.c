/* Work that is tried again if another writer is in its way, and work that is done once. */
#define _POSIX_C_SOURCE 200809L

#include "regtx_client.h"
#include "regtx_requests.h"
#include "regtx_run.h"

#include <inttypes.h>
#include <stdlib.h>
#include <string.h>
#include <time.h>

/* how long it is waited for another writer, in ms: at first, and at most */
enum { FIRST_PAUSE = 5, LONGEST_PAUSE = 1000 };

/* So many lines are sent together at most: their replies fit into the system's buffers, so that
 * nobody waits to write them. And so many bytes, but for a single line. */
enum { MOST_LINES = 256, MOST_BYTES = 65536 };

/* Requests as they stand in lines, each with its LF. */
struct regtx_writes {
    char *bytes;
    size_t size, room, count;
};

/* What is to be done in a transaction of a unit: a function, or writes. */
struct job {
    regtx_store *store;
    uint32_t session;
    const regtx_uuid *unit;
    regtx_work *work;
    void *context;
    const regtx_writes *writes;
    bool is_once;
    bool may_try_again; /* another writer was in the way */
};

int regtx_writes_new(regtx_writes **writes)
{
    *writes = calloc(1, sizeof **writes);
    return *writes ? REGTX_OK : REGTX_CLIENT_MEMORY;
}

void regtx_writes_free(regtx_writes *writes)
{
    if (writes)
        free(writes->bytes);
    free(writes);
}

static int make_room(regtx_writes *writes, size_t size)
{
    size_t room = writes->room ? writes->room : 1024;
    while (room - writes->size < size)
        room *= 2;
    char *bytes = room > writes->room ? realloc(writes->bytes, room) : writes->bytes;
    if (!bytes)
        return REGTX_CLIENT_MEMORY;
    writes->bytes = bytes;
    writes->room = room;
    return REGTX_OK;
}

static int add_request(regtx_writes *writes, const struct regtx_request *request)
{
    char *bytes = NULL;
    size_t size = 0;
    int code = regtx_request_check(request);
    if (code)
        return code;
    FILE *line = open_memstream(&bytes, &size);
    if (!line)
        return REGTX_CLIENT_MEMORY;
    regtx_request_print(line, request);
    bool is_whole = !ferror(line);
    is_whole &= fclose(line) == 0;
    code = is_whole ? make_room(writes, size) : REGTX_CLIENT_MEMORY;
    if (code == REGTX_OK) {
        memcpy(writes->bytes + writes->size, bytes, size);
        writes->size += size;
        writes->count++;
    }
    free(bytes);
    return code;
}

int regtx_writes_create_key(regtx_writes *writes, uint8_t hive, const char *path)
{
    struct regtx_request request = {.verb = "create", .hive = hive, .path = path};
    return add_request(writes, &request);
}

int regtx_writes_delete_key(regtx_writes *writes, uint8_t hive, const char *path)
{
    struct regtx_request request = {.verb = "delete", .hive = hive, .path = path};
    return add_request(writes, &request);
}

int regtx_writes_set_value(regtx_writes *writes, uint8_t hive, const char *path, const char *name,
                           uint32_t type, const void *data, size_t size)
{
    struct regtx_request request = {"set", hive, path, name, true, type, data, size};
    return add_request(writes, &request);
}

int regtx_writes_delete_value(regtx_writes *writes, uint8_t hive, const char *path,
                              const char *name)
{
    struct regtx_request request = {.verb = "unset", .hive = hive, .path = path, .name = name};
    return add_request(writes, &request);
}

/* Adds lines from a place on, as many as go together; answers the place after them. */
static const char *add_part(struct regtx_lines *lines, regtx_tx tx, const char *at, const char *end)
{
    const char *first = at;
    while (at < end && lines->count < MOST_LINES) {
        size_t size = (size_t)((const char *)memchr(at, '\n', (size_t)(end - at)) - at) + 1;
        if (at > first && (size_t)(at - first) + size > MOST_BYTES)
            break;
        if (lines->file) {
            fprintf(lines->file, "tx %" PRIu32 " ", tx);
            fwrite(at, 1, size, lines->file);
        }
        lines->count++;
        at += size;
    }
    return at;
}

/* Reads the replies to writes: the first refusal of them. */
static int judge_writes(regtx_store *store)
{
    int first = REGTX_OK;
    while (store->link->owed > 0 && !store->link->broken) {
        int code = regtx_next(store);
        first = first ? first : code;
    }
    return first ? first : store->link->broken;
}

/* Carries out writes; the first lines are added already. */
static int write_after(regtx_store *store, struct regtx_lines *lines, regtx_tx tx,
                       const regtx_writes *writes)
{
    const char *at = writes->bytes, *end = at ? at + writes->size : at;
    for (;;) {
        at = add_part(lines, tx, at, end);
        int code = regtx_lines_send(store, lines);
        code = code ? code : judge_writes(store);
        if (code || at == end)
            return code;
        regtx_lines_begin(store, lines, true);
    }
}

int regtx_write_all(regtx_store *store, regtx_tx tx, const regtx_writes *writes)
{
    struct regtx_lines lines;
    int code = regtx_enter_transaction(store, tx);
    if (code || writes->count == 0)
        return code;
    regtx_lines_begin(store, &lines, true);
    return write_after(store, &lines, tx, writes);
}

/* Frees a transaction that is there: if this fails, the run has ended. */
static int undo(regtx_store *store, regtx_tx tx, int code)
{
    if (regtx_is_there(store, tx))
        regtx_rollback(store, tx);
    return code;
}

/* Commits writes in a transaction that is begun. One alone is sent with the commit. */
static int commit_writes(struct job *job, regtx_tx tx, uint64_t *number)
{
    struct regtx_lines lines;
    if (job->writes->count != 1) {
        int code = regtx_write_all(job->store, tx, job->writes);
        return code ? undo(job->store, tx, code) : regtx_commit(job->store, tx, number);
    }
    regtx_lines_begin(job->store, &lines, true);
    add_part(&lines, tx, job->writes->bytes, job->writes->bytes + job->writes->size);
    int code = regtx_commit_lines(job->store, &lines, tx, number);
    return undo(job->store, tx, code);
}

/* Begins a transaction of writes, and commits. */
static int begin_and_commit(struct job *job, uint64_t *number)
{
    char uuid[REGTX_UUID_TEXT];
    struct regtx_lines lines;
    regtx_store *store = job->store;
    regtx_tx tx;
    int code = regtx_find_place(store, job->session, &tx);
    if (code)
        return code;
    regtx_uuid_print(job->unit, uuid);
    regtx_lines_begin(store, &lines, true);
    regtx_lines_add(&lines, "begin %" PRIu32 " %s\n", tx, uuid);
    if (job->writes->count <= 1) {
        add_part(&lines, tx, job->writes->bytes, job->writes->bytes + job->writes->size);
        return regtx_commit_lines(store, &lines, tx, number);
    }
    code = write_after(store, &lines, tx, job->writes);
    regtx_take_place(store, tx, job->session);
    return code ? undo(store, tx, code) : regtx_commit(store, tx, number);
}

/* Carries out a function in a transaction that is begun, and commits. What a function answers that
 * has ended the transaction by itself is no reason to try again. */
static int commit_work(struct job *job, regtx_tx tx, uint64_t *number)
{
    int code = job->work(job->store, tx, job->context);
    if (!regtx_is_there(job->store, tx)) {
        job->may_try_again = code == REGTX_CONFLICT || code == REGTX_NOT_ACTIVE;
        return code ? code : REGTX_NO_SUCH_HANDLE;
    }
    return code ? undo(job->store, tx, code) : regtx_commit(job->store, tx, number);
}

/* Does the work of a unit whose outcome isn't kept. */
static int do_once(struct job *job, uint64_t *number)
{
    struct regtx_kept kept = {REGTX_OK, 0};
    regtx_tx tx;
    int code = regtx_begin(job->store, job->session, job->unit, &kept, &tx);
    if (code)
        return code;
    if (kept.code == REGTX_NOT_FOUND)
        return job->writes ? commit_writes(job, tx, number) : commit_work(job, tx, number);
    if (kept.code == REGTX_OK && number)
        *number = kept.number;
    return undo(job->store, tx, kept.code);
}

static int try_job(struct job *job, uint64_t *number)
{
    regtx_tx tx;
    job->may_try_again = true;
    if (job->is_once)
        return do_once(job, number);
    if (job->writes)
        return begin_and_commit(job, number);
    int code = regtx_transaction(job->store, job->session, job->unit, &tx);
    return code ? code : commit_work(job, tx, number);
}

/* Waits, a part of it by chance, so that two writers don't meet again and again. */
static void wait_for_others(unsigned milliseconds)
{
    regtx_uuid chance = {{0}};
    regtx_uuid_random(&chance);
    uint64_t pause = UINT64_C(1000000) * milliseconds;
    pause = pause / 2 + pause / 2 * chance.bytes[0] / 255;
    struct timespec time = {(time_t)(pause / 1000000000), (long)(pause % 1000000000)};
    nanosleep(&time, NULL);
}

static int do_job(struct job *job, unsigned tries, uint64_t *number)
{
    for (unsigned pause = FIRST_PAUSE;; tries--) {
        int code = try_job(job, number);
        bool is_in_the_way = code == REGTX_CONFLICT || code == REGTX_NOT_ACTIVE
                             || (code == REGTX_NO_SUCH_HANDLE && job->store->path);
        if (tries <= 1 || !is_in_the_way || !job->may_try_again)
            return code;
        wait_for_others(pause);
        pause = 2 * pause < LONGEST_PAUSE ? 2 * pause : LONGEST_PAUSE;
    }
}

int regtx_transact(regtx_store *store, uint32_t session, const regtx_uuid *unit, unsigned tries,
                   regtx_work *work, void *context, uint64_t *number)
{
    struct job job = {store, session, unit, work, context, NULL, false, true};
    return do_job(&job, tries, number);
}

int regtx_transact_writes(regtx_store *store, uint32_t session, const regtx_uuid *unit,
                          unsigned tries, const regtx_writes *writes, uint64_t *number)
{
    struct job job = {store, session, unit, NULL, NULL, writes, false, true};
    return do_job(&job, tries, number);
}

int regtx_once(regtx_store *store, uint32_t session, const regtx_uuid *unit, unsigned tries,
               regtx_work *work, void *context, uint64_t *number)
{
    struct job job = {store, session, unit, work, context, NULL, true, true};
    return do_job(&job, tries, number);
}

int regtx_once_writes(regtx_store *store, uint32_t session, const regtx_uuid *unit, unsigned tries,
                      const regtx_writes *writes, uint64_t *number)
{
    struct job job = {store, session, unit, NULL, NULL, writes, true, true};
    return do_job(&job, tries, number);
}

/* Lines that are sent, and their replies: over the pipes of a program, or over a socket. */
#define _GNU_SOURCE /* open_memstream, MSG_NOSIGNAL */

#include "regtx_hints.h"
#include "regtx_run.h"

#include <ctype.h>
#include <errno.h>
#include <inttypes.h>
#include <signal.h>
#include <stdarg.h>
#include <stdlib.h>
#include <string.h>
#include <sys/socket.h>
#include <time.h>
#include <unistd.h>

/* how many bytes a line to a server has at most, without its LF */
enum { MOST_LINE = 4194304 };

static bool is_late(int why)
{
    return why == EAGAIN || why == EWOULDBLOCK;
}

/* Whether an error of a write says that nobody reads any more, which is no failure yet: last words
 * may be there to be read. */
static bool is_gone(int why)
{
    return why == EPIPE || why == ECONNRESET;
}

static ssize_t write_some(const struct regtx_link *link, const char *bytes, size_t size)
{
    ssize_t written;
    do {
        written = link->is_socket ? send(link->lines, bytes, size, MSG_NOSIGNAL)
                                  : write(link->lines, bytes, size);
    } while (written < 0 && errno == EINTR);
    return written;
}

static int write_all(const struct regtx_link *link, const char *bytes, size_t size)
{
    for (size_t done = 0; done < size;) {
        ssize_t written = write_some(link, bytes + done, size - done);
        if (written < 0)
            return is_gone(errno) ? REGTX_OK : is_late(errno) ? REGTX_ENDED : REGTX_IO;
        done += (size_t)written;
    }
    return REGTX_OK;
}

/* Writes into a pipe, of which no signal comes. */
static int write_pipe(const struct regtx_link *link, const char *bytes, size_t size)
{
    sigset_t pipe_signal, before, pending;
    sigemptyset(&pipe_signal);
    sigaddset(&pipe_signal, SIGPIPE);
    sigpending(&pending);
    bool was_pending = sigismember(&pending, SIGPIPE);
    pthread_sigmask(SIG_BLOCK, &pipe_signal, &before);
    errno = 0;
    int code = write_all(link, bytes, size), why = errno, signal_taken;
    /* the signal is taken, or the caller would end by it */
    if (why == EPIPE && !was_pending) {
        sigpending(&pending);
        if (sigismember(&pending, SIGPIPE))
            sigwait(&pipe_signal, &signal_taken);
    }
    pthread_sigmask(SIG_SETMASK, &before, NULL);
    errno = why;
    return code;
}

/* Reads what has come, behind what is there. */
static int read_more(struct regtx_link *link)
{
    if (link->used == link->room) {
        size_t room = link->room ? 2 * link->room : 4096;
        char *text = realloc(link->text, room);
        if (!text)
            return REGTX_CLIENT_MEMORY;
        link->text = text;
        link->room = room;
    }
    ssize_t size;
    do {
        size = read(link->replies, link->text + link->used, link->room - link->used);
    } while (size < 0 && errno == EINTR);
    if (size <= 0)
        return size == 0 || is_gone(errno) || is_late(errno) ? REGTX_ENDED : REGTX_IO;
    link->used += (size_t)size;
    return REGTX_OK;
}

int regtx_read_line(struct regtx_link *link)
{
    link->used -= link->line;
    if (link->line)
        memmove(link->text, link->text + link->line, link->used);
    link->line = 0;
    for (size_t looked = 0;;) {
        char *end =
            link->used > looked ? memchr(link->text + looked, '\n', link->used - looked) : NULL;
        if (end) {
            *end = 0;
            link->line = (size_t)(end - link->text) + 1;
            return strlen(link->text) + 1 == link->line ? REGTX_OK : REGTX_REPLY;
        }
        looked = link->used;
        int code = read_more(link);
        if (code)
            return code;
    }
}

int regtx_refusal_of(const char *line)
{
    static const char damaged[] = "E15 HiveDamaged ";
    if (strncmp(line, damaged, sizeof damaged - 1) == 0)
        return REGTX_HIVE_DAMAGED;
    for (int code = REGTX_NO_MEMORY; code <= REGTX_FIXED; code++)
        if (strcmp(line, regtx_client_text(code)) == 0)
            return code;
    return REGTX_OK;
}

int regtx_failure_of(const char *line)
{
    static const int told[] = {REGTX_CANNOT_OPEN, REGTX_CANNOT_MAKE, REGTX_CANNOT_READ};
    for (size_t at = 0; at < sizeof told / sizeof told[0]; at++)
        if (strcmp(line, regtx_client_text(told[at])) == 0)
            return told[at];
    return regtx_refusal_of(line);
}

int regtx_check_process(const regtx_store *store)
{
    /* two processes would read each other's replies */
    return store->maker == getpid() ? REGTX_OK : REGTX_OTHER_PROCESS;
}

/* No line is sent any more, and a server sees so, too. */
static int lose(struct regtx_link *link, int code)
{
    link->broken = code;
    if (link->is_socket)
        shutdown(link->lines, SHUT_RDWR);
    return code;
}

/* Sends lines, to which so many replies come. */
static int send_lines(regtx_store *store, const char *bytes, size_t size, size_t count)
{
    struct regtx_link *link = store->link;
    int code = regtx_check_process(store);
    if (code == REGTX_OK)
        code = link->broken;
    if (code)
        return code;
    code = link->is_socket ? write_all(link, bytes, size) : write_pipe(link, bytes, size);
    link->owed = count;
    return code ? lose(link, code) : REGTX_OK;
}

int regtx_next(regtx_store *store)
{
    struct regtx_link *link = store->link;
    int code = link->broken;
    if (code)
        return code;
    link->owed--;
    code = regtx_read_line(link);
    if (code == REGTX_OK) {
        code = regtx_refusal_of(link->text);
        store->was_refused |= code != REGTX_OK;
    } else if (code != REGTX_REPLY) {
        lose(link, code);
    }
    if (code)
        regtx_hints_take(store->hints, &store->told);
    return code;
}

int regtx_ask(regtx_store *store, const char *format, ...)
{
    enum { SHORT_LINE = 96 };
    char line[SHORT_LINE];
    va_list words;
    va_start(words, format);
    int size = vsnprintf(line, sizeof line, format, words);
    va_end(words);
    int code = send_lines(store, line, (size_t)size, 1);
    return code ? code : regtx_next(store);
}

int regtx_judge_ok(const regtx_store *store, int code)
{
    return code == REGTX_OK && strcmp(store->link->text, "ok") != 0 ? REGTX_REPLY : code;
}

/* The moment that was chosen, or the millisecond of now. */
static uint64_t moment_of_writes(const regtx_store *store)
{
    struct timespec time;
    if (store->chosen != REGTX_NOW)
        return store->chosen;
    clock_gettime(CLOCK_REALTIME, &time);
    return regtx_moment_of(time.tv_sec) + (uint64_t)time.tv_nsec / 1000000 * 10000;
}

void regtx_lines_begin(const regtx_store *store, struct regtx_lines *lines, bool is_of_writes)
{
    *lines = (struct regtx_lines){.moment = moment_of_writes(store)};
    lines->has_moment = is_of_writes && lines->moment != store->link->moment;
    lines->file = open_memstream(&lines->bytes, &lines->size);
    if (lines->file && lines->has_moment)
        fprintf(lines->file, "at %" PRIu64 "\n", lines->moment);
}

void regtx_lines_add(struct regtx_lines *lines, const char *format, ...)
{
    va_list words;
    if (lines->file) {
        va_start(words, format);
        vfprintf(lines->file, format, words);
        va_end(words);
    }
    lines->count++;
}

/* Whether a server reads each of these lines. */
static bool are_short(const char *bytes, size_t size)
{
    for (const char *end; size > 0; size -= (size_t)(end - bytes) + 1, bytes = end + 1) {
        end = memchr(bytes, '\n', size);
        if (!end || end - bytes > MOST_LINE)
            return false;
    }
    return true;
}

int regtx_lines_send(regtx_store *store, struct regtx_lines *lines)
{
    bool is_whole = lines->file && !ferror(lines->file);
    if (lines->file)
        is_whole &= fclose(lines->file) == 0;
    int code = is_whole ? REGTX_OK : REGTX_CLIENT_MEMORY;
    if (code == REGTX_OK && store->link->is_socket && !are_short(lines->bytes, lines->size))
        code = REGTX_TOO_LARGE;
    if (code == REGTX_OK)
        code = send_lines(store, lines->bytes, lines->size, lines->count + lines->has_moment);
    free(lines->bytes);
    if (code || !lines->has_moment)
        return code;
    /* what was written has another moment otherwise, which no refusal tells */
    if (regtx_judge_ok(store, regtx_next(store)) != REGTX_OK)
        return store->link->broken ? store->link->broken : lose(store->link, REGTX_ENDED);
    store->link->moment = lines->moment;
    return REGTX_OK;
}

bool regtx_take_number(const char **at, uint64_t *number)
{
    char *behind;
    if (!isdigit((unsigned char)**at))
        return false;
    errno = 0;
    *number = strtoull(*at, &behind, 10);
    *at = behind;
    return errno == 0;
}

bool regtx_take_word(const char **at, const char *word)
{
    size_t size = strlen(word);
    if (strncmp(*at, word, size) != 0 || (*at)[size] != ' ')
        return false;
    *at += size + 1;
    return true;
}

int regtx_read_number(const regtx_store *store, const char *word, uint64_t *number)
{
    const char *at = store->link->text;
    uint64_t read;
    if (!regtx_take_word(&at, word) || !regtx_take_number(&at, &read) || *at)
        return REGTX_REPLY;
    if (number)
        *number = read;
    return REGTX_OK;
}

void regtx_enter_any(regtx_store *store)
{
    store->link = &store->links[REGTX_FIRST_SESSION];
}

int regtx_enter(regtx_store *store, uint32_t session)
{
    if (store->path) {
        store->link = &store->links[session];
        return REGTX_OK;
    }
    if (store->current == session)
        return REGTX_OK;
    int code = regtx_judge_ok(store, regtx_ask(store, "session %" PRIu32 "\n", session));
    if (code == REGTX_OK)
        store->current = session;
    return code;
}

int regtx_stamp(regtx_store *store)
{
    uint64_t moment = moment_of_writes(store);
    if (moment == store->link->moment)
        return REGTX_OK;
    int code = regtx_judge_ok(store, regtx_ask(store, "at %" PRIu64 "\n", moment));
    if (code == REGTX_OK)
        store->link->moment = moment;
    return code;
}

bool regtx_is_there(const regtx_store *store, regtx_tx tx)
{
    return tx > 0 && tx <= TRANSACTIONS && store->transactions[tx - 1].is_there;
}

int regtx_enter_transaction(regtx_store *store, regtx_tx tx)
{
    if (!regtx_is_there(store, tx))
        return REGTX_NO_SUCH_HANDLE;
    return regtx_enter(store, store->transactions[tx - 1].session);
}

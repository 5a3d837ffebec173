/* A run of the program, or a connection to a server: the lines and replies that the calls of this
 * client are made of. */
#ifndef REGTX_RUN_H
#define REGTX_RUN_H

#include "regtx_client.h"

#include <stdio.h>
#include <sys/types.h>

/* Room for a number of 32 bits as text. */
enum { DIGITS = 11 };

/* What the program has places for. */
enum { SESSIONS = 32, TRANSACTIONS = 1024, NO_SESSION = SESSIONS };

/* What lines are sent to, and replies come from: two pipes, or a socket. */
struct regtx_link {
    int lines, replies;
    bool is_socket;
    char *text; /* what was read: a reply, its end as a zero, and what came behind it */
    size_t room, used, line;
    size_t owed;     /* how many replies are still to come */
    int broken;      /* a failure after which lines and replies are out of step; or 0 */
    uint64_t moment; /* of writes, as the other side has it */
};

struct regtx_store {
    pid_t child, maker; /* the program, and the process that opened the store */
    int hints;          /* a file that is the program's standard error; or negative */
    off_t told;         /* how much of it was read */
    /* of a server: its socket, whose it may be beside others, and how long a reply may take; the
     * path is NULL of a program */
    char *path;
    int64_t server_uid;
    unsigned timeout;
    struct regtx_link links[SESSIONS]; /* a program has the first alone, a server one a session */
    struct regtx_link *link;           /* the one that lines are sent to */
    int cause;
    bool was_refused;
    uint32_t current; /* the session that lines are of; NO_SESSION once it has ended */
    bool sessions[SESSIONS];
    struct {
        bool is_there;
        bool is_named; /* its label names a transaction there, though it is gone here */
        uint32_t session;
    } transactions[TRANSACTIONS];
    uint64_t opened_at;
    uint64_t chosen; /* the moment of writes that regtx_at chose */
};

/* A store whose program has been started by these words, the first of which may be NULL. From a
 * place on, so many of them name files. */
int regtx_launch(const char *words[], size_t place, size_t files, regtx_store **store);

/* Ends the run, and frees the store. In another process than its maker's it frees a copy alone. */
int regtx_end(regtx_store *store);

/* Frees a store whose files are closed. */
void regtx_free(regtx_store *store);

/* Reads the line that says that a store is open. */
int regtx_read_opened(regtx_store *store, uint64_t *opened_at);

/* Connects the link of a session to the server. */
int regtx_link_connect(regtx_store *store, uint32_t session);

/* Ends that connection, and waits until the session has ended. REGTX_ENDED, if it was lost. */
int regtx_link_hang_up(regtx_store *store, uint32_t session);

/* Reads a line, which is link->text then. Half a line is none: the run was killed in its midst. */
int regtx_read_line(struct regtx_link *link);

/* The refusal that a line tells; REGTX_OK, if it tells none. */
int regtx_refusal_of(const char *line);

/* The same, or what a line tells that isn't a reply to one, such as REGTX_CANNOT_OPEN. */
int regtx_failure_of(const char *line);

/* REGTX_OTHER_PROCESS in another process than the one that opened the store. */
int regtx_check_process(const regtx_store *store);

/* Lines that are sent together, by one write. The moment of writes goes before them, unless the
 * other side has it. */
struct regtx_lines {
    FILE *file;
    char *bytes;
    size_t size, count;
    bool has_moment;
    uint64_t moment;
};

/* Begins them. A failure to take memory is told by regtx_lines_send. */
void regtx_lines_begin(const regtx_store *store, struct regtx_lines *lines, bool is_of_writes);

/* Adds a line by its format, which ends with its LF. */
void regtx_lines_add(struct regtx_lines *lines, const char *format, ...);

/* Sends and frees them. After REGTX_OK regtx_next has the replies, each of which is to be read. */
int regtx_lines_send(regtx_store *store, struct regtx_lines *lines);

/* Reads the next reply into link->text, unless it is a refusal, which is answered. After a failure
 * no line is sent any more. */
int regtx_next(regtx_store *store);

/* Sends one short line by its format, and reads its reply. */
int regtx_ask(regtx_store *store, const char *format, ...);

/* Makes a session the current one, and opens it if it isn't open. */
int regtx_enter(regtx_store *store, uint32_t session);

/* The first session's connection, for lines that need no session. */
void regtx_enter_any(regtx_store *store);

/* Makes a transaction's session the current one. */
int regtx_enter_transaction(regtx_store *store, regtx_tx tx);

/* Tells the program the moment of a write, unless it has it. */
int regtx_stamp(regtx_store *store);

bool regtx_is_there(const regtx_store *store, regtx_tx tx);

/* Begins a transaction. If kept isn't NULL, the unit's outcome is asked by the same write: its
 * code, and the number. */
struct regtx_kept {
    int code;
    uint64_t number;
};
int regtx_begin(regtx_store *store, uint32_t session, const regtx_uuid *unit,
                struct regtx_kept *kept, regtx_tx *tx);

/* Finds a place for a transaction, and makes the session the current one. It is taken once the
 * transaction is begun. REGTX_NO_SUCH_HANDLE, REGTX_NO_SEAT. */
int regtx_find_place(regtx_store *store, uint32_t session, regtx_tx *tx);
void regtx_take_place(regtx_store *store, regtx_tx tx, uint32_t session);

/* A transaction is gone. Its place is free if its close was answered so: else its label may name it
 * still, and what is sent with the begin of another one would reach it. */
void regtx_forget(regtx_store *store, regtx_tx tx, int closed);

/* Commits a transaction and frees its place, by lines that are sent together; behind those that
 * were added already, and whose replies are judged first. */
int regtx_commit_lines(regtx_store *store, struct regtx_lines *lines, regtx_tx tx,
                       uint64_t *number);

/* The code of a call; REGTX_REPLY, if it is REGTX_OK and the reply isn't `ok`. */
int regtx_judge_ok(const regtx_store *store, int code);

/* The number behind a word, such as that of `committed 7`; the number may be NULL. */
int regtx_read_number(const regtx_store *store, const char *word, uint64_t *number);

/* Takes digits from where they stand. */
bool regtx_take_number(const char **at, uint64_t *number);

/* Takes a word and the blank at its end. */
bool regtx_take_word(const char **at, const char *word);

#endif

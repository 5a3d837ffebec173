/* A store of registry keys and values, kept by the program regtx: one that runs beside, and is
 * spoken to through a pipe; or one that serves the store to several programs, through a socket.
 * README.md has examples.
 *
 * Every call answers a code: REGTX_OK, a refusal of the store, or a failure of this client. A
 * refusal changes nothing. Beside those that a call names, each may answer REGTX_NO_MEMORY,
 * REGTX_ENDED, REGTX_CLIENT_MEMORY, REGTX_IO, REGTX_REPLY and REGTX_OTHER_PROCESS. What points to a
 * result may be NULL where it says so.
 *
 * A store takes one call at a time: threads that share one take turns by a lock of their own. Two
 * stores are apart. SIGPIPE doesn't come of these calls. The caller doesn't wait for the store's
 * process, nor ignore SIGCHLD. */
#ifndef REGTX_CLIENT_H
#define REGTX_CLIENT_H

#include <stdbool.h>
#include <stddef.h>
#include <stdint.h>

#ifdef __cplusplus
extern "C" {
#endif

#ifndef REGTX_REFUSALS
#define REGTX_REFUSALS
/* Refusals by their numbers, E1 and so on. regtx.h, of hives in memory, has the same ones. */
enum {
    REGTX_OK = 0,
    REGTX_NO_MEMORY = 1,
    REGTX_NOT_FOUND,
    REGTX_HAS_SUBKEYS,
    REGTX_BAD_NAME,
    REGTX_TOO_DEEP,
    REGTX_TOO_LARGE,
    REGTX_CONFLICT,
    REGTX_NOT_ACTIVE,
    REGTX_NO_SUCH_HANDLE,
    REGTX_NO_SEAT,
    REGTX_JOURNAL_FULL,
    REGTX_HISTORY_FULL,
    REGTX_DISK_FAULT,
    REGTX_FAULTED,
    REGTX_HIVE_DAMAGED,
    REGTX_JOURNAL_DAMAGED,
    REGTX_UNSUPPORTED,
    REGTX_FIXED
};
#endif

/* Failures of this client. regtx.h has none of these numbers, so one switch may have all codes. */
enum {
    /* the run ended early, or the connection was lost: close the store, and open it again */
    REGTX_ENDED = 200,
    /* the commit may be done or not: call regtx_once in a new run */
    REGTX_COMMIT_UNKNOWN,
    /* the folder is in use, isn't a folder, or can't be opened */
    REGTX_CANNOT_OPEN,
    /* the folder has a journal, is in use, or can't be made */
    REGTX_CANNOT_MAKE,
    /* a name that no call carries; nothing was sent */
    REGTX_WRONG_NAME,
    /* the caller's buffer is too small; the length that is needed was written */
    REGTX_TOO_SMALL,
    /* a text isn't UTF-8 or a UUID, or data isn't what is read from it */
    REGTX_WRONG_DATA,
    /* this client had no memory */
    REGTX_CLIENT_MEMORY,
    /* the system refused to start the program, or to pass lines; errno says why */
    REGTX_IO,
    /* the program printed something else than a reply */
    REGTX_REPLY,
    /* another process opened the store, such as the one that was forked; nothing was sent */
    REGTX_OTHER_PROCESS,
    /* a hive's file can't be read */
    REGTX_CANNOT_READ,
    /* the server at the socket is another user's; nothing was sent */
    REGTX_NOT_TRUSTED,
    /* the changes after a number can't be told; regtx_followed tells after which they can */
    REGTX_CANNOT_FOLLOW,
    /* one who follows was told all, and no more comes */
    REGTX_FOLLOWED
};

/* The text of a code, such as "E2 NotFound"; of static storage. */
const char *regtx_client_text(int code);

/* What the program told on standard error at the last failure of a call of this thread, such as
 * which file the system refused: lines, without the end of the last one. Empty, if it told nothing.
 * It lasts until the next failure. */
const char *regtx_hints(void);

/* UUIDs: of a store, and of a unit of work, whose outcome is kept. */
typedef struct {
    unsigned char bytes[16];
} regtx_uuid;

enum { REGTX_UUID_TEXT = 37 };

/* Reads 36 characters: hex digits in groups of 8, 4, 4, 4 and 12, with hyphens between.
 * REGTX_WRONG_DATA, if the text is another one. */
int regtx_uuid_parse(const char *text, regtx_uuid *uuid);

/* Writes the 36 characters, and a zero. */
void regtx_uuid_print(const regtx_uuid *uuid, char text[REGTX_UUID_TEXT]);

/* A random one, of version 4, from /dev/urandom. REGTX_IO, if that can't be read. */
int regtx_uuid_random(regtx_uuid *uuid);

/* A store that is open. By regtx_open no other program uses it meanwhile; by regtx_connect others
 * do. */
typedef struct regtx_store regtx_store;

/* The program is named by its path, or looked for on the PATH if its name has no slash; NULL is
 * "regtx". */

/* Makes a store of 1 to 16 empty hives in a folder; not the folders above it. Each store needs an
 * id of its own. Hive files that lie there without a journal are written over. REGTX_CANNOT_MAKE,
 * REGTX_DISK_FAULT; REGTX_REPLY, if there are other numbers of hives. */
int regtx_create(const char *folder, const regtx_uuid *id, unsigned hives, const char *program);

/* Makes a store of copies of so many clean hives, 1 to 16: hive 0 is a copy of the first file.
 * REGTX_CANNOT_READ, REGTX_CANNOT_MAKE, REGTX_HIVE_DAMAGED, REGTX_UNSUPPORTED, REGTX_TOO_LARGE,
 * REGTX_DISK_FAULT; REGTX_REPLY, if there are other numbers of files. */
int regtx_import_files(const char *folder, const regtx_uuid *id, const char *const files[],
                       size_t count, const char *program);

/* Copies a store of the first layout to one that keeps outcomes of commits. REGTX_CANNOT_OPEN,
 * REGTX_CANNOT_MAKE; REGTX_UNSUPPORTED, if the old one keeps them already; and as regtx_open. */
int regtx_upgrade(const char *old_folder, const char *new_folder, const char *program);

/* Opens the store in a folder, and repairs it if its last run was killed. Waits so many seconds, up
 * to 86,400, for a store that is in use. REGTX_CANNOT_OPEN, REGTX_DISK_FAULT, REGTX_HIVE_DAMAGED,
 * REGTX_JOURNAL_DAMAGED; *store is NULL after each failure. */
int regtx_open(const char *folder, const char *program, unsigned wait_seconds, regtx_store **store);

/* Connects to the server that listens at a Unix socket. It has to be one of root, of the caller's
 * user, or of the user server_uid, which may be REGTX_NO_USER: REGTX_NOT_TRUSTED. Each reply may
 * take so many seconds, and the connection has ended after that; 0 is as long as it takes.
 * REGTX_NO_SEAT, if the server has no place; REGTX_FAULTED; REGTX_IO, if nobody listens there.
 *
 * A session is a further connection, and regtx_fold is refused. No program that is started gets the
 * socket. */
int regtx_connect(const char *path, int64_t server_uid, unsigned timeout_seconds,
                  regtx_store **store);

#define REGTX_NO_USER (-1)

/* Rolls back what isn't committed, makes all changes durable, moves them into the hives' files, and
 * frees the store, whatever is answered. REGTX_ENDED, if the run had ended or was killed; or what
 * was refused at its end, such as REGTX_DISK_FAULT. Refusals that calls were answered are no
 * failure. NULL is closed already. Of a server's store it ends the connections, and returns once
 * their transactions are rolled back; it says nothing of the hives. In another process than the one
 * that opened the store, this frees its copy, and the run goes on: REGTX_OK. The run ends once each
 * such copy is gone. */
int regtx_close(regtx_store *store);

/* The number of the store's last change when it was opened; 0 if there was none. */
uint64_t regtx_opened_at(const regtx_store *store);

/* A transaction, from its begin to its commit or rollback; or, where a call takes one, REGTX_ALONE:
 * a write alone is a change by itself, durable after a later commit, flush or close. */
typedef uint32_t regtx_tx;

enum { REGTX_ALONE = 0, REGTX_FIRST_SESSION = 0 };

/* Opens a session, for transactions of its own. REGTX_FIRST_SESSION is open always. REGTX_NO_SEAT,
 * if 32 are open, or the server has no place. */
int regtx_session(regtx_store *store, uint32_t *session);

/* Ends a session, and rolls back its transactions, which are gone. REGTX_NO_SUCH_HANDLE, if it
 * isn't open, or is the first. */
int regtx_session_end(regtx_store *store, uint32_t session);

/* Begins a transaction in a session, for a unit of work. REGTX_NO_SUCH_HANDLE; REGTX_NO_SEAT, if
 * 1,024 are there, or 33 of a server's session; REGTX_CONFLICT, if another connection has the unit
 * at hand. */
int regtx_transaction(regtx_store *store, uint32_t session, const regtx_uuid *unit, regtx_tx *tx);

/* Commits, and returns when the change is durable: its number, 0 if there were no writes. The
 * number may be NULL. The transaction is gone, and rolled back after a refusal: REGTX_TOO_LARGE,
 * REGTX_JOURNAL_FULL, REGTX_HISTORY_FULL, REGTX_NOT_ACTIVE, REGTX_NO_SUCH_HANDLE. After
 * REGTX_COMMIT_UNKNOWN close the store, open it again, and call regtx_once. */
int regtx_commit(regtx_store *store, regtx_tx tx, uint64_t *number);

/* Work in a transaction: what it answers other than REGTX_OK rolls the transaction back. */
typedef int regtx_work(regtx_store *store, regtx_tx tx, void *context);

/* Carries out work in a transaction, and commits: the change's number, which may be NULL. If work
 * or commit answers REGTX_CONFLICT or REGTX_NOT_ACTIVE, since another writer is in the way, all of
 * it is rolled back and tried again, so many times in all. So it is if a server answers
 * REGTX_NO_SUCH_HANDLE, since it ended the transaction. It waits up to 5 ms before the second time,
 * and then twice as long each time, a second at most. Answers what work answers, and as
 * regtx_transaction and regtx_commit. */
int regtx_transact(regtx_store *store, uint32_t session, const regtx_uuid *unit, unsigned tries,
                   regtx_work *work, void *context, uint64_t *number);

/* Does a unit of work once: the number of the change that it made, now or before; 0 if it writes
 * nothing. It begins the transaction, asks what is kept of the unit, and carries out the work only
 * if that is nothing. If another program, another session or a connection that was lost has the
 * unit at hand, or another writer is in the way, it waits and tries again as regtx_transact does.
 * After REGTX_COMMIT_UNKNOWN or REGTX_ENDED call it again of a store that was opened after that. */
int regtx_once(regtx_store *store, uint32_t session, const regtx_uuid *unit, unsigned tries,
               regtx_work *work, void *context, uint64_t *number);

/* Writes that are gathered, and whose lines are sent together. */
typedef struct regtx_writes regtx_writes;

int regtx_writes_new(regtx_writes **writes);
void regtx_writes_free(regtx_writes *writes);

/* Each adds one; see the calls that make them alone. REGTX_WRONG_NAME, REGTX_CLIENT_MEMORY. */
int regtx_writes_create_key(regtx_writes *writes, uint8_t hive, const char *path);
int regtx_writes_delete_key(regtx_writes *writes, uint8_t hive, const char *path);
int regtx_writes_set_value(regtx_writes *writes, uint8_t hive, const char *path, const char *name,
                           uint32_t type, const void *data, size_t size);
int regtx_writes_delete_value(regtx_writes *writes, uint8_t hive, const char *path,
                              const char *name);

/* Carries out writes in a transaction: the first refusal. It may come after some of them, so roll
 * back then. */
int regtx_write_all(regtx_store *store, regtx_tx tx, const regtx_writes *writes);

/* As regtx_transact and regtx_once, of writes in the place of work. */
int regtx_transact_writes(regtx_store *store, uint32_t session, const regtx_uuid *unit,
                          unsigned tries, const regtx_writes *writes, uint64_t *number);
int regtx_once_writes(regtx_store *store, uint32_t session, const regtx_uuid *unit, unsigned tries,
                      const regtx_writes *writes, uint64_t *number);

/* Why the last commit was REGTX_COMMIT_UNKNOWN: REGTX_ENDED, or REGTX_DISK_FAULT, and so on. */
int regtx_cause(const regtx_store *store);

/* Drops a transaction's writes. The transaction is gone. REGTX_NO_SUCH_HANDLE. */
int regtx_rollback(regtx_store *store, regtx_tx tx);

/* Whether a transaction is active: a write alone that conflicts with it rolls it back.
 * REGTX_NO_SUCH_HANDLE. */
int regtx_is_active(regtx_store *store, regtx_tx tx, bool *active);

/* The number of the last change that a unit of work committed. REGTX_NOT_FOUND, if none is kept;
 * REGTX_UNSUPPORTED, if the store keeps none. The number may be NULL. To learn of a commit without
 * an answer, ask in another run than its own; of a server's store regtx_once is the call that
 * decides, since a connection that was lost may have its commit still to come. */
int regtx_kept(regtx_store *store, const regtx_uuid *unit, uint64_t *number);

/* Returns when all accepted changes are durable: the last one's number, 0 if there is none. It may
 * be NULL. REGTX_DISK_FAULT, REGTX_FAULTED. */
int regtx_flush(regtx_store *store, uint64_t *number);

/* Flushes, and empties the history, of which a run holds 1,048,576 changes. All transactions are
 * gone, and all sessions but the first. The last change's number may be NULL. A server does so by
 * itself: of its store this is REGTX_UNSUPPORTED, and nothing is sent. */
int regtx_fold(regtx_store *store, uint64_t *number);

/* Chooses the moment of the writes and commits that follow, in units of 100 ns since 1601, UTC.
 * REGTX_NOW, as at first, is the millisecond of now. A transaction's keys have its commit's. */
int regtx_at(regtx_store *store, uint64_t moment);

#define REGTX_NOW UINT64_MAX

/* The moment of a time in seconds since 1970, UTC. */
uint64_t regtx_moment_of(int64_t seconds);

/* Requests. A key is a hive's number and a path: names with one backslash between each two, empty
 * for the hive's root. Names are UTF-8, and of its characters the printable ones of ASCII alone are
 * carried; up to 255 in a key's name, which isn't empty, and 16,383 in a value's. Else the answer
 * is REGTX_WRONG_NAME. A value's empty name is the default value's. A transaction may be answered
 * REGTX_NOT_ACTIVE or REGTX_NO_SUCH_HANDLE; its writes REGTX_CONFLICT, if another transaction's
 * writes forbid them, REGTX_DISK_FAULT and REGTX_FAULTED. The number of a write alone is its
 * change's, that of one in a transaction 0; each may be NULL. */

/* Creates a key, and the keys above it that are missing, 32 at most: how many, 0 if it was there;
 * may be NULL. REGTX_NOT_FOUND (no such hive), REGTX_TOO_DEEP, REGTX_TOO_LARGE. */
int regtx_create_key(regtx_store *store, regtx_tx tx, uint8_t hive, const char *path,
                     uint32_t *levels, uint64_t *number);

/* Deletes a key without subkeys. REGTX_NOT_FOUND, REGTX_HAS_SUBKEYS; REGTX_FIXED, of a root. */
int regtx_delete_key(regtx_store *store, regtx_tx tx, uint8_t hive, const char *path,
                     uint64_t *number);

/* Writes a value: its type, and data of up to 1,048,576 bytes, which may be NULL if there are none.
 * REGTX_NOT_FOUND (no such key), REGTX_TOO_LARGE. */
int regtx_set_value(regtx_store *store, regtx_tx tx, uint8_t hive, const char *path,
                    const char *name, uint32_t type, const void *data, size_t size,
                    uint64_t *number);

/* Deletes a value. REGTX_NOT_FOUND. */
int regtx_delete_value(regtx_store *store, regtx_tx tx, uint8_t hive, const char *path,
                       const char *name, uint64_t *number);

/* Calls with a buffer: *size is its room in bytes, and becomes the size of what is there. If that
 * is more, the answer is REGTX_TOO_SMALL, and the buffer's bytes mean nothing. It may be NULL if
 * *size is 0. */

/* A value's type, which may be NULL, and its data. REGTX_NOT_FOUND, REGTX_TOO_SMALL. */
int regtx_get_value(regtx_store *store, regtx_tx tx, uint8_t hive, const char *path,
                    const char *name, uint32_t *type, void *data, size_t *size);

/* The names of a key's subkeys, or of its values, in the order of their folded units: in UTF-8, a
 * zero behind each, one after another; a unit that is no UTF-16 is U+FFFD. The count may be NULL.
 * REGTX_NOT_FOUND, REGTX_TOO_SMALL. */
int regtx_subkeys(regtx_store *store, regtx_tx tx, uint8_t hive, const char *path, char *names,
                  size_t *size, size_t *count);
int regtx_value_names(regtx_store *store, regtx_tx tx, uint8_t hive, const char *path, char *names,
                      size_t *size, size_t *count);

/* Trees. What a function answers other than REGTX_OK ends the call, which answers the same. The
 * function may make calls of the store. A name past ASCII can't be asked for: REGTX_WRONG_NAME. */

/* Calls a function with each value of a key, in the order of regtx_value_names. The name and the
 * data last until it returns. REGTX_NOT_FOUND. */
typedef int regtx_each_item(const char *name, uint32_t type, const void *data, size_t size,
                            void *context);
int regtx_items(regtx_store *store, regtx_tx tx, uint8_t hive, const char *path,
                regtx_each_item *each, void *context);

/* Calls a function with the path of a key, and of each key below it: each before those below it,
 * siblings in the order of regtx_subkeys. All paths are read before. REGTX_NOT_FOUND. */
typedef int regtx_each_key(const char *path, void *context);
int regtx_walk(regtx_store *store, regtx_tx tx, uint8_t hive, const char *path,
               regtx_each_key *each, void *context);

/* Deletes a key with all below it: how many keys, which may be NULL. Alone it is a transaction of
 * its own, which is committed. In a transaction a refusal may come after some of them: roll it back
 * then. REGTX_NOT_FOUND; REGTX_FIXED, of a root. */
int regtx_delete_tree(regtx_store *store, regtx_tx tx, uint8_t hive, const char *path,
                      uint32_t *keys, uint64_t *number);

/* What a key has; the time of its last write is in units of 100 ns since 1601, UTC. */
struct regtx_key_info {
    uint32_t subkeys, values;
    uint64_t written;
};

/* REGTX_NOT_FOUND. */
int regtx_key_info(regtx_store *store, regtx_tx tx, uint8_t hive, const char *path,
                   struct regtx_key_info *info);

/* Backups of a server's store, and its changes as they become durable. Of any other store these
 * calls are REGTX_UNSUPPORTED, and nothing is sent. */

/* Makes a copy of the store in a new folder of this name among the server's backups: the number at
 * which that opens, which may be NULL. The name is 1 to 255 letters and digits of ASCII, _, - and
 * full stops, and doesn't begin with one: REGTX_BAD_NAME. REGTX_CONFLICT, if something has that
 * name; REGTX_UNSUPPORTED, if the server has no folder of backups; REGTX_DISK_FAULT, if the
 * folder's device failed, by which the store isn't faulted. */
int regtx_backup(regtx_store *store, const char *name, uint64_t *number);

/* How full a server's store is, and who waits. */
struct regtx_server_stats {
    uint64_t number;  /* of the last change */
    uint64_t durable; /* of the last durable change */
    uint64_t room;    /* how many bytes of the journal's 67,108,864 are used */
    uint64_t clients; /* how many have a place */
    uint64_t waiting; /* how many of them wait until a change is durable */
};

int regtx_stats(regtx_store *store, struct regtx_server_stats *stats);

/* One who follows a store, by a connection of its own. It may be used by another thread than the
 * store, and outlive it. */
typedef struct regtx_follower regtx_follower;

/* A durable change. What it points to lasts until the follower's next call. */
struct regtx_change {
    uint64_t number;
    uint64_t moment; /* in units of 100 ns since 1601, UTC */
    bool has_unit;   /* it commits a unit of work, which is the next field */
    regtx_uuid unit;
    /* the lines that make it: create, delete, set or unset, as docs/SCRIPTS.md has them */
    size_t count;
    const char *const *lines;
};

/* Begins to follow the durable changes after a number. As regtx_connect; *follower is NULL after
 * each failure. */
int regtx_follow(regtx_store *store, uint64_t after, regtx_follower **follower);

/* The next change, in order, each once; waits until there is one. REGTX_FOLLOWED, once the server
 * has stopped in order, or after regtx_follower_end. REGTX_CANNOT_FOLLOW, if changes after the last
 * one that was told aren't kept: those since the server opened the store are, which some hive lacks
 * yet. It may come at any time, if changes come faster than they are taken. Then read the store
 * anew, and follow from there. After a failure each further call answers the same. */
int regtx_next_change(regtx_follower *follower, struct regtx_change *change);

/* Begins to watch a key, which needn't be there, and all keys below it. As regtx_follow;
 * REGTX_WRONG_NAME. */
int regtx_watch(regtx_store *store, uint8_t hive, const char *path, regtx_follower **follower);

/* The number of the next durable change that meets the key; waits until there is one. After a pause
 * of the server it is that of the last change, if changes came meanwhile, whether or not they meet
 * the key. Else as regtx_next_change. */
int regtx_next_changed(regtx_follower *follower, uint64_t *number);

/* Up to where all was told: at first the number that was given, or that of the last change as the
 * watch began. After REGTX_CANNOT_FOLLOW the number after which changes can be followed. */
uint64_t regtx_followed(const regtx_follower *follower);

/* Ends it, from another thread, too: a call that waits answers REGTX_FOLLOWED. */
void regtx_follower_end(regtx_follower *follower);

/* Frees it; no call may be under way. NULL is free already. */
void regtx_follower_free(regtx_follower *follower);

/* Types of values. Any other number is a type as well. */
enum {
    REGTX_REG_NONE = 0,
    REGTX_REG_SZ = 1,
    REGTX_REG_EXPAND_SZ = 2,
    REGTX_REG_BINARY = 3,
    REGTX_REG_DWORD = 4,
    REGTX_REG_DWORD_BIG_ENDIAN = 5,
    REGTX_REG_LINK = 6,
    REGTX_REG_MULTI_SZ = 7,
    REGTX_REG_QWORD = 11
};

/* Data of values. Readers answer REGTX_WRONG_DATA if the data isn't of that form; the caller looks
 * at the type. Those with a buffer are as above. */

/* A number of 32 or 64 bits, its low byte first. */
void regtx_from_dword(uint32_t number, unsigned char data[4]);
int regtx_to_dword(const void *data, size_t size, uint32_t *number);
void regtx_from_qword(uint64_t number, unsigned char data[8]);
int regtx_to_qword(const void *data, size_t size, uint64_t *number);

/* The data of a text in UTF-8, for REG_SZ and REG_EXPAND_SZ: UTF-16 with a zero at its end, 2
 * bytes. A REG_LINK is the same without these 2. REGTX_WRONG_DATA, if the text isn't UTF-8. */
int regtx_from_sz(const char *text, void *data, size_t *size);

/* The text in UTF-8, with a zero; the data may lack that. */
int regtx_to_sz(const void *data, size_t size, char *text, size_t *room);

/* The data of texts, for REG_MULTI_SZ: each with a zero behind it, and one zero more. So are the
 * texts themselves given, and none of them is empty. */
int regtx_from_multi_sz(const char *texts, void *data, size_t *size);

/* The texts, in the same form; the data may lack zeros at its end. */
int regtx_to_multi_sz(const void *data, size_t size, char *texts, size_t *room);

#ifdef __cplusplus
}
#endif

#endif

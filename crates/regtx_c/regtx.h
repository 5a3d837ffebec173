/* regtx.h: Windows registry hives in memory. Link with libregtx.a.
 *
 * A hive is opened from the bytes of a hive file (`regf`), or new. It is read and edited in memory, and written as the
 * bytes of a whole hive file again. No call reads or writes a file.
 *
 * Text. Paths and names are UTF-16 units with a length, in the machine's byte order, and no zero ends them. A path is
 * at most 512 key names joined by one backslash each, none of them empty; the empty path is the root. Letters `a` to `z`
 * count as `A` to `Z`, so names that differ in these alone are one name. The empty value name is the default value's. A
 * call that reads may name any units, and so may regtx_hive_delete_tree. Another call that edits may name units from 0x20
 * to 0x7e: key names of at most 255 units, and value names of at most 16,383. Keys and values of a file that have other
 * names are read, and stay as they are.
 *
 * Buffers. A call that hands out text or data takes a buffer, its room and `*len`. It sets `*len` to the length of what
 * there is. With REGTX_NO_ROOM the room is too small, and the buffer is as it was; call again with `*len` of room. With
 * any other number but REGTX_OK neither buffer nor `*len` is written. What lies in a buffer behind `*len` stays.
 *
 * Null. A pointer to units, bytes or logs may be null if their number is 0, and a buffer if its room is 0. That is so of
 * the calls as this header declares them. The library's own symbols, which other languages load, want a pointer there too,
 * and so does a log of no bytes.
 *
 * Weight. A key weighs 192 and the bytes of its name, its class and its security descriptor, a value 128 and the bytes of
 * its name and its data; a name has two bytes a unit. A hive of any weight is opened and read. One that weighs more than
 * 16,777,216 isn't written, and no call adds to it: that is REGTX_TOO_LARGE. Keys and values can be deleted until it
 * weighs less.
 *
 * Numbers. Each call answers REGTX_OK or why it is refused. A refused call changes nothing: the hive stays as it was. The
 * refusals of a call are listed in their order: if several are true, the first of them is told. REGTX_NO_MEMORY may come
 * in place of any answer of a call that takes memory.
 *
 * Cursors. A cursor stands at a key of a hive and is stepped from key to key, without paths. It keeps the hive as it was
 * when the cursor was opened, at no cost but for what changes later. So an edit of the hive isn't seen by it, nor is that
 * the hive is closed; a new cursor sees the hive of then. Each step and each question takes about the same time, however
 * large the hive is. So a walk takes as long as what it reads is large.
 *
 * What the caller owes. No other pointer is null. What one call is given doesn't overlap. A handle may be moved, but of
 * two copies only one may be used from then on. Its fields are never touched. All this goes for cursors too. `malloc`,
 * `realloc` and `free` are of one allocator. No call is made in a signal handler. 1 MiB of stack is enough for each call,
 * as deep as a hive may be.
 *
 * Threads. A handle, or a cursor, is given to one call at a time. It may be given to another thread, if a lock, or the
 * start or the end of a thread, lies between the two calls. Calls that only tell something write to it too, and so take
 * none that is `const`: a lock has to keep them apart as well. Several threads may use hives and cursors of their own at
 * once, also cursors of one hive. So threads read one hive at once, each by its cursor, while another one edits the hive.
 *
 * The library owns each open hive, until its handle is closed or another hive is opened by it, and each open cursor
 * alike. It keeps no pointer of the caller beyond a call, and hands out none of its own.
 */
#ifndef REGTX_H
#define REGTX_H

#include <stdbool.h>
#include <stddef.h>
#include <stdint.h>

#ifdef __cplusplus
extern "C" {
#endif

/* The version of this header: 10,000 times its first number, 100 times its second, and its third. 900 is 0.9.0. */
#define REGTX_VERSION 900

#ifndef REGTX_REFUSALS
#define REGTX_REFUSALS
/* Refusals by their numbers, E1 and so on. regtx_client.h has the same ones. No call here answers 7 to 16. */
enum {
    REGTX_OK = 0,
    REGTX_NO_MEMORY = 1,   /* memory was asked for and not given */
    REGTX_NOT_FOUND = 2,   /* there is no such key or value, or the index or the step is past the last one */
    REGTX_HAS_SUBKEYS = 3, /* the key to be deleted has subkeys */
    REGTX_BAD_NAME = 4,    /* a path or a name breaks the rules of names above */
    REGTX_TOO_DEEP = 5,    /* a path has more than 512 names, or one call would create more than 32 keys */
    REGTX_TOO_LARGE = 6,   /* data over 1,048,576 bytes; or a hive over a limit of the call, or over the weight above */
    REGTX_CONFLICT = 7,
    REGTX_NOT_ACTIVE = 8,
    REGTX_NO_SUCH_HANDLE = 9,
    REGTX_NO_SEAT = 10,
    REGTX_JOURNAL_FULL = 11,
    REGTX_HISTORY_FULL = 12,
    REGTX_DISK_FAULT = 13,
    REGTX_FAULTED = 14,
    REGTX_HIVE_DAMAGED = 15,
    REGTX_JOURNAL_DAMAGED = 16,
    REGTX_UNSUPPORTED = 17, /* a version, a type, a format or a flag that isn't read */
    REGTX_FIXED = 18       /* the root, or a key that is marked as not deletable, is to be deleted */
};
#endif

enum {
    REGTX_NOT_OPEN = 100,  /* no hive is open by this handle, or the cursor isn't open */
    REGTX_NO_ROOM = 101,   /* the buffer is too small */
    /* Damage: the bytes are no whole hive. If they have several faults, any one is told. */
    REGTX_TRUNCATED = 1501,  /* they are fewer than they say */
    REGTX_BAD_BASE = 1502,   /* no hive at all, or a wrong size of bins data */
    REGTX_BAD_BIN = 1503,    /* a bin is wrong, or the bins don't fill the bins data */
    REGTX_BAD_CELL = 1504,   /* a cell is wrong, or the cells don't fill their bin */
    REGTX_BAD_OFFSET = 1505, /* an offset isn't the start of an allocated cell */
    REGTX_BAD_RECORD = 1506, /* a record is wrong, or doesn't fit its cell */
    REGTX_BAD_LIST = 1507,   /* a list of subkeys is wrong */
    REGTX_BAD_STORED_NAME = 1508, /* a name is wrong, or is there twice below one key */
    REGTX_SHARED = 1509,     /* a cell is reached twice */
    REGTX_BAD_LOG = 1510,    /* the hive was not closed cleanly, and no log fits, or bytes are in none */
    REGTX_NOT_CLEAN = 1511,  /* the hive was not closed cleanly */
    REGTX_BAD_STORE = 1512,  /* no call here answers this one and 1513 */
    REGTX_HIVE_TOO_LARGE = 1513
};

/* An open hive, or none. Set it to zero before its first use: `regtx_hive hive = {0};`. */
typedef struct {
    bool full;
    struct {
        void *at;
    } held;
} regtx_hive;

/* The `len` bytes of a log that Windows wrote beside a hive file, such as those of SYSTEM.LOG1. */
typedef struct {
    const uint8_t *bytes;
    size_t len;
} regtx_log;

/* An open cursor, or none. Set it to zero before its first use: `regtx_cursor cursor = {0};`. */
typedef struct {
    regtx_hive at;
} regtx_cursor;

/* What a key has. `time` is when it was last written, in units of 100 nanoseconds since the year 1601. */
typedef struct {
    uint64_t subkeys;
    uint64_t values;
    uint64_t time;
} regtx_info;

/* What a value has beside its name and its data: its type, how many units the name has, and how many bytes the data. */
typedef struct {
    uint32_t type;
    size_t name_len;
    size_t len;
} regtx_value;

/* Tells the version of the library, as REGTX_VERSION is that of the header, and whether the library was proved. Takes no
 * memory. */
uint32_t regtx_version(bool *is_proved);

/* Opens the hive that the `len` bytes of a hive file hold. They are copied and may go. They are read as they are, without
 * a log. What was open by the handle before is closed; if the call is refused, it stays open.
 * Refused, whichever is found first: any number from 1501 on, REGTX_UNSUPPORTED, REGTX_TOO_LARGE (of bins data over 64
 * MiB, and of a path of more than 512 names). */
uint32_t regtx_hive_open(const uint8_t *file, size_t len, regtx_hive *hive);

/* Opens the hive that the `len` bytes of a hive file and `count` logs make together: what Windows finds at its next start,
 * if the hive was not closed cleanly. The logs are in any order, of one kind or of both. They are the hive's own: nothing
 * in a log says whose it is. If the hive was closed cleanly, no log counts, and it is opened as by regtx_hive_open.
 * Otherwise each byte of it is of the file or of a log, and entries of logs are applied strictly in turn; a log that is
 * torn gives an earlier state, whole. The bytes are copied and may go. What was open by the handle before is closed; if
 * the call is refused, it stays open. The call takes four times the bins data of memory for a while.
 * Refused, whichever is found first: REGTX_BAD_LOG if no log fits, or bytes of the hive are in none of them;
 * REGTX_TRUNCATED and REGTX_BAD_BASE of a file that is none, if no log fits; REGTX_UNSUPPORTED; REGTX_TOO_LARGE. Then as
 * regtx_hive_open refuses the file that the logs make: any number from 1501 on, and REGTX_TOO_LARGE of a path of more
 * than 512 names. */
uint32_t regtx_hive_recover(const uint8_t *file, size_t len, const regtx_log *logs, size_t count, regtx_hive *hive);

/* Opens a new hive: a root with the name ROOT, without time, subkeys and values, that is not to be deleted. What was open
 * by the handle before is closed. */
uint32_t regtx_hive_new(regtx_hive *hive);

/* Closes the hive that is open by the handle, and frees its memory. A closed handle may be closed again. */
void regtx_hive_close(regtx_hive *hive);

/* Tells what the key at a path has.
 * Refused: REGTX_NOT_OPEN, REGTX_BAD_NAME, REGTX_TOO_DEEP, REGTX_NOT_FOUND. */
uint32_t regtx_hive_info(regtx_hive *hive, const uint16_t *path, size_t path_len, regtx_info *info);

/* Tells the flags of the key at a path, as a hive file has them, such as 0x0004 of a root, 0x0008 of a key that is not to
 * be deleted, and 0x0010 of a link. One is left out: 0x0020 only says how the file stores the key's name.
 * Refused: as regtx_hive_info. */
uint32_t regtx_hive_flags(regtx_hive *hive, const uint16_t *path, size_t path_len, uint16_t *flags);

/* Tells the class of the key at a path: the bytes that a hive file has, which are as a rule those of UTF-16 units, the
 * lower byte first, without a zero at the end. A key without a class has none of them.
 * Refused: as regtx_hive_info, REGTX_NO_ROOM. */
uint32_t regtx_hive_class(regtx_hive *hive, const uint16_t *path, size_t path_len,
                          uint8_t *class_bytes, size_t room, size_t *len);

/* Tells the security descriptor of the key at a path: the bytes that a hive file has, which are those of a self-relative
 * SECURITY_DESCRIPTOR. A key without a descriptor has none of them.
 * Refused: as regtx_hive_class. */
uint32_t regtx_hive_descriptor(regtx_hive *hive, const uint16_t *path, size_t path_len,
                               uint8_t *descriptor, size_t room, size_t *len);

/* Tells the name of the subkey at an index, in the order of names. Indexes begin at 0.
 * Refused: as regtx_hive_info, REGTX_NO_ROOM. */
uint32_t regtx_hive_key_at(regtx_hive *hive, const uint16_t *path, size_t path_len, size_t index,
                           uint16_t *name, size_t room, size_t *len);

/* Tells the name of the value at an index, in the order of names.
 * Refused: as regtx_hive_key_at. */
uint32_t regtx_hive_value_name_at(regtx_hive *hive, const uint16_t *path, size_t path_len, size_t index,
                                  uint16_t *name, size_t room, size_t *len);

/* Tells type and data of the value at an index, in the order of names. `*type` is also set with REGTX_NO_ROOM.
 * Refused: as regtx_hive_key_at. */
uint32_t regtx_hive_value_at(regtx_hive *hive, const uint16_t *path, size_t path_len, size_t index,
                             uint32_t *type, uint8_t *data, size_t room, size_t *len);

/* Tells type and data of the value of a name. `*type` is also set with REGTX_NO_ROOM.
 * Refused: as regtx_hive_key_at. */
uint32_t regtx_hive_value(regtx_hive *hive, const uint16_t *path, size_t path_len,
                          const uint16_t *name, size_t name_len,
                          uint32_t *type, uint8_t *data, size_t room, size_t *len);

/* Opens a cursor at the key of a path. The cursor stays at this key and below it. What was open by the cursor before is
 * closed; if the call is refused, it stays open.
 * Refused: as regtx_hive_info. */
uint32_t regtx_cursor_open(regtx_hive *hive, const uint16_t *path, size_t path_len, regtx_cursor *cursor);

/* Closes a cursor, and frees its memory. A closed cursor may be closed again. */
void regtx_cursor_close(regtx_cursor *cursor);

/* Steps to the first subkey of the cursor's key, in the order of names.
 * Refused: REGTX_NOT_OPEN, REGTX_NOT_FOUND if it has none; then the cursor stays. */
uint32_t regtx_cursor_down(regtx_cursor *cursor);

/* Steps to the next subkey of the key above, in the order of names.
 * Refused: REGTX_NOT_OPEN, REGTX_NOT_FOUND if this is the last one, or where the cursor was opened; then it stays. */
uint32_t regtx_cursor_next(regtx_cursor *cursor);

/* Steps to the key above. Takes no memory.
 * Refused: REGTX_NOT_OPEN, REGTX_NOT_FOUND where the cursor was opened; then it stays. */
uint32_t regtx_cursor_up(regtx_cursor *cursor);

/* Tells what the cursor's key has, and its name as spelled. `*info` is also set with REGTX_NO_ROOM. Takes no memory.
 * Refused: REGTX_NOT_OPEN, REGTX_NO_ROOM. */
uint32_t regtx_cursor_key(regtx_cursor *cursor, regtx_info *info, uint16_t *name, size_t room, size_t *len);

/* Tells all of the value at an index of the cursor's key, in the order of names. Indexes begin at 0. With REGTX_NO_ROOM
 * one of the rooms is too small: `*value` is set, and both buffers stay. Takes no memory.
 * Refused: REGTX_NOT_OPEN, REGTX_NOT_FOUND, REGTX_NO_ROOM. */
uint32_t regtx_cursor_value(regtx_cursor *cursor, size_t index, regtx_value *value, uint16_t *name, size_t name_room,
                            uint8_t *data, size_t room);

/* Creates the key at a path, and each key that is missing on the way to it. `*made` tells how many were made: 0 if the
 * key was there, and then nothing changes. New keys have the time, and the security descriptor of the last key on the way
 * that was there; that key has the time too.
 * Refused: REGTX_NOT_OPEN, REGTX_BAD_NAME, REGTX_TOO_DEEP, REGTX_TOO_LARGE; then `*made` stays. */
uint32_t regtx_hive_create_key(regtx_hive *hive, const uint16_t *path, size_t path_len, uint64_t time, size_t *made);

/* Deletes the key at a path, with its values. Its parent has the time.
 * Refused: REGTX_NOT_OPEN, REGTX_BAD_NAME, REGTX_TOO_DEEP, REGTX_NOT_FOUND, REGTX_FIXED, REGTX_HAS_SUBKEYS. */
uint32_t regtx_hive_delete_key(regtx_hive *hive, const uint16_t *path, size_t path_len, uint64_t time);

/* Deletes the key at a path with all keys below it. Its parent has the time.
 * Refused: REGTX_NOT_OPEN, REGTX_BAD_NAME, REGTX_TOO_DEEP, REGTX_NOT_FOUND, REGTX_FIXED, also if a key below is marked as
 * not deletable. */
uint32_t regtx_hive_delete_tree(regtx_hive *hive, const uint16_t *path, size_t path_len, uint64_t time);

/* Writes the value of a name, of the key at a path, which has the time then. Any number is a type. A value that was there
 * keeps the spelling of its name. The data are copied.
 * Refused: REGTX_NOT_OPEN, REGTX_BAD_NAME of the path, REGTX_TOO_DEEP, REGTX_BAD_NAME of the name, REGTX_NOT_FOUND,
 * REGTX_TOO_LARGE. */
uint32_t regtx_hive_set_value(regtx_hive *hive, const uint16_t *path, size_t path_len,
                              const uint16_t *name, size_t name_len,
                              uint32_t type, const uint8_t *data, size_t len, uint64_t time);

/* Deletes the value of a name, of the key at a path, which has the time then.
 * Refused: REGTX_NOT_OPEN, REGTX_BAD_NAME of the path, REGTX_TOO_DEEP, REGTX_BAD_NAME of the name, REGTX_NOT_FOUND. */
uint32_t regtx_hive_delete_value(regtx_hive *hive, const uint16_t *path, size_t path_len,
                                 const uint16_t *name, size_t name_len, uint64_t time);

/* Writes the hive as the bytes of a whole hive file of version 1.5: a clean one, that needs no log. `*len` is a multiple
 * of 4,096. With a room of 0 the call tells how many bytes it needs.
 * Refused: REGTX_NOT_OPEN, REGTX_TOO_LARGE, REGTX_NO_ROOM. */
uint32_t regtx_hive_write(regtx_hive *hive, uint8_t *file, size_t room, size_t *len);

/* Tells the text of a number, in ASCII, without a zero at its end: "E2 NotFound". It has at most 64 bytes.
 * Refused: REGTX_NO_ROOM. */
uint32_t regtx_text(uint32_t code, uint8_t *text, size_t room, size_t *len);

/* Tells the name that this header gives a number, in ASCII, without a zero at its end: "REGTX_NOT_FOUND". It has at most
 * 32 bytes, and none if the number has no name here. Takes no memory.
 * Refused: REGTX_NO_ROOM. */
uint32_t regtx_code_name(uint32_t code, uint8_t *name, size_t room, size_t *len);

/* Tells whether a number is one of damage, from 1501 to 1513. Takes no memory. */
bool regtx_is_damage(uint32_t code);

/* What follows lets a pointer be null, as said above: a call gets one to nothing in its place. */

static inline const uint16_t *regtx_hive_units(const uint16_t *units, size_t len)
{
    static const uint16_t none = 0;
    return len ? units : &none;
}

static inline const uint8_t *regtx_hive_bytes(const uint8_t *bytes, size_t len)
{
    static const uint8_t none = 0;
    return len ? bytes : &none;
}

static inline uint16_t *regtx_hive_unit_room(uint16_t *buffer, size_t room)
{
    static uint16_t none;
    return room ? buffer : &none;
}

static inline uint8_t *regtx_hive_byte_room(uint8_t *buffer, size_t room)
{
    static uint8_t none;
    return room ? buffer : &none;
}

static inline uint32_t regtx_hive_open_or_null(const uint8_t *file, size_t len, regtx_hive *hive)
{
    return regtx_hive_open(regtx_hive_bytes(file, len), len, hive);
}

static inline uint32_t regtx_hive_recover_or_null(const uint8_t *file, size_t len, const regtx_log *logs, size_t count,
                                                  regtx_hive *hive)
{
    static const uint8_t none = 0;
    static const regtx_log no_log = {&none, 0};
    return regtx_hive_recover(regtx_hive_bytes(file, len), len, count ? logs : &no_log, count, hive);
}

static inline uint32_t regtx_hive_flags_or_null(regtx_hive *hive, const uint16_t *path, size_t path_len,
                                                uint16_t *flags)
{
    return regtx_hive_flags(hive, regtx_hive_units(path, path_len), path_len, flags);
}

static inline uint32_t regtx_hive_class_or_null(regtx_hive *hive, const uint16_t *path, size_t path_len,
                                                uint8_t *class_bytes, size_t room, size_t *len)
{
    return regtx_hive_class(hive, regtx_hive_units(path, path_len), path_len,
                            regtx_hive_byte_room(class_bytes, room), room, len);
}

static inline uint32_t regtx_hive_descriptor_or_null(regtx_hive *hive, const uint16_t *path, size_t path_len,
                                                     uint8_t *descriptor, size_t room, size_t *len)
{
    return regtx_hive_descriptor(hive, regtx_hive_units(path, path_len), path_len,
                                 regtx_hive_byte_room(descriptor, room), room, len);
}

static inline uint32_t regtx_hive_info_or_null(regtx_hive *hive, const uint16_t *path, size_t path_len,
                                               regtx_info *info)
{
    return regtx_hive_info(hive, regtx_hive_units(path, path_len), path_len, info);
}

static inline uint32_t regtx_hive_key_at_or_null(regtx_hive *hive, const uint16_t *path, size_t path_len, size_t index,
                                                 uint16_t *name, size_t room, size_t *len)
{
    return regtx_hive_key_at(hive, regtx_hive_units(path, path_len), path_len, index, regtx_hive_unit_room(name, room),
                             room, len);
}

static inline uint32_t regtx_hive_value_name_at_or_null(regtx_hive *hive, const uint16_t *path, size_t path_len,
                                                        size_t index, uint16_t *name, size_t room, size_t *len)
{
    return regtx_hive_value_name_at(hive, regtx_hive_units(path, path_len), path_len, index,
                                    regtx_hive_unit_room(name, room), room, len);
}

static inline uint32_t regtx_hive_value_at_or_null(regtx_hive *hive, const uint16_t *path, size_t path_len,
                                                   size_t index, uint32_t *type, uint8_t *data, size_t room,
                                                   size_t *len)
{
    return regtx_hive_value_at(hive, regtx_hive_units(path, path_len), path_len, index, type,
                               regtx_hive_byte_room(data, room), room, len);
}

static inline uint32_t regtx_hive_value_or_null(regtx_hive *hive, const uint16_t *path, size_t path_len,
                                                const uint16_t *name, size_t name_len, uint32_t *type, uint8_t *data,
                                                size_t room, size_t *len)
{
    return regtx_hive_value(hive, regtx_hive_units(path, path_len), path_len, regtx_hive_units(name, name_len),
                            name_len, type, regtx_hive_byte_room(data, room), room, len);
}

static inline uint32_t regtx_cursor_open_or_null(regtx_hive *hive, const uint16_t *path, size_t path_len,
                                                 regtx_cursor *cursor)
{
    return regtx_cursor_open(hive, regtx_hive_units(path, path_len), path_len, cursor);
}

static inline uint32_t regtx_cursor_key_or_null(regtx_cursor *cursor, regtx_info *info, uint16_t *name, size_t room,
                                                size_t *len)
{
    return regtx_cursor_key(cursor, info, regtx_hive_unit_room(name, room), room, len);
}

static inline uint32_t regtx_cursor_value_or_null(regtx_cursor *cursor, size_t index, regtx_value *value,
                                                  uint16_t *name, size_t name_room, uint8_t *data, size_t room)
{
    return regtx_cursor_value(cursor, index, value, regtx_hive_unit_room(name, name_room), name_room,
                              regtx_hive_byte_room(data, room), room);
}

static inline uint32_t regtx_hive_create_key_or_null(regtx_hive *hive, const uint16_t *path, size_t path_len,
                                                     uint64_t time, size_t *made)
{
    return regtx_hive_create_key(hive, regtx_hive_units(path, path_len), path_len, time, made);
}

static inline uint32_t regtx_hive_delete_key_or_null(regtx_hive *hive, const uint16_t *path, size_t path_len,
                                                     uint64_t time)
{
    return regtx_hive_delete_key(hive, regtx_hive_units(path, path_len), path_len, time);
}

static inline uint32_t regtx_hive_delete_tree_or_null(regtx_hive *hive, const uint16_t *path, size_t path_len,
                                                      uint64_t time)
{
    return regtx_hive_delete_tree(hive, regtx_hive_units(path, path_len), path_len, time);
}

static inline uint32_t regtx_hive_set_value_or_null(regtx_hive *hive, const uint16_t *path, size_t path_len,
                                                    const uint16_t *name, size_t name_len, uint32_t type,
                                                    const uint8_t *data, size_t len, uint64_t time)
{
    return regtx_hive_set_value(hive, regtx_hive_units(path, path_len), path_len, regtx_hive_units(name, name_len),
                                name_len, type, regtx_hive_bytes(data, len), len, time);
}

static inline uint32_t regtx_hive_delete_value_or_null(regtx_hive *hive, const uint16_t *path, size_t path_len,
                                                       const uint16_t *name, size_t name_len, uint64_t time)
{
    return regtx_hive_delete_value(hive, regtx_hive_units(path, path_len), path_len, regtx_hive_units(name, name_len),
                                   name_len, time);
}

static inline uint32_t regtx_hive_write_or_null(regtx_hive *hive, uint8_t *file, size_t room, size_t *len)
{
    return regtx_hive_write(hive, regtx_hive_byte_room(file, room), room, len);
}

static inline uint32_t regtx_text_or_null(uint32_t code, uint8_t *text, size_t room, size_t *len)
{
    return regtx_text(code, regtx_hive_byte_room(text, room), room, len);
}

static inline uint32_t regtx_code_name_or_null(uint32_t code, uint8_t *name, size_t room, size_t *len)
{
    return regtx_code_name(code, regtx_hive_byte_room(name, room), room, len);
}

#define regtx_hive_open regtx_hive_open_or_null
#define regtx_hive_recover regtx_hive_recover_or_null
#define regtx_hive_info regtx_hive_info_or_null
#define regtx_hive_flags regtx_hive_flags_or_null
#define regtx_hive_class regtx_hive_class_or_null
#define regtx_hive_descriptor regtx_hive_descriptor_or_null
#define regtx_hive_key_at regtx_hive_key_at_or_null
#define regtx_hive_value_name_at regtx_hive_value_name_at_or_null
#define regtx_hive_value_at regtx_hive_value_at_or_null
#define regtx_hive_value regtx_hive_value_or_null
#define regtx_cursor_open regtx_cursor_open_or_null
#define regtx_cursor_key regtx_cursor_key_or_null
#define regtx_cursor_value regtx_cursor_value_or_null
#define regtx_hive_create_key regtx_hive_create_key_or_null
#define regtx_hive_delete_key regtx_hive_delete_key_or_null
#define regtx_hive_delete_tree regtx_hive_delete_tree_or_null
#define regtx_hive_set_value regtx_hive_set_value_or_null
#define regtx_hive_delete_value regtx_hive_delete_value_or_null
#define regtx_hive_write regtx_hive_write_or_null
#define regtx_text regtx_text_or_null
#define regtx_code_name regtx_code_name_or_null

#ifdef __cplusplus
}
#endif

#endif

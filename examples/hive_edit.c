/* Prints the keys and values of an offline hive, sets one number in it, and writes the new hive:
 *
 *     hive_edit IN OUT KEY NAME NUMBER
 *     hive_edit SYSTEM SYSTEM.new 'ControlSet001\Services\Disk' Start 0
 *
 * It prints a line [KEY] for each key, and below it a line NAME TYPE DATA for each of its values.
 * The data are hexadecimal digits, or - for none. The default value's name is @. Names are UTF-8. A
 * unit that would not be seen, a percent sign and half a surrogate pair are a % and four digits.
 *
 * The value is a REG_DWORD, and its key must be there. KEY and NAME are ASCII. OUT may be IN. The
 * new hive is written as OUT.new, which must not be there, and gets its name once it is on the
 * disk. So OUT is the old file or the new one. Then the folder is synced.
 *
 * Status 0: done. 1: something was refused, and OUT is as it was, unless that was the sync of its
 * folder. 2: the words are wrong.
 *
 * Built by: cc -I FOLDER hive_edit.c FOLDER/libregtx.a
 */
#define _POSIX_C_SOURCE 200809L

#include "regtx.h"

#include <errno.h>
#include <fcntl.h>
#include <inttypes.h>
#include <stdio.h>
#include <stdlib.h>
#include <string.h>
#include <time.h>
#include <unistd.h>

enum { REG_DWORD = 4, FIRST_ROOM = 256, MOST_DIGITS = 10, MOST_TEXT = 64 };

/* ---- what is refused */

static bool failed(const char *what)
{
    fprintf(stderr, "hive_edit: %s: %s\n", what, strerror(errno));
    return false;
}

static bool refused(const char *what, uint32_t code)
{
    uint8_t text[MOST_TEXT];
    size_t len = 0;
    if (regtx_text(code, text, sizeof text, &len) != REGTX_OK)
        len = 0;
    fprintf(stderr, "hive_edit: %s: %.*s\n", what, (int)len, (char *)text);
    return false;
}

/* ---- buffers */

/* A block that grows. Its room is never 0, so that it is never null once it was made. */
struct bytes {
    uint8_t *at;
    size_t len, room;
};

struct units {
    uint16_t *at;
    size_t len, room;
};

static uint32_t grow_bytes(struct bytes *bytes, size_t room)
{
    if (room <= bytes->room)
        return REGTX_OK;
    uint8_t *grown = realloc(bytes->at, room);
    if (grown == NULL)
        return REGTX_NO_MEMORY;
    bytes->at = grown;
    bytes->room = room;
    return REGTX_OK;
}

static uint32_t grow_units(struct units *units, size_t room)
{
    if (room <= units->room)
        return REGTX_OK;
    if (room > SIZE_MAX / sizeof *units->at)
        return REGTX_NO_MEMORY;
    uint16_t *grown = realloc(units->at, room * sizeof *grown);
    if (grown == NULL)
        return REGTX_NO_MEMORY;
    units->at = grown;
    units->room = room;
    return REGTX_OK;
}

/* ---- text in UTF-8 and UTF-16 */

static bool is_surrogate(uint32_t point)
{
    return point >= 0xd800 && point <= 0xdfff;
}

/* The code point that a text in UTF-8 begins with, and how many bytes it has: 0 if it is none. */
static size_t point_of(const char *text, uint32_t *point)
{
    static const uint32_t least[] = {0, 0, 0x80, 0x800, 0x10000};
    unsigned char first = (unsigned char)*text;
    size_t len = first < 0x80 ? 1 : first < 0xc0 ? 0 : first < 0xe0 ? 2 : first < 0xf0 ? 3 : 4;
    if (len == 0 || first >= 0xf8)
        return 0;
    *point = len == 1 ? first : first & 0xffu >> (len + 1);
    for (size_t i = 1; i < len; i++) {
        if (((unsigned char)text[i] & 0xc0) != 0x80)
            return 0;
        *point = *point << 6 | ((unsigned char)text[i] & 0x3f);
    }
    return *point >= least[len] && *point <= 0x10ffff && !is_surrogate(*point) ? len : 0;
}

/* Reads a text in UTF-8 into units, which have room for as many as there are bytes; `false` if it
 * isn't in UTF-8. */
static bool units_of(const char *text, struct units *units)
{
    uint32_t point;
    for (size_t len; *text; text += len) {
        len = point_of(text, &point);
        if (len == 0)
            return false;
        if (point > 0xffff) {
            units->at[units->len++] = (uint16_t)(0xd800 + ((point - 0x10000) >> 10));
            point = 0xdc00 + ((point - 0x10000) & 0x3ff);
        }
        units->at[units->len++] = (uint16_t)point;
    }
    return true;
}

static void print_point(uint32_t point)
{
    int more = point < 0x80 ? 0 : point < 0x800 ? 1 : point < 0x10000 ? 2 : 3;
    static const uint32_t first[] = {0, 0xc0, 0xe0, 0xf0};
    putchar((int)(first[more] | point >> 6 * more));
    while (more-- > 0)
        putchar((int)(0x80 | (point >> 6 * more & 0x3f)));
}

static bool is_half(uint32_t unit, uint32_t first)
{
    return unit >= first && unit < first + 0x400;
}

static void print_units(const uint16_t *units, size_t len)
{
    for (size_t i = 0; i < len; i++) {
        uint32_t unit = units[i];
        if (is_half(unit, 0xd800) && i + 1 < len && is_half(units[i + 1], 0xdc00))
            print_point(0x10000 + ((unit - 0xd800) << 10) + (units[++i] - 0xdc00u));
        else if (unit < 0x20 || (unit >= 0x7f && unit < 0xa0) || unit == '%' || is_surrogate(unit))
            printf("%%%04" PRIx32, unit);
        else
            print_point(unit);
    }
}

/* ---- the tree */

/* A hive that is walked: the path of the key that is printed, and what a call hands out. */
struct walk {
    regtx_hive *hive;
    struct units path, name;
    struct bytes data;
};

static uint32_t begin_walk(struct walk *walk)
{
    uint32_t code = grow_units(&walk->path, FIRST_ROOM);
    code = code ? code : grow_units(&walk->name, FIRST_ROOM);
    return code ? code : grow_bytes(&walk->data, FIRST_ROOM);
}

static void end_walk(struct walk *walk)
{
    free(walk->path.at);
    free(walk->name.at);
    free(walk->data.at);
}

typedef uint32_t name_call(regtx_hive *, const uint16_t *, size_t, size_t, uint16_t *, size_t,
                           size_t *);

/* Reads a name, into more room if there is too little. */
static uint32_t read_name(struct walk *walk, name_call *call, size_t index)
{
    struct units *path = &walk->path, *name = &walk->name;
    for (;;) {
        uint32_t code = call(walk->hive, path->at, path->len, index, name->at, name->room,
                             &name->len);
        if (code != REGTX_NO_ROOM || (code = grow_units(name, name->len)))
            return code;
    }
}

static uint32_t read_data(struct walk *walk, size_t index, uint32_t *type)
{
    struct units *path = &walk->path;
    struct bytes *data = &walk->data;
    for (;;) {
        uint32_t code = regtx_hive_value_at(walk->hive, path->at, path->len, index, type, data->at,
                                            data->room, &data->len);
        if (code != REGTX_NO_ROOM || (code = grow_bytes(data, data->len)))
            return code;
    }
}

static uint32_t print_value(struct walk *walk, size_t index)
{
    uint32_t type = 0, code = read_name(walk, regtx_hive_value_name_at, index);
    code = code ? code : read_data(walk, index, &type);
    if (code)
        return code;
    const struct units *name = &walk->name;
    fputs("  ", stdout);
    if (name->len == 0)
        putchar('@');
    else if (name->len == 1 && name->at[0] == '@')
        fputs("%0040", stdout); /* not the default value */
    else
        print_units(name->at, name->len);
    printf(" %" PRIu32 " %s", type, walk->data.len ? "" : "-");
    for (size_t i = 0; i < walk->data.len; i++) {
        putchar("0123456789abcdef"[walk->data.at[i] >> 4]);
        putchar("0123456789abcdef"[walk->data.at[i] & 15]);
    }
    putchar('\n');
    return REGTX_OK;
}

/* Makes the path that of the subkey whose name was read. */
static uint32_t go_down(struct walk *walk)
{
    struct units *path = &walk->path;
    size_t joined = path->len + (path->len != 0);
    if (joined + walk->name.len > path->room) {
        uint32_t code = grow_units(path, 2 * (joined + walk->name.len));
        if (code)
            return code;
    }
    if (path->len)
        path->at[path->len] = '\\';
    memcpy(path->at + joined, walk->name.at, walk->name.len * sizeof *path->at);
    path->len = joined + walk->name.len;
    return REGTX_OK;
}

/* Prints the key at the path, and all below it: 512 levels at most. */
static uint32_t print_key(struct walk *walk)
{
    size_t len = walk->path.len;
    regtx_info info;
    uint32_t code = regtx_hive_info(walk->hive, walk->path.at, len, &info);
    if (code)
        return code;
    putchar('[');
    print_units(walk->path.at, len);
    fputs("]\n", stdout);
    for (size_t i = 0; i < info.values; i++)
        if ((code = print_value(walk, i)))
            return code;
    for (size_t i = 0; i < info.subkeys; i++) {
        if ((code = read_name(walk, regtx_hive_key_at, i)) || (code = go_down(walk))
            || (code = print_key(walk)))
            return code;
        walk->path.len = len;
    }
    return REGTX_OK;
}

static bool print_tree(regtx_hive *hive, const char *file)
{
    struct walk walk = {.hive = hive};
    uint32_t code = begin_walk(&walk);
    code = code ? code : print_key(&walk);
    end_walk(&walk);
    if (code)
        return refused(file, code);
    return fflush(stdout) == 0 && !ferror(stdout) ? true : failed("standard output");
}

/* ---- files */

static bool read_all(FILE *from, const char *name, struct bytes *file)
{
    for (;;) {
        if (file->len == file->room && grow_bytes(file, 2 * file->room + FIRST_ROOM) != REGTX_OK)
            return refused(name, REGTX_NO_MEMORY);
        size_t got = fread(file->at + file->len, 1, file->room - file->len, from);
        file->len += got;
        if (ferror(from))
            return failed(name);
        if (got == 0)
            return true;
    }
}

static bool open_file(const char *name, regtx_hive *hive)
{
    struct bytes file = {0};
    FILE *from = fopen(name, "rb");
    if (from == NULL)
        return failed(name);
    bool is_open = read_all(from, name, &file);
    fclose(from);
    if (is_open) {
        uint32_t code = regtx_hive_open(file.at, file.len, hive);
        is_open = code == REGTX_OK || refused(name, code);
    }
    free(file.at);
    return is_open;
}

static bool write_new(const char *name, const struct bytes *file)
{
    FILE *to = fopen(name, "wbx"); /* not over a file that is there */
    if (to == NULL)
        return failed(name);
    bool is_written = fwrite(file->at, 1, file->len, to) == file->len && fflush(to) == 0
        && fsync(fileno(to)) == 0;
    if (!is_written)
        failed(name);
    if (fclose(to) != 0 && is_written)
        is_written = failed(name);
    if (!is_written)
        remove(name);
    return is_written;
}

/* Syncs the folder of a file, whose name is cut off from the path. */
static bool sync_folder(char *path)
{
    char *slash = strrchr(path, '/');
    if (slash == NULL)
        strcpy(path, ".");
    else
        slash[slash == path] = 0;
    int folder = open(path, O_RDONLY | O_DIRECTORY);
    if (folder < 0)
        return failed(path);
    bool is_synced = fsync(folder) == 0 || failed(path);
    close(folder);
    return is_synced;
}

/* Writes a file beside another one, puts it in its place once it is on the disk, and syncs the
 * folder. */
static bool replace_file(const char *name, const struct bytes *file)
{
    size_t size = strlen(name) + sizeof ".new";
    char *beside = malloc(size);
    if (beside == NULL)
        return refused(name, REGTX_NO_MEMORY);
    snprintf(beside, size, "%s.new", name);
    bool is_done = write_new(beside, file);
    if (is_done && rename(beside, name) != 0) {
        is_done = failed(name);
        remove(beside);
    }
    is_done = is_done && sync_folder(beside);
    free(beside);
    return is_done;
}

static bool write_file(regtx_hive *hive, const char *name)
{
    struct bytes file = {0};
    uint32_t code = grow_bytes(&file, FIRST_ROOM);
    while (code == REGTX_OK) {
        code = regtx_hive_write(hive, file.at, file.room, &file.len);
        if (code != REGTX_NO_ROOM)
            break;
        code = grow_bytes(&file, file.len);
    }
    bool is_written = code == REGTX_OK ? replace_file(name, &file) : refused(name, code);
    free(file.at);
    return is_written;
}

/* ---- the edit */

/* What the words ask for. */
struct edit {
    const char *in, *out, *key;
    struct units path, name;
    uint32_t number;
};

/* Units of 100 nanoseconds since the year 1601, as keys have them. */
static uint64_t now(void)
{
    struct timespec time;
    clock_gettime(CLOCK_REALTIME, &time);
    return ((uint64_t)time.tv_sec + 11644473600u) * 10000000u + (uint64_t)time.tv_nsec / 100u;
}

static bool set_number(regtx_hive *hive, const struct edit *edit)
{
    uint8_t data[4];
    for (int i = 0; i < 4; i++)
        data[i] = (uint8_t)(edit->number >> 8 * i);
    uint32_t code = regtx_hive_set_value(hive, edit->path.at, edit->path.len, edit->name.at,
                                         edit->name.len, REG_DWORD, data, sizeof data, now());
    return code == REGTX_OK || refused(edit->key, code);
}

static bool carry_out(const struct edit *edit)
{
    regtx_hive hive = {0};
    bool is_done = open_file(edit->in, &hive) && print_tree(&hive, edit->in)
        && set_number(&hive, edit) && write_file(&hive, edit->out);
    regtx_hive_close(&hive);
    return is_done;
}

/* ---- words */

static bool number_of(const char *text, uint32_t *number)
{
    size_t len = strlen(text);
    if (len == 0 || len > MOST_DIGITS || strspn(text, "0123456789") != len)
        return false;
    unsigned long long read = strtoull(text, NULL, 10);
    *number = (uint32_t)read;
    return read <= UINT32_MAX;
}

int main(int count, char **words)
{
    struct edit edit = {0};
    int status = 2;
    if (count == 6 && number_of(words[5], &edit.number)) {
        edit.in = words[1];
        edit.out = words[2];
        edit.key = words[3];
        if (grow_units(&edit.path, strlen(words[3]) + 1)
            || grow_units(&edit.name, strlen(words[4]) + 1)) {
            refused(words[3], REGTX_NO_MEMORY);
            status = 1;
        } else if (units_of(words[3], &edit.path) && units_of(words[4], &edit.name))
            status = carry_out(&edit) ? 0 : 1;
    }
    if (status == 2)
        fputs("usage: hive_edit IN OUT KEY NAME NUMBER\n", stderr);
    free(edit.path.at);
    free(edit.name.at);
    return status;
}

/* A program over libregtx.a, for tests/c_library.py, which says what it is for:
 *
 *     c_library checks                          tries each call; a line for each thing that is wrong
 *     c_library readers                         threads that read one hive at once, and that edit hives of their own
 *     c_library failing FILE                    the same edits and reads with each allocation refused in turn
 *     c_library dump FILE                       prints a hive as `regtx dump` does
 *     c_library rewrite FILE NEW                opens a hive, and writes it to another file
 *     c_library heavy FILE NEW                  opens a hive over the weight; writes it without its value 0:Big v00
 *     c_library trees FILE NEW                  deletes 0:%00e4 with all below it, and writes the hive; 0:Kept stays, which has a
 *                                               key that is not to be deleted below it
 *     c_library mutate FILE SEED COUNT FOLDER   opens spoiled copies; some and their texts go to the folder
 *
 * The status is 0 if nothing is wrong.
 */
#include "regtx.h"

#include <pthread.h>
#include <stdio.h>
#include <stdlib.h>
#include <string.h>

/* ---- allocations that fail */

#ifdef __SANITIZE_THREAD__
/* gcc's ThreadSanitizer has no such calls, which the library's compiler makes */
void *__tsan_memcpy(void *to, const void *from, size_t len)
{
    return memcpy(to, from, len);
}

void *__tsan_memmove(void *to, const void *from, size_t len)
{
    return memmove(to, from, len);
}

void *__tsan_memset(void *to, int byte, size_t len)
{
    return memset(to, byte, len);
}
#endif

static long left_until_refusal = -1; /* how many are given before one is refused; negative: none is */

void *__real_malloc(size_t size);
void *__real_realloc(void *block, size_t size);

static bool is_refused(void)
{
    return left_until_refusal >= 0 && left_until_refusal-- == 0;
}

void *__wrap_malloc(size_t size)
{
    return is_refused() ? NULL : __real_malloc(size);
}

void *__wrap_realloc(void *block, size_t size)
{
    return is_refused() ? NULL : __real_realloc(block, size);
}

/* ---- texts */

struct text {
    char *at;
    size_t len, room;
};

static void *taken(void *block)
{
    if (block == NULL) {
        fputs("no memory\n", stderr);
        exit(2);
    }
    return block;
}

/* room for so many characters more */
static char *end_of(struct text *text, size_t more)
{
    if (text->len + more + 1 > text->room) {
        text->room = 2 * (text->len + more + 1);
        text->at = taken(__real_realloc(text->at, text->room));
    }
    return text->at + text->len;
}

static void add(struct text *text, const char *some)
{
    size_t more = strlen(some);
    memcpy(end_of(text, more), some, more + 1);
    text->len += more;
}

static void add_hex(struct text *text, const uint8_t *data, size_t len)
{
    char *end = end_of(text, 2 * len);
    for (size_t i = 0; i < len; i++) {
        *end++ = "0123456789abcdef"[data[i] >> 4];
        *end++ = "0123456789abcdef"[data[i] & 15];
    }
    *end = 0;
    text->len += 2 * len;
}

static bool is_same(const struct text *a, const struct text *b)
{
    return a->len == b->len && memcmp(a->at, b->at, a->len) == 0;
}

static void drop(struct text *text)
{
    free(text->at);
    *text = (struct text){0};
}

/* ---- what is wrong */

static int wrong;

static void expect(const char *what, bool is_so)
{
    if (!is_so) {
        wrong++;
        printf("%s\n", what);
    }
}

#define EXPECT(is_so) expect(#is_so, is_so)

/* ---- units */

#define MOST_UNITS 140000

struct units {
    uint16_t at[MOST_UNITS];
    size_t len;
};

static struct units *units_of(const char *ascii, struct units *units)
{
    units->len = strlen(ascii);
    for (size_t i = 0; i < units->len; i++)
        units->at[i] = (unsigned char)ascii[i];
    return units;
}

static struct units path_units, name_units;

/* the pointer and the length of a path, and of a name, which is another buffer */
#define PATH(ascii) units_of(ascii, &path_units)->at, strlen(ascii)
#define NAME(ascii) units_of(ascii, &name_units)->at, strlen(ascii)

/* ---- a hive as text */

static void add_name(struct text *text, const uint16_t *name, size_t len)
{
    char some[8];
    if (len == 0 || (len == 1 && name[0] == '@')) {
        add(text, len == 0 ? "@" : "%0040");
        return;
    }
    for (size_t i = 0; i < len; i++) {
        bool is_plain = name[i] >= 33 && name[i] <= 126 && name[i] != '%';
        snprintf(some, sizeof some, is_plain ? "%c" : "%%%04x", name[i]);
        add(text, some);
    }
}

/* the units of a name that a call hands out, in a block of just their length */
static uint16_t *name_at(regtx_hive *hive, const struct units *path, size_t index, bool of_value, size_t *len)
{
    uint16_t none[1] = {7};
    uint32_t (*call)(regtx_hive *, const uint16_t *, size_t, size_t, uint16_t *, size_t, size_t *) =
        of_value ? regtx_hive_value_name_at : regtx_hive_key_at;
    uint32_t code = call(hive, path->at, path->len, index, none, 0, len);
    uint16_t *name = taken(__real_malloc(*len ? 2 * *len : 1));
    expect("a name without room", code == (*len ? REGTX_NO_ROOM : REGTX_OK) && none[0] == 7);
    expect("a name", call(hive, path->at, path->len, index, name, *len, len) == REGTX_OK);
    return name;
}

static void add_value(struct text *text, regtx_hive *hive, const struct units *path, size_t index)
{
    char some[32];
    uint8_t none[1];
    uint32_t type = 0;
    size_t name_len, len;
    uint16_t *name = name_at(hive, path, index, true, &name_len);
    uint32_t code = regtx_hive_value_at(hive, path->at, path->len, index, &type, none, 0, &len);
    uint8_t *data = taken(__real_malloc(len ? len : 1));
    expect("data without room", code == (len ? REGTX_NO_ROOM : REGTX_OK));
    code = regtx_hive_value_at(hive, path->at, path->len, index, &type, data, len, &len);
    expect("data", code == REGTX_OK);
    add(text, "val ");
    add_name(text, name, name_len);
    snprintf(some, sizeof some, " %u %s", type, len ? "" : "-");
    add(text, some);
    add_hex(text, data, len);
    add(text, "\n");
    free(name);
    free(data);
}

/* adds the key at a path and all below it */
static void add_key(struct text *text, regtx_hive *hive, struct units *path)
{
    char some[32];
    regtx_info info;
    size_t before = path->len;
    expect("a key that is listed", regtx_hive_info(hive, path->at, path->len, &info) == REGTX_OK);
    add(text, "key 0:");
    if (before)
        for (size_t from = 0, i = 0; i <= before; i++)
            if (i == before || path->at[i] == '\\') {
                add_name(text, path->at + from, i - from);
                add(text, i == before ? "" : "\\");
                from = i + 1;
            }
    snprintf(some, sizeof some, " %llu\n", (unsigned long long)info.time);
    add(text, some);
    for (size_t i = 0; i < info.values; i++)
        add_value(text, hive, path, i);
    for (size_t i = 0; i < info.subkeys; i++) {
        size_t len;
        uint16_t *name = name_at(hive, path, i, false, &len);
        if (before + 1 + len > MOST_UNITS)
            exit(2);
        path->len = before + (before ? 1 : 0);
        if (before)
            path->at[before] = '\\';
        memcpy(path->at + path->len, name, 2 * len);
        path->len += len;
        add_key(text, hive, path);
        path->len = before;
        free(name);
    }
}

/* the same of the value at an index of a cursor's key, in one call */
static void add_cursor_value(struct text *text, regtx_cursor *cursor, size_t index)
{
    char some[32];
    regtx_value value = {9, 9, 9};
    uint32_t code = regtx_cursor_value(cursor, index, &value, NULL, 0, NULL, 0);
    expect("a cursor's value without room", code == (value.name_len + value.len ? REGTX_NO_ROOM : REGTX_OK));
    size_t name_len = value.name_len, len = value.len;
    uint16_t *name = taken(__real_malloc(name_len ? 2 * name_len : 1));
    uint8_t *data = taken(__real_malloc(len ? len : 1));
    if (len)
        expect("too little room for data", regtx_cursor_value(cursor, index, &value, name, name_len, data, len - 1) == REGTX_NO_ROOM);
    if (name_len)
        expect("too little room for a name", regtx_cursor_value(cursor, index, &value, name, name_len - 1, data, len) == REGTX_NO_ROOM);
    code = regtx_cursor_value(cursor, index, &value, name, name_len, data, len);
    expect("a cursor's value", code == REGTX_OK && value.name_len == name_len && value.len == len);
    add(text, "val ");
    add_name(text, name, name_len);
    snprintf(some, sizeof some, " %u %s", value.type, len ? "" : "-");
    add(text, some);
    add_hex(text, data, len);
    add(text, "\n");
    free(name);
    free(data);
}

/* the same of a cursor's key, to which a path leads, and all below it; the cursor is there again afterwards */
static void add_cursor_key(struct text *text, regtx_cursor *cursor, const struct text *path)
{
    char some[32];
    regtx_info info;
    regtx_value none;
    size_t stepped = 0, len;
    expect("a cursor's key", regtx_cursor_key(cursor, &info, name_units.at, MOST_UNITS, &len) == REGTX_OK);
    add(text, "key 0:");
    add(text, path->at);
    snprintf(some, sizeof some, " %llu\n", (unsigned long long)info.time);
    add(text, some);
    for (size_t i = 0; i < info.values; i++)
        add_cursor_value(text, cursor, i);
    expect("past the last value", regtx_cursor_value(cursor, info.values, &none, NULL, 0, NULL, 0) == REGTX_NOT_FOUND);
    uint32_t code = regtx_cursor_down(cursor);
    for (; code == REGTX_OK; code = regtx_cursor_next(cursor), stepped++) {
        regtx_info below;
        struct text further = {0};
        expect("a subkey's name", regtx_cursor_key(cursor, &below, name_units.at, MOST_UNITS, &len) == REGTX_OK);
        add(&further, path->at);
        if (path->len)
            add(&further, "\\");
        add_name(&further, name_units.at, len);
        add_cursor_key(text, cursor, &further);
        drop(&further);
    }
    expect("the last subkey", code == REGTX_NOT_FOUND && stepped == info.subkeys);
    if (stepped)
        expect("the key above", regtx_cursor_up(cursor) == REGTX_OK);
}

/* the hive as a cursor at its root tells it */
static struct text text_by_cursor(regtx_cursor *cursor)
{
    struct text text = {0}, path = {0};
    add(&text, "hive 0\n");
    add(&path, "");
    add_cursor_key(&text, cursor, &path);
    expect("the root", regtx_cursor_up(cursor) == REGTX_NOT_FOUND && regtx_cursor_next(cursor) == REGTX_NOT_FOUND);
    drop(&path);
    return text;
}

/* the hive as calls with paths tell it, which a cursor tells too */
static struct text text_of(regtx_hive *hive)
{
    static struct units path;
    regtx_cursor cursor = {0};
    struct text text = {0};
    path.len = 0;
    add(&text, "hive 0\n");
    add_key(&text, hive, &path);
    EXPECT(regtx_cursor_open(hive, NULL, 0, &cursor) == REGTX_OK);
    struct text same = text_by_cursor(&cursor);
    EXPECT(is_same(&text, &same));
    drop(&same);
    regtx_cursor_close(&cursor);
    return text;
}

static struct text text_of_code(uint32_t code)
{
    uint8_t some[65] = {0};
    size_t len = 0;
    struct text text = {0};
    EXPECT(regtx_text(code, some, 64, &len) == REGTX_OK && len <= 64);
    add(&text, (char *)some);
    return text;
}

/* ---- files */

static uint8_t *file_bytes(const char *name, size_t *len)
{
    FILE *file = fopen(name, "rb");
    uint8_t *bytes = taken(__real_malloc(1 << 26));
    *len = file ? fread(bytes, 1, 1 << 26, file) : 0;
    if (file == NULL || fclose(file) != 0)
        exit(2);
    return taken(__real_realloc(bytes, *len ? *len : 1));
}

static void put_file(const char *folder, const char *name, const void *bytes, size_t len)
{
    char path[4096];
    snprintf(path, sizeof path, "%s%s%s", folder, *folder ? "/" : "", name);
    FILE *file = fopen(path, "wb");
    if (file == NULL || fwrite(bytes, 1, len, file) != len || fclose(file) != 0)
        exit(2);
}

/* the bytes of a whole file, in a block of just their length */
static uint8_t *written(regtx_hive *hive, size_t *len)
{
    uint8_t none[1] = {7};
    EXPECT(regtx_hive_write(hive, none, 0, len) == REGTX_NO_ROOM && none[0] == 7 && *len % 4096 == 0);
    uint8_t *bytes = taken(__real_malloc(*len));
    EXPECT(regtx_hive_write(hive, bytes, *len, len) == REGTX_OK);
    return bytes;
}

/* whether a hive that is written and opened again is the same */
static void expect_written(const char *what, regtx_hive *hive)
{
    size_t len;
    regtx_hive again = {0};
    uint8_t *bytes = written(hive, &len);
    uint32_t code = regtx_hive_open(bytes, len, &again);
    free(bytes);
    struct text before = text_of(hive), after = text_of(&again);
    expect(what, code == REGTX_OK && is_same(&before, &after));
    drop(&before);
    drop(&after);
    regtx_hive_close(&again);
}

/* ---- checks */

/* a call that is refused, and the hive stays */
static void expect_refused(const char *what, uint32_t code, uint32_t wanted, regtx_hive *hive, const struct text *before)
{
    struct text after = text_of(hive);
    if (code != wanted)
        printf("%u for %u: ", code, wanted);
    expect(what, code == wanted && is_same(before, &after));
    drop(&after);
}

#define REFUSED(wanted, call) expect_refused(#call, call, wanted, &hive, &before)

static void check_closed(void)
{
    regtx_hive hive = {0};
    regtx_info info = {1, 2, 3};
    uint16_t unit[1];
    uint8_t byte[1];
    uint32_t type;
    size_t len = 5;
    regtx_hive_close(&hive);
    regtx_hive_close(&hive);
    EXPECT(regtx_hive_info(&hive, PATH(""), &info) == REGTX_NOT_OPEN && info.values == 2);
    EXPECT(regtx_hive_key_at(&hive, PATH(""), 0, unit, 1, &len) == REGTX_NOT_OPEN && len == 5);
    EXPECT(regtx_hive_value_name_at(&hive, PATH(""), 0, unit, 1, &len) == REGTX_NOT_OPEN && len == 5);
    EXPECT(regtx_hive_value_at(&hive, PATH(""), 0, &type, byte, 1, &len) == REGTX_NOT_OPEN && len == 5);
    EXPECT(regtx_hive_value(&hive, PATH(""), NAME(""), &type, byte, 1, &len) == REGTX_NOT_OPEN && len == 5);
    EXPECT(regtx_hive_create_key(&hive, PATH("A"), 1, &len) == REGTX_NOT_OPEN && len == 5);
    EXPECT(regtx_hive_delete_key(&hive, PATH("A"), 1) == REGTX_NOT_OPEN);
    EXPECT(regtx_hive_delete_tree(&hive, PATH("A"), 1) == REGTX_NOT_OPEN);
    EXPECT(regtx_hive_set_value(&hive, PATH("A"), NAME("v"), 1, byte, 0, 1) == REGTX_NOT_OPEN);
    EXPECT(regtx_hive_delete_value(&hive, PATH("A"), NAME("v"), 1) == REGTX_NOT_OPEN);
    EXPECT(regtx_hive_write(&hive, byte, 0, &len) == REGTX_NOT_OPEN && len == 5);
}

static void check_keys(void)
{
    regtx_hive hive = {0};
    regtx_info info;
    size_t made = 9;
    EXPECT(regtx_hive_new(&hive) == REGTX_OK);
    EXPECT(regtx_hive_info(&hive, PATH(""), &info) == REGTX_OK && info.subkeys + info.values + info.time == 0);
    EXPECT(regtx_hive_create_key(&hive, PATH("Software\\Vendor"), 7, &made) == REGTX_OK && made == 2);
    EXPECT(regtx_hive_create_key(&hive, PATH("SOFTWARE\\vendor"), 8, &made) == REGTX_OK && made == 0);
    EXPECT(regtx_hive_info(&hive, PATH("software"), &info) == REGTX_OK && info.subkeys == 1 && info.time == 7);
    struct text before = text_of(&hive);
    EXPECT(strcmp(before.at, "hive 0\nkey 0: 7\nkey 0:Software 7\nkey 0:Software\\Vendor 7\n") == 0);
    REFUSED(REGTX_NOT_FOUND, regtx_hive_info(&hive, PATH("None"), &info));
    REFUSED(REGTX_NOT_FOUND, regtx_hive_key_at(&hive, PATH(""), 1, name_units.at, 9, &made));
    REFUSED(REGTX_BAD_NAME, regtx_hive_info(&hive, PATH("A\\\\B"), &info));
    REFUSED(REGTX_BAD_NAME, regtx_hive_info(&hive, PATH("Software\\"), &info));
    REFUSED(REGTX_NOT_FOUND, regtx_hive_info(&hive, PATH("A\x7f"), &info));
    REFUSED(REGTX_BAD_NAME, regtx_hive_create_key(&hive, PATH("\\A"), 9, &made));
    REFUSED(REGTX_BAD_NAME, regtx_hive_create_key(&hive, PATH("A\x7f"), 9, &made));
    REFUSED(REGTX_FIXED, regtx_hive_delete_key(&hive, PATH(""), 9));
    REFUSED(REGTX_HAS_SUBKEYS, regtx_hive_delete_key(&hive, PATH("Software"), 9));
    REFUSED(REGTX_NOT_FOUND, regtx_hive_delete_key(&hive, PATH("Software\\A"), 9));
    drop(&before);
    expect_written("keys", &hive);
    EXPECT(regtx_hive_delete_key(&hive, PATH("SOFTWARE\\VENDOR"), 10) == REGTX_OK);
    EXPECT(regtx_hive_info(&hive, PATH("Software"), &info) == REGTX_OK && info.subkeys == 0 && info.time == 10);
    regtx_hive_close(&hive);
}

/* what a new hive's keys have beside names, times and values; a made key has the descriptor of the one above */
static void check_fields(void)
{
    static const uint8_t shortest[20] = {1, 0, 0, 0x80};
    static const uint8_t untouched[32] = {0};
    regtx_hive hive = {0};
    uint8_t bytes[32] = {0};
    uint16_t flags = 9;
    size_t len = 9;
    EXPECT(regtx_hive_flags(&hive, PATH(""), &flags) == REGTX_NOT_OPEN && flags == 9);
    EXPECT(regtx_hive_class(&hive, PATH(""), bytes, 32, &len) == REGTX_NOT_OPEN && len == 9);
    EXPECT(regtx_hive_descriptor(&hive, PATH(""), bytes, 32, &len) == REGTX_NOT_OPEN && len == 9);
    EXPECT(regtx_hive_new(&hive) == REGTX_OK && regtx_hive_create_key(&hive, PATH("A"), 1, &len) == REGTX_OK);
    struct text before = text_of(&hive);
    REFUSED(REGTX_NOT_FOUND, regtx_hive_flags(&hive, PATH("None"), &flags));
    REFUSED(REGTX_BAD_NAME, regtx_hive_class(&hive, PATH("A\\"), bytes, 32, &len));
    REFUSED(REGTX_NOT_FOUND, regtx_hive_descriptor(&hive, PATH("A\\B"), bytes, 32, &len));
    drop(&before);
    EXPECT(flags == 9 && len == 1);
    EXPECT(regtx_hive_flags(&hive, PATH(""), &flags) == REGTX_OK && flags == 0x0c);
    EXPECT(regtx_hive_flags(&hive, PATH("a"), &flags) == REGTX_OK && flags == 0);
    EXPECT(regtx_hive_class(&hive, NULL, 0, NULL, 0, &len) == REGTX_OK && len == 0);
    EXPECT(regtx_hive_descriptor(&hive, PATH("a"), bytes, 19, &len) == REGTX_NO_ROOM && len == 20);
    EXPECT(memcmp(bytes, untouched, 32) == 0);
    EXPECT(regtx_hive_descriptor(&hive, PATH("a"), bytes, 20, &len) == REGTX_OK && len == 20);
    EXPECT(memcmp(bytes, shortest, 20) == 0);
    regtx_hive_close(&hive);
}

static void check_trees(void)
{
    static const char *const keys[] = {"A\\B\\C\\D", "A\\B\\E", "A\\F", "AA\\B", "G\\A\\B"};
    regtx_hive hive = {0};
    size_t made;
    EXPECT(regtx_hive_new(&hive) == REGTX_OK);
    for (size_t i = 0; i < sizeof keys / sizeof *keys; i++)
        EXPECT(regtx_hive_create_key(&hive, PATH(keys[i]), 1, &made) == REGTX_OK);
    EXPECT(regtx_hive_set_value(&hive, PATH("A\\B"), NAME("v"), 3, (const uint8_t *)"1", 1, 2) == REGTX_OK);
    struct text before = text_of(&hive);
    REFUSED(REGTX_FIXED, regtx_hive_delete_tree(&hive, PATH(""), 9));
    REFUSED(REGTX_NOT_FOUND, regtx_hive_delete_tree(&hive, PATH("B"), 9));
    REFUSED(REGTX_NOT_FOUND, regtx_hive_delete_tree(&hive, PATH("A\\B\\F"), 9));
    REFUSED(REGTX_NOT_FOUND, regtx_hive_delete_tree(&hive, PATH("B\\F"), 9));
    REFUSED(REGTX_NOT_FOUND, regtx_hive_delete_tree(&hive, PATH("\x7f"), 9));
    REFUSED(REGTX_BAD_NAME, regtx_hive_delete_tree(&hive, PATH("A\\"), 9));
    drop(&before);
    EXPECT(regtx_hive_delete_tree(&hive, PATH("a\\b"), 3) == REGTX_OK);
    struct text after = text_of(&hive);
    EXPECT(strcmp(after.at, "hive 0\nkey 0: 1\nkey 0:A 3\nkey 0:A\\F 1\nkey 0:AA 1\nkey 0:AA\\B 1\n"
                            "key 0:G 1\nkey 0:G\\A 1\nkey 0:G\\A\\B 1\n") == 0);
    drop(&after);
    expect_written("a hive without a tree", &hive);
    EXPECT(regtx_hive_delete_tree(&hive, PATH("A\\F"), 4) == REGTX_OK);
    EXPECT(regtx_hive_delete_tree(&hive, PATH("A"), 5) == REGTX_OK);
    EXPECT(regtx_hive_delete_tree(&hive, PATH("AA"), 6) == REGTX_OK);
    EXPECT(regtx_hive_delete_tree(&hive, PATH("G"), 7) == REGTX_OK);
    after = text_of(&hive);
    EXPECT(strcmp(after.at, "hive 0\nkey 0: 7\n") == 0);
    drop(&after);
    regtx_hive_close(&hive);
}

/* a path of so many keys, each named by a letter */
static const uint16_t *deep_path(size_t names, size_t *len)
{
    *len = 2 * names - 1;
    for (size_t i = 0; i < *len; i++)
        path_units.at[i] = i % 2 ? '\\' : 'K';
    return path_units.at;
}

static void check_depth(void)
{
    regtx_hive hive = {0};
    regtx_info info;
    size_t made = 0, len;
    const uint16_t *path;
    EXPECT(regtx_hive_new(&hive) == REGTX_OK);
    struct text before = text_of(&hive);
    path = deep_path(33, &len);
    REFUSED(REGTX_TOO_DEEP, regtx_hive_create_key(&hive, path, len, 1, &made));
    path = deep_path(513, &len);
    REFUSED(REGTX_TOO_DEEP, regtx_hive_create_key(&hive, path, len, 1, &made));
    REFUSED(REGTX_TOO_DEEP, regtx_hive_info(&hive, path, len, &info));
    path = deep_path(512, &len);
    REFUSED(REGTX_NOT_FOUND, regtx_hive_info(&hive, path, len, &info));
    for (size_t names = 32; names <= 512; names += 32) {
        path = deep_path(names, &len);
        EXPECT(regtx_hive_create_key(&hive, path, len, 1, &made) == REGTX_OK && made == 32);
    }
    drop(&before);
    expect_written("512 levels", &hive);
    regtx_hive_close(&hive);
}

static void check_values(void)
{
    regtx_hive hive = {0};
    uint8_t data[8];
    uint32_t type = 9;
    size_t len = 0;
    memset(data, 7, 8);
    EXPECT(regtx_hive_new(&hive) == REGTX_OK);
    EXPECT(regtx_hive_set_value(&hive, PATH(""), NAME("Version"), 1, (const uint8_t *)"1.0", 3, 5) == REGTX_OK);
    EXPECT(regtx_hive_set_value(&hive, PATH(""), NAME("VERSION"), 3, (const uint8_t *)"2.00", 4, 6) == REGTX_OK);
    EXPECT(regtx_hive_set_value(&hive, PATH(""), NAME(""), 4, data, 0, 6) == REGTX_OK);
    EXPECT(regtx_hive_value(&hive, PATH(""), NAME("version"), &type, data, 3, &len) == REGTX_NO_ROOM);
    EXPECT(type == 3 && len == 4 && data[0] == 7);
    EXPECT(regtx_hive_value(&hive, PATH(""), NAME("version"), &type, data, 8, &len) == REGTX_OK);
    EXPECT(len == 4 && memcmp(data, "2.00\7\7\7\7", 8) == 0);
    struct text before = text_of(&hive);
    EXPECT(strcmp(before.at, "hive 0\nkey 0: 6\nval @ 4 -\nval Version 3 322e3030\n") == 0);
    REFUSED(REGTX_NOT_FOUND, regtx_hive_value(&hive, PATH(""), NAME("None"), &type, data, 8, &len));
    REFUSED(REGTX_NOT_FOUND, regtx_hive_value(&hive, PATH("K"), NAME("Version"), &type, data, 8, &len));
    REFUSED(REGTX_NOT_FOUND, regtx_hive_value_at(&hive, PATH(""), 2, &type, data, 8, &len));
    REFUSED(REGTX_NOT_FOUND, regtx_hive_value_name_at(&hive, PATH(""), (size_t)-1, name_units.at, 9, &len));
    REFUSED(REGTX_NOT_FOUND, regtx_hive_value(&hive, PATH(""), NAME("\x1f"), &type, data, 8, &len));
    REFUSED(REGTX_BAD_NAME, regtx_hive_set_value(&hive, PATH(""), NAME("\n"), 1, data, 8, 9));
    REFUSED(REGTX_NOT_FOUND, regtx_hive_set_value(&hive, PATH("K"), NAME("v"), 1, data, 8, 9));
    REFUSED(REGTX_NOT_FOUND, regtx_hive_delete_value(&hive, PATH(""), NAME("None"), 9));
    EXPECT(type == 3 && len == 4);
    drop(&before);
    expect_written("values", &hive);
    EXPECT(regtx_hive_delete_value(&hive, PATH(""), NAME("vERSION"), 9) == REGTX_OK);
    EXPECT(regtx_hive_value_at(&hive, PATH(""), 1, &type, data, 8, &len) == REGTX_NOT_FOUND);
    regtx_hive_close(&hive);
}

static void check_sizes(void)
{
    regtx_hive hive = {0};
    uint8_t *data = taken(calloc(1048577, 1));
    char name[8] = "0";
    EXPECT(regtx_hive_new(&hive) == REGTX_OK);
    struct text before = text_of(&hive);
    REFUSED(REGTX_TOO_LARGE, regtx_hive_set_value(&hive, PATH(""), NAME("v"), 3, data, 1048577, 9));
    drop(&before);
    for (; name[0] < '?'; name[0]++)
        EXPECT(regtx_hive_set_value(&hive, PATH(""), NAME(name), 3, data, 1048576, 9) == REGTX_OK);
    before = text_of(&hive);
    REFUSED(REGTX_TOO_LARGE, regtx_hive_set_value(&hive, PATH(""), NAME(name), 3, data, 1048576, 9));
    drop(&before);
    expect_written("15 MiB", &hive);
    free(data);
    regtx_hive_close(&hive);
}

static void check_files(void)
{
    regtx_hive hive = {0}, other = {0};
    size_t len, again_len, told;
    EXPECT(regtx_hive_new(&hive) == REGTX_OK && regtx_hive_new(&other) == REGTX_OK);
    EXPECT(regtx_hive_create_key(&hive, PATH("A b"), 1, &len) == REGTX_OK);
    uint8_t *bytes = written(&hive, &len), *again = written(&hive, &again_len);
    EXPECT(len == again_len && memcmp(bytes, again, len) == 0 && memcmp(bytes, "regf", 4) == 0);
    memset(again, 7, len);
    EXPECT(regtx_hive_write(&hive, again, len - 1, &told) == REGTX_NO_ROOM && told == len);
    EXPECT(again[0] == 7 && memcmp(again, again + 1, len - 1) == 0);
    struct text before = text_of(&hive), fresh = text_of(&other);
    EXPECT(!is_same(&before, &fresh));
    REFUSED(REGTX_TRUNCATED, regtx_hive_open(bytes, 4, &hive));
    REFUSED(REGTX_TRUNCATED, regtx_hive_open(bytes, len - 1, &hive));
    REFUSED(REGTX_BAD_BASE, regtx_hive_open(again, len, &hive));
    bytes[4]++;
    REFUSED(REGTX_NOT_CLEAN, regtx_hive_open(bytes, len, &hive));
    bytes[4]--;
    /* a hive that was closed is opened, whatever its logs are; bytes that are none are refused */
    regtx_log logs[2] = {{bytes, len}, {again, 3}};
    REFUSED(REGTX_TRUNCATED, regtx_hive_recover(bytes, 4, logs, 2, &hive));
    REFUSED(REGTX_BAD_BASE, regtx_hive_recover(again, len, logs, 2, &hive));
    EXPECT(regtx_hive_recover(bytes, len, logs, 2, &other) == REGTX_OK);
    EXPECT(regtx_hive_recover(bytes, len, NULL, 0, &other) == REGTX_OK);
    EXPECT(regtx_hive_open(bytes, len, &other) == REGTX_OK);
    regtx_hive_close(&hive);
    struct text opened = text_of(&other);
    EXPECT(is_same(&opened, &before));
    drop(&opened);
    drop(&before);
    drop(&fresh);
    free(bytes);
    free(again);
    regtx_hive_close(&other);
}

/* a name that is told, in a buffer of just its length and in shorter ones; and which numbers are damage */
static void expect_name(uint32_t code, const char *name, bool is_damage)
{
    uint8_t some[33] = {0}, none[33] = {0};
    size_t len = 99, told = 99;
    expect(name, regtx_code_name(code, some, strlen(name), &len) == REGTX_OK && len == strlen(name) && strcmp((char *)some, name) == 0);
    if (len != 0)
        expect(name, regtx_code_name(code, none, len - 1, &told) == REGTX_NO_ROOM && told == len && none[0] == 0);
    expect(name, regtx_is_damage(code) == is_damage);
}

static void check_names(void)
{
    bool is_proved = false, is_told = true;
    expect_name(REGTX_OK, "REGTX_OK", false);
    expect_name(REGTX_NO_MEMORY, "REGTX_NO_MEMORY", false);
    expect_name(REGTX_NOT_FOUND, "REGTX_NOT_FOUND", false);
    expect_name(REGTX_HIVE_DAMAGED, "REGTX_HIVE_DAMAGED", false);
    expect_name(REGTX_FIXED, "REGTX_FIXED", false);
    expect_name(REGTX_NOT_OPEN, "REGTX_NOT_OPEN", false);
    expect_name(REGTX_NO_ROOM, "REGTX_NO_ROOM", false);
    expect_name(REGTX_TRUNCATED, "REGTX_TRUNCATED", true);
    expect_name(REGTX_BAD_STORED_NAME, "REGTX_BAD_STORED_NAME", true);
    expect_name(REGTX_NOT_CLEAN, "REGTX_NOT_CLEAN", true);
    expect_name(REGTX_HIVE_TOO_LARGE, "REGTX_HIVE_TOO_LARGE", true);
    expect_name(19, "", false);
    expect_name(1500, "", false);
    expect_name(1514, "", false);
    expect_name((uint32_t)-1, "", false);
    EXPECT(regtx_version(&is_proved) == REGTX_VERSION && regtx_version(&is_told) == REGTX_VERSION && is_proved == is_told);
}

/* null pointers with a length or a room of 0 */
static void check_null(void)
{
    regtx_hive hive = {0};
    regtx_info info;
    uint32_t type = 9;
    size_t len = 9;
    EXPECT(regtx_hive_open(NULL, 0, &hive) == REGTX_TRUNCATED);
    EXPECT(regtx_hive_recover(NULL, 0, NULL, 0, &hive) == REGTX_TRUNCATED);
    EXPECT(regtx_hive_new(&hive) == REGTX_OK);
    EXPECT(regtx_hive_info(&hive, NULL, 0, &info) == REGTX_OK && info.subkeys == 0);
    EXPECT(regtx_hive_create_key(&hive, NULL, 0, 1, &len) == REGTX_OK && len == 0);
    EXPECT(regtx_hive_create_key(&hive, PATH("K"), 1, &len) == REGTX_OK && len == 1);
    EXPECT(regtx_hive_set_value(&hive, NULL, 0, NULL, 0, 7, NULL, 0, 2) == REGTX_OK);
    EXPECT(regtx_hive_value(&hive, NULL, 0, NULL, 0, &type, NULL, 0, &len) == REGTX_OK && type == 7 && len == 0);
    EXPECT(regtx_hive_value_name_at(&hive, NULL, 0, 0, NULL, 0, &len) == REGTX_OK && len == 0);
    EXPECT(regtx_hive_value_at(&hive, NULL, 0, 0, &type, NULL, 0, &len) == REGTX_OK && len == 0);
    EXPECT(regtx_hive_key_at(&hive, NULL, 0, 0, NULL, 0, &len) == REGTX_NO_ROOM && len == 1);
    EXPECT(regtx_hive_delete_value(&hive, NULL, 0, NULL, 0, 3) == REGTX_OK);
    EXPECT(regtx_hive_delete_key(&hive, NULL, 0, 4) == REGTX_FIXED);
    EXPECT(regtx_hive_delete_tree(&hive, NULL, 0, 4) == REGTX_FIXED);
    EXPECT(regtx_hive_write(&hive, NULL, 0, &len) == REGTX_NO_ROOM && len == 4096 + 4096);
    EXPECT(regtx_text(REGTX_NOT_FOUND, NULL, 0, &len) == REGTX_NO_ROOM && len == 11);
    EXPECT(regtx_code_name(REGTX_NOT_FOUND, NULL, 0, &len) == REGTX_NO_ROOM && len == 15);
    EXPECT(regtx_code_name(19, NULL, 0, &len) == REGTX_OK && len == 0);
    regtx_hive_close(&hive);
}

/* what a cursor's key has, if its name is this one */
static bool is_at(regtx_cursor *cursor, const char *name, uint64_t subkeys, uint64_t values, uint64_t time)
{
    regtx_info info;
    uint16_t units[32];
    size_t len;
    bool is_so = regtx_cursor_key(cursor, &info, units, 32, &len) == REGTX_OK && len == strlen(name);
    for (size_t i = 0; is_so && i < len; i++)
        is_so = units[i] == (unsigned char)name[i];
    return is_so && info.subkeys == subkeys && info.values == values && info.time == time;
}

static void check_closed_cursor(void)
{
    regtx_hive hive = {0};
    regtx_cursor cursor = {0};
    regtx_info info = {1, 2, 3};
    regtx_value value = {4, 5, 6};
    size_t len = 5;
    regtx_cursor_close(&cursor);
    EXPECT(regtx_cursor_open(&hive, PATH(""), &cursor) == REGTX_NOT_OPEN);
    EXPECT(regtx_cursor_down(&cursor) == REGTX_NOT_OPEN && regtx_cursor_next(&cursor) == REGTX_NOT_OPEN);
    EXPECT(regtx_cursor_up(&cursor) == REGTX_NOT_OPEN);
    EXPECT(regtx_cursor_key(&cursor, &info, NULL, 0, &len) == REGTX_NOT_OPEN && info.values == 2 && len == 5);
    EXPECT(regtx_cursor_value(&cursor, 0, &value, NULL, 0, NULL, 0) == REGTX_NOT_OPEN && value.name_len == 5);
}

/* a cursor sees the hive as it was when it was opened, at a key and below it */
static void check_cursors(void)
{
    regtx_hive hive = {0};
    regtx_cursor cursor = {0}, late = {0};
    regtx_info info = {1, 2, 3};
    regtx_value value = {4, 5, 6};
    uint16_t units[8] = {7};
    uint8_t bytes[8] = {7};
    size_t made, len = 9;
    EXPECT(regtx_hive_new(&hive) == REGTX_OK);
    EXPECT(regtx_hive_create_key(&hive, PATH("A\\Bb\\C"), 1, &made) == REGTX_OK);
    EXPECT(regtx_hive_create_key(&hive, PATH("A\\D"), 2, &made) == REGTX_OK);
    EXPECT(regtx_hive_create_key(&hive, PATH("E"), 3, &made) == REGTX_OK);
    EXPECT(regtx_hive_set_value(&hive, PATH("A\\D"), NAME("Nm"), 4, (const uint8_t *)"data", 4, 5) == REGTX_OK);
    EXPECT(regtx_cursor_open(&hive, PATH("a"), &cursor) == REGTX_OK && is_at(&cursor, "A", 2, 0, 2));
    EXPECT(regtx_cursor_open(&hive, PATH("None"), &cursor) == REGTX_NOT_FOUND && is_at(&cursor, "A", 2, 0, 2));
    EXPECT(regtx_cursor_open(&hive, PATH("A\\\\B"), &cursor) == REGTX_BAD_NAME && is_at(&cursor, "A", 2, 0, 2));
    EXPECT(regtx_cursor_open(&hive, path_units.at, 1030, &cursor) == REGTX_BAD_NAME && is_at(&cursor, "A", 2, 0, 2));
    EXPECT(regtx_cursor_up(&cursor) == REGTX_NOT_FOUND && regtx_cursor_next(&cursor) == REGTX_NOT_FOUND);
    EXPECT(is_at(&cursor, "A", 2, 0, 2));
    EXPECT(regtx_cursor_down(&cursor) == REGTX_OK && is_at(&cursor, "Bb", 1, 0, 1));
    EXPECT(regtx_cursor_key(&cursor, &info, units, 1, &len) == REGTX_NO_ROOM && len == 2 && info.subkeys == 1 && units[0] == 7);
    EXPECT(regtx_cursor_down(&cursor) == REGTX_OK && is_at(&cursor, "C", 0, 0, 1));
    EXPECT(regtx_cursor_down(&cursor) == REGTX_NOT_FOUND && regtx_cursor_next(&cursor) == REGTX_NOT_FOUND);
    EXPECT(is_at(&cursor, "C", 0, 0, 1) && regtx_cursor_up(&cursor) == REGTX_OK && is_at(&cursor, "Bb", 1, 0, 1));
    EXPECT(regtx_hive_delete_tree(&hive, PATH("A"), 9) == REGTX_OK);
    EXPECT(regtx_cursor_open(&hive, PATH(""), &late) == REGTX_OK && is_at(&late, "ROOT", 1, 0, 9));
    regtx_hive_close(&hive);
    EXPECT(regtx_cursor_next(&cursor) == REGTX_OK && is_at(&cursor, "D", 0, 1, 5));
    EXPECT(regtx_cursor_value(&cursor, 1, &value, units, 8, bytes, 8) == REGTX_NOT_FOUND && value.type == 4 && value.len == 6);
    EXPECT(regtx_cursor_value(&cursor, 0, &value, units, 1, bytes, 8) == REGTX_NO_ROOM && units[0] == 7 && bytes[0] == 7);
    EXPECT(value.type == 4 && value.name_len == 2 && value.len == 4);
    EXPECT(regtx_cursor_value(&cursor, 0, &value, units, 8, bytes, 3) == REGTX_NO_ROOM && units[0] == 7 && bytes[0] == 7);
    EXPECT(regtx_cursor_value(&cursor, 0, &value, units, 2, bytes, 4) == REGTX_OK && units[1] == 'm' && bytes[4] == 0);
    EXPECT(memcmp(bytes, "data", 4) == 0 && regtx_cursor_next(&cursor) == REGTX_NOT_FOUND);
    EXPECT(regtx_cursor_up(&cursor) == REGTX_OK && is_at(&cursor, "A", 2, 0, 2));
    EXPECT(regtx_cursor_down(&late) == REGTX_OK && is_at(&late, "E", 0, 0, 3) && regtx_cursor_next(&late) == REGTX_NOT_FOUND);
    regtx_cursor_close(&cursor);
    regtx_cursor_close(&cursor);
    regtx_cursor_close(&late);
}

static void check_texts(void)
{
    static const struct {
        uint32_t code;
        const char *text;
    } texts[] = {
        {0, "ok"}, {1, "E1 NoMemory"}, {2, "E2 NotFound"}, {3, "E3 HasSubkeys"}, {4, "E4 BadName"}, {5, "E5 TooDeep"},
        {6, "E6 TooLarge"}, {15, "no such code"}, {17, "E17 Unsupported"}, {18, "E18 Fixed"}, {19, "no such code"},
        {100, "no hive is open"}, {101, "the buffer is too small"}, {1501, "E15 HiveDamaged 0 Truncated"},
        {1508, "E15 HiveDamaged 0 BadName"}, {1511, "E15 HiveDamaged 0 NotClean"}, {1514, "no such code"},
    };
    uint8_t some[4] = {7};
    size_t len;
    for (size_t i = 0; i < sizeof texts / sizeof *texts; i++) {
        struct text text = text_of_code(texts[i].code);
        expect(texts[i].text, strcmp(text.at, texts[i].text) == 0);
        drop(&text);
    }
    EXPECT(regtx_text(REGTX_NOT_FOUND, some, 4, &len) == REGTX_NO_ROOM && len == 11 && some[0] == 7);
}

/* ---- threads */

/* edits a hive that the thread is given, without the buffers that the other checks share */
static void *on_thread(void *given)
{
    static const uint16_t keys[] = {'K', '\\', 'L'};
    regtx_hive *hive = given;
    size_t made, failed = 0;
    for (uint8_t round = 0; round < 200; round++) {
        failed += regtx_hive_create_key(hive, keys, 3, round, &made) != REGTX_OK;
        failed += regtx_hive_set_value(hive, keys, 3, keys, 1, round, &round, 1, round) != REGTX_OK;
        failed += round % 3 == 0 && regtx_hive_delete_key(hive, keys, 3, round) != REGTX_OK;
    }
    return failed ? NULL : given;
}

/* hives that were opened here are edited by threads, all at once, and are used here again */
static void check_threads(void)
{
    regtx_hive hives[4] = {0};
    pthread_t threads[4];
    void *ended;
    for (int i = 0; i < 4; i++) {
        EXPECT(regtx_hive_new(&hives[i]) == REGTX_OK);
        EXPECT(pthread_create(&threads[i], NULL, on_thread, &hives[i]) == 0);
    }
    for (int i = 0; i < 4; i++) {
        EXPECT(pthread_join(threads[i], &ended) == 0 && ended == &hives[i]);
        struct text text = text_of(&hives[i]);
        EXPECT(strcmp(text.at, "hive 0\nkey 0: 0\nkey 0:K 199\nkey 0:K\\L 199\nval K 199 c7\n") == 0);
        drop(&text);
        expect_written("a hive of a thread", &hives[i]);
        regtx_hive_close(&hives[i]);
    }
}

/* walks a hive by a cursor that the thread is given, and counts its keys and values, without buffers that are shared */
struct reader {
    regtx_cursor cursor;
    size_t keys, values;
};

static void count_below(struct reader *reader)
{
    regtx_info info = {0, 0, 0};
    regtx_value value;
    uint16_t name[64];
    uint8_t data[64];
    size_t len;
    reader->keys += regtx_cursor_key(&reader->cursor, &info, name, 64, &len) == REGTX_OK;
    for (size_t i = 0; i < info.values; i++)
        reader->values += regtx_cursor_value(&reader->cursor, i, &value, name, 64, data, 64) == REGTX_OK;
    if (regtx_cursor_down(&reader->cursor) != REGTX_OK)
        return;
    do
        count_below(reader);
    while (regtx_cursor_next(&reader->cursor) == REGTX_OK);
    regtx_cursor_up(&reader->cursor);
}

static void *on_reader(void *given)
{
    for (int round = 0; round < 20; round++)
        count_below(given);
    return given;
}

/* two threads read one hive at once, each by its cursor, while it is edited here, and after it is closed */
static void check_readers(void)
{
    static const uint16_t keys[] = {'K', '\\', 'A', '\\', 'B'};
    regtx_hive hive = {0};
    struct reader readers[2] = {{{{0}}, 0, 0}, {{{0}}, 0, 0}};
    pthread_t threads[2];
    uint16_t path[5];
    size_t made, failed = 0;
    memcpy(path, keys, sizeof keys);
    EXPECT(regtx_hive_new(&hive) == REGTX_OK);
    for (uint8_t i = 0; i < 100; i++) {
        path[2] = (uint16_t)('A' + i % 20);
        path[4] = (uint16_t)('A' + i / 20);
        failed += regtx_hive_create_key(&hive, path, 5, i, &made) != REGTX_OK;
        failed += regtx_hive_set_value(&hive, path, 5, path, 3, i, &i, 1, i) != REGTX_OK;
    }
    for (int i = 0; i < 2; i++) {
        EXPECT(regtx_cursor_open(&hive, NULL, 0, &readers[i].cursor) == REGTX_OK);
        EXPECT(pthread_create(&threads[i], NULL, on_reader, &readers[i]) == 0);
    }
    for (uint8_t i = 0; i < 100; i++) {
        path[2] = (uint16_t)('A' + i % 20);
        path[4] = (uint16_t)('A' + i / 20);
        failed += regtx_hive_delete_key(&hive, path, 5, i) != REGTX_OK;
        failed += regtx_hive_set_value(&hive, path, 3, path, 3, i, &i, 1, i) != REGTX_OK;
    }
    EXPECT(failed == 0);
    regtx_hive_close(&hive);
    for (int i = 0; i < 2; i++) {
        EXPECT(pthread_join(threads[i], NULL) == 0);
        EXPECT(readers[i].keys == 20 * (2 + 20 + 100) && readers[i].values == 20 * 100);
        regtx_cursor_close(&readers[i].cursor);
    }
}

/* ---- stack */

enum { STACK = 768 << 10, LEVELS = 512, BESIDE = 17 };

/* a hive as deep as one may be, each of whose keys has more subkeys than lie in one node of a map */
static void fill_deep(regtx_hive *hive)
{
    static uint16_t path[2 * LEVELS + 2];
    size_t made, failed = 0;
    for (size_t at = 0; at < LEVELS; at++) {
        for (uint16_t i = 0; i < BESIDE; i++) {
            path[2 * at] = (uint16_t)('A' + i);
            failed += regtx_hive_create_key(hive, path, 2 * at + 1, 1, &made) != REGTX_OK;
        }
        path[2 * at + 1] = '\\';
    }
    EXPECT(failed == 0);
}

/* each call that goes down a tree */
static void *on_small_stack(void *given)
{
    static uint16_t path[2 * LEVELS];
    regtx_hive *hive = given, again = {0};
    size_t len, failed = 0;
    for (size_t i = 0; i < 2 * LEVELS; i++)
        path[i] = i % 2 ? '\\' : 'A' + BESIDE - 1;
    regtx_cursor cursor = {0};
    uint8_t *bytes = written(hive, &len);
    failed += regtx_cursor_open(hive, path, 1, &cursor) != REGTX_OK;
    for (size_t at = 1; at < LEVELS; at++) {
        failed += regtx_cursor_down(&cursor) != REGTX_OK;
        for (size_t i = 1; i < BESIDE; i++)
            failed += regtx_cursor_next(&cursor) != REGTX_OK;
    }
    failed += regtx_hive_set_value(hive, path, 2 * LEVELS - 1, path, 1, 3, bytes, 100000, 2) != REGTX_OK;
    failed += regtx_hive_delete_value(hive, path, 2 * LEVELS - 1, path, 1, 3) != REGTX_OK;
    failed += regtx_hive_delete_key(hive, path, 2 * LEVELS - 1, 4) != REGTX_OK;
    failed += regtx_hive_delete_tree(hive, path, 2 * LEVELS - 3, 5) != REGTX_OK;
    failed += regtx_hive_delete_tree(hive, path, 1, 6) != REGTX_OK;
    failed += regtx_hive_open(bytes, len, &again) != REGTX_OK;
    failed += regtx_hive_open(bytes, len, hive) != REGTX_OK;
    regtx_hive_close(&again);
    regtx_hive_close(hive);
    regtx_cursor_close(&cursor);
    free(bytes);
    return failed ? NULL : given;
}

/* the deepest hive on a thread with three quarters of the stack that the header names */
static void check_stack(void)
{
    regtx_hive hive = {0};
    pthread_attr_t attributes;
    pthread_t thread;
    void *ended = NULL;
    EXPECT(regtx_hive_new(&hive) == REGTX_OK);
    fill_deep(&hive);
    EXPECT(pthread_attr_init(&attributes) == 0 && pthread_attr_setstacksize(&attributes, STACK) == 0);
    EXPECT(pthread_create(&thread, &attributes, on_small_stack, &hive) == 0);
    EXPECT(pthread_join(thread, &ended) == 0 && ended == &hive);
    pthread_attr_destroy(&attributes);
    regtx_hive_close(&hive);
}

/* ---- allocations refused in turn */

static uint8_t *given, *unclean;
static size_t given_len, unclean_len;
static regtx_log given_log;

/* a cursor goes to the first key without subkeys; a step that is refused leaves it where it is */
static uint32_t walked(regtx_hive *hive)
{
    regtx_cursor cursor = {0};
    uint32_t code = regtx_cursor_open(hive, PATH(""), &cursor);
    for (size_t levels = 0; code == REGTX_OK; levels++) {
        code = regtx_cursor_down(&cursor);
        if (code == REGTX_OK)
            continue;
        for (; levels; levels--)
            EXPECT(regtx_cursor_up(&cursor) == REGTX_OK);
        EXPECT(regtx_cursor_up(&cursor) == REGTX_NOT_FOUND);
    }
    regtx_cursor_close(&cursor);
    return code == REGTX_NOT_FOUND ? REGTX_OK : code;
}

static uint32_t call_of(int kind, regtx_hive *hive)
{
    static uint8_t data[40000], file[1 << 20];
    size_t len;
    switch (kind) {
    case 0:
        return regtx_hive_open(given, given_len, hive);
    case 1:
        return regtx_hive_create_key(hive, PATH("A long name of a key\\Another\\B"), 3, &len);
    case 2:
        return regtx_hive_set_value(hive, PATH("A long name of a key"), NAME("A long name of a value"), 3, data, sizeof data, 4);
    case 3:
        return regtx_hive_value(hive, PATH("A long name of a key"), NAME("A long name of a value"),
                                &(uint32_t){0}, data, sizeof data, &len);
    case 4:
        return regtx_hive_write(hive, file, sizeof file, &len);
    case 5:
        return regtx_hive_delete_value(hive, PATH("A long name of a key"), NAME("A long name of a value"), 5);
    case 6:
        return regtx_hive_delete_key(hive, PATH("A long name of a key\\Another\\B"), 6);
    case 7:
        return regtx_hive_flags(hive, PATH("A long name of a key"), &(uint16_t){0});
    case 8:
        return regtx_hive_class(hive, PATH("A long name of a key"), data, sizeof data, &len);
    case 9:
        return regtx_hive_descriptor(hive, PATH("A long name of a key"), data, sizeof data, &len);
    case 10:
        return regtx_hive_delete_tree(hive, PATH("A long name of a key"), 7);
    case 11:
        return walked(hive);
    case 12:
        return regtx_hive_recover(unclean, unclean_len, &given_log, 1, hive);
    default:
        return regtx_hive_new(hive);
    }
}

/* each call with each of its allocations refused in turn: it is refused and changes nothing, until it has all it asks for */
static void check_failing(const char *name, const char *unclean_name, const char *log_name)
{
    regtx_hive hive = {0};
    long refused = 0;
    given = file_bytes(name, &given_len);
    unclean = file_bytes(unclean_name, &unclean_len);
    given_log.bytes = file_bytes(log_name, &given_log.len);
    EXPECT(regtx_hive_new(&hive) == REGTX_OK);
    for (int kind = 0; kind < 14; kind++)
        for (long at = 0;; at++) {
            struct text before = text_of(&hive);
            left_until_refusal = at;
            uint32_t code = call_of(kind, &hive);
            bool all_given = left_until_refusal >= 0;
            left_until_refusal = -1;
            struct text after = text_of(&hive);
            expect("a refused allocation", all_given ? code == REGTX_OK : code == REGTX_NO_MEMORY && is_same(&before, &after));
            drop(&before);
            drop(&after);
            if (all_given)
                break;
            refused++;
        }
    regtx_hive_close(&hive);
    free(given);
    free(unclean);
    free((void *)(uintptr_t)given_log.bytes);
    printf("%ld allocations refused\n", refused);
}

/* ---- spoiled hives */

static uint64_t seed;

static uint64_t drawn(uint64_t below)
{
    seed ^= seed << 13;
    seed ^= seed >> 7;
    seed ^= seed << 17;
    return seed % below;
}

/* the sum of a first sector is made right */
static void mend(uint8_t *file)
{
    uint32_t sum = 0, word;
    for (int i = 0; i < 127; i++) {
        memcpy(&word, file + 4 * i, 4);
        sum ^= word;
    }
    sum = sum == 0xffffffff ? 0xfffffffe : sum == 0 ? 1 : sum;
    memcpy(file + 508, &sum, 4);
}

/* another byte at a place that is drawn, or four bytes of another place; seldom within long runs of zeros */
static void spoil_once(uint8_t *file, size_t len)
{
    size_t at, from = 4 * drawn(len / 4);
    for (int tries = 0; tries < 20; tries++) {
        at = drawn(8) ? 4096 + drawn(len - 4096) : drawn(512);
        if (file[at] || file[at & ~(size_t)7])
            break;
    }
    switch (drawn(4)) {
    case 0:
        file[at] = drawn(256);
        break;
    case 1:
        file[at] = drawn(2) ? 0 : 255;
        break;
    case 2:
        file[at] ^= 1 << drawn(8);
        break;
    default:
        memmove(file + at / 4 * 4, file + from, 4);
    }
}

static size_t spoil(uint8_t *file, size_t len)
{
    for (size_t times = 1 + drawn(3); times > 0; times--)
        spoil_once(file, len);
    if (drawn(8))
        mend(file);
    return drawn(32) ? len : drawn(len + 1);
}

/* edits a hive that opened, each edit undone by the next ones */
static void edit(regtx_hive *hive)
{
    size_t made;
    uint32_t code = regtx_hive_create_key(hive, PATH("Zz\\Yy"), 1, &made);
    EXPECT(code == REGTX_OK || code == REGTX_TOO_LARGE);
    if (code != REGTX_OK || made != 2)
        return;
    EXPECT(regtx_hive_set_value(hive, PATH("ZZ"), NAME("v"), 1, (const uint8_t *)"data", 4, 2) == REGTX_OK);
    EXPECT(regtx_hive_delete_key(hive, PATH("Zz\\yy"), 3) == REGTX_OK);
    expect_written("an edited hive", hive);
    EXPECT(regtx_hive_delete_value(hive, PATH("zz"), NAME("V"), 4) == REGTX_OK);
    EXPECT(regtx_hive_delete_key(hive, PATH("zz"), 5) == REGTX_OK);
}

/* opens a file by a handle by which a hive is open already, and does all with what opens; its text */
static struct text tried(const uint8_t *bytes, size_t len, uint32_t *code)
{
    regtx_hive hive = {0};
    size_t made;
    EXPECT(regtx_hive_new(&hive) == REGTX_OK && regtx_hive_create_key(&hive, PATH("Before"), 1, &made) == REGTX_OK);
    struct text before = text_of(&hive);
    *code = regtx_hive_open(bytes, len, &hive);
    struct text told = text_of(&hive);
    if (*code == REGTX_OK) {
        expect_written("an opened hive", &hive);
        edit(&hive);
    } else {
        expect("a refused opening", is_same(&before, &told));
        drop(&told);
        told = text_of_code(*code);
        add(&told, "\n");
    }
    drop(&before);
    regtx_hive_close(&hive);
    return told;
}

static void mutate(const char *name, long count, const char *folder)
{
    size_t len, opened = 0;
    uint8_t *file = file_bytes(name, &len);
    for (long i = 0; i < count; i++) {
        uint8_t *copy = taken(__real_malloc(len));
        uint32_t code;
        char saved[32];
        memcpy(copy, file, len);
        size_t now = spoil(copy, len);
        copy = taken(__real_realloc(copy, now ? now : 1));
        struct text told = tried(copy, now, &code);
        opened += code == REGTX_OK;
        if (i % 40 == 0) {
            snprintf(saved, sizeof saved, "%05ld.hive", i);
            put_file(folder, saved, copy, now);
            snprintf(saved, sizeof saved, "%05ld.text", i);
            put_file(folder, saved, told.at, told.len);
        }
        drop(&told);
        free(copy);
    }
    free(file);
    printf("%ld spoiled, %zu opened\n", count, opened);
}

/* ---- a hive over the weight */

/* it is read, and nothing is added or written; once a value is deleted, it is as any other */
static void check_heavy(const char *name, const char *copy)
{
    regtx_hive hive = {0};
    size_t len, made = 7, told = 7;
    uint8_t *bytes = file_bytes(name, &len);
    EXPECT(regtx_hive_open(bytes, len, &hive) == REGTX_OK);
    struct text before = text_of(&hive);
    REFUSED(REGTX_TOO_LARGE, regtx_hive_create_key(&hive, PATH("New"), 9, &made));
    REFUSED(REGTX_TOO_LARGE, regtx_hive_set_value(&hive, PATH("Big"), NAME("new"), 3, bytes, 0, 9));
    REFUSED(REGTX_TOO_LARGE, regtx_hive_set_value(&hive, PATH("Big"), NAME("v00"), 3, bytes, 1000000, 9));
    REFUSED(REGTX_TOO_LARGE, regtx_hive_write(&hive, bytes, len, &told));
    EXPECT(made == 7 && told == 7);
    EXPECT(regtx_hive_create_key(&hive, PATH("big"), 9, &made) == REGTX_OK && made == 0);
    drop(&before);
    free(bytes);
    EXPECT(regtx_hive_delete_value(&hive, PATH("Big"), NAME("v00"), 9) == REGTX_OK);
    expect_written("a hive that was too heavy", &hive);
    bytes = written(&hive, &len);
    put_file("", copy, bytes, len);
    free(bytes);
    regtx_hive_close(&hive);
}

/* ---- trees of keys of a file */

/* a tree whose names no other call that edits may name goes, and one with a key that is not to be deleted stays */
static void prune(const char *name, const char *copy)
{
    static const uint16_t gone[] = {0xe4};
    regtx_hive hive = {0};
    size_t len;
    uint8_t *bytes = file_bytes(name, &len);
    EXPECT(regtx_hive_open(bytes, len, &hive) == REGTX_OK);
    free(bytes);
    struct text before = text_of(&hive);
    REFUSED(REGTX_FIXED, regtx_hive_delete_tree(&hive, PATH("Kept"), 9));
    REFUSED(REGTX_FIXED, regtx_hive_delete_tree(&hive, PATH("kept\\Below\\fixed"), 9));
    REFUSED(REGTX_BAD_NAME, regtx_hive_delete_key(&hive, gone, 1, 9));
    drop(&before);
    EXPECT(regtx_hive_delete_tree(&hive, PATH("Kept\\Other"), 8) == REGTX_OK);
    EXPECT(regtx_hive_delete_tree(&hive, gone, 1, 9) == REGTX_OK);
    bytes = written(&hive, &len);
    put_file("", copy, bytes, len);
    free(bytes);
    regtx_hive_close(&hive);
}

/* ---- one hive */

static int with_file(const char *name, const char *copy)
{
    regtx_hive hive = {0};
    size_t len;
    uint8_t *bytes = file_bytes(name, &len);
    uint32_t code = regtx_hive_open(bytes, len, &hive);
    free(bytes);
    struct text text = code == REGTX_OK ? text_of(&hive) : text_of_code(code);
    if (copy == NULL)
        printf("%s%s", text.at, code == REGTX_OK ? "" : "\n");
    else if (code == REGTX_OK) {
        bytes = written(&hive, &len);
        put_file("", copy, bytes, len);
        free(bytes);
    }
    drop(&text);
    regtx_hive_close(&hive);
    return code != REGTX_OK || wrong;
}

/* what a hive's file and its logs make together: its text, or that of the refusal, after which what was open stays */
static int with_logs(const char *name, int count, char **names)
{
    regtx_hive hive = {0};
    regtx_log logs[9];
    size_t len;
    uint8_t *bytes = file_bytes(name, &len);
    EXPECT(count <= 9 && regtx_hive_new(&hive) == REGTX_OK);
    struct text before = text_of(&hive);
    for (int at = 0; at < count; at++)
        logs[at].bytes = file_bytes(names[at], &logs[at].len);
    uint32_t code = regtx_hive_recover(bytes, len, logs, (size_t)count, &hive);
    free(bytes);
    for (int at = 0; at < count; at++)
        free((void *)(uintptr_t)logs[at].bytes);
    struct text after = text_of(&hive);
    EXPECT(code == REGTX_OK || is_same(&before, &after));
    struct text told = code == REGTX_OK ? text_of(&hive) : text_of_code(code);
    printf("%s%s", told.at, code == REGTX_OK ? "" : "\n");
    drop(&told);
    drop(&after);
    drop(&before);
    regtx_hive_close(&hive);
    return code != REGTX_OK || wrong;
}

int main(int count, char **words)
{
    if (count == 3 && strcmp(words[1], "dump") == 0)
        return with_file(words[2], NULL);
    if (count == 4 && strcmp(words[1], "rewrite") == 0)
        return with_file(words[2], words[3]);
    if (count >= 3 && strcmp(words[1], "recover") == 0)
        return with_logs(words[2], count - 3, words + 3);
    if (count == 4 && strcmp(words[1], "heavy") == 0)
        check_heavy(words[2], words[3]);
    else if (count == 4 && strcmp(words[1], "trees") == 0)
        prune(words[2], words[3]);
    else if (count == 5 && strcmp(words[1], "failing") == 0)
        check_failing(words[2], words[3], words[4]);
    else if (count == 6 && strcmp(words[1], "mutate") == 0) {
        seed = strtoull(words[3], NULL, 10);
        mutate(words[2], strtol(words[4], NULL, 10), words[5]);
    } else if (count == 2 && strcmp(words[1], "readers") == 0) {
        check_readers();
        check_threads();
    } else if (count == 2 && strcmp(words[1], "checks") == 0) {
        check_closed();
        check_keys();
        check_fields();
        check_trees();
        check_depth();
        check_values();
        check_sizes();
        check_files();
        check_texts();
        check_names();
        check_null();
        check_closed_cursor();
        check_cursors();
        check_readers();
        check_threads();
        check_stack();
    } else
        return 2;
    return wrong != 0;
}

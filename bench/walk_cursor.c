/* Opens a hive by libregtx.a and reads all of it by a cursor, for bench/library.py: walk_cursor FILE. */
#include "open_regtx.h"

enum { MOST_UNITS = 1 << 16, FIRST_ROOM = 1 << 20 };

static regtx_cursor cursor;
static uint16_t name[MOST_UNITS];
static uint8_t *data;
static size_t room = FIRST_ROOM;
static struct sums sums;

static void read_value(uint64_t sum, size_t index)
{
    regtx_value value;
    uint32_t code;
    while ((code = regtx_cursor_value(&cursor, index, &value, name, MOST_UNITS, data, room)) == REGTX_NO_ROOM) {
        room = value.len;
        need((data = realloc(data, room)) != NULL);
    }
    need(code == REGTX_OK);
    add_value(&sums, with_name(sum, name, value.name_len), value.type, data, value.len);
}

/* Reads the cursor's key and all below it. The name of the hive's root is no part of a path. */
static void read_key(uint64_t sum, int is_root)
{
    regtx_info info;
    size_t len;
    need(regtx_cursor_key(&cursor, &info, name, MOST_UNITS, &len) == REGTX_OK);
    if (!is_root)
        sum = with_name(sum, name, len);
    add_key(&sums, sum, info.subkeys, info.values);
    for (size_t i = 0; i < info.values; i++)
        read_value(sum, i);
    if (regtx_cursor_down(&cursor) != REGTX_OK)
        return;
    do
        read_key(sum, 0);
    while (regtx_cursor_next(&cursor) == REGTX_OK);
    need(regtx_cursor_up(&cursor) == REGTX_OK);
}

int main(int count, char **words)
{
    regtx_hive hive = {0};
    need(count == 2);
    int64_t begun = spent();
    open_file(words[1], &hive);
    need((data = malloc(room)) != NULL);
    int64_t opened = spent();
    need(regtx_cursor_open(&hive, NULL, 0, &cursor) == REGTX_OK);
    read_key(0, 1);
    tell(begun, opened, spent(), &sums);
    regtx_cursor_close(&cursor);
    regtx_hive_close(&hive);
    free(data);
    return 0;
}

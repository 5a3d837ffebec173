/* Opens a hive by libregtx.a and reads all of it by paths, for bench/library.py: walk_regtx FILE. */
#include "open_regtx.h"

enum { MOST_UNITS = 512 * 256, FIRST_ROOM = 1 << 20 };

static regtx_hive hive;
static uint16_t path[MOST_UNITS], name[MOST_UNITS];
static uint8_t *data;
static size_t room = FIRST_ROOM;
static struct sums sums;

static void read_value(size_t path_len, uint64_t sum, size_t index)
{
    size_t len;
    uint32_t type, code;
    need(regtx_hive_value_name_at(&hive, path, path_len, index, name, MOST_UNITS, &len) == REGTX_OK);
    sum = with_name(sum, name, len);
    while ((code = regtx_hive_value_at(&hive, path, path_len, index, &type, data, room, &len)) == REGTX_NO_ROOM) {
        room = len;
        need((data = realloc(data, room)) != NULL);
    }
    need(code == REGTX_OK);
    add_value(&sums, sum, type, data, len);
}

static void read_key(size_t path_len, uint64_t sum)
{
    regtx_info info;
    need(regtx_hive_info(&hive, path, path_len, &info) == REGTX_OK);
    add_key(&sums, sum, info.subkeys, info.values);
    for (size_t i = 0; i < info.values; i++)
        read_value(path_len, sum, i);
    size_t begin = path_len ? path_len + 1 : 0;
    for (size_t i = 0, len; i < info.subkeys; i++) {
        need(regtx_hive_key_at(&hive, path, path_len, i, path + begin, MOST_UNITS - begin, &len) == REGTX_OK);
        if (path_len)
            path[path_len] = '\\';
        read_key(begin + len, with_name(sum, path + begin, len));
    }
}

int main(int count, char **words)
{
    need(count == 2);
    int64_t begun = spent();
    open_file(words[1], &hive);
    need((data = malloc(room)) != NULL);
    int64_t opened = spent();
    read_key(0, 0);
    tell(begun, opened, spent(), &sums);
    regtx_hive_close(&hive);
    free(data);
    return 0;
}

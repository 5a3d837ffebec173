/* Opens a hive by libhivex and reads all of it, for bench/library.py: walk_hivex FILE. Names are ASCII. */
#include "walk.h"

#include <hivex.h>
#include <stdlib.h>

static hive_h *hive;
static struct sums sums;

/* Ends this unless a call gave what it was asked for. */
static void need(int is_given)
{
    if (!is_given)
        exit(1);
}

static uint64_t with_name(uint64_t sum, const char *name)
{
    for (; *name; name++)
        sum = mixed(sum, (unsigned char)*name);
    return mixed(sum, 0);
}

static void read_value(hive_value_h value, uint64_t sum)
{
    hive_type type;
    size_t len;
    char *name = hivex_value_key(hive, value), *data = hivex_value_value(hive, value, &type, &len);
    need(name != NULL && data != NULL);
    add_value(&sums, with_name(sum, name), type, data, len);
    free(name);
    free(data);
}

static void read_key(hive_node_h key, uint64_t sum)
{
    hive_value_h *values = hivex_node_values(hive, key);
    hive_node_h *subkeys = hivex_node_children(hive, key);
    size_t value_count = 0, subkey_count = 0;
    need(values != NULL && subkeys != NULL);
    for (; values[value_count]; value_count++)
        read_value(values[value_count], sum);
    for (; subkeys[subkey_count]; subkey_count++) {
        char *name = hivex_node_name(hive, subkeys[subkey_count]);
        need(name != NULL);
        read_key(subkeys[subkey_count], with_name(sum, name));
        free(name);
    }
    add_key(&sums, sum, subkey_count, value_count);
    free(values);
    free(subkeys);
}

int main(int count, char **words)
{
    need(count == 2);
    int64_t begun = spent();
    need((hive = hivex_open(words[1], 0)) != NULL);
    int64_t opened = spent();
    read_key(hivex_root(hive), 0);
    tell(begun, opened, spent(), &sums);
    return hivex_close(hive);
}

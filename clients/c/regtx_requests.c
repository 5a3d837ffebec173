/* Requests: what may be asked alone and in a transaction. */
#define _POSIX_C_SOURCE 200809L

#include "regtx_requests.h"

#include "regtx_run.h"
#include "regtx_text.h"

#include <inttypes.h>
#include <stdio.h>
#include <string.h>

enum { MOST_KEY_NAME = 255, MOST_VALUE_NAME = 16383 };

/* The rules of E4 BadName: so no name brings a blank or an end of line into a line. */
static bool is_name(const char *name, size_t size, size_t most)
{
    for (size_t at = 0; at < size; at++)
        if (name[at] < 0x20 || name[at] > 0x7e)
            return false;
    return size <= most;
}

static bool is_path(const char *path)
{
    if (!*path)
        return true;
    for (;;) {
        size_t size = strcspn(path, "\\");
        if (size == 0 || !is_name(path, size, MOST_KEY_NAME))
            return false;
        if (!path[size])
            return true;
        path += size + 1;
    }
}

/* Writes a checked name; two of its letters mean something else in a line. */
static void print_name(FILE *line, const char *name)
{
    for (; *name; name++) {
        if (*name == '%' || *name == ' ')
            fprintf(line, "%%%04x", (unsigned)*name);
        else
            fputc(*name, line);
    }
}

static void print_value_name(FILE *line, const char *name)
{
    if (!*name)
        fputc('@', line);
    else if (strcmp(name, "@") == 0)
        fputs("%0040", line);
    else
        print_name(line, name);
}

static void print_data(FILE *line, const unsigned char *data, size_t size)
{
    static const char digits[] = "0123456789abcdef";
    if (size == 0)
        fputc('-', line);
    for (size_t at = 0; at < size; at++) {
        fputc(digits[data[at] >> 4], line);
        fputc(digits[data[at] & 15], line);
    }
}

int regtx_request_check(const struct regtx_request *asked)
{
    bool is_well =
        is_path(asked->path)
        && (!asked->name || is_name(asked->name, strlen(asked->name), MOST_VALUE_NAME));
    return is_well ? REGTX_OK : REGTX_WRONG_NAME;
}

void regtx_request_print(FILE *line, const struct regtx_request *asked)
{
    fprintf(line, "%s %u:", asked->verb, (unsigned)asked->hive);
    print_name(line, asked->path);
    if (asked->name) {
        fputc(' ', line);
        print_value_name(line, asked->name);
    }
    if (asked->has_value) {
        fprintf(line, " %" PRIu32 " ", asked->type);
        print_data(line, asked->data, asked->size);
    }
    fputc('\n', line);
}

/* Asks a request, of the store's first session if it is alone. */
static int ask_request(regtx_store *store, regtx_tx tx, const struct regtx_request *asked,
                       bool writes)
{
    struct regtx_lines lines;
    int code = regtx_request_check(asked);
    if (code == REGTX_OK)
        code = tx == REGTX_ALONE ? regtx_enter(store, REGTX_FIRST_SESSION)
                                 : regtx_enter_transaction(store, tx);
    if (code)
        return code;
    regtx_lines_begin(store, &lines, writes);
    if (lines.file && tx != REGTX_ALONE)
        fprintf(lines.file, "tx %" PRIu32 " ", tx);
    if (lines.file)
        regtx_request_print(lines.file, asked);
    lines.count++;
    code = regtx_lines_send(store, &lines);
    return code ? code : regtx_next(store);
}

/* The reply to a write: its change's number if it is alone, else `ok`. */
static int read_accepted(const regtx_store *store, regtx_tx tx, uint64_t *number)
{
    if (tx == REGTX_ALONE)
        return regtx_read_number(store, "accepted", number);
    if (number)
        *number = 0;
    return regtx_judge_ok(store, REGTX_OK);
}

int regtx_create_key(regtx_store *store, regtx_tx tx, uint8_t hive, const char *path,
                     uint32_t *levels, uint64_t *number)
{
    struct regtx_request asked = {.verb = "create", .hive = hive, .path = path};
    int code = ask_request(store, tx, &asked, true);
    if (code)
        return code;
    const char *at = store->link->text;
    uint64_t created = 0, accepted = 0;
    if (strcmp(at, "opened") != 0) {
        if (!regtx_take_word(&at, "created") || !regtx_take_number(&at, &created))
            return REGTX_REPLY;
        if (tx == REGTX_ALONE
            && (*at++ != ' ' || !regtx_take_word(&at, "accepted")
                || !regtx_take_number(&at, &accepted)))
            return REGTX_REPLY;
        if (*at)
            return REGTX_REPLY;
    }
    if (levels)
        *levels = (uint32_t)created;
    if (number)
        *number = accepted;
    return REGTX_OK;
}

int regtx_delete_key(regtx_store *store, regtx_tx tx, uint8_t hive, const char *path,
                     uint64_t *number)
{
    struct regtx_request asked = {.verb = "delete", .hive = hive, .path = path};
    int code = ask_request(store, tx, &asked, true);
    return code ? code : read_accepted(store, tx, number);
}

int regtx_set_value(regtx_store *store, regtx_tx tx, uint8_t hive, const char *path,
                    const char *name, uint32_t type, const void *data, size_t size,
                    uint64_t *number)
{
    struct regtx_request asked = {"set", hive, path, name, true, type, data, size};
    int code = ask_request(store, tx, &asked, true);
    return code ? code : read_accepted(store, tx, number);
}

int regtx_delete_value(regtx_store *store, regtx_tx tx, uint8_t hive, const char *path,
                       const char *name, uint64_t *number)
{
    struct regtx_request asked = {.verb = "unset", .hive = hive, .path = path, .name = name};
    int code = ask_request(store, tx, &asked, true);
    return code ? code : read_accepted(store, tx, number);
}

static bool take_digit(const char **at, unsigned *number)
{
    const char *digits = "0123456789abcdef", *found = **at ? strchr(digits, **at) : NULL;
    if (!found)
        return false;
    *number = *number << 4 | (unsigned)(found - digits);
    (*at)++;
    return true;
}

/* Reads pairs of hex digits up to the end, or a hyphen for none. */
static bool take_data(const char *at, struct regtx_buffer *data)
{
    if (strcmp(at, "-") == 0)
        return true;
    if (!*at)
        return false;
    while (*at) {
        unsigned byte = 0;
        if (!take_digit(&at, &byte) || !take_digit(&at, &byte))
            return false;
        regtx_put(data, (unsigned char)byte);
    }
    return true;
}

int regtx_get_value(regtx_store *store, regtx_tx tx, uint8_t hive, const char *path,
                    const char *name, uint32_t *type, void *data, size_t *size)
{
    struct regtx_request asked = {.verb = "get", .hive = hive, .path = path, .name = name};
    int code = ask_request(store, tx, &asked, false);
    if (code)
        return code;
    const char *at = store->link->text;
    uint64_t number;
    struct regtx_buffer to = {data, *size, 0};
    if (!regtx_take_word(&at, "value") || !regtx_take_number(&at, &number) || number > UINT32_MAX
        || *at++ != ' ' || !take_data(at, &to))
        return REGTX_REPLY;
    if (type)
        *type = (uint32_t)number;
    return regtx_told(&to, size);
}

/* Reads a name up to a blank or the end, and puts it with a zero. */
static bool take_name(const char **at, struct regtx_buffer *names)
{
    struct regtx_units units = {names, 0, false};
    if (**at == '@' && ((*at)[1] == ' ' || !(*at)[1])) {
        (*at)++;
    } else {
        while (**at && **at != ' ') {
            unsigned unit = 0;
            bool is_spelled = *(*at)++ == '%';
            for (int digit = 0; is_spelled && digit < 4; digit++)
                if (!take_digit(at, &unit))
                    return false;
            regtx_put_unit(&units, is_spelled ? (uint16_t)unit : (unsigned char)(*at)[-1]);
        }
    }
    regtx_end_units(&units);
    regtx_put(names, 0);
    return true;
}

static int list(regtx_store *store, regtx_tx tx, const struct regtx_request *asked, char *names,
                size_t *size, size_t *count)
{
    int code = ask_request(store, tx, asked, false);
    if (code)
        return code;
    const char *at = store->link->text;
    uint64_t told, found = 0;
    struct regtx_buffer to = {(unsigned char *)names, *size, 0};
    if (!regtx_take_word(&at, asked->verb) || !regtx_take_number(&at, &told))
        return REGTX_REPLY;
    for (; *at == ' '; found++) {
        at++;
        if (!take_name(&at, &to))
            return REGTX_REPLY;
    }
    if (*at || found != told)
        return REGTX_REPLY;
    if (count)
        *count = (size_t)found;
    return regtx_told(&to, size);
}

int regtx_subkeys(regtx_store *store, regtx_tx tx, uint8_t hive, const char *path, char *names,
                  size_t *size, size_t *count)
{
    struct regtx_request asked = {.verb = "keys", .hive = hive, .path = path};
    return list(store, tx, &asked, names, size, count);
}

int regtx_value_names(regtx_store *store, regtx_tx tx, uint8_t hive, const char *path, char *names,
                      size_t *size, size_t *count)
{
    struct regtx_request asked = {.verb = "values", .hive = hive, .path = path};
    return list(store, tx, &asked, names, size, count);
}

int regtx_key_info(regtx_store *store, regtx_tx tx, uint8_t hive, const char *path,
                   struct regtx_key_info *info)
{
    struct regtx_request asked = {.verb = "info", .hive = hive, .path = path};
    int code = ask_request(store, tx, &asked, false);
    if (code)
        return code;
    const char *at = store->link->text;
    uint64_t subkeys, values, written;
    if (!regtx_take_word(&at, "info") || !regtx_take_number(&at, &subkeys) || *at++ != ' '
        || !regtx_take_number(&at, &values) || *at++ != ' ' || !regtx_take_number(&at, &written)
        || *at)
        return REGTX_REPLY;
    *info = (struct regtx_key_info){(uint32_t)subkeys, (uint32_t)values, written};
    return REGTX_OK;
}

/* UUIDs, the data of values, and texts of codes: what needs no store. */
#define _POSIX_C_SOURCE 200809L

#include "regtx_client.h"
#include "regtx_text.h"

#include <ctype.h>
#include <fcntl.h>
#include <stdio.h>
#include <string.h>
#include <unistd.h>

static const char *const refusals[] = {
    "ok",
    "E1 NoMemory",
    "E2 NotFound",
    "E3 HasSubkeys",
    "E4 BadName",
    "E5 TooDeep",
    "E6 TooLarge",
    "E7 Conflict",
    "E8 NotActive",
    "E9 NoSuchHandle",
    "E10 NoSeat",
    "E11 JournalFull",
    "E12 HistoryFull",
    "E13 DiskFault",
    "E14 Faulted",
    "E15 HiveDamaged",
    "E16 JournalDamaged",
    "E17 Unsupported",
    "E18 Fixed",
};

static const char *const failures[] = {
    "the run ended early",
    "it isn't known whether the commit was done",
    "cannot open store",
    "cannot make store",
    "no call carries the name",
    "the buffer is too small",
    "wrong data",
    "no memory",
    "the system refused",
    "not a reply",
    "another process opened the store",
    "cannot read file",
    "the server is another user's",
    "these changes can't be followed",
    "all was told",
};

const char *regtx_client_text(int code)
{
    if (code >= REGTX_OK && code <= REGTX_FIXED)
        return refusals[code];
    if (code >= REGTX_ENDED && code <= REGTX_FOLLOWED)
        return failures[code - REGTX_ENDED];
    return "no code";
}

uint64_t regtx_moment_of(int64_t seconds)
{
    /* from 1601 to 1970 there are 134,774 days */
    return (uint64_t)(seconds + INT64_C(134774) * 86400) * 10000000;
}

static bool is_hyphen_at(size_t at)
{
    return at == 8 || at == 13 || at == 18 || at == 23;
}

static unsigned digit_of(char letter)
{
    int small = tolower((unsigned char)letter);
    return (unsigned)(isdigit(small) ? small - '0' : small - 'a' + 10);
}

int regtx_uuid_parse(const char *text, regtx_uuid *uuid)
{
    if (strlen(text) != REGTX_UUID_TEXT - 1)
        return REGTX_WRONG_DATA;
    regtx_uuid read = {{0}};
    size_t digits = 0;
    for (size_t at = 0; text[at]; at++) {
        if (is_hyphen_at(at) ? text[at] != '-' : !isxdigit((unsigned char)text[at]))
            return REGTX_WRONG_DATA;
        if (!is_hyphen_at(at)) {
            unsigned char *byte = &read.bytes[digits++ / 2];
            *byte = (unsigned char)(*byte << 4 | digit_of(text[at]));
        }
    }
    *uuid = read;
    return REGTX_OK;
}

void regtx_uuid_print(const regtx_uuid *uuid, char text[REGTX_UUID_TEXT])
{
    for (size_t byte = 0; byte < sizeof uuid->bytes; byte++) {
        if (byte == 4 || byte == 6 || byte == 8 || byte == 10)
            *text++ = '-';
        text += sprintf(text, "%02x", uuid->bytes[byte]);
    }
}

int regtx_uuid_random(regtx_uuid *uuid)
{
    int from = open("/dev/urandom", O_RDONLY | O_CLOEXEC);
    if (from < 0)
        return REGTX_IO;
    ssize_t size = read(from, uuid->bytes, sizeof uuid->bytes);
    close(from);
    if (size != (ssize_t)sizeof uuid->bytes)
        return REGTX_IO;
    uuid->bytes[6] = (uuid->bytes[6] & 0x0f) | 0x40;
    uuid->bytes[8] = (uuid->bytes[8] & 0x3f) | 0x80;
    return REGTX_OK;
}

void regtx_from_dword(uint32_t number, unsigned char data[4])
{
    for (int byte = 0; byte < 4; byte++)
        data[byte] = (unsigned char)(number >> 8 * byte);
}

void regtx_from_qword(uint64_t number, unsigned char data[8])
{
    regtx_from_dword((uint32_t)number, data);
    regtx_from_dword((uint32_t)(number >> 32), data + 4);
}

int regtx_to_dword(const void *data, size_t size, uint32_t *number)
{
    const unsigned char *bytes = data;
    if (size != 4)
        return REGTX_WRONG_DATA;
    *number =
        bytes[0] | (uint32_t)bytes[1] << 8 | (uint32_t)bytes[2] << 16 | (uint32_t)bytes[3] << 24;
    return REGTX_OK;
}

int regtx_to_qword(const void *data, size_t size, uint64_t *number)
{
    const unsigned char *bytes = data;
    uint32_t low, high;
    if (size != 8 || regtx_to_dword(bytes, 4, &low) || regtx_to_dword(bytes + 4, 4, &high))
        return REGTX_WRONG_DATA;
    *number = (uint64_t)high << 32 | low;
    return REGTX_OK;
}

/* Reads a code point that isn't 0, in its only form; false if there is none. */
static bool next_point(const char **text, uint32_t *point)
{
    const unsigned char *bytes = (const unsigned char *)*text;
    static const uint32_t least[] = {0, 0x80, 0x800, 0x10000};
    int more = bytes[0] < 0x80 ? 0 : bytes[0] < 0xe0 ? 1 : bytes[0] < 0xf0 ? 2 : 3;
    if (bytes[0] >= 0xf8 || (bytes[0] >= 0x80 && bytes[0] < 0xc0))
        return false;
    *point = more ? bytes[0] & (0x3fu >> more) : bytes[0];
    for (int at = 1; at <= more; at++) {
        /* the zero at the end of the text is no such byte either */
        if ((bytes[at] & 0xc0) != 0x80)
            return false;
        *point = *point << 6 | (bytes[at] & 0x3f);
    }
    *text += 1 + more;
    return *point >= least[more] && *point < 0x110000 && (*point < 0xd800 || *point >= 0xe000);
}

static void put_le16(struct regtx_buffer *to, uint32_t unit)
{
    regtx_put(to, (unsigned char)unit);
    regtx_put(to, (unsigned char)(unit >> 8));
}

/* Puts a text as UTF-16, with a zero. */
static int put_text(struct regtx_buffer *to, const char *text)
{
    uint32_t point;
    while (*text) {
        if (!next_point(&text, &point))
            return REGTX_WRONG_DATA;
        if (point < 0x10000) {
            put_le16(to, point);
        } else {
            put_le16(to, 0xd800 + ((point - 0x10000) >> 10));
            put_le16(to, 0xdc00 + ((point - 0x10000) & 0x3ff));
        }
    }
    put_le16(to, 0);
    return REGTX_OK;
}

int regtx_from_sz(const char *text, void *data, size_t *size)
{
    struct regtx_buffer to = {data, *size, 0};
    int code = put_text(&to, text);
    return code ? code : regtx_told(&to, size);
}

int regtx_from_multi_sz(const char *texts, void *data, size_t *size)
{
    struct regtx_buffer to = {data, *size, 0};
    for (; *texts; texts += strlen(texts) + 1) {
        int code = put_text(&to, texts);
        if (code)
            return code;
    }
    put_le16(&to, 0);
    return regtx_told(&to, size);
}

static uint16_t unit_at(const unsigned char *data, size_t unit)
{
    return (uint16_t)(data[2 * unit] | data[2 * unit + 1] << 8);
}

/* Puts so many units, none of which is 0, with a zero. */
static int put_units(struct regtx_buffer *to, const unsigned char *data, size_t count)
{
    struct regtx_units units = {to, 0, false};
    for (size_t at = 0; at < count; at++) {
        if (unit_at(data, at) == 0)
            return REGTX_WRONG_DATA;
        regtx_put_unit(&units, unit_at(data, at));
    }
    regtx_end_units(&units);
    regtx_put(to, 0);
    return units.is_broken ? REGTX_WRONG_DATA : REGTX_OK;
}

/* How many units there are without one zero at the end. */
static size_t without_zero(const unsigned char *data, size_t count)
{
    return count > 0 && unit_at(data, count - 1) == 0 ? count - 1 : count;
}

int regtx_to_sz(const void *data, size_t size, char *text, size_t *room)
{
    struct regtx_buffer to = {(unsigned char *)text, *room, 0};
    int code = size % 2 ? REGTX_WRONG_DATA : put_units(&to, data, without_zero(data, size / 2));
    return code ? code : regtx_told(&to, room);
}

int regtx_to_multi_sz(const void *data, size_t size, char *texts, size_t *room)
{
    struct regtx_buffer to = {(unsigned char *)texts, *room, 0};
    const unsigned char *bytes = data;
    size_t count = without_zero(bytes, without_zero(bytes, size / 2));
    if (size % 2)
        return REGTX_WRONG_DATA;
    for (size_t begin = 0, end; begin < count; begin = end + 1) {
        for (end = begin; end < count && unit_at(bytes, end) != 0; end++) {
        }
        /* an empty text would end the caller's list */
        int code = end == begin ? REGTX_WRONG_DATA : put_units(&to, bytes + 2 * begin, end - begin);
        if (code)
            return code;
    }
    regtx_put(&to, 0);
    return regtx_told(&to, room);
}

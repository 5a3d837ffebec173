/* Values of every type, as the client and the program write and read them. */
#include "check.h"

#include <string.h>

/* Values, with the type and the data that the registry's rules give them. */
static const struct {
    const char *name;
    uint32_t type;
    const char *data;
    size_t size;
    const char *printed;
} samples[] = {
    {"none", REGTX_REG_NONE, NULL, 0, "value 0 -\n"},
    {"sz", REGTX_REG_SZ, "1\0.\0000\0\0", 8, "value 1 31002e0030000000\n"},
    {"expand", REGTX_REG_EXPAND_SZ, "%\0A\0%\0\0", 8, "value 2 2500410025000000\n"},
    {"binary", REGTX_REG_BINARY, "\0\1\xfe", 3, "value 3 0001fe\n"},
    {"dword", REGTX_REG_DWORD, "\4\3\2\1", 4, "value 4 04030201\n"},
    {"dword_be", REGTX_REG_DWORD_BIG_ENDIAN, "\1\2\3\4", 4, "value 5 01020304\n"},
    {"link", REGTX_REG_LINK, "\\\0R", 4, "value 6 5c005200\n"},
    {"multi", REGTX_REG_MULTI_SZ, "a\0\0\0b\0c\0\0\0\0", 12, "value 7 610000006200630000000000\n"},
    {"list", 8, "\1\2", 2, "value 8 0102\n"},
    {"qword", REGTX_REG_QWORD, "\10\7\6\5\4\3\2\1", 8, "value 11 0807060504030201\n"},
    {"custom", UINT32_MAX, "\7", 1, "value 4294967295 07\n"},
};

enum { SAMPLES = sizeof samples / sizeof samples[0], MEBIBYTE = 1048576 };

static void each_type_is_written_and_read(void)
{
    char lines[1024] = "", replies[1024] = "";
    regtx_store *store = new_store();
    for (int at = 0; at < SAMPLES; at++) {
        CHECK(regtx_set_value(store, REGTX_ALONE, 0, "Software", samples[at].name, samples[at].type,
                              samples[at].data, samples[at].size, NULL)
              == REGTX_OK);
        strcat(strcat(strcat(lines, "get 0:Software "), samples[at].name), "\n");
        strcat(replies, samples[at].printed);
    }
    CHECK(regtx_close(store) == REGTX_OK);
    CHECK(answers(lines, replies));
    store = open_again();
    for (int at = 0; at < SAMPLES; at++) {
        unsigned char data[16];
        size_t size = sizeof data;
        uint32_t type = 99;
        CHECK(
            regtx_get_value(store, REGTX_ALONE, 0, "Software", samples[at].name, &type, data, &size)
            == REGTX_OK);
        CHECK(type == samples[at].type && size == samples[at].size);
        CHECK(size == 0 || memcmp(data, samples[at].data, size) == 0);
    }
    CHECK(regtx_close(store) == REGTX_OK);
}

static void what_the_program_writes_is_read(void)
{
    CHECK(regtx_close(new_store()) == REGTX_OK);
    CHECK(prints("set %s 0:Software sz sz '1 2'", "committed 2\n"));
    CHECK(prints("set %s 0:Software multi multi 'a\\0bc'", "committed 3\n"));
    CHECK(prints("set %s 0:Software dword dword 4294967295", "committed 4\n"));
    CHECK(prints("set %s 0:Software qword qword 0x102030405060708", "committed 5\n"));
    regtx_store *store = open_again();
    unsigned char data[32];
    char text[32];
    size_t size = sizeof data, room = sizeof text;
    uint32_t dword = 0;
    uint64_t qword = 0;
    CHECK(regtx_get_value(store, REGTX_ALONE, 0, "Software", "sz", NULL, data, &size) == REGTX_OK);
    CHECK(regtx_to_sz(data, size, text, &room) == REGTX_OK && room == 4
          && strcmp(text, "1 2") == 0);
    size = sizeof data, room = sizeof text;
    CHECK(regtx_get_value(store, REGTX_ALONE, 0, "Software", "multi", NULL, data, &size)
          == REGTX_OK);
    CHECK(regtx_to_multi_sz(data, size, text, &room) == REGTX_OK && room == 6
          && memcmp(text, "a\0bc\0", 6) == 0);
    size = sizeof data;
    CHECK(regtx_get_value(store, REGTX_ALONE, 0, "Software", "dword", NULL, data, &size)
          == REGTX_OK);
    CHECK(regtx_to_dword(data, size, &dword) == REGTX_OK && dword == UINT32_MAX);
    CHECK(regtx_to_qword(data, size, &qword) == REGTX_WRONG_DATA);
    size = sizeof data;
    CHECK(regtx_get_value(store, REGTX_ALONE, 0, "Software", "qword", NULL, data, &size)
          == REGTX_OK);
    CHECK(regtx_to_qword(data, size, &qword) == REGTX_OK && qword == 0x0102030405060708);
    CHECK(regtx_to_dword(data, size, &dword) == REGTX_WRONG_DATA);
    CHECK(regtx_close(store) == REGTX_OK);
}

static bool is_data(const void *data, size_t size, const char *wanted, size_t wanted_size)
{
    return size == wanted_size && memcmp(data, wanted, size) == 0;
}

static void data_is_made(void)
{
    unsigned char data[16];
    size_t size = sizeof data;
    regtx_from_dword(0x01020304, data);
    CHECK(is_data(data, 4, "\4\3\2\1", 4));
    regtx_from_qword(0x0102030405060708, data);
    CHECK(is_data(data, 8, "\10\7\6\5\4\3\2\1", 8));
    CHECK(regtx_from_sz("1.0", data, &size) == REGTX_OK && is_data(data, size, "1\0.\0000\0\0", 8));
    size = sizeof data;
    CHECK(regtx_from_sz("", data, &size) == REGTX_OK && is_data(data, size, "\0", 2));
    size = sizeof data;
    /* U+00E9, U+1F600 */
    CHECK(regtx_from_sz("\xc3\xa9\xf0\x9f\x98\x80", data, &size) == REGTX_OK
          && is_data(data, size, "\xe9\0\x3d\xd8\0\xde\0", 8));
    size = sizeof data;
    CHECK(regtx_from_multi_sz("a\0bc\0", data, &size) == REGTX_OK
          && is_data(data, size, "a\0\0\0b\0c\0\0\0\0", 12));
    size = sizeof data;
    CHECK(regtx_from_multi_sz("", data, &size) == REGTX_OK && is_data(data, size, "\0", 2));
    size = 5;
    CHECK(regtx_from_sz("abc", data, &size) == REGTX_TOO_SMALL && size == 8);
    size = 0;
    CHECK(regtx_from_multi_sz("a\0", NULL, &size) == REGTX_TOO_SMALL && size == 6);
}

static void texts_have_one_form(void)
{
    /* a byte alone, one too few, an overlong form, half a pair, past the last code point */
    static const char *const wrong[] = {"\x80",
                                        "\xc3",
                                        "\xc3(",
                                        "\xc0\x80",
                                        "\xe0\x80\x80",
                                        "\xed\xa0\x80",
                                        "\xf4\x90\x80\x80",
                                        "\xf8\x88\x80\x80\x80",
                                        "a\xff",
                                        "\xf0\x9f\x98"};
    unsigned char data[32];
    char text[32];
    for (size_t at = 0; at < sizeof wrong / sizeof wrong[0]; at++) {
        size_t size = sizeof data;
        CHECK(regtx_from_sz(wrong[at], data, &size) == REGTX_WRONG_DATA);
    }
    size_t room = sizeof text;
    CHECK(regtx_to_sz("a", 2, text, &room) == REGTX_OK && strcmp(text, "a") == 0);
    room = sizeof text;
    CHECK(regtx_to_sz(NULL, 0, text, &room) == REGTX_OK && room == 1 && text[0] == 0);
    room = sizeof text;
    CHECK(regtx_to_sz("\xe9\0\x3d\xd8\0\xde\0", 8, text, &room) == REGTX_OK
          && strcmp(text, "\xc3\xa9\xf0\x9f\x98\x80") == 0);
    CHECK(regtx_to_sz("abc", 3, text, &room) == REGTX_WRONG_DATA);
    CHECK(regtx_to_sz("\0\xd8", 2, text, &room) == REGTX_WRONG_DATA);
    CHECK(regtx_to_sz("\0\xdc", 2, text, &room) == REGTX_WRONG_DATA);
    CHECK(regtx_to_sz("a\0\0\0b", 6, text, &room) == REGTX_WRONG_DATA);
    room = 3;
    CHECK(regtx_to_sz("a\0b\0c", 6, text, &room) == REGTX_TOO_SMALL && room == 4);
    room = sizeof text;
    CHECK(regtx_to_multi_sz("a", 2, text, &room) == REGTX_OK && is_data(text, room, "a\0", 3));
    room = sizeof text;
    CHECK(regtx_to_multi_sz("\0\0\0", 4, text, &room) == REGTX_OK && is_data(text, room, "", 1));
    CHECK(regtx_to_multi_sz("a\0\0\0\0\0b\0\0\0", 10, text, &room) == REGTX_WRONG_DATA);
    CHECK(regtx_to_multi_sz("abc", 3, text, &room) == REGTX_WRONG_DATA);
}

static void data_has_a_mebibyte_at_most(void)
{
    static unsigned char most[MEBIBYTE + 1], found[MEBIBYTE];
    regtx_store *store = new_store();
    size_t size = 0;
    memset(most, 0xab, sizeof most);
    CHECK(regtx_set_value(store, REGTX_ALONE, 0, "Software", "v", 3, most, MEBIBYTE, NULL)
          == REGTX_OK);
    CHECK(regtx_set_value(store, REGTX_ALONE, 0, "Software", "v", 3, most, MEBIBYTE + 1, NULL)
          == REGTX_TOO_LARGE);
    CHECK(regtx_get_value(store, REGTX_ALONE, 0, "Software", "v", NULL, NULL, &size)
          == REGTX_TOO_SMALL);
    CHECK(size == MEBIBYTE);
    CHECK(regtx_get_value(store, REGTX_ALONE, 0, "Software", "v", NULL, found, &size) == REGTX_OK);
    CHECK(memcmp(most, found, MEBIBYTE) == 0);
    CHECK(regtx_close(store) == REGTX_OK);
}

void test_values(void)
{
    each_type_is_written_and_read();
    what_the_program_writes_is_read();
    data_is_made();
    texts_have_one_form();
    data_has_a_mebibyte_at_most();
}

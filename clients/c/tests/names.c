/* Names: how they are carried, and those that no line carries. */
#include "check.h"

#include <string.h>

enum { LONGEST_KEY = 255, LONGEST_VALUE = 16383 };

/* Names that no line may carry: those that hold lines, or parts of them, among them. */
static const char *const wrong[] = {
    "a\nset 0: x 4 01000000", "a\r", "\t", "\x7f", "\xc3\xa9", "\xff", "a 1 -\nflush\n", "\x01"};

static void names_are_quoted(void)
{
    /* in the order of their folded units, the empty one first */
    static const char *const names[] = {"", " ", "%", "%0020", "-", "@", "a b%c", "a/b", "a\\b"};
    enum { COUNT = sizeof names / sizeof names[0] };
    regtx_store *store = new_store();
    char listed[128], wanted[128];
    size_t size = sizeof listed, used = 0, count = 0;
    for (uint32_t at = 0; at < COUNT; at++) {
        CHECK(set_number(store, REGTX_ALONE, names[at], at) == REGTX_OK);
        memcpy(wanted + used, names[at], strlen(names[at]) + 1);
        used += strlen(names[at]) + 1;
    }
    CHECK(regtx_value_names(store, REGTX_ALONE, 0, "Software", listed, &size, &count) == REGTX_OK);
    CHECK(count == COUNT && size == used && memcmp(listed, wanted, used) == 0);
    size = used - 1;
    CHECK(regtx_value_names(store, REGTX_ALONE, 0, "Software", listed, &size, NULL)
          == REGTX_TOO_SMALL);
    CHECK(size == used);
    CHECK(regtx_create_key(store, REGTX_ALONE, 0, "Some Vendor\\@\\50%", NULL, NULL) == REGTX_OK);
    size = sizeof listed;
    CHECK(regtx_subkeys(store, REGTX_ALONE, 0, "SOME vendor", listed, &size, &count) == REGTX_OK);
    CHECK(count == 1 && strcmp(listed, "@") == 0);
    CHECK(regtx_close(store) == REGTX_OK);
    CHECK(answers("values 0:Software\nget 0:Software %0040\nkeys 0:\nkeys 0:Some%0020Vendor\\@\n",
                  "values 9 @ %0020 %0025 %00250020 - %0040 a%0020b%0025c a/b a\\b\n"
                  "value 4 05000000\nkeys 2 Software Some%0020Vendor\nkeys 1 50%0025\n"));
}

static void wrong_names_send_nothing(void)
{
    static const char *const paths[] = {"\\Software", "Software\\", "Software\\\\X", "\\"};
    regtx_store *store = new_store();
    size_t size = 0;
    struct regtx_key_info info;
    for (size_t at = 0; at < sizeof wrong / sizeof wrong[0]; at++) {
        const char *name = wrong[at];
        CHECK(set_number(store, REGTX_ALONE, name, 1) == REGTX_WRONG_NAME);
        CHECK(regtx_set_value(store, REGTX_ALONE, 0, name, "v", 0, NULL, 0, NULL)
              == REGTX_WRONG_NAME);
        CHECK(regtx_delete_value(store, REGTX_ALONE, 0, "Software", name, NULL)
              == REGTX_WRONG_NAME);
        CHECK(regtx_get_value(store, REGTX_ALONE, 0, "Software", name, NULL, NULL, &size)
              == REGTX_WRONG_NAME);
        CHECK(regtx_create_key(store, REGTX_ALONE, 0, name, NULL, NULL) == REGTX_WRONG_NAME);
        CHECK(regtx_delete_key(store, REGTX_ALONE, 0, name, NULL) == REGTX_WRONG_NAME);
        CHECK(regtx_subkeys(store, REGTX_ALONE, 0, name, NULL, &size, NULL) == REGTX_WRONG_NAME);
        CHECK(regtx_value_names(store, REGTX_ALONE, 0, name, NULL, &size, NULL)
              == REGTX_WRONG_NAME);
        CHECK(regtx_key_info(store, REGTX_ALONE, 0, name, &info) == REGTX_WRONG_NAME);
    }
    for (size_t at = 0; at < sizeof paths / sizeof paths[0]; at++)
        CHECK(regtx_create_key(store, REGTX_ALONE, 0, paths[at], NULL, NULL) == REGTX_WRONG_NAME);
    CHECK(regtx_close(store) == REGTX_OK);
    CHECK(answers("keys 0:\nvalues 0:\nvalues 0:Software\n",
                  "keys 1 Software\nvalues 0\nvalues 0\n"));
    store = open_again();
    CHECK(regtx_opened_at(store) == 1);
    CHECK(regtx_close(store) == REGTX_OK);
}

static void names_have_their_longest(void)
{
    static char name[LONGEST_VALUE + 2], listed[LONGEST_VALUE + 1];
    regtx_store *store = new_store();
    size_t size = sizeof listed;
    memset(name, 'n', LONGEST_VALUE + 1);
    CHECK(set_number(store, REGTX_ALONE, name, 1) == REGTX_WRONG_NAME);
    CHECK(set_number(store, REGTX_ALONE, name + 1, 1) == REGTX_OK);
    CHECK(regtx_value_names(store, REGTX_ALONE, 0, "Software", listed, &size, NULL) == REGTX_OK);
    CHECK(strcmp(listed, name + 1) == 0);
    name[LONGEST_KEY + 1] = 0;
    CHECK(regtx_create_key(store, REGTX_ALONE, 0, name, NULL, NULL) == REGTX_WRONG_NAME);
    CHECK(regtx_create_key(store, REGTX_ALONE, 0, name + 1, NULL, NULL) == REGTX_OK);
    CHECK(regtx_close(store) == REGTX_OK);
}

static void listed_names_are_unicode(void)
{
    regtx_store *store = fake("keys 4 %00e9%0020 %d83d%de00 a%d800 %dc00b\nkeys 1 @\n", "exit 0");
    static const char wanted[] = "\xc3\xa9 \0\xf0\x9f\x98\x80\0a\xef\xbf\xbd\0\xef\xbf\xbd"
                                 "b";
    char listed[64];
    size_t size = sizeof listed, count = 0;
    CHECK(regtx_subkeys(store, REGTX_ALONE, 0, "", listed, &size, &count) == REGTX_OK);
    CHECK(count == 4 && size == sizeof wanted && memcmp(listed, wanted, size) == 0);
    size = sizeof listed;
    CHECK(regtx_subkeys(store, REGTX_ALONE, 0, "", listed, &size, &count) == REGTX_OK && size == 1);
    CHECK(regtx_close(store) == REGTX_OK);
}

void test_names(void)
{
    names_are_quoted();
    wrong_names_send_nothing();
    names_have_their_longest();
    listed_names_are_unicode();
}

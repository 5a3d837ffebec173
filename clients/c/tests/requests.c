/* Requests alone, UUIDs, and refusals by their names. */
#define _POSIX_C_SOURCE 200809L

#include "check.h"

#include <stdio.h>
#include <string.h>
#include <time.h>

static void writes_answer_their_numbers(void)
{
    regtx_store *store = new_store();
    uint32_t levels = 99;
    uint64_t number = 99;
    const char *path = "Software\\Vendor\\Product";
    CHECK(regtx_opened_at(store) == 0);
    CHECK(regtx_create_key(store, REGTX_ALONE, 0, path, &levels, &number) == REGTX_OK);
    CHECK(levels == 2 && number == 2);
    CHECK(regtx_create_key(store, REGTX_ALONE, 0, path, &levels, &number) == REGTX_OK);
    CHECK(levels == 0 && number == 0);
    CHECK(regtx_set_value(store, REGTX_ALONE, 0, path, "v", 4, "abcd", 4, &number) == REGTX_OK
          && number == 3);
    CHECK(regtx_delete_value(store, REGTX_ALONE, 0, path, "v", &number) == REGTX_OK && number == 4);
    CHECK(regtx_delete_key(store, REGTX_ALONE, 0, path, &number) == REGTX_OK && number == 5);
    CHECK(regtx_flush(store, &number) == REGTX_OK && number == 5);
    CHECK(regtx_close(store) == REGTX_OK);
    CHECK(answers("keys 0:Software\nkeys 0:Software\\Vendor\n", "keys 1 Vendor\nkeys 0\n"));
    store = open_again();
    CHECK(regtx_opened_at(store) == 5);
    CHECK(regtx_close(store) == REGTX_OK);
}

static void reads_tell_what_is_there(void)
{
    regtx_store *store = new_store();
    struct regtx_key_info info;
    char names[16];
    size_t size = sizeof names, count = 99;
    /* 2024-02-29 00:00:00 UTC */
    CHECK(regtx_at(store, 133536384000000000) == REGTX_OK);
    CHECK(set_number(store, REGTX_ALONE, "b", 1) == REGTX_OK);
    CHECK(set_number(store, REGTX_ALONE, "A", 1) == REGTX_OK);
    CHECK(regtx_key_info(store, REGTX_ALONE, 0, "Software", &info) == REGTX_OK);
    CHECK(info.subkeys == 0 && info.values == 2 && info.written == 133536384000000000);
    CHECK(regtx_value_names(store, REGTX_ALONE, 0, "Software", names, &size, &count) == REGTX_OK);
    CHECK(size == 4 && count == 2 && memcmp(names, "A\0b", 4) == 0);
    size = 0;
    CHECK(regtx_subkeys(store, REGTX_ALONE, 1, "", NULL, &size, &count) == REGTX_OK);
    CHECK(size == 0 && count == 0);
    CHECK(regtx_close(store) == REGTX_OK);
    CHECK(answers("info 0:Software\n", "info 0 2 133536384000000000\n"));
}

static uint64_t written(regtx_store *store, const char *path)
{
    struct regtx_key_info info = {0, 0, 99};
    CHECK(regtx_key_info(store, REGTX_ALONE, 0, path, &info) == REGTX_OK);
    return info.written;
}

/* A write has the time of now, or the one that was chosen. */
static void writes_tell_the_time(void)
{
    enum { MOMENT = 7 };
    regtx_store *store = new_store();
    regtx_uuid uuid = unit(1);
    regtx_tx tx = 0;
    for (int round = 0; round < 2; round++) {
        uint64_t before = regtx_moment_of(time(NULL));
        CHECK(set_number(store, REGTX_ALONE, "v", 1) == REGTX_OK);
        CHECK(before <= written(store, "Software"));
        CHECK(written(store, "Software") <= regtx_moment_of(time(NULL) + 1));
        CHECK(regtx_at(store, MOMENT) == REGTX_OK);
        CHECK(set_number(store, REGTX_ALONE, "v", 2) == REGTX_OK);
        CHECK(written(store, "Software") == MOMENT);
        CHECK(regtx_at(store, REGTX_NOW) == REGTX_OK);
    }
    CHECK(regtx_at(store, MOMENT) == REGTX_OK);
    CHECK(regtx_transaction(store, REGTX_FIRST_SESSION, &uuid, &tx) == REGTX_OK);
    CHECK(set_number(store, tx, "v", 3) == REGTX_OK && regtx_at(store, REGTX_NOW) == REGTX_OK);
    CHECK(regtx_commit(store, tx, NULL) == REGTX_OK && written(store, "Software") > MOMENT);
    CHECK(regtx_at(store, 0) == REGTX_OK && set_number(store, REGTX_ALONE, "v", 4) == REGTX_OK);
    CHECK(written(store, "Software") == 0);
    /* 2024-02-29 00:00:00 UTC */
    CHECK(regtx_moment_of(1709164800) == 133536384000000000 && regtx_moment_of(-11644473600) == 0);
    CHECK(regtx_close(store) == REGTX_OK);
}

static void refusals_change_nothing(void)
{
    char deep[2 * 33 + 1] = "d";
    regtx_store *store = new_store();
    struct regtx_key_info info;
    size_t size = 0;
    uint64_t number = 99;
    for (int level = 1; level < 33; level++)
        strcat(deep, "\\d");
    CHECK(regtx_create_key(store, REGTX_ALONE, 0, "Software\\Vendor", NULL, NULL) == REGTX_OK);
    CHECK(regtx_get_value(store, REGTX_ALONE, 0, "Software", "v", NULL, NULL, &size)
          == REGTX_NOT_FOUND);
    CHECK(regtx_delete_value(store, REGTX_ALONE, 0, "Software", "v", NULL) == REGTX_NOT_FOUND);
    CHECK(regtx_key_info(store, REGTX_ALONE, 9, "", &info) == REGTX_NOT_FOUND);
    CHECK(regtx_delete_key(store, REGTX_ALONE, 0, "Software", NULL) == REGTX_HAS_SUBKEYS);
    CHECK(regtx_delete_key(store, REGTX_ALONE, 0, "", NULL) == REGTX_FIXED);
    CHECK(regtx_create_key(store, REGTX_ALONE, 0, deep, NULL, NULL) == REGTX_TOO_DEEP);
    CHECK(regtx_flush(store, &number) == REGTX_OK && number == 2);
    /* a run with refusals ends well */
    CHECK(regtx_close(store) == REGTX_OK);
}

static void each_refusal_has_its_code(void)
{
    static const char *const names[] = {"E1 NoMemory",        "E2 NotFound",     "E3 HasSubkeys",
                                        "E4 BadName",         "E5 TooDeep",      "E6 TooLarge",
                                        "E7 Conflict",        "E8 NotActive",    "E9 NoSuchHandle",
                                        "E10 NoSeat",         "E11 JournalFull", "E12 HistoryFull",
                                        "E13 DiskFault",      "E14 Faulted",     "E15 HiveDamaged",
                                        "E16 JournalDamaged", "E17 Unsupported", "E18 Fixed"};
    char replies[512] = "";
    for (int at = 0; at < 18; at++)
        strcat(strcat(replies, names[at]), at == 14 ? " 0 BadRecord\n" : "\n");
    regtx_store *store = fake(replies, "exit 1");
    for (int code = REGTX_NO_MEMORY; code <= REGTX_FIXED; code++) {
        CHECK(regtx_flush(store, NULL) == code);
        CHECK(strcmp(regtx_client_text(code), names[code - 1]) == 0);
    }
    CHECK(regtx_close(store) == REGTX_OK);
}

static void spoil(const char *file, long at)
{
    char path[64];
    snprintf(path, sizeof path, "%s/%s", folder(), file);
    FILE *spoilt = fopen(path, "r+b");
    CHECK(spoilt && fseek(spoilt, at, SEEK_SET) == 0 && fputc('?', spoilt) == '?');
    if (spoilt)
        fclose(spoilt);
}

static void damaged_stores_are_refused(void)
{
    regtx_store *store;
    CHECK(regtx_close(new_store()) == REGTX_OK);
    CHECK(regtx_open("none", program, 0, &store) == REGTX_JOURNAL_DAMAGED && !store);
    /* behind the base block: the first bin */
    spoil("hive01.dat", 4096);
    CHECK(regtx_open(folder(), program, 0, &store) == REGTX_HIVE_DAMAGED && !store);
    spoil("journal", 0);
    CHECK(regtx_open(folder(), program, 0, &store) == REGTX_JOURNAL_DAMAGED && !store);
}

static void stores_are_made_once(void)
{
    regtx_uuid id;
    regtx_store *store;
    CHECK(regtx_uuid_random(&id) == REGTX_OK);
    CHECK(regtx_close(new_store()) == REGTX_OK);
    CHECK(regtx_create(folder(), &id, 1, program) == REGTX_CANNOT_MAKE);
    CHECK(regtx_create("no/folder", &id, 1, program) == REGTX_CANNOT_MAKE);
    CHECK(regtx_create("other", &id, 17, program) == REGTX_REPLY);
    CHECK(regtx_create("--help", &id, 16, program) == REGTX_OK);
    CHECK(regtx_open("--help", program, 0, &store) == REGTX_OK && regtx_close(store) == REGTX_OK);
}

static void stores_are_made_of_files(void)
{
    regtx_uuid id = unit(5);
    regtx_store *store;
    char first[64], second[64], journal[64], keys[32];
    size_t size = sizeof keys, count = 0;
    CHECK(regtx_close(new_store()) == REGTX_OK);
    snprintf(first, sizeof first, "%s/hive00.dat", folder());
    snprintf(second, sizeof second, "%s/hive01.dat", folder());
    const char *files[] = {second, first}, *none[] = {first, "-none"};
    CHECK(regtx_import_files("copies", &id, files, 2, program) == REGTX_OK);
    CHECK(regtx_open("copies", program, 0, &store) == REGTX_OK);
    CHECK(regtx_subkeys(store, REGTX_ALONE, 1, "", keys, &size, &count) == REGTX_OK);
    CHECK(count == 1 && strcmp(keys, "Software") == 0 && regtx_close(store) == REGTX_OK);
    CHECK(regtx_import_files("copies", &id, files, 2, program) == REGTX_CANNOT_MAKE);
    CHECK(regtx_import_files("more", &id, none, 2, program) == REGTX_CANNOT_READ);
    CHECK(regtx_import_files("more", &id, files, 0, program) == REGTX_REPLY);
    snprintf(journal, sizeof journal, "%s/journal", folder());
    files[0] = journal;
    CHECK(regtx_import_files("more", &id, files, 1, program) == REGTX_HIVE_DAMAGED);
    CHECK(regtx_import_files("-more", &id, none, 1, program) == REGTX_OK);
}

/* A store of the first layout: its journal says so, and it has no hive of outcomes. */
static void old_stores_are_upgraded(void)
{
    regtx_uuid uuid = unit(1);
    regtx_store *store;
    char path[64];
    CHECK(regtx_close(new_store()) == REGTX_OK);
    CHECK(regtx_upgrade(folder(), "newer", program) == REGTX_UNSUPPORTED);
    snprintf(path, sizeof path, "%s/journal", folder());
    FILE *journal = fopen(path, "r+b");
    CHECK(journal && fputs("KTMJRNL1", journal) >= 0 && fclose(journal) == 0);
    snprintf(path, sizeof path, "%s/hive02.dat", folder());
    CHECK(remove(path) == 0);
    store = open_again();
    CHECK(regtx_kept(store, &uuid, NULL) == REGTX_UNSUPPORTED);
    CHECK(regtx_upgrade(folder(), "newer", program) == REGTX_CANNOT_OPEN);
    CHECK(regtx_close(store) == REGTX_OK);
    CHECK(regtx_upgrade(folder(), "no/folder", program) == REGTX_CANNOT_MAKE);
    CHECK(regtx_upgrade(folder(), "newer", program) == REGTX_OK);
    CHECK(regtx_open("newer", program, 0, &store) == REGTX_OK);
    CHECK(regtx_kept(store, &uuid, NULL) == REGTX_NOT_FOUND && regtx_close(store) == REGTX_OK);
}

static void uuids_are_read_and_printed(void)
{
    static const char *const wrong[] = {"",
                                        "6ba7b810",
                                        "6ba7b810-9dad-11d1-80b4-00c04fd430c",
                                        "6ba7b810-9dad-11d1-80b4-00c04fd430c8a",
                                        "6ba7b8109-dad-11d1-80b4-00c04fd430c8",
                                        "6ba7b810-9dad-11d1-80b4-00c04fd430cg",
                                        "+ba7b810-9dad-11d1-80b4-00c04fd430c8"};
    regtx_uuid uuid, other;
    char text[REGTX_UUID_TEXT];
    CHECK(regtx_uuid_parse("6BA7b810-9dad-11d1-80b4-00c04fd430c8", &uuid) == REGTX_OK);
    CHECK(memcmp(uuid.bytes, "\x6b\xa7\xb8\x10\x9d\xad\x11\xd1\x80\xb4\0\xc0\x4f\xd4\x30\xc8", 16)
          == 0);
    regtx_uuid_print(&uuid, text);
    CHECK(strcmp(text, "6ba7b810-9dad-11d1-80b4-00c04fd430c8") == 0);
    for (size_t at = 0; at < sizeof wrong / sizeof wrong[0]; at++)
        CHECK(regtx_uuid_parse(wrong[at], &uuid) == REGTX_WRONG_DATA);
    CHECK(regtx_uuid_random(&uuid) == REGTX_OK && regtx_uuid_random(&other) == REGTX_OK);
    CHECK(memcmp(&uuid, &other, sizeof uuid) != 0 && uuid.bytes[6] >> 4 == 4
          && uuid.bytes[8] >> 6 == 2);
}

void test_requests(void)
{
    writes_answer_their_numbers();
    reads_tell_what_is_there();
    writes_tell_the_time();
    refusals_change_nothing();
    each_refusal_has_its_code();
    damaged_stores_are_refused();
    stores_are_made_once();
    stores_are_made_of_files();
    old_stores_are_upgraded();
    uuids_are_read_and_printed();
}

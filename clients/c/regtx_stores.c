/* Stores that are made: of empty hives, of files, and of an old store. */
#define _POSIX_C_SOURCE 200809L

#include "regtx_client.h"
#include "regtx_run.h"

#include <stdio.h>
#include <stdlib.h>
#include <string.h>

/* the words before the files */
enum { WORDS = 4 };

/* Carries out a command that makes a store, and prints `ok`. */
static int make(const char *words[], size_t place, size_t files)
{
    regtx_store *store;
    int code = regtx_launch(words, place, files, &store);
    if (code)
        return code;
    code = regtx_read_line(store->link);
    if (code == REGTX_OK)
        code = regtx_failure_of(store->link->text);
    code = regtx_judge_ok(store, code);
    int ended = regtx_end(store);
    return code ? code : ended;
}

int regtx_create(const char *folder, const regtx_uuid *id, unsigned hives, const char *program)
{
    char uuid[REGTX_UUID_TEXT], count[DIGITS];
    regtx_uuid_print(id, uuid);
    snprintf(count, sizeof count, "%u", hives);
    const char *words[] = {program, "new", folder, uuid, count, NULL};
    return make(words, 2, 1);
}

int regtx_import_files(const char *folder, const regtx_uuid *id, const char *const files[],
                       size_t count, const char *program)
{
    char uuid[REGTX_UUID_TEXT];
    const char *first[WORDS] = {program, "import", folder, uuid};
    const char **words = calloc(WORDS + count + 1, sizeof *words);
    if (!words)
        return REGTX_CLIENT_MEMORY;
    regtx_uuid_print(id, uuid);
    memcpy(words, first, sizeof first);
    for (size_t at = 0; at < count; at++)
        words[WORDS + at] = files[at];
    /* the id among them begins with no hyphen */
    int code = make(words, 2, count + 2);
    free(words);
    return code;
}

int regtx_upgrade(const char *old_folder, const char *new_folder, const char *program)
{
    const char *words[] = {program, "upgrade", old_folder, new_folder, NULL};
    return make(words, 2, 2);
}

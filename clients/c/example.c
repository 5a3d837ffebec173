/* Installs the parts of a product, each exactly once, though this or the program is killed: begun
 * again, it goes on.
 *
 *     example REGTX FOLDER [COUNT]
 *
 * REGTX is the program. The store is in FOLDER, and is made if that isn't there. COUNT is how many
 * parts there are, else 3. A part is one transaction over two hives, whose unit of work is the
 * part's own: so regtx_kept tells which parts are there, though no answer to a commit came. */
#define _POSIX_C_SOURCE 200809L

#include "regtx_client.h"

#include <inttypes.h>
#include <stdio.h>
#include <stdlib.h>
#include <unistd.h>

enum { TRIES = 10, MOST_PARTS = 9999, SOFTWARE = 0, SETUP = 1 };

/* A part's unit of work: the same in each life of this program. */
static regtx_uuid unit_of(int part)
{
    regtx_uuid unit;
    regtx_uuid_parse("6ba7b810-9dad-11d1-80b4-00c04fd40000", &unit);
    unit.bytes[14] = (unsigned char)(part >> 8);
    unit.bytes[15] = (unsigned char)part;
    return unit;
}

/* How many parts the second hive counts. */
static int installed(regtx_store *store, regtx_tx tx, uint32_t *parts)
{
    unsigned char data[4];
    size_t size = sizeof data;
    *parts = 0;
    int code = regtx_get_value(store, tx, SETUP, "Setup", "Parts", NULL, data, &size);
    if (code == REGTX_NOT_FOUND)
        return REGTX_OK;
    return code ? code : regtx_to_dword(data, size, parts);
}

/* Writes a part in a transaction. */
static int write_part(regtx_store *store, regtx_tx tx, int part)
{
    char path[64];
    unsigned char version[8], count[4];
    size_t size = sizeof version;
    uint32_t parts;
    int code;
    snprintf(path, sizeof path, "Software\\Vendor\\Part %d", part);
    if ((code = regtx_from_sz("1.0", version, &size))
        || (code = regtx_create_key(store, tx, SOFTWARE, path, NULL, NULL))
        || (code = regtx_set_value(store, tx, SOFTWARE, path, "Version", REGTX_REG_SZ, version,
                                   size, NULL))
        || (code = regtx_create_key(store, tx, SETUP, "Setup", NULL, NULL))
        || (code = installed(store, tx, &parts)))
        return code;
    regtx_from_dword(parts + 1, count);
    return regtx_set_value(store, tx, SETUP, "Setup", "Parts", REGTX_REG_DWORD, count, sizeof count,
                           NULL);
}

static int install(regtx_store *store, int part)
{
    regtx_uuid unit = unit_of(part);
    regtx_tx tx;
    uint64_t number;
    int code = regtx_transaction(store, REGTX_FIRST_SESSION, &unit, &tx);
    if (code)
        return code;
    code = write_part(store, tx, part);
    if (code) {
        regtx_rollback(store, tx);
        return code;
    }
    code = regtx_commit(store, tx, &number);
    if (code == REGTX_OK)
        printf("part %d: committed %" PRIu64 "\n", part, number);
    return code;
}

/* Installs the parts of which no commit is kept. */
static int install_missing(regtx_store *store, int count)
{
    static int missing[MOST_PARTS];
    int left = 0, code;
    for (int part = 1; part <= count; part++) {
        regtx_uuid unit = unit_of(part);
        code = regtx_kept(store, &unit, NULL);
        if (code == REGTX_NOT_FOUND)
            missing[left++] = part;
        else if (code)
            return code;
    }
    printf("%d of %d parts were there before\n", count - left, count);
    for (int at = 0; at < left; at++)
        if ((code = install(store, missing[at])))
            return code;
    uint32_t parts;
    code = installed(store, REGTX_ALONE, &parts);
    if (code == REGTX_OK)
        printf("%" PRIu32 " parts are installed\n", parts);
    return code;
}

static int install_all(const char *program, const char *folder, int count)
{
    regtx_store *store;
    /* the run of a program that was killed may not have ended yet */
    int code = regtx_open(folder, program, 30, &store);
    if (code)
        return code;
    code = install_missing(store, count);
    int closed = regtx_close(store);
    return code ? code : closed;
}

static int run(const char *program, const char *folder, int count)
{
    regtx_uuid id;
    regtx_uuid_parse("00112233-4455-6677-8899-aabbccddeeff", &id);
    int code = access(folder, F_OK) == 0 ? REGTX_OK : regtx_create(folder, &id, 2, program);
    for (int tries = 0; code == REGTX_OK && tries < TRIES; tries++) {
        code = install_all(program, folder, count);
        if (code != REGTX_ENDED && code != REGTX_COMMIT_UNKNOWN)
            return code;
        printf("the run ended: begin another one\n");
        code = REGTX_OK;
    }
    return code ? code : REGTX_ENDED;
}

int main(int words, char *word[])
{
    int count = words == 4 ? atoi(word[3]) : 3;
    if (words < 3 || words > 4 || count < 0 || count > MOST_PARTS) {
        fprintf(stderr, "usage: example REGTX FOLDER [COUNT]\n");
        return 2;
    }
    /* each line leaves at once, also through a pipe */
    setvbuf(stdout, NULL, _IOLBF, BUFSIZ);
    int code = run(word[1], word[2], count);
    if (code)
        fprintf(stderr, "example: %s\n", regtx_client_text(code));
    return code ? 1 : 0;
}

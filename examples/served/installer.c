/* Installs the parts of a product into a store that is served, each once, though others do so too:
 *
 *     installer SOCKET COUNT
 *
 * It prints the number of each part's change, also if another installer made it. If the server goes
 * it waits for the next one, and goes on. examples/README.md says how it is built. */
#include "regtx_client.h"

#include <stdio.h>
#include <stdlib.h>
#include <unistd.h>

enum { SOFTWARE, PATH = 64, TRIES = 15, REPLY_SECONDS = 60, SERVER_SECONDS = 60 };

/* A part's unit of work: the same in each installer, and whenever it begins. */
static regtx_uuid unit_of(unsigned part)
{
    regtx_uuid unit;
    regtx_uuid_parse("6ba7b810-9dad-11d1-80b4-00c04fd40000", &unit);
    unit.bytes[14] = (unsigned char)(part >> 8);
    unit.bytes[15] = (unsigned char)part;
    return unit;
}

/* What a part writes: a key with its version. */
static int gather(unsigned part, regtx_writes *writes)
{
    char path[PATH], version[PATH];
    size_t size = sizeof version;
    snprintf(path, sizeof path, "Vendor\\Part %u", part);
    int code = regtx_from_sz("1.0", version, &size);
    if (code == REGTX_OK)
        code = regtx_writes_create_key(writes, SOFTWARE, path);
    if (code == REGTX_OK)
        code = regtx_writes_set_value(writes, SOFTWARE, path, "Version", REGTX_REG_SZ, version,
                                      size);
    return code;
}

static int install(regtx_store *store, unsigned part, uint64_t *number)
{
    regtx_uuid unit = unit_of(part);
    regtx_writes *writes;
    int code = regtx_writes_new(&writes);
    if (code)
        return code;
    code = gather(part, writes);
    if (code == REGTX_OK)
        code = regtx_once_writes(store, REGTX_FIRST_SESSION, &unit, TRIES, writes, number);
    regtx_writes_free(writes);
    return code;
}

/* Installs from a part on, by one connection; the part is the first that isn't installed then. */
static int install_all(const char *socket, unsigned count, unsigned *part)
{
    regtx_store *store;
    uint64_t number;
    int code = regtx_connect(socket, REGTX_NO_USER, REPLY_SECONDS, &store);
    for (; code == REGTX_OK && *part <= count; ++*part) {
        code = install(store, *part, &number);
        if (code)
            break;
        printf("part %u: change %d\n", *part, (int)number);
    }
    regtx_close(store);
    return code;
}

/* Whether a later connection may go on: the server has gone, or has no place yet. */
static bool may_go_on(int code)
{
    return code == REGTX_ENDED || code == REGTX_COMMIT_UNKNOWN || code == REGTX_IO
           || code == REGTX_NO_SEAT;
}

int main(int count_of_words, char *words[])
{
    if (count_of_words != 3) {
        fputs("usage: installer SOCKET COUNT\n", stderr);
        return 2;
    }
    unsigned count = (unsigned)strtoul(words[2], NULL, 10), part = 1;
    int code, left = SERVER_SECONDS;
    while (may_go_on(code = install_all(words[1], count, &part)) && left-- > 0)
        sleep(1);
    if (code)
        fprintf(stderr, "part %u: %s\n", part, regtx_client_text(code));
    return code != REGTX_OK;
}

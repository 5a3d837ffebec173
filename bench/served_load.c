/* Clients of a store, each a thread with a connection of its own, or one with a run: what bench/served.py measures.
 *
 *     served_load WORK CLIENTS COUNT SOCKET
 *     served_load WORK 1 COUNT FOLDER PROGRAM
 *
 * WORK is `together` (a transaction of four values, whose lines are sent together), `lines` (the same, a line after each reply), `one`
 * (a transaction of one value, all of whose lines are sent together) or `reads`. COUNT calls are made in all. It prints as regtx_bench
 * does: the seconds, and how long the calls of so many percent took at most. */
#define _POSIX_C_SOURCE 200809L

#include "regtx_client.h"

#include <pthread.h>
#include <stdio.h>
#include <stdlib.h>
#include <string.h>
#include <time.h>

enum { HIVES = 2, LETTERS = 2, TURNS = 4, BYTES = 50, NAME = 32 };

struct client {
    pthread_t thread;
    unsigned number;
    size_t count;
    double *spent;
    int code;
};

static const char *work, *place, *program;
static pthread_barrier_t start;

static double now(void)
{
    struct timespec time;
    clock_gettime(CLOCK_MONOTONIC, &time);
    return (double)time.tv_sec + (double)time.tv_nsec / 1e9;
}

static int open_store(regtx_store **store)
{
    return program ? regtx_open(place, program, 0, store) : regtx_connect(place, REGTX_NO_USER, 0, store);
}

/* A value of a client's transaction, by its number from 0 on: the hive, the name and the data. */
static void value_of(unsigned value, size_t round, uint8_t *hive, char name[NAME], unsigned char data[BYTES])
{
    *hive = (uint8_t)(value / LETTERS);
    snprintf(name, NAME, "%c%d", 'a' + (char)(value % LETTERS), (int)(round % TURNS));
    memset(data, (int)(round % 256), BYTES);
}

static int commit_together(regtx_store *store, const char *key, const regtx_uuid *unit, size_t round, unsigned values)
{
    regtx_writes *writes;
    int code = regtx_writes_new(&writes);
    for (unsigned value = 0; value < values && code == REGTX_OK; value++) {
        uint8_t hive;
        char name[NAME];
        unsigned char data[BYTES];
        value_of(value, round, &hive, name, data);
        code = regtx_writes_set_value(writes, hive, key, name, REGTX_REG_BINARY, data, BYTES);
    }
    if (code == REGTX_OK)
        code = regtx_transact_writes(store, REGTX_FIRST_SESSION, unit, 1, writes, NULL);
    regtx_writes_free(writes);
    return code;
}

static int commit_by_lines(regtx_store *store, const char *key, const regtx_uuid *unit, size_t round)
{
    regtx_tx tx;
    int code = regtx_transaction(store, REGTX_FIRST_SESSION, unit, &tx);
    for (unsigned value = 0; value < HIVES * LETTERS && code == REGTX_OK; value++) {
        uint8_t hive;
        char name[NAME];
        unsigned char data[BYTES];
        value_of(value, round, &hive, name, data);
        code = regtx_set_value(store, tx, hive, key, name, REGTX_REG_BINARY, data, BYTES, NULL);
    }
    return code ? code : regtx_commit(store, tx, NULL);
}

static int call(regtx_store *store, const char *key, unsigned number, size_t round)
{
    unsigned char data[BYTES];
    size_t size = BYTES;
    regtx_uuid unit = {{0}};
    if (strcmp(work, "reads") == 0)
        return regtx_get_value(store, REGTX_ALONE, 0, key, "a0", NULL, data, &size);
    memcpy(unit.bytes, &number, sizeof number);
    memcpy(unit.bytes + 8, &round, sizeof round);
    return strcmp(work, "lines") == 0 ? commit_by_lines(store, key, &unit, round)
                                      : commit_together(store, key, &unit, round, strcmp(work, "one") == 0 ? 1 : HIVES * LETTERS);
}

/* Makes the client's keys, and a value that is read. */
static int prepare(regtx_store *store, const char *key)
{
    regtx_uuid unit;
    int code = regtx_uuid_random(&unit);
    for (uint8_t hive = 0; hive < HIVES && code == REGTX_OK; hive++)
        code = regtx_create_key(store, REGTX_ALONE, hive, key, NULL, NULL);
    return code ? code : commit_together(store, key, &unit, 0, HIVES * LETTERS);
}

static void *run(void *context)
{
    struct client *client = context;
    regtx_store *store = NULL;
    char key[NAME];
    snprintf(key, sizeof key, "t%02u", client->number);
    client->code = open_store(&store);
    if (client->code == REGTX_OK)
        client->code = prepare(store, key);
    pthread_barrier_wait(&start);
    for (size_t round = 0; round < client->count && client->code == REGTX_OK; round++) {
        double begun = now();
        client->code = call(store, key, client->number, round);
        client->spent[round] = now() - begun;
    }
    pthread_barrier_wait(&start);
    regtx_close(store);
    return NULL;
}

static int by_size(const void *one, const void *two)
{
    double first = *(const double *)one, second = *(const double *)two;
    return (first > second) - (first < second);
}

static void print(double seconds, double *spent, size_t count)
{
    static const size_t percents[] = {50, 99, 100};
    qsort(spent, count, sizeof *spent, by_size);
    printf("seconds %.6f\n", seconds);
    for (size_t at = 0; at < sizeof percents / sizeof percents[0]; at++)
        printf("latency of %d percent %.1f us\n", (int)percents[at], spent[(count * percents[at] + 99) / 100 - 1] * 1e6);
}

int main(int count_of_words, char *words[])
{
    if (count_of_words != 5 && count_of_words != 6)
        return 2;
    work = words[1];
    place = words[4];
    program = count_of_words == 6 ? words[5] : NULL;
    size_t clients = strtoul(words[2], NULL, 10), each = strtoul(words[3], NULL, 10) / (clients ? clients : 1);
    struct client *all = calloc(clients, sizeof *all);
    double *spent = calloc(clients * each, sizeof *spent);
    if (!all || !spent || each == 0 || pthread_barrier_init(&start, NULL, (unsigned)clients + 1) != 0)
        return 2;
    for (size_t at = 0; at < clients; at++) {
        all[at] = (struct client){.number = (unsigned)at, .count = each, .spent = spent + at * each};
        if (pthread_create(&all[at].thread, NULL, run, &all[at]) != 0)
            return 1;
    }
    pthread_barrier_wait(&start);
    double begun = now();
    pthread_barrier_wait(&start);
    double seconds = now() - begun;
    for (size_t at = 0; at < clients; at++) {
        pthread_join(all[at].thread, NULL);
        if (all[at].code != REGTX_OK) {
            fprintf(stderr, "client %d: %s\n", (int)at, regtx_client_text(all[at].code));
            return 1;
        }
    }
    print(seconds, spent, clients * each);
    return 0;
}

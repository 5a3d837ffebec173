/* Runs all checks:
 *
 *     check PROGRAM BROKER
 *
 * Stores are made in the current folder. The last line is 'N passed, M failed'; status 0 if none
 * failed. */
#define _POSIX_C_SOURCE 200809L

#include "check.h"

#include <signal.h>
#include <stdio.h>
#include <stdlib.h>
#include <string.h>
#include <sys/stat.h>

const char *program, *broker;

enum { TEXT = 4096, NAME = 64 };

static int passed, failed, stores, scripts;
static char newest[NAME];

void check(bool is_well, const char *what, const char *file, int line)
{
    *(is_well ? &passed : &failed) += 1;
    if (!is_well)
        printf("%s:%d: %s\n", strrchr(file, '/') ? strrchr(file, '/') + 1 : file, line, what);
}

regtx_uuid unit(unsigned number)
{
    regtx_uuid uuid = {{0x6b}};
    uuid.bytes[14] = (unsigned char)(number >> 8);
    uuid.bytes[15] = (unsigned char)number;
    return uuid;
}

/* Ends all: what follows would have no store. */
static void need(int code, const char *what)
{
    if (code) {
        printf("%s: %s\n%d passed, %d failed\n", what, regtx_client_text(code), passed, failed + 1);
        exit(1);
    }
}

regtx_store *new_store(void)
{
    regtx_uuid id = unit(0);
    snprintf(newest, sizeof newest, "store%d", ++stores);
    need(regtx_create(newest, &id, 2, program), "create");
    regtx_store *store = open_again();
    need(regtx_create_key(store, REGTX_ALONE, 0, "Software", NULL, NULL), "Software");
    return store;
}

const char *folder(void)
{
    return newest;
}

regtx_store *open_again(void)
{
    regtx_store *store;
    need(regtx_open(newest, program, 0, &store), "open");
    return store;
}

static void put_file(const char *name, const char *text)
{
    FILE *file = fopen(name, "w");
    if (!file || fputs(text, file) < 0 || fclose(file) != 0)
        need(REGTX_IO, name);
}

static bool shell_prints(const char *command, const char *printed)
{
    static char found[1 << 16];
    FILE *shell = popen(command, "r");
    size_t size = shell ? fread(found, 1, sizeof found - 1, shell) : 0;
    found[size] = 0;
    if (shell)
        pclose(shell);
    bool is_same = strcmp(found, printed) == 0;
    if (!is_same)
        printf("wanted: %sfound: %s", printed, found);
    return is_same;
}

bool answers(const char *lines, const char *replies)
{
    char command[TEXT];
    put_file("lines", lines);
    snprintf(command, sizeof command, "'%s' run %s lines | tail -n +2", program, newest);
    return shell_prints(command, replies);
}

bool prints(const char *command, const char *printed)
{
    char words[TEXT], whole[2 * TEXT];
    snprintf(words, sizeof words, command, newest);
    snprintf(whole, sizeof whole, "'%s' %s", program, words);
    return shell_prints(whole, printed);
}

const char *shell_script(const char *lines)
{
    static char name[NAME], text[2 * TEXT];
    snprintf(name, sizeof name, "./script%d", ++scripts);
    snprintf(text, sizeof text, "#!/bin/sh\n%s\n", lines);
    put_file(name, text);
    chmod(name, 0755);
    return name;
}

regtx_store *fake(const char *replies, const char *end)
{
    char lines[TEXT];
    snprintf(lines, sizeof lines,
             "echo 'opened 0'\n"
             "next() { read -r line; case $line in 'at '*) echo ok; read -r line;; esac; }\n"
             "while IFS= read -r reply <&3; do next; printf '%%s\\n' \"$reply\"; done 3<<'END'\n"
             "%sEND\n"
             "while read -r line; do :; done\n%s",
             replies, end);
    regtx_store *store;
    need(regtx_open("none", shell_script(lines), 0, &store), "fake");
    return store;
}

regtx_store *open_to_kill(void)
{
    char lines[TEXT];
    snprintf(lines, sizeof lines, "echo $$ > pid\nexec '%s' \"$@\"", program);
    regtx_store *store;
    need(regtx_open(newest, shell_script(lines), 0, &store), "open");
    return store;
}

void kill_run(void)
{
    int pid = 0;
    FILE *file = fopen("pid", "r");
    CHECK(file && fscanf(file, "%d", &pid) == 1 && kill(pid, SIGKILL) == 0);
    if (file)
        fclose(file);
}

int set_number(regtx_store *store, regtx_tx tx, const char *name, uint32_t number)
{
    unsigned char data[4];
    regtx_from_dword(number, data);
    return regtx_set_value(store, tx, 0, "Software", name, REGTX_REG_DWORD, data, sizeof data,
                           NULL);
}

int main(int words, char *word[])
{
    if (words != 3)
        return 2;
    program = word[1];
    broker = word[2];
    test_values();
    test_names();
    test_requests();
    test_transactions();
    test_runs();
    test_trees();
    test_codes();
    test_processes();
    test_connections();
    test_lost_connections();
    test_following();
    printf("%d passed, %d failed\n", passed, failed);
    return failed ? 1 : 0;
}

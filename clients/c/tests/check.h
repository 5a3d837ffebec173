/* Checks, stores and programs for the tests, which run in a folder of their own. */
#ifndef CHECK_H
#define CHECK_H

#include "../regtx_client.h"

/* A check that fails prints its text and its place. */
#define CHECK(what) check((what), #what, __FILE__, __LINE__)

void check(bool is_well, const char *what, const char *file, int line);

/* The program, and the broker that serves a store by it. */
extern const char *program, *broker;

/* A unit of work by its number. */
regtx_uuid unit(unsigned number);

/* A new store of two hives in a folder of its own, with the key Software in the first. */
regtx_store *new_store(void);

/* The folder of the newest store. */
const char *folder(void);

/* The newest store by another run. */
regtx_store *open_again(void);

/* Whether a run of the program on the newest store answers these lines so; no client is between. */
bool answers(const char *lines, const char *replies);

/* Whether a command of the program in the shell prints this; %s is the newest store's folder. */
bool prints(const char *command, const char *printed);

/* The path of a shell script with these lines. */
const char *shell_script(const char *lines);

/* The store of a program that answers lines by these replies, each with a line's end, and then
 * carries out a command once no line comes any more. A line that tells the time is always `ok`. */
regtx_store *fake(const char *replies, const char *end);

/* The newest store by a run that kill_run ends. */
regtx_store *open_to_kill(void);
void kill_run(void);

/* Serves the newest store at a socket by the broker, with an option and its value, which may be
 * NULL; answers the broker's process. */
int serve(const char *option, const char *value);

/* The same, with a folder for backups. */
int serve_with_backups(const char *backups);

/* The socket of the newest store. */
const char *socket_path(void);

/* A connection to it. */
regtx_store *connected(void);

/* Ends a broker by a signal, and waits for it: its status, or the negative number of a signal. */
int end_broker(int process, int number);

/* Kills the program that a broker has started. */
void kill_server(int process);

/* A process that listens at the newest store's socket. It says the first of these texts at once,
 * and each other one after something came; NULL is behind them. What came is in the file `came`, a
 * `|` behind each time. */
int fake_server(const char *const parts[]);

/* Waits until it has ended: whether this came. */
bool server_got(int process, const char *came);

/* Writes a REG_DWORD into Software of the first hive. */
int set_number(regtx_store *store, regtx_tx tx, const char *name, uint32_t number);

void test_values(void);
void test_names(void);
void test_requests(void);
void test_transactions(void);
void test_runs(void);
void test_trees(void);
void test_codes(void);
void test_processes(void);
void test_connections(void);
void test_lost_connections(void);
void test_following(void);

#endif

/* Notes each write, cut and sync of a program, by interposing on the C library's calls.
 * SYNCS_REPORT=F   each fsync and fdatasync adds the line "folder" or "file NAME" to the file F, by what it is of
 * SYNCS_END_AT=N   the Nth sync of a folder (from 1) isn't made: the program is ended by SIGKILL instead
 * CALLS_REPORT=F   each write, cut and sync of a plain file that is made adds to the file F the line "write NAME OFFSET SIZE", with so
 *                  many bytes behind it, "cut NAME SIZE" or "sync NAME"
 * CALLS_END_AT=N   the program is ended by SIGKILL at the Nth of these calls (from 1): after a write or a cut, before a sync
 * SYNCS_FAIL=F     while a file F is there, no sync of a plain file is made, and each fails with EIO
 * SYNCS_TAKE=N     each sync of a plain file takes N microseconds more */
#define _GNU_SOURCE
#include <errno.h>
#include <fcntl.h>
#include <signal.h>
#include <stdio.h>
#include <stdlib.h>
#include <string.h>
#include <sys/stat.h>
#include <sys/syscall.h>
#include <sys/uio.h>
#include <unistd.h>

static unsigned long folders, counted;

/* what is open: 'd' for a folder, 'f' for a plain file, else 0; and its name without those of folders */
static int kind_of(int fd, char name[4096]) {
    char link[64], path[4096];
    struct stat what;
    snprintf(link, sizeof link, "/proc/self/fd/%d", fd);
    ssize_t size = readlink(link, path, sizeof path - 1);
    if (size < 0 || fstat(fd, &what) < 0) return 0;
    path[size] = 0;
    const char *last = strrchr(path, '/');
    strcpy(name, last ? last + 1 : path);
    return S_ISDIR(what.st_mode) ? 'd' : S_ISREG(what.st_mode) ? 'f' : 0;
}

static void add(const char *report, const void *text, size_t size) {
    int to = open(report, O_WRONLY | O_CREAT | O_APPEND, 0644);
    if (to < 0 || syscall(SYS_write, to, text, size) != (ssize_t)size) abort();
    close(to);
}

static void end_at_call(int fd) {
    char name[4096];
    const char *end_at = getenv("CALLS_END_AT");
    if (end_at && kind_of(fd, name) == 'f' && ++counted == strtoul(end_at, 0, 10)) kill(getpid(), SIGKILL);
}

static void note_sync(int fd) {
    char name[4096], line[4200];
    const char *report = getenv("SYNCS_REPORT"), *end_at = getenv("SYNCS_END_AT"), *calls = getenv("CALLS_REPORT");
    int kind = report || calls ? kind_of(fd, name) : 0;
    if (!kind) return;
    if (report && kind == 'd' && end_at && ++folders == strtoul(end_at, 0, 10)) kill(getpid(), SIGKILL);
    if (report) add(report, line, kind == 'd' ? sprintf(line, "folder\n") : sprintf(line, "file %s\n", name));
    if (calls && kind == 'f') add(calls, line, sprintf(line, "sync %s\n", name));
}

static void note_write(int fd, const void *bytes, ssize_t size, off_t offset) {
    char name[4096], line[4200];
    const char *calls = getenv("CALLS_REPORT");
    if (!calls || size <= 0 || kind_of(fd, name) != 'f') return;
    add(calls, line, sprintf(line, "write %s %lld %zd\n", name, (long long)offset, size));
    add(calls, bytes, size);
}

static void note_cut(int fd, off_t length) {
    char name[4096], line[4200];
    const char *calls = getenv("CALLS_REPORT");
    if (calls && kind_of(fd, name) == 'f') add(calls, line, sprintf(line, "cut %s %lld\n", name, (long long)length));
}

/* waits as long as a sync of a plain file is to take; whether it fails */
static int fails(int fd) {
    char name[4096];
    const char *fail = getenv("SYNCS_FAIL"), *take = getenv("SYNCS_TAKE");
    if ((!fail && !take) || kind_of(fd, name) != 'f') return 0;
    if (take) usleep((unsigned)strtoul(take, 0, 10));
    errno = EIO;
    return fail && access(fail, F_OK) == 0;
}

static int sync_by(long call, int fd) {
    note_sync(fd);
    end_at_call(fd);
    return fails(fd) ? -1 : (int)syscall(call, fd);
}

int fsync(int fd) { return sync_by(SYS_fsync, fd); }
int fdatasync(int fd) { return sync_by(SYS_fdatasync, fd); }

ssize_t pwrite64(int fd, const void *bytes, size_t size, off64_t offset) {
    ssize_t done = syscall(SYS_pwrite64, fd, bytes, size, offset);
    note_write(fd, bytes, done, offset);
    end_at_call(fd);
    return done;
}

ssize_t pwrite(int fd, const void *bytes, size_t size, off_t offset) { return pwrite64(fd, bytes, size, offset); }

ssize_t write(int fd, const void *bytes, size_t size) {
    off_t offset = lseek(fd, 0, SEEK_CUR);
    ssize_t done = syscall(SYS_write, fd, bytes, size);
    note_write(fd, bytes, done, offset);
    end_at_call(fd);
    return done;
}

int ftruncate64(int fd, off64_t length) {
    int told = (int)syscall(SYS_ftruncate, fd, length);
    if (told == 0) note_cut(fd, length);
    end_at_call(fd);
    return told;
}

int ftruncate(int fd, off_t length) { return ftruncate64(fd, length); }

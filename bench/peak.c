/* Runs a program, its standard output thrown away, and prints what it took: processor microseconds and the most bytes that
 * it held resident. A caller with much memory can't ask this of its own child, which begins as a copy of it. */
#include <fcntl.h>
#include <stdio.h>
#include <sys/resource.h>
#include <sys/wait.h>
#include <unistd.h>

int main(int count, char **words) {
    struct rusage used;
    int status;
    pid_t child = count > 1 ? fork() : -1;
    if (child < 0) return 2;
    if (child == 0) {
        if (dup2(open("/dev/null", O_WRONLY), 1) == 1) execvp(words[1], words + 1);
        _exit(127);
    }
    if (wait4(child, &status, 0, &used) != child || status) return 1;
    printf("%ld %ld\n", (used.ru_utime.tv_sec + used.ru_stime.tv_sec) * 1000000L + used.ru_utime.tv_usec + used.ru_stime.tv_usec,
           used.ru_maxrss * 1024L);
    return 0;
}

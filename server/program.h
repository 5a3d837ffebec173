/* The program that the broker starts: its process, and the pipes of its standard files. */
#ifndef REGTXD_PROGRAM_H
#define REGTXD_PROGRAM_H

#include <stdbool.h>
#include <sys/types.h>

struct program {
    pid_t pid;
    int input, output; /* the broker's ends of the pipes; -1: closed */
    bool is_ready, has_ended;
    bool is_over;       /* nothing more is read of it */
    bool is_wrong;      /* the broker ends by a fault, whatever the program's status is */
    bool has_last_line; /* it wrote a line that is its last */
    int status;         /* as waitpid answers it */
};

/* Starts a command. A failure is told, and ends the process with status 1. */
void start_program(struct program *program, char **command);

#endif

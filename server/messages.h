/* Messages of the broker: faults on standard error, and lines on standard output for whoever
   started it. */
#ifndef REGTXD_MESSAGES_H
#define REGTXD_MESSAGES_H

#include <stddef.h>

/* Prints a line on standard error. */
void say(const char *format, ...);

/* The same of a call that failed just now, by errno. */
void say_errno(const char *what);

/* Ends the process, with status 1, since a call failed just now that nothing goes on without. It is
   for the time before the socket's file is made; give_up of broker.h is for the time after that. */
_Noreturn void die(const char *what);

/* Prints a line of so many bytes on standard output. A failure is told, and ends nothing. */
void print_line(const char *line, size_t size);

#endif

/* The frames between broker and program, by the protocol of README.md: the queue of those that are
   on their way to the program, and the reader of the program's output. */
#ifndef REGTXD_FRAMES_H
#define REGTXD_FRAMES_H

#include <stdbool.h>
#include <stddef.h>

enum {
    /* clients at a time */
    PLACES = 31,
    /* bytes of a frame */
    CHUNK = 65536,
    /* the longest head of a frame, `data 30 65536`, has less */
    HEAD = 32,
    /* room for words beside a frame: at most six of 8 bytes for a place wait at once, those of a
       client that left (`more`, `end`, `gone`) and of the next one (`open`, `end`, `gone`) */
    WORDS = 4096,
};

struct broker;

/* what is on its way to the program: the bytes from `at` to `len` */
struct queue {
    size_t at, len;
    char bytes[HEAD + CHUNK + WORDS];
};

/* what was read of the program and isn't taken yet, and the `data` that is under way */
struct reader {
    char bytes[CHUNK];
    size_t len;
    size_t left; /* bytes of that `data` that aren't taken yet */
    int place;   /* whose they are, if any are left */
};

bool is_queue_empty(const struct queue *queue);

/* Writes what the program's pipe takes now. If the program reads no more, the service stops. */
void write_queue(struct broker *broker);

/* Closes the program's input. What wasn't written yet is thrown away. */
void end_input(struct broker *broker);

/* Tells the program a word of a place, after all that waits already. At a stop nothing more is
   told, so that the input can end. */
void tell(struct broker *broker, const char *word, int place);

/* Where CHUNK bytes of a client are to be put for tell_data. The queue has to be empty. */
char *data_room(struct queue *queue);

/* Tells the program `data` of a place: so many bytes that are in the room. */
void tell_data(struct broker *broker, int place, size_t size);

/* Reads what the program wrote, and does what its frames say. A wrong line ends the service. */
void read_program(struct broker *broker);

#endif

/* The frames between broker and program. */
#define _GNU_SOURCE

#include "frames.h"

#include <errno.h>
#include <stdio.h>
#include <string.h>
#include <unistd.h>

#include "broker.h"
#include "messages.h"

/* the longest line of the program */
enum { LINE = 512 };

/* --- to the program --- */

bool is_queue_empty(const struct queue *queue)
{
    return queue->at == queue->len;
}

static void clear_queue(struct queue *queue)
{
    queue->at = queue->len = 0;
}

void end_input(struct broker *broker)
{
    if (broker->program.input >= 0)
        close(broker->program.input);
    broker->program.input = -1;
    clear_queue(&broker->queue);
}

/* The program can't be trusted any more: nothing more is read of it or told to it. */
static void break_off(struct broker *broker)
{
    stop(broker);
    broker->program.is_wrong = broker->program.is_over = true;
    clear_queue(&broker->queue);
}

void write_queue(struct broker *broker)
{
    struct queue *queue = &broker->queue;
    while (broker->program.input >= 0 && !is_queue_empty(queue)) {
        ssize_t put =
            write(broker->program.input, queue->bytes + queue->at, queue->len - queue->at);
        if (put >= 0) {
            queue->at += (size_t)put;
        } else if (errno == EAGAIN) {
            return;
        } else if (errno != EINTR) {
            /* a program that reads no more can't be told who has gone: nobody else may come */
            if (errno != EPIPE)
                say_errno("the program's input");
            end_input(broker);
            stop(broker);
        }
    }
}

void tell(struct broker *broker, const char *word, int place)
{
    struct queue *queue = &broker->queue;
    char head[HEAD];
    size_t size = (size_t)snprintf(head, sizeof head, "%s %d\n", word, place);
    if (broker->is_stopping || broker->program.input < 0)
        return;
    if (queue->len + size > sizeof queue->bytes) {
        queue->len -= queue->at;
        memmove(queue->bytes, queue->bytes + queue->at, queue->len);
        queue->at = 0;
    }
    if (queue->len + size > sizeof queue->bytes) {
        say("the program takes no frames, and their room is used up");
        break_off(broker);
        return;
    }
    memcpy(queue->bytes + queue->len, head, size);
    queue->len += size;
    write_queue(broker);
}

char *data_room(struct queue *queue)
{
    return queue->bytes + HEAD;
}

void tell_data(struct broker *broker, int place, size_t size)
{
    struct queue *queue = &broker->queue;
    char head[HEAD];
    size_t head_size = (size_t)snprintf(head, sizeof head, "data %d %zu\n", place, size);
    queue->at = HEAD - head_size;
    queue->len = HEAD + size;
    memcpy(queue->bytes + queue->at, head, head_size);
    write_queue(broker);
}

/* --- from the program --- */

/* Ends the service since the program wrote a line that it may not write here. */
static void refuse_line(struct broker *broker, const char *line, size_t size, const char *why)
{
    char shown[LINE + 1] = "";
    memcpy(shown, line, size < LINE ? size : LINE);
    for (char *at = shown; at < shown + LINE && at < shown + size; at++)
        if (*at < ' ' || *at > '~')
            *at = '?';
    say("wrong line of the program: '%s': %s", shown, why);
    break_off(broker);
}

/* Takes a word, which is the whole line or has a blank after it. */
static bool parse_word(const char **at, const char *end, const char *word)
{
    size_t size = strlen(word);
    const char *rest = *at + size;
    if ((size_t)(end - *at) < size || memcmp(*at, word, size) != 0 || (rest < end && *rest != ' '))
        return false;
    *at = rest;
    return true;
}

/* Takes a blank and a number from `least` to `most`, without leading zeros. */
static bool parse_field(const char **at, const char *end, size_t least, size_t most, size_t *number)
{
    if (*at == end || **at != ' ')
        return false;
    const char *first = ++*at;
    *number = 0;
    while (*at < end && **at >= '0' && **at <= '9' && *number <= most)
        *number = 10 * *number + (size_t)(*(*at)++ - '0');
    bool is_canonical = *at > first && (*first != '0' || *at == first + 1);
    return is_canonical && *number >= least && *number <= most;
}

/* Takes a blank and the number of a place that is taken; answers that, or -1. */
static int parse_place(const struct broker *broker, const char **at, const char *end)
{
    size_t place;
    if (!parse_field(at, end, 0, PLACES - 1, &place) || !broker->clients[place].is_taken)
        return -1;
    return (int)place;
}

static const char no_place[] = "no place that is taken stands there";

/* Begins the replies of a frame; answers what is wrong with it. */
static const char *read_data(struct broker *broker, const char *at, const char *end)
{
    int place = parse_place(broker, &at, end);
    size_t count;
    if (place < 0)
        return no_place;
    if (!parse_field(&at, end, 1, CHUNK, &count) || at != end)
        return "its number of bytes isn't one from 1 to 65536";
    if (broker->clients[place].is_owed)
        return "the last data of this place weren't handed on yet";
    broker->clients[place].is_owed = true;
    broker->reader.place = place;
    broker->reader.left = count;
    return NULL;
}

static const char *read_more(struct broker *broker, const char *at, const char *end)
{
    int place = parse_place(broker, &at, end);
    if (place < 0 || at != end)
        return no_place;
    if (!broker->clients[place].is_sent)
        return "no data of this place are on their way";
    broker->clients[place].is_sent = false;
    return NULL;
}

static const char *read_end(struct broker *broker, const char *at, const char *end)
{
    int place = parse_place(broker, &at, end);
    if (place < 0 || at != end)
        return no_place;
    end_session(broker, place);
    return NULL;
}

/* Before `ready` any other line is why the store isn't open; after it a refusal is why the work of
   the end wasn't done. */
static bool is_last_line(const struct broker *broker, const char *line, const char *end)
{
    bool is_refusal = end - line > 1 && line[0] == 'E' && line[1] >= '1' && line[1] <= '9';
    return !broker->program.is_ready || is_refusal;
}

static void read_last_line(struct broker *broker, const char *line, size_t size)
{
    print_line(line, size);
    broker->program.has_last_line = broker->program.is_wrong = true;
    stop(broker);
}

static void read_line(struct broker *broker, const char *line, const char *end)
{
    const char *at = line, *why = NULL;
    size_t size = (size_t)(end - line);
    if (broker->program.has_last_line)
        why = "it wrote its last line before";
    else if (!broker->program.is_ready && size == 5 && memcmp(line, "ready", size) == 0)
        start_service(broker);
    else if (is_last_line(broker, line, end))
        read_last_line(broker, line, size);
    else if (parse_word(&at, end, "data"))
        why = read_data(broker, at, end);
    else if (parse_word(&at, end, "more"))
        why = read_more(broker, at, end);
    else if (parse_word(&at, end, "end"))
        why = read_end(broker, at, end);
    else
        why = "it is no frame";
    if (why)
        refuse_line(broker, line, size, why);
}

/* Hands on bytes of the `data` that is under way; answers how many were taken. */
static size_t read_replies(struct broker *broker, const char *bytes, size_t count)
{
    struct reader *reader = &broker->reader;
    count = count < reader->left ? count : reader->left;
    reader->left -= count;
    keep_replies(broker, reader->place, bytes, count);
    return count;
}

static void read_frames(struct broker *broker)
{
    struct reader *reader = &broker->reader;
    size_t at = 0;
    while (at < reader->len && !broker->program.is_over) {
        const char *bytes = reader->bytes + at;
        size_t there = reader->len - at;
        if (reader->left > 0) {
            at += read_replies(broker, bytes, there);
            continue;
        }
        if (broker->program.has_last_line && !broker->program.is_ready) {
            /* what a program that can't begin says besides */
            at = reader->len;
            break;
        }
        const char *end = memchr(bytes, '\n', there);
        if (!end && there >= LINE)
            refuse_line(broker, bytes, there, "it is too long");
        if (!end)
            break;
        read_line(broker, bytes, end);
        at += (size_t)(end - bytes) + 1;
    }
    reader->len -= at;
    memmove(reader->bytes, reader->bytes + at, reader->len);
}

void read_program(struct broker *broker)
{
    struct reader *reader = &broker->reader;
    ssize_t got = read(broker->program.output, reader->bytes + reader->len,
                       sizeof reader->bytes - reader->len);
    if (got < 0 && (errno == EINTR || errno == EAGAIN))
        return;
    if (got < 0)
        say_errno("the program's output");
    if (got > 0) {
        reader->len += (size_t)got;
        read_frames(broker);
        return;
    }
    broker->program.is_over = true;
    if (reader->len > 0 || reader->left > 0) {
        say("the program's output ends in the midst of a frame");
        broker->program.is_wrong = true;
    }
}

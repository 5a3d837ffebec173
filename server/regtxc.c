/* regtxc: sends standard input, or one line by its words, to a store that is served, and prints the
   replies.

       regtxc [-u USER] SOCKET [WORD ..]

   Statuses are those of `regtx run`: 0; 1 if a reply was a refusal, or the service couldn't be
   reached or read; 2 if a line was none. README.md of this folder says more. */
#define _GNU_SOURCE /* struct ucred */

#include <errno.h>
#include <fcntl.h>
#include <limits.h>
#include <poll.h>
#include <pwd.h>
#include <signal.h>
#include <stdarg.h>
#include <stdbool.h>
#include <stdio.h>
#include <stdlib.h>
#include <string.h>
#include <sys/socket.h>
#include <sys/un.h>
#include <unistd.h>

enum {
    CHUNK = 65536,
    /* `line N: not understood` has less, and so have the beginnings of refusals */
    START = 48,
    /* the service takes no longer line, its LF left out */
    MOST_LINE = 4194304,
    REFUSED = 1,
    WRONG = 2,
};

enum { INPUT, SERVER, OUTPUT, POLLED };

/* what was read and isn't written yet */
struct buffer {
    size_t at, len;
    char *bytes;
};

/* the replies that came: how many, and the beginning of the one that isn't whole yet */
struct replies {
    unsigned long long count;
    size_t size;
    char start[START];
    bool is_explained; /* a line was none, or there was a refusal in the place of `opened` */
    bool has_followed; /* a refusal came, or that no more is told to one who follows */
};

/* a blank in a name, as lines have it */
static const char blank[] = "%0020";

static char line_room[CHUNK], answer_room[CHUNK];
static struct buffer lines = {.bytes = line_room}, answers = {.bytes = answer_room};
static struct replies replies;
static unsigned long long asked; /* lines that were read, those without an end left out */
static bool is_in_line;          /* the last byte that was read ended no line */
static bool has_input = true, has_end, may_send = true, is_over;
static bool holds_first; /* the first line is kept back until it is whole */
static bool is_follower; /* the line is one whose replies end when more is sent, or no more */
static int server = -1, status;

static void say(const char *format, ...)
{
    va_list words;
    va_start(words, format);
    fputs("regtxc: ", stderr);
    vfprintf(stderr, format, words);
    fputc('\n', stderr);
    va_end(words);
}

static void raise_status(int at_least)
{
    status = status > at_least ? status : at_least;
}

static _Noreturn void give_up(const char *what)
{
    say("%s: %s", what, strerror(errno));
    exit(status > REFUSED ? status : REFUSED);
}

static bool is_empty(const struct buffer *buffer)
{
    return buffer->at == buffer->len;
}

/* --- what replies say --- */

static bool begins(const char *text, size_t size, const char *with)
{
    return size >= strlen(with) && memcmp(text, with, strlen(with)) == 0;
}

/* A refusal begins with E and its number, and no other reply does. */
static bool is_refusal(const char *line, size_t size)
{
    return size > 1 && line[0] == 'E' && line[1] >= '1' && line[1] <= '9';
}

/* `line N: not understood` */
static bool is_wrong_line(const char *line, size_t size)
{
    static const char before[] = "line ", after[] = ": not understood";
    size_t at = sizeof before - 1;
    if (!begins(line, size, before))
        return false;
    while (at < size && line[at] >= '0' && line[at] <= '9')
        at++;
    return at > sizeof before - 1 && size - at == sizeof after - 1
           && begins(line + at, size - at, after);
}

static void judge_reply(void)
{
    const char *line = replies.start;
    if (is_refusal(line, replies.size)) {
        raise_status(REFUSED);
        replies.is_explained |= replies.count == 0;
        replies.has_followed = true;
    } else if (is_wrong_line(line, replies.size)) {
        raise_status(WRONG);
        replies.is_explained = true;
    } else if (begins(line, replies.size, "followed ")) {
        replies.has_followed = true;
    }
    replies.count++;
    replies.size = 0;
}

static void look_at_replies(const char *bytes, size_t size)
{
    for (size_t at = 0; at < size; at++) {
        if (bytes[at] == '\n')
            judge_reply();
        else if (replies.size < START)
            replies.start[replies.size++] = bytes[at];
    }
}

/* --- what is moved --- */

/* No more is sent: the input has ended, or nobody reads it. */
static void end_lines(void)
{
    has_input = may_send = false;
    lines.at = lines.len = 0;
}

static void read_input(void)
{
    ssize_t got = read(STDIN_FILENO, lines.bytes, CHUNK);
    if (got < 0 && (errno == EINTR || errno == EAGAIN))
        return;
    if (got < 0) {
        say("standard input: %s", strerror(errno));
        raise_status(REFUSED);
    }
    if (got <= 0) {
        has_input = false;
        has_end = true;
        return;
    }
    lines.at = 0;
    lines.len = (size_t)got;
    for (size_t at = 0; at < lines.len; at++)
        asked += lines.bytes[at] == '\n';
    is_in_line = lines.bytes[lines.len - 1] != '\n';
}

/* A server that reads no more may have said why, so its replies are read on. */
static void send_lines(void)
{
    ssize_t sent = send(server, lines.bytes + lines.at, lines.len - lines.at, MSG_NOSIGNAL);
    if (sent >= 0)
        lines.at += (size_t)sent;
    else if (errno == EPIPE || errno == ECONNRESET)
        end_lines();
    else if (errno != EINTR && errno != EAGAIN)
        give_up("the service");
}

/* Drops `opened N`, which answers no word. Any other first line is shown, and so is a part of one
   that never becomes whole. */
static void hold_first(void)
{
    const char *end = memchr(answers.bytes, '\n', answers.len);
    holds_first = !end && !is_over && answers.len < CHUNK;
    if (holds_first)
        answers.at = answers.len;
    else if (end && begins(answers.bytes, answers.len, "opened "))
        answers.at = (size_t)(end - answers.bytes) + 1;
    else
        answers.at = 0;
}

static void read_answers(void)
{
    size_t held = holds_first ? answers.len : 0;
    ssize_t got = recv(server, answers.bytes + held, CHUNK - held, 0);
    if (got < 0 && (errno == EINTR || errno == EAGAIN))
        return;
    if (got < 0 && errno != ECONNRESET)
        give_up("the service");
    is_over = got <= 0;
    answers.at = held;
    answers.len = held + (got > 0 ? (size_t)got : 0);
    look_at_replies(answers.bytes + held, answers.len - held);
    if (holds_first)
        hold_first();
}

/* No more than a pipe takes without waiting, once it is told to have room: whoever writes this
   program's input may not read its output yet. */
static void print_answers(void)
{
    size_t size = answers.len - answers.at;
    ssize_t put =
        write(STDOUT_FILENO, answers.bytes + answers.at, size < PIPE_BUF ? size : PIPE_BUF);
    if (put >= 0)
        answers.at += (size_t)put;
    else if (errno != EINTR && errno != EAGAIN)
        give_up("standard output");
}

static void fill(struct pollfd *polled)
{
    bool has_lines = !is_empty(&lines), has_answers = !is_empty(&answers);
    int events = (has_answers ? 0 : POLLIN) | (has_lines ? POLLOUT : 0);
    polled[INPUT] = (struct pollfd){.fd = has_input && !has_lines && !is_over ? STDIN_FILENO : -1,
                                    .events = POLLIN};
    polled[SERVER] = (struct pollfd){.fd = events ? server : -1, .events = (short)events};
    polled[OUTPUT] = (struct pollfd){.fd = has_answers ? STDOUT_FILENO : -1, .events = POLLOUT};
}

/* This side is closed once all is sent, and the service sees the end. One who follows keeps it open
   until nothing more is told. */
static void close_side(void)
{
    if (has_input || !may_send || !is_empty(&lines) || (is_follower && !replies.has_followed))
        return;
    may_send = false;
    if (shutdown(server, SHUT_WR) != 0 && errno != ENOTCONN)
        give_up("the service");
}

/* Moves what can be moved, in both directions, and waits for neither alone. */
static void turn(void)
{
    struct pollfd polled[POLLED];
    fill(polled);
    if (poll(polled, POLLED, -1) < 0) {
        if (errno != EINTR)
            give_up("poll");
        return;
    }
    if (polled[INPUT].revents)
        read_input();
    if (!is_empty(&lines))
        send_lines();
    if (polled[OUTPUT].revents)
        print_answers();
    if (polled[SERVER].revents && is_empty(&answers))
        read_answers();
    close_side();
}

/* --- one line by its words --- */

static _Noreturn void refuse_words(const char *why)
{
    say("%s", why);
    exit(WRONG);
}

/* A blank within a word parts no words. Only names have blanks, and lines spell them so. So no line
   has to be known for that, and a blank anywhere else makes a line that is none, as ever. */
static void add_word(const char *word)
{
    for (; *word; word++) {
        if (*word == '\n')
            refuse_words("a word has a line feed");
        if (*word == ' ') {
            memcpy(lines.bytes + lines.len, blank, strlen(blank));
            lines.len += strlen(blank);
        } else {
            lines.bytes[lines.len++] = *word;
        }
    }
}

/* Makes the words the only line that is sent. */
static void take_words(char *const *words, int count)
{
    size_t room = 0;
    for (int at = 0; at < count; at++)
        room += strlen(words[at]) * strlen(blank) + 1;
    lines.bytes = malloc(room);
    if (!lines.bytes)
        give_up("the line");
    for (int at = 0; at < count; at++) {
        add_word(words[at]);
        lines.bytes[lines.len++] = at + 1 < count ? ' ' : '\n';
    }
    if (lines.len - 1 > MOST_LINE)
        refuse_words("the line has more than 4,194,304 bytes");
    asked = 1;
    has_input = false;
    holds_first = true;
    is_follower = strcmp(words[0], "follow") == 0 || strcmp(words[0], "watch") == 0;
}

/* --- the connection --- */

static bool read_user(const char *text, uid_t *user)
{
    const struct passwd *found = getpwnam(text);
    char *behind;
    errno = 0;
    unsigned long number = strtoul(text, &behind, 10);
    bool is_number =
        text[0] >= '0' && text[0] <= '9' && *behind == 0 && errno == 0 && number < UINT_MAX;
    *user = found ? found->pw_uid : (uid_t)number;
    return found || is_number;
}

/* Nothing is sent to a service of a user who isn't trusted: it would get what was meant for the
   store, and its replies would be believed. */
static void check_server(const uid_t *wanted)
{
    struct ucred who;
    socklen_t size = sizeof who;
    if (getsockopt(server, SOL_SOCKET, SO_PEERCRED, &who, &size) != 0)
        give_up("SO_PEERCRED");
    bool is_trusted = wanted ? who.uid == *wanted : who.uid == 0 || who.uid == geteuid();
    if (is_trusted)
        return;
    say("the service belongs to user %lu: -u %lu trusts it", (unsigned long)who.uid,
        (unsigned long)who.uid);
    exit(REFUSED);
}

static void connect_to(const char *path)
{
    struct sockaddr_un to = {.sun_family = AF_UNIX};
    if (strlen(path) >= sizeof to.sun_path) {
        errno = ENAMETOOLONG;
        give_up(path);
    }
    memcpy(to.sun_path, path, strlen(path));
    server = socket(AF_UNIX, SOCK_STREAM | SOCK_CLOEXEC, 0);
    if (server < 0 || connect(server, (struct sockaddr *)&to, sizeof to) != 0)
        give_up(path);
    if (fcntl(server, F_SETFL, O_NONBLOCK) != 0)
        give_up("fcntl");
}

/* Says what wasn't carried out, so that no line is lost without a word. */
static void judge_end(void)
{
    if (has_end && is_in_line) {
        say("the last line has no end (LF), so it wasn't carried out");
        raise_status(WRONG);
    }
    bool is_answered = is_follower ? replies.has_followed : replies.count > asked;
    if (is_answered || replies.is_explained)
        return;
    if (is_follower)
        say("the service ended before it told that it had told all");
    else
        say("the service ended before it had answered all lines: %llu of %llu",
            replies.count > 0 ? replies.count - 1 : 0, asked);
    raise_status(REFUSED);
}

int main(int count, char **words)
{
    uid_t user;
    const uid_t *wanted = NULL;
    int letter;
    bool is_right = true;
    /* `+`: what begins with - after SOCKET is a word of the line */
    while ((letter = getopt(count, words, "+u:")) != -1) {
        is_right &= letter == 'u' && read_user(optarg, &user);
        wanted = &user;
    }
    if (!is_right || optind >= count) {
        fputs("usage: regtxc [-u USER] SOCKET [WORD ..]\n", stderr);
        return WRONG;
    }
    if (count - optind > 1)
        take_words(words + optind + 1, count - optind - 1);
    for (int fd = STDIN_FILENO; fd <= STDERR_FILENO; fd++)
        if (fcntl(fd, F_GETFD) < 0)
            return REFUSED; /* the connection would be taken for it */
    if (signal(SIGPIPE, SIG_IGN) == SIG_ERR)
        give_up("signal");
    connect_to(words[optind]);
    check_server(wanted);
    while (!is_over || !is_empty(&answers))
        turn();
    judge_end();
    return status;
}

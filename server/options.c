/* The words that the broker is started with. */
#define _GNU_SOURCE

#include "options.h"

#include <errno.h>
#include <grp.h>
#include <stdlib.h>
#include <string.h>
#include <unistd.h>

#include "frames.h"
#include "messages.h"

bool parse_number(const char *text, unsigned long most, int base, unsigned long *number)
{
    char *end;
    errno = 0;
    *number = strtoul(text, &end, base);
    return text[0] >= '0' && text[0] <= '9' && *end == 0 && errno == 0 && *number <= most;
}

static bool parse_group(struct options *options, const char *name)
{
    unsigned long number;
    const struct group *found = getgrnam(name);
    if (!found && !parse_number(name, UINT32_MAX - 1, 10, &number))
        return false;
    options->group = found ? found->gr_gid : (gid_t)number;
    return options->has_group = true;
}

static bool parse_option(struct options *options, int letter, const char *word)
{
    unsigned long number = 0;
    bool is_right = true;
    if (letter == 'm') {
        is_right = options->has_mode = parse_number(word, 0777, 8, &number);
        options->mode = (mode_t)number;
    } else if (letter == 'g') {
        is_right = parse_group(options, word);
    } else if (letter == 'n') {
        is_right = parse_number(word, PLACES, 10, &number) && number > 0;
        options->most = (int)number;
    } else if (letter == 's') {
        is_right = (options->store = word)[0] != 0;
    } else if (letter == 't') {
        is_right = parse_number(word, INT32_MAX, 10, &number) && number > 0;
        options->idle = (int64_t)number * 1000;
    } else {
        options->is_verbose = is_right = letter == 'v';
    }
    if (!is_right && word)
        say("-%c %s: not understood", letter, word);
    return is_right;
}

bool parse_options(struct options *options, int count, char **words)
{
    int letter;
    *options = (struct options){.mode = 0600, .most = PLACES};
    while ((letter = getopt(count, words, "+m:g:n:s:t:v")) != -1)
        if (!parse_option(options, letter, optarg))
            return false;
    if (count - optind < 2)
        return false;
    options->path = words[optind];
    options->command = words + optind + 1;
    if (strlen(options->path) > 0 && strlen(options->path) < PATH_SIZE)
        return true;
    say("the path of a socket has 1 to %d bytes", PATH_SIZE - 1);
    return false;
}

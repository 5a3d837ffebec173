/* Requests as they stand in lines. */
#ifndef REGTX_REQUESTS_H
#define REGTX_REQUESTS_H

#include "regtx_client.h"

#include <stdio.h>

struct regtx_request {
    const char *verb;
    uint8_t hive;
    const char *path;
    const char *name; /* of a value, or NULL */
    bool has_value;
    uint32_t type;
    const unsigned char *data;
    size_t size;
};

/* REGTX_WRONG_NAME, if no line carries its path or its name. */
int regtx_request_check(const struct regtx_request *asked);

/* Writes it with its LF. */
void regtx_request_print(FILE *line, const struct regtx_request *asked);

#endif

/* Texts in UTF-8 and UTF-16, and the caller's buffers: what the files of this client share. */
#ifndef REGTX_TEXT_H
#define REGTX_TEXT_H

#include <stdbool.h>
#include <stddef.h>
#include <stdint.h>

/* A caller's buffer: what doesn't fit is counted, and not written. */
struct regtx_buffer {
    unsigned char *bytes;
    size_t room, used;
};

void regtx_put(struct regtx_buffer *buffer, unsigned char byte);

/* Writes the size of what was put; REGTX_TOO_SMALL, if that is more than the room. */
int regtx_told(const struct regtx_buffer *buffer, size_t *size);

/* Units of UTF-16, which come one by one and go into a buffer as UTF-8. */
struct regtx_units {
    struct regtx_buffer *to;
    uint16_t high;  /* the first half of a pair, whose other half may come; or 0 */
    bool is_broken; /* half a pair came alone, which is U+FFFD */
};

void regtx_put_unit(struct regtx_units *units, uint16_t unit);

/* No further unit comes. */
void regtx_end_units(struct regtx_units *units);

#endif

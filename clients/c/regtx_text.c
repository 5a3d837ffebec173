/* Texts in UTF-8 and UTF-16, and the caller's buffers. */
#include "regtx_text.h"

#include "regtx_client.h"

enum { REPLACEMENT = 0xfffd };

void regtx_put(struct regtx_buffer *buffer, unsigned char byte)
{
    if (buffer->used < buffer->room)
        buffer->bytes[buffer->used] = byte;
    buffer->used++;
}

int regtx_told(const struct regtx_buffer *buffer, size_t *size)
{
    *size = buffer->used;
    return buffer->used > buffer->room ? REGTX_TOO_SMALL : REGTX_OK;
}

static void put_utf8(struct regtx_buffer *buffer, uint32_t point)
{
    if (point < 0x80) {
        regtx_put(buffer, (unsigned char)point);
        return;
    }
    int more = point < 0x800 ? 1 : point < 0x10000 ? 2 : 3;
    static const unsigned char first[] = {0, 0xc0, 0xe0, 0xf0};
    regtx_put(buffer, (unsigned char)(first[more] | point >> 6 * more));
    while (more-- > 0)
        regtx_put(buffer, (unsigned char)(0x80 | (point >> 6 * more & 0x3f)));
}

static bool is_high(uint32_t unit)
{
    return unit >= 0xd800 && unit < 0xdc00;
}

static bool is_low(uint32_t unit)
{
    return unit >= 0xdc00 && unit < 0xe000;
}

void regtx_put_unit(struct regtx_units *units, uint16_t unit)
{
    if (is_low(unit) && units->high) {
        put_utf8(units->to, 0x10000 + ((uint32_t)(units->high - 0xd800) << 10) + (unit - 0xdc00u));
        units->high = 0;
        return;
    }
    regtx_end_units(units);
    if (is_high(unit)) {
        units->high = unit;
    } else {
        units->is_broken |= is_low(unit);
        put_utf8(units->to, is_low(unit) ? REPLACEMENT : unit);
    }
}

void regtx_end_units(struct regtx_units *units)
{
    if (units->high) {
        units->is_broken = true;
        put_utf8(units->to, REPLACEMENT);
        units->high = 0;
    }
}

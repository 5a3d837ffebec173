/* What the walks of bench/library.py by libregtx.a share: the opening, and the sum of a name. */
#include "regtx.h"
#include "walk.h"

#include <fcntl.h>
#include <stdlib.h>
#include <sys/mman.h>
#include <sys/stat.h>
#include <unistd.h>

/* Ends this unless a call or a block of memory was given. */
static inline void need(int is_given)
{
    if (!is_given)
        exit(1);
}

static inline uint64_t with_name(uint64_t sum, const uint16_t *units, size_t len)
{
    for (size_t i = 0; i < len; i++)
        sum = mixed(sum, units[i]);
    return mixed(sum, 0);
}

/* The file is mapped, as libhivex maps it; the library copies it. */
static inline void open_file(const char *file, regtx_hive *hive)
{
    struct stat is;
    int from = open(file, O_RDONLY);
    need(from >= 0 && fstat(from, &is) == 0);
    size_t len = (size_t)is.st_size;
    void *bytes = mmap(NULL, len, PROT_READ, MAP_PRIVATE, from, 0);
    need(bytes != MAP_FAILED && regtx_hive_open(bytes, len, hive) == REGTX_OK);
    munmap(bytes, len);
    close(from);
}

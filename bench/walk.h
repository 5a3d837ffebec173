/* What the walks of bench/library.py share: the sum of what they read, and the processor time.
 *
 * Two programs list subkeys in different orders, so that the parts of a sum are added up. Each part is a number of all that
 * it stands for: the names of the path, how many subkeys and values a key has, and a value's name, type and data. */
#include <stdint.h>
#include <stdio.h>
#include <string.h>
#include <time.h>

struct sums {
    uint64_t keys, values, bytes, sum;
};

static inline uint64_t mixed(uint64_t sum, uint64_t word)
{
    sum = (sum ^ word) * 0x9e3779b97f4a7c15u;
    return sum ^ sum >> 29;
}

static inline void add_key(struct sums *sums, uint64_t path, uint64_t subkeys, uint64_t values)
{
    sums->keys++;
    sums->sum += mixed(mixed(path, subkeys), values);
}

/* `name` stands for the path of the key and the value's name. */
static inline void add_value(struct sums *sums, uint64_t name, uint32_t type, const void *data, size_t len)
{
    uint64_t sum = mixed(mixed(name, type), len), word;
    const char *at = data;
    size_t left = len;
    for (; left >= sizeof word; left -= sizeof word, at += sizeof word) {
        memcpy(&word, at, sizeof word);
        sum = mixed(sum, word);
    }
    word = 0;
    memcpy(&word, at, left);
    sums->values++;
    sums->bytes += len;
    sums->sum += mixed(sum, word);
}

/* Microseconds of processor time that this took. */
static inline int64_t spent(void)
{
    struct timespec time;
    clock_gettime(CLOCK_PROCESS_CPUTIME_ID, &time);
    return time.tv_sec * 1000000 + time.tv_nsec / 1000;
}

/* Prints the microseconds of the opening and of the walk, and what was read. */
static inline void tell(int64_t begun, int64_t opened, int64_t walked, const struct sums *sums)
{
    printf("%lld %lld %llu %llu %llu %016llx\n", (long long)(opened - begun), (long long)(walked - opened),
           (unsigned long long)sums->keys, (unsigned long long)sums->values, (unsigned long long)sums->bytes,
           (unsigned long long)sums->sum);
}

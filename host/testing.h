/* What the host tests share: counted checks, random numbers, and buffers that end at a page that may not be touched. */
#ifndef TESTING_H
#define TESTING_H
#include <stdint.h>
#include <stdio.h>
#include <stdlib.h>
#include <string.h>
#include <sys/mman.h>
#include <unistd.h>

#define FILL 165

static long checks, failures;

#define CHECK(ok, ...)                                       \
    do {                                                     \
        checks++;                                            \
        if (!(ok) && ++failures <= 20) {                     \
            fprintf(stderr, "%s:%d: ", __FILE__, __LINE__);  \
            fprintf(stderr, __VA_ARGS__);                    \
            fputc('\n', stderr);                             \
        }                                                    \
    } while (0)

static inline int report(const char *name)
{
    printf("%s: %ld checks, %ld of them failed\n", name, checks, failures);
    return failures != 0;
}

/* xorshift64*: the same numbers in every run. */
static uint64_t random_state = 0x9E3779B97F4A7C15u;

static inline uint64_t random64(void)
{
    random_state ^= random_state >> 12;
    random_state ^= random_state << 25;
    random_state ^= random_state >> 27;
    return random_state * 0x2545F4914F6CDD1Du;
}

static inline uint64_t random_below(uint64_t n)
{
    return random64() % n;
}

/* A page that can be used with one behind it that cannot: `at_end(p, len)` is where a buffer of len bytes ends at the border. */
static inline uint8_t *guarded_page(void)
{
    size_t page = (size_t)sysconf(_SC_PAGESIZE);
    uint8_t *p = mmap(NULL, 2 * page, PROT_READ | PROT_WRITE, MAP_PRIVATE | MAP_ANONYMOUS, -1, 0);
    if (p == MAP_FAILED || mprotect(p + page, page, PROT_NONE) != 0) {
        perror("mmap");
        exit(2);
    }
    return p;
}

static inline uint8_t *at_end(uint8_t *page, size_t len)
{
    return page + (size_t)sysconf(_SC_PAGESIZE) - len;
}

/* Every byte of the page before p and of the buffer from `from` to len is still FILL. */
static inline int untouched(const uint8_t *page, const uint8_t *p, size_t from, size_t len)
{
    for (const uint8_t *q = page; q < p; q++)
        if (*q != FILL)
            return 0;
    for (size_t i = from; i < len; i++)
        if (p[i] != FILL)
            return 0;
    return 1;
}
#endif

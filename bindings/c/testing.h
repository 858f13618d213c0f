/* What the tests by random calls share: random numbers, a malloc that can fail, and a check that ends a test. */
#ifndef TESTING_H
#define TESTING_H

#include <stdbool.h>
#include <stddef.h>
#include <stdint.h>
#include <stdio.h>

/* If fail_each is n > 0, every nth request is refused. Requests above 2^40 bytes always are. Needs --wrap=malloc. */
static unsigned long fail_each, asked, refused;
void *__real_malloc(size_t size);
void *__wrap_malloc(size_t size);
void *__wrap_malloc(size_t size) {
    asked++;
    if ((fail_each && asked % fail_each == 0) || size > (size_t)1 << 40) {
        refused++;
        return NULL;
    }
    return __real_malloc(size);
}

static uint64_t state = 88172645463325252u;
static uint64_t next(void) {
    state ^= state << 13;
    state ^= state >> 7;
    return state ^= state << 17;
}

/* With clang, the sanitizer fails if a macro of the header passes null to this function. */
#define NO_NULL(f) extern __typeof__(f) f __attribute__((nonnull));

#define CHECK(c) do { if (!(c)) { fprintf(stderr, "%s, line %d\n", #c, __LINE__); return false; } } while (0)

#endif

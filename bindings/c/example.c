/* A cache of squares, of at most two, and a cache of pages, of at most 200 bytes. */
#include "lru.h"
#include <inttypes.h>
#include <stdio.h>
#include <string.h>

static const uint64_t seeds[4] = {1, 2, 3, 4};

static bool cache_squares(void) {
    struct lru squares = LRU_NONE;
    if (!lru_new(&squares, 2, seeds)) return false;
    lru_put(&squares, 3, 9);
    lru_put(&squares, 4, 16);
    lru_get(&squares, 3); /* 3 is now the most recently used */
    struct lru_entry evicted = {0, 0};
    struct lru_inserted inserted = lru_insert(&squares, 5, 25, &evicted);
    if (inserted.evicted) printf("evicted %" PRIu64 "\n", evicted.key);
    struct lru_found three = lru_get(&squares, 3);
    printf("3 squared is %" PRIu64 "\n", three.value);
    lru_free(&squares);
    return three.found && inserted.code == LRU_STORED && evicted.key == 4;
}

static bool put(struct lru_bytes *pages, const char *key, const char *value) {
    return lru_bytes_put(pages, (const uint8_t *)key, strlen(key), (const uint8_t *)value, strlen(value)) == LRU_STORED;
}

static bool cache_pages(void) {
    uint8_t key[10] = {0}, page[100] = {0};
    struct lru_bytes pages = LRU_NONE;
    if (!lru_bytes_new(&pages, 200, seeds)) return false;
    bool stored = put(&pages, "/", "home") && put(&pages, "/a", "first");
    struct lru_value home = lru_bytes_get(&pages, (const uint8_t *)"/", 1, page, sizeof page);
    if (home.found && home.len <= sizeof page) printf("%.*s\n", (int)home.len, (const char *)page);
    /* Three entries weigh more than 200, so a put of "/b" would evict "/a". This pops "/a" before. */
    struct lru_popped popped =
        lru_bytes_pop_for(&pages, (const uint8_t *)"/b", 2, 6, key, sizeof key, page, sizeof page);
    if (popped.removed) printf("popped %.*s\n", (int)popped.key_len, (const char *)key);
    stored = stored && put(&pages, "/b", "second");
    bool evicted = !lru_bytes_contains(&pages, (const uint8_t *)"/a", 2);
    printf("%zu entries weigh %" PRIu64 "\n", lru_bytes_len(&pages), lru_bytes_cost(&pages));
    lru_bytes_free(&pages);
    return stored && home.len == 4 && evicted;
}

int main(void) {
    bool squares = cache_squares(), pages = cache_pages();
    return squares && pages ? 0 : 1;
}

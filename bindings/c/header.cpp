// The header is C++ too: this file is compiled, and not run.
#include "lru.h"

bool fits(struct lru &lru, struct lru_bytes &bytes) {
    const uint64_t seeds[4] = {1, 2, 3, 4};
    const uint8_t key[1] = {1};
    struct lru_entry evicted = {0, 0};
    struct lru_counts counts = {0, 0, 0, 0, 0};
    struct lru_lent lent = {NULL, 0};
    struct lru none = LRU_NONE;
    struct lru_bytes no_bytes = LRU_NONE;
    lru_free(&none);
    lru_bytes_free(&no_bytes);
    lru_count_insert(&counts, LRU_STORED, 1);
    lru_count_look_up(&counts, lru_peek_older(&lru, 1).found || lru_bytes_lend(&bytes, key, 1, &lent));
    return lru_new(&lru, 2, seeds) && lru_insert(&lru, 1, 2, &evicted).code == LRU_STORED
        && lru_bytes_new(&bytes, 200, seeds) && lru_bytes_put(&bytes, key, 1, NULL, 0) == LRU_STORED
        && lru_bytes_peek(&bytes, key, 1, NULL, 0).found
        && lru_bytes_get(&bytes, key, 1, NULL, 0).found && lru_bytes_contains(&bytes, key, 1)
        && lru_bytes_pop_for(&bytes, key, 1, 0, NULL, 0, NULL, 0).found
        && lru_bytes_peek_oldest(&bytes, NULL, 0, NULL, 0).found && lru_bytes_peek_at(&bytes, 0, NULL, 0, NULL, 0).found
        && lru_bytes_peek_older(&bytes, key, 1, NULL, 0, NULL, 0).found && lru_bytes_remove(&bytes, key, 1)
        && lru_bytes_pop_oldest(&bytes, NULL, 0, NULL, 0).found && lru_copy_newest(&lru, NULL, 0) == 0;
}

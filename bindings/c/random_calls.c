/* Compares random calls on a map with a plain list. Ends with 1 at the first difference.
 *
 * random_calls CALLS: that number of calls for each of eight maximum lengths, twice; in the second pass each third call
 * of malloc is refused. It is linked with --wrap=malloc. */
#include "lru.h"
#include "testing.h"
#include <stdlib.h>
#include <string.h>

enum { MOST = 64 };

NO_NULL(lru_copy_newest)

/* Entries, the oldest first. */
struct list {
    uint64_t key[MOST + 1], value[MOST + 1];
    size_t len, most;
};

/* What the header counts, and what the list counts. The counts begin high, so a count of 32 bits differs. */
#define HIGH UINT64_MAX / 2
static struct lru_counts counts = {HIGH, HIGH, HIGH, HIGH, HIGH}, counted = {HIGH, HIGH, HIGH, HIGH, HIGH};

static int find(const struct list *list, uint64_t key) {
    for (size_t i = 0; i < list->len; i++)
        if (list->key[i] == key) return (int)i;
    return -1;
}

static void drop(struct list *list, int i) {
    for (list->len--; (size_t)i < list->len; i++) {
        list->key[i] = list->key[i + 1];
        list->value[i] = list->value[i + 1];
    }
}

static void add(struct list *list, uint64_t key, uint64_t value) {
    list->key[list->len] = key;
    list->value[list->len++] = value;
}

static void promote(struct list *list, int i) {
    uint64_t key = list->key[i], value = list->value[i];
    drop(list, i);
    add(list, key, value);
}

static struct lru_pair at(const struct list *list, size_t i) {
    struct lru_pair none = {0, 0, false};
    return i < list->len ? (struct lru_pair){list->key[i], list->value[i], true} : none;
}

static bool same(struct lru_pair a, struct lru_pair b) {
    return a.found == b.found && a.key == b.key && a.value == b.value;
}

static bool try_insert(struct lru *lru, struct list *list, uint64_t key, uint64_t value) {
    int i = find(list, key);
    struct lru_pair evicted = i < 0 && list->most && list->len == list->most ? at(list, 0) : at(list, list->len);
    struct lru_entry out = {3, 4};
    bool gets = next() % 2;
    struct lru_inserted in = gets ? lru_get_or_insert(lru, key, value, &out) : lru_insert(lru, key, value, &out);
    CHECK(in.evicted == evicted.found);
    CHECK(out.key == (evicted.found ? evicted.key : 3) && out.value == (evicted.found ? evicted.value : 4));
    CHECK(in.replaced == (i >= 0) && in.old_value == (i >= 0 ? list->value[i] : 0));
    if (in.code == LRU_OUT_OF_MEMORY) CHECK(fail_each && i < 0 && list->most);
    else CHECK(in.code == (list->most ? LRU_STORED : LRU_REJECTED));
    lru_count_insert(&counts, in.code, in.evicted);
    if (gets && i >= 0) value = list->value[i];
    if (i >= 0) drop(list, i);
    if (evicted.found) drop(list, 0), counted.evictions++;
    if (in.code == LRU_STORED) add(list, key, value), counted.insertions++;
    else counted.rejections += !list->most;
    return true;
}

static bool try_put(struct lru *lru, struct list *list, uint64_t key, uint64_t value) {
    int i = find(list, key);
    uint32_t code = lru_put(lru, key, value);
    if (code == LRU_OUT_OF_MEMORY) CHECK(fail_each && i < 0);
    else CHECK(code == (list->most ? LRU_STORED : LRU_REJECTED));
    if (i >= 0) drop(list, i);
    else if (list->most && list->len == list->most) drop(list, 0);
    if (code == LRU_STORED) add(list, key, value);
    return true;
}

static bool try_key(struct lru *lru, struct list *list, unsigned kind, uint64_t key) {
    int i = find(list, key);
    bool there = i >= 0;
    if (kind < 2) {
        CHECK(kind ? lru_contains(lru, key) == there : lru_promote(lru, key) == there);
        if (there && !kind) promote(list, i);
        return true;
    }
    struct lru_found got = kind == 2 ? lru_get(lru, key) : kind == 3 ? lru_peek(lru, key) : lru_remove(lru, key);
    CHECK(got.found == there && got.value == (there ? list->value[i] : 0));
    lru_count_look_up(&counts, got.found);
    if (there) counted.hits++;
    else counted.misses++;
    if (there && kind == 2) promote(list, i);
    if (there && kind == 4) drop(list, i);
    return true;
}

/* Goes over the map, and asks for what is next older than a key that is not there. */
static bool try_walk(struct lru *lru, const struct list *list) {
    size_t left = list->len;
    for (struct lru_pair p = lru_peek_newest(lru); p.found; p = lru_peek_older(lru, p.key)) {
        CHECK(left && same(p, at(list, left - 1)));
        left--;
    }
    CHECK(!left && !lru_peek_older(lru, UINT64_MAX).found);
    return true;
}

static bool try_clone(struct lru *lru, const struct list *list) {
    struct lru copy = LRU_NONE;
    if (!lru_clone(lru, &copy)) {
        CHECK(fail_each && !copy.map);
        return true;
    }
    CHECK(lru_capacity(&copy) == lru_capacity(lru) && lru_max_length(&copy) == list->most);
    for (size_t i = 0; i < list->len; i++) CHECK(same(lru_pop_oldest(&copy), at(list, i)));
    CHECK(lru_len(&copy) == 0);
    lru_free(&copy);
    return true;
}

static bool try_copy(struct lru *lru, const struct list *list) {
    struct lru_entry entries[MOST + 2];
    size_t count = next() % (MOST + 2), copied = count < list->len ? count : list->len;
    memset(entries, 0xa5, sizeof entries);
    struct lru_entry untouched = entries[MOST + 1];
    CHECK(lru_copy_newest(lru, count || next() % 2 ? entries : NULL, count) == copied);
    for (size_t i = 0; i < copied; i++) {
        struct lru_pair entry = {entries[i].key, entries[i].value, true};
        CHECK(same(entry, at(list, list->len - 1 - i)));
    }
    for (size_t i = copied; i < MOST + 2; i++) CHECK(!memcmp(&entries[i], &untouched, sizeof untouched));
    return true;
}

static bool try_rare(struct lru *lru, struct list *list, unsigned kind, const uint64_t seeds[4]) {
    size_t more = next() % 100;
    switch (kind) {
    case 0:
        lru_clear(lru);
        list->len = 0;
        return true;
    case 1:
        while (!lru_new(lru, (uint32_t)list->most, seeds)) CHECK(fail_each && !lru->map);
        list->len = 0;
        return true;
    case 2:
        if (lru_reserve(lru, more)) CHECK(lru_capacity(lru) >= list->len + more);
        else CHECK(fail_each);
        CHECK(!lru_reserve(lru, SIZE_MAX) && !lru_reserve(lru, SIZE_MAX / 2));
        return true;
    case 3:
        if (!lru_shrink(lru)) CHECK(fail_each);
        return true;
    case 4:
        list->most = next() % (MOST + 1);
        lru_set_max_length(lru, (uint32_t)list->most);
        while (list->len > list->most) drop(list, 0);
        return true;
    case 5:
        return try_clone(lru, list);
    case 6:
        return try_walk(lru, list);
    default:
        return try_copy(lru, list);
    }
}

static bool try_nothing(struct lru *lru) {
    struct lru copy = LRU_NONE;
    struct lru_pair none = {0, 0, false};
    struct lru_entry entry = {3, 4};
    struct lru_inserted in = lru_insert(lru, 1, 2, &entry);
    CHECK(in.code == LRU_NO_MAP && !in.evicted && !in.replaced && lru_put(lru, 1, 2) == LRU_NO_MAP);
    lru_count_insert(&counts, in.code, 3);
    counted.evictions += 3;
    in = lru_get_or_insert(lru, 1, 2, &entry);
    CHECK(in.code == LRU_NO_MAP && !in.evicted && !in.replaced);
    CHECK(!lru_get(lru, 1).found && !lru_peek(lru, 1).found && !lru_remove(lru, 1).found);
    CHECK(!lru_contains(lru, 1) && !lru_promote(lru, 1) && !lru_reserve(lru, 1) && !lru_shrink(lru));
    CHECK(same(lru_pop_oldest(lru), none) && same(lru_peek_oldest(lru), none) && same(lru_peek_newest(lru), none));
    CHECK(same(lru_peek_older(lru, 1), none));
    CHECK(!lru_len(lru) && !lru_capacity(lru) && !lru_memory_usage(lru) && !lru_max_length(lru));
    CHECK(!lru_clone(lru, &copy) && !copy.map);
    CHECK(!lru_copy_newest(lru, &entry, 1) && entry.key == 3 && entry.value == 4);
    lru_clear(lru);
    lru_set_max_length(lru, 3);
    lru_free(lru);
    CHECK(!lru->map);
    return true;
}

static bool run(uint32_t most, long calls) {
    struct lru lru = LRU_NONE;
    struct list list = {.most = most};
    uint64_t seeds[4] = {next(), next(), next(), next()};
    CHECK(try_nothing(&lru));
    while (!lru_new(&lru, most, seeds)) CHECK(fail_each && !lru.map);
    for (long n = 0; n < calls; n++) {
        unsigned kind = (unsigned)(next() % 100);
        uint64_t key = next() % (2 * MOST);
        if (kind < 30) CHECK(try_insert(&lru, &list, key, next()));
        else if (kind < 45) CHECK(try_put(&lru, &list, key, next()));
        else if (kind < 90) CHECK(try_key(&lru, &list, kind % 5, key));
        else if (kind < 96) {
            CHECK(same(lru_pop_oldest(&lru), at(&list, 0)));
            if (list.len) drop(&list, 0);
        } else if (next() % 8 == 0) CHECK(try_rare(&lru, &list, (unsigned)(next() % 8), seeds));
        CHECK(lru_len(&lru) == list.len && lru_max_length(&lru) == list.most && lru_capacity(&lru) >= list.len);
        CHECK(same(lru_peek_oldest(&lru), at(&list, 0)));
        CHECK(same(lru_peek_newest(&lru), at(&list, list.len ? list.len - 1 : 0)));
    }
    CHECK(!memcmp(&counts, &counted, sizeof counts));
    for (; list.len; drop(&list, 0)) CHECK(same(lru_pop_oldest(&lru), at(&list, 0)));
    lru_free(&lru);
    return try_nothing(&lru);
}

int main(int count, char **words) {
    static const uint32_t mosts[] = {0, 1, 2, 3, 7, 16, 33, MOST};
    long calls = count > 1 ? atol(words[1]) : 100000;
    if (lru_abi_version() != LRU_ABI_VERSION) return 1;
    if ((uintptr_t)lru_entries_out(NULL) != 8) return 1;
    for (int pass = 0; pass < 2; pass++) {
        fail_each = pass ? 3 : 0;
        for (size_t i = 0; i < sizeof mosts / sizeof *mosts; i++)
            if (!run(mosts[i], calls)) return 1;
    }
    printf("%ld calls, %lu of %lu requests for memory refused\n", 16 * calls, refused, asked);
    return refused ? 0 : 1;
}

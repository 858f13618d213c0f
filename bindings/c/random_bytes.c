/* Compares random calls on a map of byte strings with a plain list. Ends with 1 at the first difference.
 *
 * random_bytes CALLS: that number of calls for each of eight budgets, twice; in the second pass each third call of
 * malloc is refused. It is linked with --wrap=malloc. */
#include "lru.h"
#include "testing.h"
#include <stdlib.h>
#include <string.h>

enum { LONGEST_KEY = 3, LONGEST = 300, MOST = 85, SPARE = 4 };

NO_NULL(lru_bytes_put) NO_NULL(lru_bytes_get) NO_NULL(lru_bytes_peek) NO_NULL(lru_bytes_lend)
NO_NULL(lru_bytes_contains) NO_NULL(lru_bytes_remove) NO_NULL(lru_bytes_pop_oldest) NO_NULL(lru_bytes_pop_for)
NO_NULL(lru_bytes_peek_oldest) NO_NULL(lru_bytes_peek_at) NO_NULL(lru_bytes_peek_older)

struct text {
    uint8_t bytes[LONGEST];
    size_t len;
};

/* Entries, the oldest first. There are 85 keys: those of at most three of four bytes. */
struct list {
    struct text key[MOST + 1], value[MOST + 1];
    size_t len;
    uint64_t budget;
};

static bool equal(const struct text *a, const struct text *b) {
    return a->len == b->len && !memcmp(a->bytes, b->bytes, a->len);
}

static int find(const struct list *list, const struct text *key) {
    for (size_t i = 0; i < list->len; i++)
        if (equal(&list->key[i], key)) return (int)i;
    return -1;
}

static void drop(struct list *list, int i) {
    size_t later = --list->len - (size_t)i;
    memmove(&list->key[i], &list->key[i + 1], later * sizeof *list->key);
    memmove(&list->value[i], &list->value[i + 1], later * sizeof *list->value);
}

static void add(struct list *list, struct text key, struct text value) {
    list->key[list->len] = key;
    list->value[list->len++] = value;
}

static void make_newest(struct list *list, int i) {
    struct text key = list->key[i], value = list->value[i];
    drop(list, i);
    add(list, key, value);
}

static uint64_t weight(const struct text *key, const struct text *value) {
    return LRU_BYTES_OVERHEAD + key->len + value->len;
}

static uint64_t cost(const struct list *list) {
    uint64_t sum = 0;
    for (size_t i = 0; i < list->len; i++) sum += weight(&list->key[i], &list->value[i]);
    return sum;
}

static struct text random_text(size_t longest, const char *letters) {
    struct text text = {.len = next() % (longest + 1)};
    for (size_t i = 0; i < text.len; i++) text.bytes[i] = (uint8_t)letters[next() % 4];
    return text;
}

static struct text random_key(void) { return random_text(LONGEST_KEY, "\0a\xff\n"); }

static struct text random_value(void) { return random_text(next() % 8 ? 40 : LONGEST, "\0xy\x80"); }

/* A buffer of `size` bytes, with bytes before and behind it that no call may write. */
struct buffer {
    uint8_t *block;
    size_t size;
};

static struct buffer buffer_of(size_t size) {
    struct buffer buffer = {__real_malloc(size + 2 * SPARE), size};
    if (!buffer.block) abort();
    memset(buffer.block, 0xa5, size + 2 * SPARE);
    return buffer;
}

/* Where a call writes: null now and then, if that is nowhere. */
static uint8_t *start_of(struct buffer buffer) {
    return buffer.size || next() % 2 ? buffer.block + SPARE : NULL;
}

/* The bytes of a text: null now and then, if there are none. */
static const uint8_t *bytes_of(const struct text *text) { return text->len || next() % 2 ? text->bytes : NULL; }

/* Whether the buffer begins with the text, if there is one, and nothing else was written. Frees the buffer. */
static bool holds(struct buffer buffer, const struct text *text) {
    size_t len = text ? text->len : 0;
    bool good = !len || !memcmp(buffer.block + SPARE, text->bytes, len);
    for (size_t i = 0; i < buffer.size + 2 * SPARE; i++)
        if (i < SPARE || i >= SPARE + len) good = good && buffer.block[i] == 0xa5;
    free(buffer.block);
    return good;
}

/* Puts an entry that is within the budget alone. */
static void put(struct list *list, struct text key, struct text value) {
    int i = find(list, &key);
    if (i >= 0) drop(list, i);
    add(list, key, value);
    while (cost(list) > list->budget) drop(list, 0);
}

static bool try_put(struct lru_bytes *lru, struct list *list, struct text key, struct text value) {
    int i = find(list, &key);
    uint32_t code = lru_bytes_put(lru, bytes_of(&key), key.len, bytes_of(&value), value.len);
    if (code == LRU_OUT_OF_MEMORY) {
        CHECK(fail_each && weight(&key, &value) <= list->budget);
        return true;
    }
    CHECK(code == (weight(&key, &value) > list->budget ? LRU_REJECTED : LRU_STORED));
    if (code == LRU_STORED) put(list, key, value);
    else if (i >= 0) drop(list, i);
    return true;
}

/* Values and keys longer than any memory: nothing behind their first bytes is read. */
static bool try_huge(struct lru_bytes *lru, struct list *list, struct text key) {
    int i = find(list, &key);
    bool all = list->budget == UINT64_MAX;
    CHECK(!lru_bytes_pop_for(lru, key.bytes, key.len, SIZE_MAX / 2, NULL, 0, NULL, 0).found);
    CHECK(all || !lru_bytes_pop_for(lru, key.bytes, SIZE_MAX / 2, key.len, NULL, 0, NULL, 0).found);
    uint32_t code = lru_bytes_put(lru, key.bytes, key.len, key.bytes, SIZE_MAX / 2 - next() % 100);
    CHECK(code == (all ? LRU_OUT_OF_MEMORY : LRU_REJECTED));
    if (!all && i >= 0) drop(list, i);
    CHECK(lru_bytes_put(lru, key.bytes, SIZE_MAX / 2 - next() % 100, key.bytes, key.len) == code);
    return true;
}

static bool try_read(struct lru_bytes *lru, struct list *list, bool promotes, struct text key) {
    int i = find(list, &key);
    size_t len = i < 0 ? 0 : list->value[i].len;
    struct buffer buffer = buffer_of(next() % 2 ? len + next() % 3 : next() % (len + 1));
    uint8_t *start = start_of(buffer);
    struct lru_value got = promotes ? lru_bytes_get(lru, bytes_of(&key), key.len, start, buffer.size)
                                    : lru_bytes_peek(lru, bytes_of(&key), key.len, start, buffer.size);
    CHECK(got.found == (i >= 0) && got.len == len);
    CHECK(holds(buffer, i >= 0 && len <= buffer.size ? &list->value[i] : NULL));
    if (i >= 0 && promotes) make_newest(list, i);
    return true;
}

/* The value that was lent last, and the map that has its bytes, until a call that may change the map. */
static const struct lru_bytes *lender;
static struct text lent_value;
static struct lru_lent lent;

static bool is_lent(void) { return !lent.len || !memcmp(lent.bytes, lent_value.bytes, lent.len); }

/* Reads the bytes of a value where the map has them. */
static bool try_lend(struct lru_bytes *lru, struct list *list, struct text key) {
    int i = find(list, &key);
    struct lru_lent found = {NULL, 3};
    CHECK(lru_bytes_lend(lru, bytes_of(&key), key.len, &found) == (i >= 0));
    CHECK(!lender || is_lent());
    if (i < 0) return !found.bytes && found.len == 3;
    lender = lru;
    lent = found;
    lent_value = list->value[i];
    CHECK(lent.len == lent_value.len && is_lent());
    make_newest(list, i);
    return true;
}

/* Pops the oldest entry, or if there is a key, for a put of this key and a value of this length. `some` says whether
 * there is an entry to pop. */
static bool try_pop(struct lru_bytes *lru, struct list *list, bool some, const struct text *own, size_t own_len) {
    size_t key_len = some ? list->key[0].len : 0, value_len = some ? list->value[0].len : 0;
    struct buffer key = buffer_of(next() % 4 ? key_len + next() % 3 : next() % (key_len + 1));
    struct buffer value = buffer_of(next() % 4 ? value_len + next() % 3 : next() % (value_len + 1));
    bool fits = some && key_len <= key.size && value_len <= value.size;
    uint8_t *key_start = start_of(key), *value_start = start_of(value);
    struct lru_popped popped =
        own ? lru_bytes_pop_for(lru, bytes_of(own), own->len, own_len, key_start, key.size, value_start, value.size)
            : lru_bytes_pop_oldest(lru, key_start, key.size, value_start, value.size);
    CHECK(popped.found == some && popped.removed == fits);
    CHECK(popped.key_len == key_len && popped.value_len == value_len);
    CHECK(holds(key, fits ? &list->key[0] : NULL));
    CHECK(holds(value, fits ? &list->value[0] : NULL));
    if (fits) drop(list, 0);
    return true;
}

/* Pops until a put evicts nothing, and puts. As many entries stay as if the put alone evicted the oldest. */
static bool try_pop_for(struct lru_bytes *lru, struct list *list, struct text key, struct text value) {
    static struct list alone;
    uint64_t added = weight(&key, &value);
    bool light = added <= list->budget, must = true;
    alone = *list;
    if (light) put(&alone, key, value);
    while (must) {
        int i = find(list, &key);
        uint64_t others = cost(list) - (i < 0 ? 0 : weight(&key, &list->value[i]));
        must = light && others > list->budget - added;
        if (must && i >= 0) make_newest(list, i);
        CHECK(try_pop(lru, list, must, &key, value.len));
    }
    size_t others = list->len - (find(list, &key) >= 0);
    CHECK(try_put(lru, list, key, value));
    int i = find(list, &key);
    CHECK(list->len - (i >= 0) == others);
    CHECK(i < 0 || !equal(&list->value[i], &value) || list->len == alone.len);
    return true;
}

/* Peeks at the oldest entry, at an index, or at the entry that is next older than the entry of a key. */
static bool try_peek(struct lru_bytes *lru, const struct list *list, unsigned kind, struct text named) {
    int i = find(list, &named);
    size_t index = kind == 0 ? list->len - 1 : kind == 1 ? next() % (list->len + 2) : i < 0 ? SIZE_MAX : list->len - (size_t)i;
    bool found = index < list->len;
    const struct text *own_key = &list->key[found ? list->len - 1 - index : 0];
    const struct text *own_value = &list->value[found ? list->len - 1 - index : 0];
    size_t key_len = found ? own_key->len : 0, value_len = found ? own_value->len : 0;
    struct buffer key = buffer_of(next() % 4 ? key_len + next() % 3 : next() % (key_len + 1));
    struct buffer value = buffer_of(next() % 4 ? value_len + next() % 3 : next() % (value_len + 1));
    bool fits = found && key_len <= key.size && value_len <= value.size;
    uint8_t *key_start = start_of(key), *value_start = start_of(value);
    struct lru_popped seen =
        kind == 0   ? lru_bytes_peek_oldest(lru, key_start, key.size, value_start, value.size)
        : kind == 1 ? lru_bytes_peek_at(lru, index, key_start, key.size, value_start, value.size)
                    : lru_bytes_peek_older(lru, bytes_of(&named), named.len, key_start, key.size, value_start, value.size);
    CHECK(seen.found == found && !seen.removed && seen.key_len == key_len && seen.value_len == value_len);
    CHECK(holds(key, fits ? own_key : NULL) && holds(value, fits ? own_value : NULL));
    return true;
}

/* Makes a copy and pops all of it. */
static bool try_clone(struct lru_bytes *lru, const struct list *list) {
    static struct list copied;
    struct lru_bytes copy = LRU_NONE;
    if (!lru_bytes_clone(lru, &copy)) {
        CHECK(fail_each && !copy.map);
        return true;
    }
    copied = *list;
    CHECK(lru_bytes_budget(&copy) == list->budget && lru_bytes_len(&copy) == list->len);
    CHECK(lru_bytes_cost(&copy) == cost(list));
    while (copied.len) CHECK(try_pop(&copy, &copied, true, NULL, 0));
    lru_bytes_free(&copy);
    return true;
}

static bool try_budget(struct lru_bytes *lru, struct list *list) {
    static const uint64_t budgets[] = {0, 63, 64, 100, 500, 2000, 5000, UINT64_MAX};
    uint64_t old = list->budget;
    list->budget = next() % 2 ? budgets[next() % 8] : next() % 3000;
    lru_bytes_set_budget(lru, list->budget);
    while (cost(list) > list->budget) drop(list, 0);
    CHECK(lru_bytes_len(lru) == list->len && lru_bytes_cost(lru) == cost(list));
    CHECK(lru_bytes_budget(lru) == list->budget);
    list->budget = old; /* a budget that rises evicts nothing; one that falls again might */
    lru_bytes_set_budget(lru, old);
    while (cost(list) > list->budget) drop(list, 0);
    return true;
}

static bool try_call(struct lru_bytes *lru, struct list *list, const uint64_t seeds[4]) {
    struct text key = random_key();
    int i = find(list, &key);
    unsigned kind = (unsigned)(next() % 1000);
    if (kind < 400) return try_put(lru, list, key, random_value());
    if (kind < 450) return try_pop_for(lru, list, key, random_value());
    if (kind < 750) return try_read(lru, list, kind < 600, key);
    if (kind < 800) return try_lend(lru, list, key);
    if (kind < 850) {
        CHECK(lru_bytes_contains(lru, bytes_of(&key), key.len) == (i >= 0));
    } else if (kind < 900) {
        CHECK(lru_bytes_remove(lru, bytes_of(&key), key.len) == (i >= 0));
        if (i >= 0) drop(list, i);
    } else if (kind < 960) {
        return try_pop(lru, list, list->len > 0, NULL, 0);
    } else if (kind < 978) {
        return try_peek(lru, list, kind % 3, key);
    } else if (kind < 980) {
        return try_clone(lru, list);
    } else if (kind < 990) {
        return try_huge(lru, list, key);
    } else if (kind < 992) {
        lru_bytes_clear(lru);
        list->len = 0;
    } else if (kind < 994) {
        return try_budget(lru, list);
    } else if (kind == 999) {
        while (!lru_bytes_new(lru, list->budget, seeds)) CHECK(fail_each && !lru->map);
        list->len = 0;
    }
    return true;
}

static bool try_nothing(struct lru_bytes *lru) {
    struct buffer key = buffer_of(1), value = buffer_of(1);
    struct lru_value got = lru_bytes_get(lru, key.block, 1, value.block + SPARE, 1);
    struct lru_value seen = lru_bytes_peek(lru, key.block, 1, value.block + SPARE, 1);
    struct lru_popped popped = lru_bytes_pop_oldest(lru, key.block + SPARE, 1, value.block + SPARE, 1);
    struct lru_popped gone =
        lru_bytes_pop_for(lru, key.block, 1, SIZE_MAX, key.block + SPARE, 1, value.block + SPARE, 1);
    struct lru_popped oldest = lru_bytes_peek_oldest(lru, key.block + SPARE, 1, value.block + SPARE, 1);
    struct lru_popped newest = lru_bytes_peek_at(lru, 0, key.block + SPARE, 1, value.block + SPARE, 1);
    struct lru_lent lent = {NULL, 3};
    struct lru_bytes copy = LRU_NONE;
    CHECK(!lru_bytes_lend(lru, key.block, 1, &lent) && !lent.bytes && lent.len == 3);
    CHECK(!oldest.found && !oldest.removed && !oldest.key_len && !oldest.value_len);
    struct lru_popped older =
        lru_bytes_peek_older(lru, value.block, 1, key.block + SPARE, 1, value.block + SPARE, 1);
    CHECK(!newest.found && !newest.removed && !newest.key_len && !newest.value_len);
    CHECK(!older.found && !older.removed && !older.key_len && !older.value_len);
    CHECK(!lru_bytes_clone(lru, &copy) && !copy.map);
    CHECK(!got.found && !got.len && !seen.found && !seen.len);
    CHECK(!popped.found && !popped.removed && !popped.key_len && !popped.value_len);
    CHECK(!gone.found && !gone.removed && !gone.key_len && !gone.value_len);
    CHECK(lru_bytes_put(lru, key.block, 1, value.block, 1) == LRU_NO_MAP);
    CHECK(!lru_bytes_contains(lru, key.block, 1) && !lru_bytes_remove(lru, key.block, 1));
    CHECK(!lru_bytes_len(lru) && !lru_bytes_cost(lru) && !lru_bytes_budget(lru));
    CHECK(holds(key, NULL) && holds(value, NULL));
    lru_bytes_clear(lru);
    lru_bytes_set_budget(lru, 3);
    lru_bytes_free(lru);
    CHECK(!lru->map);
    return true;
}

/* Calls on two maps in turn, so that no map sees the entries of the other. */
static bool run(uint64_t budget, long calls) {
    static struct list lists[2];
    struct lru_bytes maps[2] = {LRU_NONE, LRU_NONE};
    uint64_t seeds[4] = {next(), next(), next(), next()};
    lender = NULL;
    for (int i = 0; i < 2; i++) {
        CHECK(try_nothing(&maps[i]));
        lists[i].len = 0;
        lists[i].budget = budget;
        while (!lru_bytes_new(&maps[i], budget, seeds)) CHECK(fail_each && !maps[i].map);
    }
    for (long n = 0; n < calls; n++) {
        struct lru_bytes *lru = &maps[n % 2];
        struct list *list = &lists[n % 2];
        CHECK(!lender || is_lent());
        if (lender == lru) lender = NULL;
        CHECK(try_call(lru, list, seeds));
        CHECK(lru_bytes_len(lru) == list->len && lru_bytes_cost(lru) == cost(list));
        CHECK(lru_bytes_budget(lru) == budget);
    }
    for (int i = 0; i < 2; i++) {
        while (lists[i].len) CHECK(try_pop(&maps[i], &lists[i], true, NULL, 0));
        lru_bytes_free(&maps[i]);
        CHECK(try_nothing(&maps[i]));
    }
    return true;
}

int main(int count, char **words) {
    static const uint64_t budgets[] = {0, 63, 64, 100, 500, 2000, 5000, UINT64_MAX};
    long calls = count > 1 ? atol(words[1]) : 100000;
    if (lru_abi_version() != LRU_ABI_VERSION) return 1;
    if ((uintptr_t)lru_bytes_in(NULL) != 1 || (uintptr_t)lru_bytes_out(NULL) != 1) return 1;
    for (int pass = 0; pass < 2; pass++) {
        fail_each = pass ? 3 : 0;
        for (size_t i = 0; i < sizeof budgets / sizeof *budgets; i++)
            if (!run(budgets[i], calls)) return 1;
    }
    printf("%ld calls, %lu of %lu requests for memory refused\n", 16 * calls, refused, asked);
    return refused ? 0 : 1;
}

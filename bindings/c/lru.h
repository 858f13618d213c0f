/* Maps that remember the order of use and evict the least recently used entries: `struct lru`, from numbers to numbers
 * under a maximum length, and `struct lru_bytes`, from byte strings to byte strings under a budget of bytes.
 *
 * Link the library by -llru after `make -C bindings install`, as docs/FROM_C.md shows. It calls malloc, realloc and
 * free.
 *
 * What is proved. Each function meets its contract in crates/lru_c/src/exports.rt or crates/lru_c/src/bytes/exports.rt,
 * for every input: it is safe, it ends, and it does to the map what the comment here says, unless the comment says
 * "tested". A map is a list of entries with distinct keys, the most recently used first. The map of a `struct lru`
 * never has more entries than its maximum length, and the entries of a `struct lru_bytes` together never weigh more
 * than its budget: these are invariants of the handles. Nothing is proved of what C and its compiler do.
 *
 * What the caller must guarantee, since nothing checks it:
 * - A handle is LRU_NONE, or what the last call left in it. Nothing else writes its field, and no copy of a handle is
 *   used. A handle may be moved, as by memcpy, if the old place is not used any more.
 * - No pointer is null, except one whose length is 0. A handle is writable and aligned. A pointer with a length points
 *   to that number of elements. What a pointer points to has been written before, as by an initializer, even if the
 *   call only writes it. Memory that a call writes overlaps no other argument of the call.
 * - There is one call on a handle at a time. A thread that takes a handle over from another thread synchronises with
 *   that thread.
 * - No call comes from a signal handler, or from the forked child of a process with threads.
 * - malloc, realloc and free belong together, and align a block of n bytes to each power of two up to 16 that
 *   divides n.
 *
 * A handle without a map is fine for every call. lru_new and lru_bytes_new make a map. lru_clone and lru_bytes_clone
 * free the map of the copy. Every other call changes nothing, and its result, if any, says that there is nothing. So
 * any call after lru_free is harmless. A handle that is lost without lru_free or lru_bytes_free leaks its map.
 *
 * No call ends the process. A call that runs out of memory says so in its result, and leaves a map that works.
 * Running out of memory evicts nothing by itself.
 */
#ifndef LRU_H
#define LRU_H

#include <stdbool.h>
#include <stddef.h>
#include <stdint.h>

#ifdef __cplusplus
extern "C" {
#endif

/* The version of these functions and structs. Compare it with lru_abi_version() if the library is not built with the
 * program. It rises with each change of them. */
#define LRU_ABI_VERSION 5u
uint32_t lru_abi_version(void);

/* A handle: the address of a map on the heap, or null. Begin with LRU_NONE. */
struct lru {
    void *map;
};

#define LRU_NONE {NULL}

/* A value, if `found`. Otherwise `value` is 0. */
struct lru_found {
    uint64_t value;
    bool found;
};

/* An entry, if `found`. Otherwise `key` and `value` are 0. */
struct lru_pair {
    uint64_t key;
    uint64_t value;
    bool found;
};

/* An entry, as lru_insert and lru_copy_newest write it. */
struct lru_entry {
    uint64_t key;
    uint64_t value;
};

/* What an insert did. */
struct lru_inserted {
    uint64_t old_value; /* the old value of the key, if `replaced`; otherwise 0 */
    uint32_t code;      /* LRU_STORED, or why the key is not there: one of the codes below */
    bool replaced;      /* whether the key was there */
    bool evicted;       /* whether the oldest entry was evicted to make room */
};

/* What lru_insert, lru_get_or_insert, lru_put and lru_bytes_put return. */
#define LRU_STORED 0u        /* the key is there, with the new value unless lru_get_or_insert found it */
#define LRU_REJECTED 1u      /* the key is not there, although no allocation failed: the entry does not fit */
#define LRU_OUT_OF_MEMORY 2u /* there was no memory: tested, as a contract names no cause */
#define LRU_NO_MAP 3u        /* the handle has no map */

/* Makes an empty map of at most `max_length` entries, and returns whether it did; false says that there was no memory
 * (tested). A map that the handle had is dropped in either case. The hasher uses the seeds: if strangers choose the
 * keys, take four numbers that nobody can guess. The table takes memory at the first insert. */
bool lru_new(struct lru *lru, uint32_t max_length, const uint64_t seeds[4]);

/* Drops the map, and gives back its memory. The handle has no map then. Returning the memory is tested. */
void lru_free(struct lru *lru);

/* Makes `copy` a copy of the map, with the same maximum length, seeds, capacity, and entries in the same order. Returns
 * whether it did; false says that there was no map, or no memory (tested). A map that `copy` had is dropped in either
 * case; `lru` stays as it is. */
bool lru_clone(struct lru *lru, struct lru *copy);

/* Inserts a key with a value, as the newest entry. If the key is there, its value is replaced, and returned. If the key
 * is new and the map is full, the oldest entry is evicted first, and written to `*evicted`, which otherwise stays as it
 * is. One insert evicts at most one entry, unless max_length is above 939,524,096.
 *
 * LRU_OUT_OF_MEMORY: the key was new, and is not there. If an entry was evicted, a successful insert would have evicted
 * it, too. LRU_REJECTED: max_length is 0. */
struct lru_inserted lru_insert(struct lru *lru, uint64_t key, uint64_t value, struct lru_entry *evicted);

/* If the key is there, makes its entry the newest, and returns its value as the old value (`replaced` is true).
 * Otherwise inserts this value, as lru_insert does. */
struct lru_inserted lru_get_or_insert(struct lru *lru, uint64_t key, uint64_t value, struct lru_entry *evicted);

/* Does what lru_insert does, but returns only the code. Do not call it if you own what the values point to: nothing
 * says which entry was evicted. */
uint32_t lru_put(struct lru *lru, uint64_t key, uint64_t value);

/* Returns the value of a key, and makes its entry the newest. */
struct lru_found lru_get(struct lru *lru, uint64_t key);

/* Returns the value of a key. Nothing changes. */
struct lru_found lru_peek(struct lru *lru, uint64_t key);

/* Returns whether the key is there. Nothing changes. */
bool lru_contains(struct lru *lru, uint64_t key);

/* Makes the entry of a key the newest. Returns whether the key is there. */
bool lru_promote(struct lru *lru, uint64_t key);

/* Removes the entry of a key, and returns its value. */
struct lru_found lru_remove(struct lru *lru, uint64_t key);

/* Removes the oldest entry, and returns it. */
struct lru_pair lru_pop_oldest(struct lru *lru);

/* Returns the oldest entry. Nothing changes. */
struct lru_pair lru_peek_oldest(struct lru *lru);

/* Returns the newest entry. Nothing changes. */
struct lru_pair lru_peek_newest(struct lru *lru);

/* Returns the entry one step older than the entry of a key. If the key is not there, or its entry is the oldest, finds
 * nothing. Nothing changes. So this loop goes over a map:
 *
 *     for (struct lru_pair p = lru_peek_newest(&lru); p.found; p = lru_peek_older(&lru, p.key)) .. */
struct lru_pair lru_peek_older(struct lru *lru, uint64_t key);

/* Copies the newest entries into `entries`, the newest first: all of them, or `count` if there are more. Returns
 * how many it copied. The other places of `entries` and the map stay as they are. */
size_t lru_copy_newest(struct lru *lru, struct lru_entry *entries, size_t count);

/* Returns the number of entries, which is at most the maximum length. */
size_t lru_len(struct lru *lru);

/* Returns the maximum length. */
uint32_t lru_max_length(struct lru *lru);

/* Sets the maximum length, and evicts the oldest entries beyond it. To see them, call lru_pop_oldest before. */
void lru_set_max_length(struct lru *lru, uint32_t max_length);

/* Removes all entries. The map keeps the memory of its table. */
void lru_clear(struct lru *lru);

/* Returns how many entries the table is sure to hold without taking more memory. */
size_t lru_capacity(struct lru *lru);

/* Returns the number of bytes of the table. */
size_t lru_memory_usage(struct lru *lru);

/* Makes the table large enough for `additional` more entries. Returns whether it is large enough: false says that there
 * was no memory (tested), or that no table is large enough. The entries stay in any case. */
bool lru_reserve(struct lru *lru, size_t additional);

/* Shrinks the table to the fewest buckets that hold the entries. If there was no memory for the smaller table
 * (tested), returns false, and changes nothing. */
bool lru_shrink(struct lru *lru);

/* A handle of a map from byte strings to byte strings: the address of a map on the heap, or null. Begin with LRU_NONE.
 *
 * Each call copies bytes in or out, so a caller never holds a pointer into the map. A key or a value may have length 0,
 * and may contain any bytes. Only lru_bytes_new, lru_bytes_put and lru_bytes_clone need memory (tested). */
struct lru_bytes {
    void *map;
};

/* What an entry weighs in addition to the bytes of its key and its value: its bytes in the table. What malloc adds to
 * each block is not counted, nor are empty buckets. */
#define LRU_BYTES_OVERHEAD 64u

/* A value, if `found`. Otherwise `len` is 0. */
struct lru_value {
    size_t len;
    bool found;
};

/* The bytes of a value, in the memory of a map. If `len` is 0, `bytes` may be no address of an object. */
struct lru_lent {
    const uint8_t *bytes;
    size_t len;
};

/* An entry, if `found`. Otherwise the lengths are 0. */
struct lru_popped {
    size_t key_len;
    size_t value_len;
    bool found;
    bool removed; /* whether both were copied, and the entry was removed */
};

/* Makes an empty map whose entries weigh at most `budget` together, and returns whether it did; false says that there
 * was no memory (tested). A map that the handle had is dropped in either case. The hasher uses the seeds, as in
 * lru_new. */
bool lru_bytes_new(struct lru_bytes *lru, uint64_t budget, const uint64_t seeds[4]);

/* Drops the map, and gives back its memory. The handle has no map then. Returning the memory is tested. */
void lru_bytes_free(struct lru_bytes *lru);

/* Inserts a copy of the value under a copy of the key, as the newest entry, in place of the old value of the key. Then
 * the oldest entries are evicted while the entries together weigh more than the budget. To see them, call
 * lru_bytes_pop_for before.
 *
 * LRU_REJECTED: the entry alone weighs more than the budget. Then the value is not read (both are tested), and the
 * entry of the key is removed, so no old value stays under the key. LRU_OUT_OF_MEMORY: all memory is taken first, so
 * nothing has changed. If the key is there, only the two copies take memory. */
uint32_t lru_bytes_put(struct lru_bytes *lru, const uint8_t *key, size_t key_len, const uint8_t *value,
                       size_t value_len);

/* Makes the entry of a key the newest, and returns the length of its value. If the value has at most `size` bytes,
 * copies it to the front of `buffer`. Otherwise nothing is copied, and a larger buffer is needed. The other bytes of
 * `buffer` stay as they are. */
struct lru_value lru_bytes_get(struct lru_bytes *lru, const uint8_t *key, size_t key_len, uint8_t *buffer,
                               size_t size);

/* Does what lru_bytes_get does, but the order stays. */
struct lru_value lru_bytes_peek(struct lru_bytes *lru, const uint8_t *key, size_t key_len, uint8_t *buffer,
                                size_t size);

/* Makes the entry of a key the newest, writes to `lent` where the bytes of its value are, and returns true. The bytes
 * belong to the map: read them before the next call on the handle (tested), and do not write them. If the key is not
 * there, returns false, and `lent` stays as it is. */
bool lru_bytes_lend(struct lru_bytes *lru, const uint8_t *key, size_t key_len, struct lru_lent *lent);

/* Returns whether the key is there. Nothing changes. */
bool lru_bytes_contains(struct lru_bytes *lru, const uint8_t *key, size_t key_len);

/* Removes the entry of a key. Returns whether there was one. */
bool lru_bytes_remove(struct lru_bytes *lru, const uint8_t *key, size_t key_len);

/* If the key of the oldest entry has at most `key_size` bytes and its value at most `value_size`, copies both to the
 * fronts of `key` and `value`, and removes the entry. Returns both lengths. If one does not fit, nothing changes. */
struct lru_popped lru_bytes_pop_oldest(struct lru_bytes *lru, uint8_t *key, size_t key_size, uint8_t *value,
                                       size_t value_size);

/* Pops the oldest entry of another key if lru_bytes_put of this key with a value of `value_len` bytes would evict it.
 * The put would evict an entry if the new entry weighs at most the budget, but more than the budget together with the
 * entries of other keys. Then this call makes the entry of the key, if there is one, the newest, and does what
 * lru_bytes_pop_oldest does. If the oldest entry does not fit into the buffers, at most the order changes.
 *
 * If the put would evict nothing, `found` is false, and nothing changes. So `found` is also false if the new entry
 * alone weighs more than the budget, because lru_bytes_put rejects it.
 *
 * If `found` is false, and the next call on the handle is this put, the put evicts nothing. So this loop gets each
 * entry that has to go, the oldest first. A put alone would evict the same entries (tested).
 *
 *     while ((p = lru_bytes_pop_for(&lru, key, key_len, value_len, k, k_size, v, v_size)).found)
 *         if (p.removed) write_back(k, p.key_len, v, p.value_len);
 *         else ... make the buffers large enough for p.key_len and p.value_len
 *     code = lru_bytes_put(&lru, key, key_len, value, value_len);
 *
 * The old value of the key is not popped, but replaced by the put, or removed if the put rejects the entry. */
struct lru_popped lru_bytes_pop_for(struct lru_bytes *lru, const uint8_t *key, size_t key_len, size_t value_len,
                                    uint8_t *key_buffer, size_t key_size, uint8_t *value_buffer, size_t value_size);

/* Does what lru_bytes_pop_oldest does, but removes nothing: `removed` is false. Nothing changes in the map. */
struct lru_popped lru_bytes_peek_oldest(struct lru_bytes *lru, uint8_t *key, size_t key_size, uint8_t *value,
                                        size_t value_size);

/* Does what lru_bytes_peek_oldest does, for the entry at an index in the order of use. The newest has the index 0.
 * Takes a step for each entry before the index. */
struct lru_popped lru_bytes_peek_at(struct lru_bytes *lru, size_t index, uint8_t *key, size_t key_size, uint8_t *value,
                                    size_t value_size);

/* Does what lru_bytes_peek_oldest does, for the entry one step older than the entry of a key. If the key is not there,
 * or its entry is the oldest, finds nothing. To go over a map, begin with lru_bytes_peek_at(&lru, 0, ..). */
struct lru_popped lru_bytes_peek_older(struct lru_bytes *lru, const uint8_t *key, size_t key_len, uint8_t *key_buffer,
                                       size_t key_size, uint8_t *value_buffer, size_t value_size);

/* Makes `copy` a copy of the map, with the same budget, seeds, capacity, and bytes of entries in the same order.
 * Returns whether it did; false says that there was no map, or no memory (tested). A map that `copy` had is dropped in
 * either case; `lru` stays as it is. `copy` is another handle than `lru`. */
bool lru_bytes_clone(struct lru_bytes *lru, struct lru_bytes *copy);

/* Returns the number of entries. */
size_t lru_bytes_len(struct lru_bytes *lru);

/* Returns what the entries weigh together, at most the budget. */
uint64_t lru_bytes_cost(struct lru_bytes *lru);

/* Returns the budget. */
uint64_t lru_bytes_budget(struct lru_bytes *lru);

/* Sets the budget, and evicts the oldest entries while the entries together weigh more. To see them, call
 * lru_bytes_pop_oldest before. */
void lru_bytes_set_budget(struct lru_bytes *lru, uint64_t budget);

/* Removes all entries. The map keeps the memory of its table. */
void lru_bytes_clear(struct lru_bytes *lru);

/* The functions of the library take no null. These macros have the functions' names. Instead of a null they pass an
 * address at which no object is. A call with the length 0 reads and writes nothing there, so
 * lru_bytes_peek(&lru, key, len, NULL, 0) returns the length of a value. A null with a length above 0 crashes, as a
 * null does. A program that calls the functions by their addresses passes no null. */
static inline const uint8_t *lru_bytes_in(const uint8_t *bytes) {
    return bytes ? bytes : (const uint8_t *)(uintptr_t)1;
}

static inline uint8_t *lru_bytes_out(uint8_t *bytes) {
    return bytes ? bytes : (uint8_t *)(uintptr_t)1;
}

/* The address 8 is aligned. */
static inline struct lru_entry *lru_entries_out(struct lru_entry *entries) {
    return entries ? entries : (struct lru_entry *)(uintptr_t)8;
}

#define lru_copy_newest(lru, entries, count) (lru_copy_newest)(lru, lru_entries_out(entries), count)
#define lru_bytes_put(lru, key, key_len, value, value_len) \
    (lru_bytes_put)(lru, lru_bytes_in(key), key_len, lru_bytes_in(value), value_len)
#define lru_bytes_get(lru, key, key_len, buffer, size) \
    (lru_bytes_get)(lru, lru_bytes_in(key), key_len, lru_bytes_out(buffer), size)
#define lru_bytes_peek(lru, key, key_len, buffer, size) \
    (lru_bytes_peek)(lru, lru_bytes_in(key), key_len, lru_bytes_out(buffer), size)
#define lru_bytes_lend(lru, key, key_len, lent) (lru_bytes_lend)(lru, lru_bytes_in(key), key_len, lent)
#define lru_bytes_contains(lru, key, key_len) (lru_bytes_contains)(lru, lru_bytes_in(key), key_len)
#define lru_bytes_remove(lru, key, key_len) (lru_bytes_remove)(lru, lru_bytes_in(key), key_len)
#define lru_bytes_pop_oldest(lru, key, key_size, value, value_size) \
    (lru_bytes_pop_oldest)(lru, lru_bytes_out(key), key_size, lru_bytes_out(value), value_size)
#define lru_bytes_pop_for(lru, key, key_len, value_len, key_buffer, key_size, value_buffer, value_size) \
    (lru_bytes_pop_for)(lru, lru_bytes_in(key), key_len, value_len, lru_bytes_out(key_buffer), key_size, \
                        lru_bytes_out(value_buffer), value_size)
#define lru_bytes_peek_oldest(lru, key, key_size, value, value_size) \
    (lru_bytes_peek_oldest)(lru, lru_bytes_out(key), key_size, lru_bytes_out(value), value_size)
#define lru_bytes_peek_at(lru, index, key, key_size, value, value_size) \
    (lru_bytes_peek_at)(lru, index, lru_bytes_out(key), key_size, lru_bytes_out(value), value_size)
#define lru_bytes_peek_older(lru, key, key_len, key_buffer, key_size, value_buffer, value_size) \
    (lru_bytes_peek_older)(lru, lru_bytes_in(key), key_len, lru_bytes_out(key_buffer), key_size, \
                           lru_bytes_out(value_buffer), value_size)

/* What operators watch of a map. Begin with zeros. The two functions below count what a call returned; they are C, and
 * tested. A map of a program that does not call them costs nothing more. */
struct lru_counts {
    uint64_t hits;       /* look-ups that found their key */
    uint64_t misses;     /* look-ups that did not */
    uint64_t insertions; /* inserts that left their key in the map */
    uint64_t rejections; /* inserts that returned LRU_REJECTED */
    uint64_t evictions;  /* entries that inserts evicted */
};

/* Counts a look-up, by the `found` of its result. */
static inline void lru_count_look_up(struct lru_counts *counts, bool found) {
    if (found) counts->hits++;
    else counts->misses++;
}

/* Counts an insert, by its code and the number of entries that it evicted. After lru_insert, pass `code` and `evicted`
 * of its result. Before lru_bytes_put, count each entry that lru_bytes_pop_for removes. */
static inline void lru_count_insert(struct lru_counts *counts, uint32_t code, uint64_t evicted) {
    counts->insertions += code == LRU_STORED;
    counts->rejections += code == LRU_REJECTED;
    counts->evictions += evicted;
}

#ifdef __cplusplus
}
#endif

#endif

/* See page_cache.h. A cache has two maps from the number of a page to its address: `pages` contains each page of the
 * cache, and `unpinned` those that SQLite does not use now, in the order in which it unpinned them. If the cache is
 * full, the oldest of these makes room. SQLite never calls two functions for one cache at the same time. */
#include "page_cache.h"
#include "lru.h"
#include <sqlite3.h>
#include <stdlib.h>
#include <string.h>

/* A page of the cache. Its two buffers follow it in memory. `next` is the next stray page. */
struct page {
    sqlite3_pcache_page buffers; /* what SQLite sees: the first member */
    struct page *next;
    unsigned number;
};

struct sqlite3_pcache {
    struct lru pages;
    struct lru unpinned;
    struct page *strays; /* pinned pages that `pages` had no memory for after they got another number */
    unsigned greatest;   /* no page has a greater number */
    size_t page_bytes;
    size_t extra_bytes;
    size_t limit;
    bool purgeable;
};

/* Page numbers come from files. Fixed seeds let a file slow its own cache down, and do no other harm. */
static const uint64_t seeds[4] = {0x243f6a8885a308d3, 0x13198a2e03707344, 0xa4093822299f31d0, 0x082efa98ec4e6c89};

static struct page *page_at(uint64_t address) {
    return (struct page *)(uintptr_t)address;
}

static uint64_t address_of(const struct page *page) {
    return (uint64_t)(uintptr_t)page;
}

static size_t round_up(int bytes) {
    return ((size_t)bytes + 7) & ~(size_t)7;
}

/* Takes a page out of the strays. Returns whether it was one of them. */
static bool take_stray(sqlite3_pcache *cache, const struct page *page) {
    for (struct page **place = &cache->strays; *place != NULL; place = &(*place)->next) {
        if (*place == page) {
            *place = page->next;
            return true;
        }
    }
    return false;
}

/* Takes a page out of the cache, and leaves its memory to the caller. */
static void take_out(sqlite3_pcache *cache, struct page *page) {
    if (!take_stray(cache, page)) {
        lru_remove(&cache->pages, page->number);
        lru_remove(&cache->unpinned, page->number);
    }
}

static void drop_page(sqlite3_pcache *cache, struct page *page) {
    take_out(cache, page);
    free(page);
}

static size_t page_count(const sqlite3_pcache *cache) {
    size_t count = lru_len((struct lru *)&cache->pages);
    for (const struct page *page = cache->strays; page != NULL; page = page->next)
        count++;
    return count;
}

/* Frees the oldest unpinned pages while there are more than `limit` pages. */
static void keep_to(sqlite3_pcache *cache, size_t limit) {
    while (page_count(cache) > limit) {
        struct lru_pair oldest = lru_peek_oldest(&cache->unpinned);
        if (!oldest.found) return;
        drop_page(cache, page_at(oldest.value));
    }
}

static struct page *find(sqlite3_pcache *cache, unsigned number) {
    struct lru_found found = lru_peek(&cache->pages, number);
    if (found.found) return page_at(found.value);
    for (struct page *page = cache->strays; page != NULL; page = page->next)
        if (page->number == number) return page;
    return NULL;
}

static struct page *allocate(const sqlite3_pcache *cache) {
    size_t head = round_up((int)sizeof(struct page));
    struct page *page = malloc(head + cache->page_bytes + cache->extra_bytes);
    if (page == NULL) return NULL;
    page->buffers.pBuf = (char *)page + head;
    page->buffers.pExtra = (char *)page + head + cache->page_bytes;
    page->next = NULL;
    return page;
}

/* Returns the memory for a new page: the oldest unpinned page if the cache is full, and else new memory. Returns NULL if
 * there is none, or if the cache is full of pinned pages and SQLite can do without. */
static struct page *memory_for_page(sqlite3_pcache *cache, bool is_needed) {
    if (cache->purgeable && page_count(cache) >= cache->limit) {
        struct lru_pair oldest = lru_peek_oldest(&cache->unpinned);
        if (oldest.found) {
            take_out(cache, page_at(oldest.value));
            return page_at(oldest.value);
        }
        if (!is_needed) return NULL;
    }
    return allocate(cache);
}

static int start(void *unused) {
    (void)unused;
    return SQLITE_OK;
}

static void stop(void *unused) {
    (void)unused;
}

static sqlite3_pcache *create(int page_bytes, int extra_bytes, int purgeable) {
    sqlite3_pcache *cache = calloc(1, sizeof *cache);
    if (cache == NULL) return NULL;
    cache->page_bytes = round_up(page_bytes);
    cache->extra_bytes = round_up(extra_bytes);
    cache->purgeable = purgeable != 0;
    if (lru_new(&cache->pages, UINT32_MAX, seeds) && lru_new(&cache->unpinned, UINT32_MAX, seeds)) return cache;
    lru_free(&cache->pages);
    free(cache);
    return NULL;
}

static void set_limit(sqlite3_pcache *cache, int limit) {
    cache->limit = limit < 0 ? 0 : (size_t)limit;
    if (cache->purgeable) keep_to(cache, cache->limit);
}

static int count_pages(sqlite3_pcache *cache) {
    return (int)page_count(cache);
}

static void set_number(sqlite3_pcache *cache, struct page *page, unsigned number) {
    page->number = number;
    if (number > cache->greatest) cache->greatest = number;
}

/* create_if: 0 never creates a page, 1 does if that is easy, 2 does if there is memory. */
static sqlite3_pcache_page *fetch(sqlite3_pcache *cache, unsigned number, int create_if) {
    struct page *page = find(cache, number);
    if (page != NULL) {
        lru_remove(&cache->unpinned, number);
        return &page->buffers;
    }
    if (create_if == 0) return NULL;
    page = memory_for_page(cache, create_if == 2);
    if (page == NULL) return NULL;
    set_number(cache, page, number);
    memset(page->buffers.pExtra, 0, cache->extra_bytes);
    if (lru_put(&cache->pages, number, address_of(page)) == LRU_STORED) return &page->buffers;
    free(page);
    return NULL;
}

/* A page that is not discarded has been written to its file, so the cache may drop it without memory for its order. */
static void unpin(sqlite3_pcache *cache, sqlite3_pcache_page *buffers, int discard) {
    struct page *page = (struct page *)buffers;
    bool too_many = cache->purgeable && page_count(cache) > cache->limit;
    bool is_stray = lru_peek(&cache->pages, page->number).value != address_of(page);
    if (discard || too_many || is_stray
        || lru_put(&cache->unpinned, page->number, address_of(page)) != LRU_STORED)
        drop_page(cache, page);
}

static void rekey(sqlite3_pcache *cache, sqlite3_pcache_page *buffers, unsigned old_number, unsigned new_number) {
    struct page *page = (struct page *)buffers, *other = find(cache, new_number);
    (void)old_number;
    if (other == page) return;
    if (other != NULL) drop_page(cache, other);
    take_out(cache, page);
    set_number(cache, page, new_number);
    if (lru_put(&cache->pages, new_number, address_of(page)) != LRU_STORED) {
        page->next = cache->strays;
        cache->strays = page;
    }
}

/* Drops each page whose number is `first` or more. If there may be one, this turns `pages` once around, which takes no
 * memory. */
static void truncate_pages(sqlite3_pcache *cache, unsigned first) {
    if (first > cache->greatest) return;
    for (size_t left = lru_len(&cache->pages); left > 0; left--) {
        struct lru_pair oldest = lru_peek_oldest(&cache->pages);
        if (oldest.key >= first)
            drop_page(cache, page_at(oldest.value));
        else
            lru_promote(&cache->pages, oldest.key);
    }
    for (struct page *page = cache->strays, *next; page != NULL; page = next) {
        next = page->next;
        if (page->number >= first) drop_page(cache, page);
    }
    cache->greatest = first > 0 ? first - 1 : 0;
}

static void destroy(sqlite3_pcache *cache) {
    truncate_pages(cache, 0);
    lru_free(&cache->pages);
    lru_free(&cache->unpinned);
    free(cache);
}

static void shrink(sqlite3_pcache *cache) {
    if (cache->purgeable) keep_to(cache, 0);
    lru_shrink(&cache->pages);
    lru_shrink(&cache->unpinned);
}

int lru_page_cache_install(void) {
    static const sqlite3_pcache_methods2 methods = {1,     NULL,  start, stop,           create,  set_limit, count_pages,
                                                    fetch, unpin, rekey, truncate_pages, destroy, shrink};
    return sqlite3_config(SQLITE_CONFIG_PCACHE2, &methods);
}

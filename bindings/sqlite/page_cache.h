/* A page cache for SQLite. A map of lru.h keeps the order of the unpinned pages. */
#ifndef LRU_PAGE_CACHE_H
#define LRU_PAGE_CACHE_H

/* Makes this the page cache of all connections. Call it before sqlite3_initialize and the first sqlite3_open. Returns
 * what sqlite3_config returns: SQLITE_OK, or SQLITE_MISUSE if it is too late. */
int lru_page_cache_install(void);

#endif

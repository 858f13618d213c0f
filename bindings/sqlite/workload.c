/* Prints what a workload reads from a database: workload PATH COUNT [lru]. With "lru" it uses the page cache of
 * page_cache.h, and without it SQLite's own. The output is the same in both cases. */
#include "page_cache.h"
#include <inttypes.h>
#include <sqlite3.h>
#include <stdio.h>
#include <stdlib.h>
#include <string.h>

static uint64_t state = 88172645463325252u;

static uint64_t next_random(void) {
    state ^= state << 13;
    state ^= state >> 7;
    state ^= state << 17;
    return state;
}

static void check(sqlite3 *db, int code, int expected) {
    if (code == expected) return;
    fprintf(stderr, "workload: %s\n", db == NULL ? "no database" : sqlite3_errmsg(db));
    exit(1);
}

static void run(sqlite3 *db, const char *sql) {
    check(db, sqlite3_exec(db, sql, NULL, NULL, NULL), SQLITE_OK);
}

/* No write waits for the disk, which would take most of the time. */
static sqlite3 *open_with_cache(const char *path, int pages) {
    sqlite3 *db = NULL;
    check(db, sqlite3_open(path, &db), SQLITE_OK);
    char sql[80];
    snprintf(sql, sizeof sql, "pragma cache_size = %d; pragma synchronous = off", pages);
    run(db, sql);
    return db;
}

/* Runs a statement with two numbers `count` times, 1,000 in a transaction. */
static void run_many(sqlite3 *db, const char *sql, int count, uint64_t keys) {
    sqlite3_stmt *statement = NULL;
    check(db, sqlite3_prepare_v2(db, sql, -1, &statement, NULL), SQLITE_OK);
    for (int i = 0; i < count; i++) {
        if (i % 1000 == 0) run(db, i == 0 ? "begin" : "commit; begin");
        sqlite3_bind_int64(statement, 1, (sqlite3_int64)(next_random() % keys));
        sqlite3_bind_int64(statement, 2, (sqlite3_int64)(next_random() % 1000));
        check(db, sqlite3_step(statement), SQLITE_DONE);
        sqlite3_reset(statement);
    }
    run(db, "commit");
    sqlite3_finalize(statement);
}

/* Prints the first row of a query. */
static void print_row(sqlite3 *db, const char *sql) {
    sqlite3_stmt *statement = NULL;
    check(db, sqlite3_prepare_v2(db, sql, -1, &statement, NULL), SQLITE_OK);
    check(db, sqlite3_step(statement), SQLITE_ROW);
    for (int i = 0; i < sqlite3_column_count(statement); i++)
        printf("%s%s", i == 0 ? "" : " ", (const char *)sqlite3_column_text(statement, i));
    printf("\n");
    sqlite3_finalize(statement);
}

static void print_ranges(sqlite3 *db, int count, uint64_t keys) {
    sqlite3_stmt *statement = NULL;
    const char *sql = "select count(*), total(value), total(length(note)) from entry where key between ?1 and ?1 + 50";
    check(db, sqlite3_prepare_v2(db, sql, -1, &statement, NULL), SQLITE_OK);
    double rows = 0, sum = 0;
    for (int i = 0; i < count; i++) {
        sqlite3_bind_int64(statement, 1, (sqlite3_int64)(next_random() % keys));
        check(db, sqlite3_step(statement), SQLITE_ROW);
        rows += sqlite3_column_double(statement, 0);
        sum += sqlite3_column_double(statement, 1) + sqlite3_column_double(statement, 2);
        sqlite3_reset(statement);
    }
    sqlite3_finalize(statement);
    printf("ranges: %.0f rows, sum %.0f\n", rows, sum);
}

static void work(const char *path, int count, int pages) {
    uint64_t keys = (uint64_t)count * 4;
    sqlite3 *db = open_with_cache(path, pages);
    run(db, "create table if not exists entry (key integer, value integer, note text)");
    run(db, "create index if not exists by_key on entry (key)");
    run_many(db, "insert into entry values (?1, ?2, printf('%.*c', ?2 % 200, 'x'))", count, keys);
    run_many(db, "update entry set value = ?2, note = note || 'y' where key = ?1", count / 4, keys);
    print_ranges(db, count / 10, keys);
    run_many(db, "delete from entry where key between ?1 and ?1 + ?2 % 8", count / 20, keys);
    run(db, "begin; delete from entry where key % 3 = 0; rollback");
    run(db, "savepoint a; delete from entry where key % 5 = 0; release a");
    printf("%d pages of cache: ", pages);
    print_row(db, "select count(*), total(key), total(value), total(length(note)) from entry");
    check(db, sqlite3_close(db), SQLITE_OK);
    db = open_with_cache(path, pages);
    run(db, "vacuum");
    print_row(db, "pragma integrity_check");
    sqlite3_db_release_memory(db);
    print_row(db, "select count(distinct value) from entry");
    check(db, sqlite3_close(db), SQLITE_OK);
}

int main(int argc, char **argv) {
    if (argc < 3) return 2;
    if (argc > 3 && lru_page_cache_install() != SQLITE_OK) return 3;
    remove(argv[1]);
    const int sizes[] = {10, 100, 2000};
    for (size_t i = 0; i < sizeof sizes / sizeof *sizes; i++)
        work(argv[1], atoi(argv[2]), sizes[i]);
    sqlite3 *memory = open_with_cache(":memory:", 10);
    run(memory, "create table t as with recursive n(i) as (select 1 union all select i + 1 from n where i < 20000) "
                "select i, hex(i * 7919) as h from n");
    print_row(memory, "select count(*), total(i), max(h) from t");
    return sqlite3_close(memory) == SQLITE_OK && remove(argv[1]) == 0 ? 0 : 1;
}

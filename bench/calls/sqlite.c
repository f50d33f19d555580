/* SQLite with a write-ahead log: a row. A commit that is not to be durable is made with `synchronous = normal`, and the next durable one syncs it. */
#include "calls.h"
#include <sqlite3.h>
#include <stdio.h>

enum { BEGIN, COMMIT, WRITE, READ, STATEMENTS };

static const char *const TEXTS[STATEMENTS] = {"begin", "commit", "update field set number = ?1 where key = 0", "select number from field where key = 0"};
static sqlite3 *base;
static sqlite3_stmt *statements[STATEMENTS];
static bool is_full = true;

static void run(const char *text) {
    if (sqlite3_exec(base, text, 0, 0, 0) != SQLITE_OK) fail(sqlite3_errmsg(base));
}

static void step(int which) {
    int answer = sqlite3_step(statements[which]);
    if (answer != SQLITE_DONE && answer != SQLITE_ROW) fail(sqlite3_errmsg(base));
}

static void once(int which) {
    step(which);
    sqlite3_reset(statements[which]);
}

void store_open(const char *folder, uint64_t commits, char **launcher) {
    char path[4096];
    (void)commits, (void)launcher;
    snprintf(path, sizeof path, "%s/sqlite.db", folder);
    if (sqlite3_open(path, &base) != SQLITE_OK) fail("SQLite can't be opened");
    run("pragma journal_mode = wal; pragma synchronous = full;"
        "create table field (key integer primary key, number integer); insert into field values (0, 0)");
    for (int i = 0; i < STATEMENTS; i++)
        if (sqlite3_prepare_v2(base, TEXTS[i], -1, &statements[i], 0) != SQLITE_OK) fail(sqlite3_errmsg(base));
}

void store_close(void) {
    for (int i = 0; i < STATEMENTS; i++) sqlite3_finalize(statements[i]);
    sqlite3_close(base);
}

void store_commit(uint64_t number, bool durable) {
    if (durable != is_full) run(durable ? "pragma synchronous = full" : "pragma synchronous = normal");
    is_full = durable;
    once(BEGIN);
    sqlite3_bind_int64(statements[WRITE], 1, (sqlite3_int64)number);
    once(WRITE);
    once(COMMIT);
}

/* (the whole log is synced) */
void store_force(void) { run("pragma wal_checkpoint"); }

uint64_t store_read(uint64_t times) {
    uint64_t number = 0;
    once(BEGIN);
    while (times-- > 0) {
        step(READ);
        number = (uint64_t)sqlite3_column_int64(statements[READ], 0);
        sqlite3_reset(statements[READ]);
    }
    once(COMMIT);
    return number;
}

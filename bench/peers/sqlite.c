/* SQLite: a row for each object and for each field of the root. */
#include "store.h"
#include <sqlite3.h>
#include <stdio.h>

enum { BEGIN, COMMIT, ABORT, ROOT, SET_ROOT, GET, ADD, REMOVE, STATEMENTS };

static const char *const TEXTS[STATEMENTS] = {
    "begin immediate",
    "commit",
    "rollback",
    "select object from root where field = ?1",
    "update root set object = ?2 where field = ?1",
    "select length, number, next from object where id = ?1",
    "insert into object values (?1, ?2, ?3, ?4)",
    "delete from object where id = ?1",
};
static sqlite3 *base;
static sqlite3_stmt *statements[STATEMENTS];

static void run(const char *text) {
    if (sqlite3_exec(base, text, 0, 0, 0) != SQLITE_OK) fail(sqlite3_errmsg(base));
}

void store_open(const char *folder, enum keeping keeping) {
    char path[4096];
    snprintf(path, sizeof path, "%s/sqlite.db", folder);
    if (sqlite3_open(keeping == IN_MEMORY ? ":memory:" : path, &base) != SQLITE_OK) fail("SQLite can't be opened");
    if (keeping == DURABLE) run("pragma journal_mode = wal; pragma synchronous = full");
    else run("pragma synchronous = off");
    run("create table root (field integer primary key, object integer); insert into root values (0, 0), (1, 0), (2, 0), (3, 0);"
        "create table object (id integer primary key, length integer, number integer, next integer)");
    for (int i = 0; i < STATEMENTS; i++)
        if (sqlite3_prepare_v2(base, TEXTS[i], -1, &statements[i], 0) != SQLITE_OK) fail(sqlite3_errmsg(base));
}

void store_close(void) {
    for (int i = 0; i < STATEMENTS; i++) sqlite3_finalize(statements[i]);
    sqlite3_close(base);
}

static void bind(int which, int place, uint64_t value) {
    sqlite3_bind_int64(statements[which], place, (sqlite3_int64)value);
}

/* Makes one step of a statement, which stays open on its row, if it has one. */
static void step(int which) {
    int answer = sqlite3_step(statements[which]);
    if (answer != SQLITE_DONE && answer != SQLITE_ROW) fail(sqlite3_errmsg(base));
}

static void done(int which) {
    sqlite3_reset(statements[which]);
}

static uint64_t column(int which, int place) {
    return (uint64_t)sqlite3_column_int64(statements[which], place);
}

void store_begin(void) { step(BEGIN), done(BEGIN); }
void store_commit(void) { step(COMMIT), done(COMMIT); }
void store_abort(void) { step(ABORT), done(ABORT); }

uint64_t store_root(unsigned field) {
    uint64_t id;
    bind(ROOT, 1, field);
    step(ROOT);
    id = column(ROOT, 0);
    done(ROOT);
    return id;
}

void store_set_root(unsigned field, uint64_t id) {
    bind(SET_ROOT, 1, field);
    bind(SET_ROOT, 2, id);
    step(SET_ROOT);
    done(SET_ROOT);
}

struct object store_get(uint64_t id) {
    struct object found;
    bind(GET, 1, id);
    step(GET);
    found = (struct object){column(GET, 0), column(GET, 1), column(GET, 2)};
    done(GET);
    return found;
}

void store_add(uint64_t id, const struct object *object) {
    bind(ADD, 1, id);
    bind(ADD, 2, object->length);
    bind(ADD, 3, object->number);
    bind(ADD, 4, object->next);
    step(ADD);
    done(ADD);
}

void store_remove(uint64_t id) {
    bind(REMOVE, 1, id);
    step(REMOVE);
    done(REMOVE);
}

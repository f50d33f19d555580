/* LMDB: a value under a key. */
#include "calls.h"
#include <lmdb.h>
#include <string.h>

static MDB_env *env;
static MDB_dbi dbi;
static uint64_t key = 0;

static void check(int answer) {
    if (answer) fail(mdb_strerror(answer));
}

void store_open(const char *folder, uint64_t commits, char **launcher) {
    MDB_txn *txn;
    (void)commits, (void)launcher;
    check(mdb_env_create(&env));
    check(mdb_env_open(env, folder, 0, 0644));
    check(mdb_txn_begin(env, 0, 0, &txn));
    check(mdb_dbi_open(txn, 0, MDB_INTEGERKEY, &dbi));
    check(mdb_txn_commit(txn));
    store_commit(0, true);
}

void store_close(void) { mdb_env_close(env); }

void store_commit(uint64_t number, bool durable) {
    MDB_val k = {sizeof key, &key}, v = {sizeof number, &number};
    MDB_txn *txn;
    check(mdb_env_set_flags(env, MDB_NOSYNC, !durable));
    check(mdb_txn_begin(env, 0, 0, &txn));
    check(mdb_put(txn, dbi, &k, &v, 0));
    check(mdb_txn_commit(txn));
}

void store_force(void) { check(mdb_env_sync(env, 1)); }

uint64_t store_read(uint64_t times) {
    MDB_val k = {sizeof key, &key}, v;
    MDB_txn *txn;
    uint64_t number = 0;
    check(mdb_txn_begin(env, 0, MDB_RDONLY, &txn));
    while (times-- > 0) {
        check(mdb_get(txn, dbi, &k, &v));
        memcpy(&number, v.mv_data, sizeof number);
    }
    mdb_txn_abort(txn);
    return number;
}

/* LMDB: a store of values. */
#include "store.h"
#include "values.h"
#include <lmdb.h>
#include <string.h>

#define MAP_BYTES ((size_t)1 << 30)

static MDB_env *env;
static MDB_txn *txn;
static MDB_dbi dbi;

static void check(int answer) {
    if (answer) fail(mdb_strerror(answer));
}

void store_open(const char *folder, enum keeping keeping) {
    check(mdb_env_create(&env));
    check(mdb_env_set_mapsize(env, MAP_BYTES));
    check(mdb_env_open(env, folder, keeping == DURABLE ? 0 : MDB_NOSYNC | MDB_WRITEMAP | MDB_NOLOCK, 0644));
    check(mdb_txn_begin(env, 0, 0, &txn));
    check(mdb_dbi_open(txn, 0, MDB_INTEGERKEY, &dbi));
    for (unsigned field = 0; field < ROOT_FIELDS; field++) store_set_root(field, 0);
    check(mdb_txn_commit(txn));
}

void store_close(void) { mdb_env_close(env); }
void store_begin(void) { check(mdb_txn_begin(env, 0, 0, &txn)); }
void store_commit(void) { check(mdb_txn_commit(txn)); }
void store_abort(void) { mdb_txn_abort(txn); }

void value_put(uint64_t key, const void *bytes, size_t size) {
    MDB_val k = {sizeof key, &key}, v = {size, (void *)bytes};
    check(mdb_put(txn, dbi, &k, &v, 0));
}

void value_get(uint64_t key, void *bytes, size_t size) {
    MDB_val k = {sizeof key, &key}, v;
    check(mdb_get(txn, dbi, &k, &v));
    memcpy(bytes, v.mv_data, size);
}

void value_remove(uint64_t key) {
    MDB_val k = {sizeof key, &key};
    check(mdb_del(txn, dbi, &k, 0));
}

/* Berkeley DB: a store of values, in a B-tree. In memory means that its log is. */
#include "store.h"
#include "values.h"
#include <db.h>
#include <string.h>

enum { CACHE_BYTES = 64 << 20, LOG_BYTES = 32 << 20 };

static DB_ENV *env;
static DB *db;
static DB_TXN *txn;

static void check(int answer) {
    if (answer) fail(db_strerror(answer));
}

void store_open(const char *folder, enum keeping keeping) {
    check(db_env_create(&env, 0));
    check(env->set_cachesize(env, 0, CACHE_BYTES, 1));
    if (keeping == IN_MEMORY) {
        check(env->log_set_config(env, DB_LOG_IN_MEMORY, 1));
        check(env->set_lg_bsize(env, LOG_BYTES));
    }
    if (keeping != DURABLE) check(env->set_flags(env, DB_TXN_NOSYNC, 1));
    check(env->open(env, folder, DB_CREATE | DB_INIT_MPOOL | DB_INIT_TXN | DB_INIT_LOG | DB_PRIVATE, 0644));
    check(db_create(&db, env, 0));
    check(db->open(db, 0, "berkeley.db", 0, DB_BTREE, DB_CREATE | DB_AUTO_COMMIT, 0644));
    store_begin();
    for (unsigned field = 0; field < ROOT_FIELDS; field++) store_set_root(field, 0);
    store_commit();
}

void store_close(void) {
    check(db->close(db, 0));
    check(env->close(env, 0));
}

void store_begin(void) { check(env->txn_begin(env, 0, &txn, 0)); }
void store_commit(void) { check(txn->commit(txn, 0)); }
void store_abort(void) { check(txn->abort(txn)); }

static DBT of_bytes(const void *bytes, size_t size) {
    DBT it;
    memset(&it, 0, sizeof it);
    it.data = (void *)bytes;
    it.size = it.ulen = (u_int32_t)size;
    it.flags = DB_DBT_USERMEM;
    return it;
}

void value_put(uint64_t key, const void *bytes, size_t size) {
    DBT k = of_bytes(&key, sizeof key), v = of_bytes(bytes, size);
    check(db->put(db, txn, &k, &v, 0));
}

void value_get(uint64_t key, void *bytes, size_t size) {
    DBT k = of_bytes(&key, sizeof key), v = of_bytes(bytes, size);
    check(db->get(db, txn, &k, &v, 0));
}

void value_remove(uint64_t key) {
    DBT k = of_bytes(&key, sizeof key);
    check(db->del(db, txn, &k, 0));
}

/* Objects as values under their numbers; the fields of the root are values too, whose keys are behind all objects. */
#include "values.h"
#include "store.h"

#define ROOT_KEY (UINT64_MAX - ROOT_FIELDS)

uint64_t store_root(unsigned field) {
    uint64_t id;
    value_get(ROOT_KEY + field, &id, sizeof id);
    return id;
}

void store_set_root(unsigned field, uint64_t id) { value_put(ROOT_KEY + field, &id, sizeof id); }

struct object store_get(uint64_t id) {
    struct object found;
    value_get(id, &found, sizeof found);
    return found;
}

void store_add(uint64_t id, const struct object *object) { value_put(id, object, sizeof *object); }

void store_remove(uint64_t id) { value_remove(id); }

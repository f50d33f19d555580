/* A to-do list that outlives the program.
 *
 *     cc -std=c99 -o todo clients/c/todo.c clients/c/stable_heap.c
 *     ./todo FOLDER list 0 LAUNCHER [OPTION]..         prints the list
 *     ./todo FOLDER add NUMBER LAUNCHER [OPTION]..     a thing to do, by its number
 *     ./todo FOLDER done NUMBER LAUNCHER [OPTION]..    takes it off the list
 *
 * The root's field 0 refers to the first item. An item has two fields: its number, and the next item. */
#include "stable_heap.h"

#include <stdio.h>
#include <stdlib.h>
#include <string.h>

enum { ROOT_FIRST = 0, NUMBER = 0, NEXT = 1 };

/* The field that a list begins with, or goes on with. */
typedef struct {
    sh_object object;
    unsigned field;
} place;

static sh_result first_place(sh_transaction *t, place *at) {
    at->field = ROOT_FIRST;
    return sh_root(t, &at->object);
}

/* Goes on to the item that was found there. */
static sh_result next_place(sh_transaction *t, place *at, sh_object item) {
    SH_TRY(sh_drop(t, at->object));
    at->object = item;
    at->field = NEXT;
    return SH_OK;
}

static sh_result set_place(sh_transaction *t, place at, sh_value value) {
    return value.kind == SH_OBJECT ? sh_link(t, at.object, at.field, value.object) : sh_clear(t, at.object, at.field);
}

static sh_result print_items(sh_transaction *t, void *context) {
    place at;
    sh_value item, number;
    (void)context;
    SH_TRY(first_place(t, &at));
    for (;;) {
        SH_TRY(sh_get(t, at.object, at.field, &item));
        if (item.kind != SH_OBJECT) return SH_OK;
        SH_TRY(sh_get(t, item.object, NUMBER, &number));
        printf("%d\n", (int)number.number);
        SH_TRY(next_place(t, &at, item.object));
    }
}

static sh_result add_item(sh_transaction *t, void *context) {
    place first, rest;
    sh_value old, item = {.kind = SH_OBJECT};
    SH_TRY(first_place(t, &first));
    SH_TRY(sh_get(t, first.object, first.field, &old));
    SH_TRY(sh_new(t, 2, &item.object));
    SH_TRY(sh_put(t, item.object, NUMBER, *(uint64_t *)context));
    rest.object = item.object;
    rest.field = NEXT;
    SH_TRY(set_place(t, rest, old));
    return set_place(t, first, item);
}

static sh_result take_off(sh_transaction *t, void *context) {
    place at;
    sh_value item, number, rest;
    SH_TRY(first_place(t, &at));
    for (;;) {
        SH_TRY(sh_get(t, at.object, at.field, &item));
        if (item.kind != SH_OBJECT) return SH_OK;
        SH_TRY(sh_get(t, item.object, NUMBER, &number));
        if (number.number == *(uint64_t *)context) break;
        SH_TRY(next_place(t, &at, item.object));
    }
    SH_TRY(sh_get(t, item.object, NEXT, &rest));
    return set_place(t, at, rest);
}

int main(int count, char **words) {
    sh_error error;
    if (count < 5) {
        fprintf(stderr, "usage: todo FOLDER list|add|done NUMBER LAUNCHER [OPTION]..\n");
        return 2;
    }
    sh_work work = strcmp(words[2], "add") == 0 ? add_item : strcmp(words[2], "done") == 0 ? take_off : print_items;
    uint64_t number = strtoull(words[3], NULL, 10);
    sh_heap *heap = sh_open(words[1], (const char *const *)words + 4, 1, 65536, &error);
    if (!heap) {
        fprintf(stderr, "todo: %s\n", error.text);
        return 1;
    }
    sh_result result = sh_run(heap, work, &number, true, 10);
    if (result != SH_OK) fprintf(stderr, "todo: %s\n", sh_last_error(heap)->text);
    sh_close(heap);
    return result != SH_OK;
}

/* A bank: eight tellers move money between accounts side by side, and the sum never changes.
 *
 *     cc -std=c99 -o bank clients/c/bank.c clients/c/stable_heap.c
 *     ./bank FOLDER TRANSFERS LAUNCHER [OPTION]..
 *
 * The root's field 0 refers to the table of accounts, and each of its fields to an account, which has one field: its balance. Each teller has
 * a transaction of its own and takes a step of its transfer in its turn, so they meet at accounts. Where one is in the way of another, the
 * other aborts and begins its transfer again. */
#include "stable_heap.h"

#include <stdio.h>
#include <stdlib.h>

enum { ACCOUNTS = 10, FIRST_BALANCE = 100, TELLERS = 8 };

typedef struct {
    int step;
    int left;
    unsigned source, target;
    uint64_t amount;
    sh_transaction *transaction;
    sh_object table;
} teller;

static sh_result make_table(sh_transaction *t, void *context) {
    sh_object root, table, account;
    sh_value found;
    (void)context;
    SH_TRY(sh_root(t, &root));
    SH_TRY(sh_get(t, root, 0, &found));
    if (found.kind != SH_NULL) return SH_OK;
    SH_TRY(sh_new(t, ACCOUNTS, &table));
    for (unsigned i = 0; i < ACCOUNTS; i++) {
        SH_TRY(sh_new(t, 1, &account));
        SH_TRY(sh_put(t, account, 0, FIRST_BALANCE));
        SH_TRY(sh_link(t, table, i, account));
        SH_TRY(sh_drop(t, account));
    }
    return sh_link(t, root, 0, table);
}

static sh_result find_table(sh_transaction *t, sh_object *table) {
    sh_object root;
    sh_value found;
    SH_TRY(sh_root(t, &root));
    SH_TRY(sh_get(t, root, 0, &found));
    *table = found.object;
    return SH_OK;
}

static sh_result add_up(sh_transaction *t, void *context) {
    sh_object table;
    sh_value account, balance;
    uint64_t *sum = context;
    SH_TRY(find_table(t, &table));
    *sum = 0;
    for (unsigned i = 0; i < ACCOUNTS; i++) {
        SH_TRY(sh_get(t, table, i, &account));
        SH_TRY(sh_get(t, account.object, 0, &balance));
        SH_TRY(sh_drop(t, account.object));
        *sum += balance.number;
    }
    return SH_OK;
}

static void draw_transfer(teller *who) {
    who->source = (unsigned)rand() % ACCOUNTS;
    who->target = (who->source + 1 + (unsigned)rand() % (ACCOUNTS - 1)) % ACCOUNTS;
    who->amount = 1 + (uint64_t)rand() % 50;
}

/* Adds the amount to an account, or takes it away. What it has no money for is not taken. */
static sh_result change(teller *who, unsigned number, bool take) {
    sh_value account, balance;
    SH_TRY(sh_get(who->transaction, who->table, number, &account));
    SH_TRY(sh_get(who->transaction, account.object, 0, &balance));
    if (take && balance.number < who->amount) who->amount = balance.number;
    return sh_put(who->transaction, account.object, 0, take ? balance.number - who->amount : balance.number + who->amount);
}

static sh_result take_step(sh_heap *heap, teller *who) {
    switch (who->step) {
    case 0:
        draw_transfer(who);
        SH_TRY(sh_begin(heap, &who->transaction));
        who->step = 1;
        return SH_OK;
    case 1:
        who->step = 2;
        return find_table(who->transaction, &who->table);
    case 2:
        who->step = 3;
        return change(who, who->source, true);
    case 3:
        who->step = 4;
        return change(who, who->target, false);
    default:
        who->step = 0;
        who->left--;
        return sh_commit(who->transaction, true);
    }
}

/* A turn of a teller, who begins again where another one is in the way. */
static sh_result take_turn(sh_heap *heap, teller *who, int *again) {
    sh_result result = take_step(heap, who);
    if (result != SH_BUSY) return result;
    who->step = 0;
    ++*again;
    return sh_abort(who->transaction);
}

static sh_result work(sh_heap *heap, int transfers, int *again) {
    teller tellers[TELLERS] = {0};
    for (int i = 0; i < TELLERS; i++) tellers[i].left = transfers;
    for (int left = TELLERS; left > 0;) {
        teller *who = &tellers[rand() % TELLERS];
        if (who->left == 0) continue;
        SH_TRY(take_turn(heap, who, again));
        if (who->left == 0) left--;
    }
    return SH_OK;
}

int main(int count, char **words) {
    int again = 0;
    uint64_t sum = 0;
    sh_error error;
    if (count < 4) {
        fprintf(stderr, "usage: bank FOLDER TRANSFERS LAUNCHER [OPTION]..\n");
        return 2;
    }
    sh_heap *heap = sh_open(words[1], (const char *const *)words + 3, 4, 1048576, &error);
    if (!heap) {
        fprintf(stderr, "bank: %s\n", error.text);
        return 1;
    }
    bool done = sh_run(heap, make_table, NULL, true, 10) == SH_OK && work(heap, atoi(words[2]), &again) == SH_OK &&
                sh_run(heap, add_up, &sum, true, 10) == SH_OK;
    if (!done) fprintf(stderr, "bank: %s\n", sh_last_error(heap)->text);
    sh_close(heap);
    fprintf(stderr, "%d times a teller began again\n", again);
    printf("the sum of %d accounts is %d\n", ACCOUNTS, (int)sum);
    return !(done && sum == ACCOUNTS * FIRST_BALANCE);
}

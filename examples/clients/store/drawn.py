#!/usr/bin/env python3
"""Drawn operations on a store and on plain Python objects at once, with aborts, collections and reopenings in between; and each event of a commit refused.

    drawn.py [ROUNDS [FIRST]]

A store over the model of the heap and a plain mirror are asked the same. They have to agree after each transaction, and, when the store was opened again,
in kinds, order, sharing and cycles. The rounds are drawn from the numbers from FIRST on, so a failure can be had again."""

import copy
import random
import sys

from kept import Dict, List, MemoryHeap, Set, form, store_over
from stable_heap.store import Closed, Full, TooLarge

KEYS = ["a", "bb", "a longer key than seven bytes", 0, 1, True, 1.0, -5, 2**70, 0.1, None, (1, "two"), (1, ("three", b"four and more bytes"))]


class Aborted(Exception):
    pass


class Pair:
    """A container of the store, and its mirror."""

    def __init__(self, ours, plain):
        self.ours, self.plain = ours, plain


class Draw:
    """One round: a store, a mirror, and what is held of them."""

    def __init__(self, seed, pages):
        self.rng = random.Random(seed)
        self.heap = MemoryHeap(pages=pages)
        self.store = store_over(self.heap)
        self.plain = {}
        self.held = []

    # ---- values

    def scalar(self):
        rng = self.rng
        return rng.choice(
            [None, True, False, 0.5, 0.1, -0.0, "", "text", "a text that has an object", b"", b"bytes of some length", rng.randint(-9, 9), rng.getrandbits(90)]
            + [-rng.getrandbits(70), "x" * rng.choice([8, 80, 4_000 if rng.random() < 0.05 else 20]), (), (1, "two"), (None, (0.1, "more than seven"))]
        )

    def value(self, depth=0):
        """A value, for the store and for the mirror."""
        draw = self.rng.random()
        if draw < 0.6 or depth > 2:
            made = self.scalar()
            return made, made
        if draw < 0.75:
            pair = self.some()
            return pair.ours, pair.plain
        if draw < 0.8:
            ours, plain = zip(*(self.value(depth + 1) for _ in range(self.rng.randint(1, 4))))
            return ours, plain
        if draw < 0.87:
            made = set(self.rng.sample(KEYS, self.rng.randint(0, 5)))
            return (made if draw < 0.83 else Set(made)), set(made)
        count = self.rng.choice([0, 1, 3, 3, 40])
        pairs = [self.value(depth + 1) for _ in range(count)]
        if draw < 0.94:
            ours, plain = [one for one, _ in pairs], [other for _, other in pairs]
            return (ours if draw < 0.9 else List(ours)), plain
        keys = [self.key() for _ in pairs]
        ours, plain = {}, {}
        for key, (one, other) in zip(keys, pairs):
            ours[key], plain[key] = one, other
        return (ours if draw < 0.97 else Dict(ours)), plain

    def key(self):
        return self.rng.choice(KEYS) if self.rng.random() < 0.5 else self.rng.randint(0, 60)

    def some(self):
        """A container that is held, or one that is found from the root."""
        if self.held and self.rng.random() < 0.4:
            return self.rng.choice(self.held)
        ours, plain = self.store.root, self.plain
        for _ in range(self.rng.randint(0, 4)):
            inner = self.inner(ours, plain)
            if not inner:
                break
            ours, plain = self.rng.choice(inner)
        return Pair(ours, plain)

    @staticmethod
    def inner(ours, plain):
        if isinstance(plain, dict):
            pairs = [(ours[key], plain[key]) for key in plain]
        elif isinstance(plain, list):
            pairs = list(zip(ours, plain))
        else:
            return []
        found = []
        for one, other in pairs:
            while isinstance(other, tuple) and other:
                one, other = one[-1], other[-1]
            if isinstance(other, (dict, list)):
                found.append((one, other))
        return found

    # ---- operations

    def operate(self):
        pair = self.some()
        if self.rng.random() < 0.1:
            self.held = [*self.held[-5:], pair]
        both = {dict: self.on_dict, list: self.on_list, set: self.on_set}[type(pair.plain)]
        both(pair.ours, pair.plain)

    def on_dict(self, ours, plain):
        rng, key = self.rng, self.key()
        draw = rng.randint(0, 9)
        if draw < 5:
            ours[key], plain[key] = self.value()
        elif draw == 5 and key in plain:
            del ours[key], plain[key]
        elif draw == 6 and plain:
            key = rng.choice(list(plain))
            moved = Pair(ours.pop(key), plain.pop(key))
            if isinstance(moved.plain, (dict, list, set)):
                self.held.append(moved)
        elif draw == 7 and plain:
            assert repr(ours.popitem()[0]) == repr(plain.popitem()[0])
        elif draw == 8 and rng.random() < 0.1:
            ours.clear()
            plain.clear()
        else:
            new = {self.key(): self.scalar() for _ in range(rng.choice([1, 5, 30]))}
            ours.update(new)
            plain.update(new)

    def on_list(self, ours, plain):
        rng = self.rng
        draw, at = rng.randint(0, 11), rng.randint(0, len(plain))
        if draw < 3:
            one, other = self.value()
            ours.append(one)
            plain.append(other)
        elif draw == 3:
            one, other = self.value()
            ours.insert(at, one)
            plain.insert(at, other)
        elif draw == 4 and at < len(plain):
            ours[at], plain[at] = self.value()
        elif draw == 5 and at < len(plain):
            moved = Pair(ours.pop(at), plain.pop(at))
            if isinstance(moved.plain, (dict, list, set)):
                self.held.append(moved)
        elif draw == 6:
            ours.reverse()
            plain.reverse()
        elif draw == 7:
            order = list(range(len(plain)))
            rng.shuffle(order)
            ours[:], plain[:] = [ours[it] for it in order], [plain[it] for it in order]
        elif draw == 8:
            new = [self.scalar() for _ in range(rng.choice([0, 2, 35, 70]))]
            stop = rng.randint(at, len(plain))
            ours[at:stop] = new
            plain[at:stop] = new
        elif draw == 9:
            stop = rng.randint(at, len(plain))
            del ours[at:stop], plain[at:stop]
        elif draw == 10 and len(plain) > 1:
            other = rng.randrange(len(plain))
            at = rng.randrange(len(plain))
            ours[at], ours[other] = ours[other], ours[at]
            plain[at], plain[other] = plain[other], plain[at]
        else:
            new = [self.scalar() for _ in range(rng.choice([1, 10, 50]))]
            ours.extend(new)
            plain.extend(new)

    def on_set(self, ours, plain):
        draw, key = self.rng.randint(0, 3), self.key()
        if draw < 2:
            ours.add(key)
            plain.add(key)
        elif draw == 2:
            ours.discard(key)
            plain.discard(key)
        else:
            new = set(self.rng.sample(KEYS, 4))
            ours |= new
            plain |= new


def copied(plain, held):
    """A copy of the mirror, with the same sharing, and of what is held."""
    return copy.deepcopy((plain, [pair.plain for pair in held]))


def transact(draw, count, depth=0):
    """A transaction of so many operations, of which some are in inner ones; a part of them is aborted."""
    before = copied(draw.plain, draw.held)
    ours_before = [pair.ours for pair in draw.held]
    try:
        with draw.store.transaction():
            for _ in range(count):
                if depth < 2 and draw.rng.random() < 0.1:
                    transact(draw, draw.rng.randint(1, 4), depth + 1)
                else:
                    draw.operate()
            if draw.rng.random() < 0.2:
                raise Aborted
        return
    except Aborted:
        pass
    except (Full, TooLarge):
        if depth:
            raise
    draw.plain = before[0]
    draw.held = [Pair(ours, plain) for ours, plain in zip(ours_before, before[1])]


def agree(draw, what):
    ours = [draw.store.root, [pair.ours for pair in draw.held]]
    plain = [draw.plain, [pair.plain for pair in draw.held]]
    assert form(ours) == form(plain), what


def open_again(draw):
    draw.store.close()
    draw.held.clear()
    draw.store = store_over(draw.heap)
    assert form(draw.store.root) == form(draw.plain), "what was found again"


def one_round(seed):
    """Transactions in a heap in which some are refused for room, each compared, with collections and reopenings."""
    draw = Draw(seed, pages=random.Random(seed).choice([40, 400, 400]))
    for _ in range(40):
        transact(draw, draw.rng.choice([1, 2, 5, 25]))
        agree(draw, "memory")
        step = draw.rng.random()
        if step < 0.1:
            draw.store.collect()
        elif step < 0.25:
            open_again(draw)
    open_again(draw)
    return draw.heap.collections


def prepared(seed):
    draw = Draw(seed, pages=16_384)
    for _ in range(6):
        transact(draw, 5)
    return draw


REFUSALS = [("exhausted", (7, 5, 0)), ("logfull", (9, 8, 7)), ("volatilefull", (4_096,)), ("diskfault", ())]


def refused_round(seed):
    """A transaction, with each of its events refused in one run: it is done, or nothing of it is."""
    tried = 0
    for word, numbers in REFUSALS:
        event = 1
        while event:
            draw = prepared(seed)
            before = form(draw.plain)
            kept = copied(draw.plain, [])[0]
            first = draw.heap.events
            draw.heap.refused = first + event, word, numbers
            was_made, after = True, before
            try:
                with draw.store.transaction():
                    for _ in range(3):
                        draw.operate()
                    after = form(draw.plain)
            except (Full, TooLarge, Closed):
                draw.plain, was_made = kept, False
            is_reached, draw.heap.refused = draw.heap.refused is None, None
            draw.held.clear()
            if word == "diskfault" and not was_made:
                draw.heap.close()
                found = form(store_over(draw.heap).root)
                assert found in (before, after), "a half"
            else:
                assert form(draw.store.root) == form(draw.plain), "memory"
                # (the store goes on)
                draw.store.root["after"] = draw.plain["after"] = event
                open_again(draw)
            tried += 1
            event = event * 5 // 4 + 1 if is_reached else 0
    return tried


def main():
    rounds = int(sys.argv[1]) if len(sys.argv) > 1 else 60
    first = int(sys.argv[2]) if len(sys.argv) > 2 else 1
    collections = refusals = 0
    for seed in range(first, first + rounds):
        try:
            collections += one_round(seed)
            refusals += refused_round(seed) if seed % 5 == 0 else 0
        except BaseException:
            print(f"in the round of {seed}", file=sys.stderr)
            raise
    print(f"{rounds} drawn rounds agree" if collections and (refusals or rounds < 5) else "too little happened")


if __name__ == "__main__":
    main()

#!/usr/bin/env python3
"""Prints a drawn graph of that many objects, as the heap prints graphs: with cycles, shared objects and objects of many fields.

    examples/tools/drawn_graph.py OBJECTS SEED
"""
import random
import sys


def draw_field(rng, count):
    return rng.choice(["-", str(rng.randrange(2**62)), f"@{rng.randrange(count)}", f"@{rng.randrange(count)}"])


def draw_objects(rng, count):
    """The fields of each object. Each but the root is referred to by one of the objects before it."""
    sizes = [4] + [rng.choice([1, 2, 3, 4, 60]) for _ in range(count - 1)]
    objects = [[draw_field(rng, count) for _ in range(size)] for size in sizes]
    unused = [(0, field) for field in range(4)]
    for number in range(1, count):
        where, field = unused.pop(rng.randrange(len(unused)))
        objects[where][field] = f"@{number}"
        unused.extend((number, field) for field in range(sizes[number]))
    return objects


def breadth_first(objects):
    order = [0]
    seen = {0}
    for here in order:
        for field in objects[here]:
            if field[0] == "@" and int(field[1:]) not in seen:
                seen.add(int(field[1:]))
                order.append(int(field[1:]))
    return order


def main():
    count, seed = map(int, sys.argv[1:])
    objects = draw_objects(random.Random(seed), count)
    order = breadth_first(objects)
    numbers = {f"@{there}": f"@{number}" for number, there in enumerate(order)}
    print(f"graph {count}")
    for number, here in enumerate(order):
        print(f"{number}:", *(numbers.get(field, field) for field in objects[here]))


main()

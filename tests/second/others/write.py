"""Writes orders by Python's own XDR encoder, or where Python has none any more by its struct module.

`write.py DIR` gives DIR/worked.order, document 01's of 152 bytes, and DIR/any-K.order, random ones that may be refused.
"""

import pathlib
import random
import struct
import sys
import warnings

try:
    with warnings.catch_warnings():
        warnings.simplefilter("ignore")
        from xdrlib import Packer
except ImportError:

    class Packer:
        """As much of xdrlib's as an order wants."""

        def __init__(self):
            self.parts = []

        def pack_uint(self, number):
            self.parts.append(struct.pack(">I", number))

        def pack_array(self, items, pack_item):
            self.pack_uint(len(items))
            for item in items:
                pack_item(item)

        def pack_opaque(self, data):
            self.pack_uint(len(data))
            self.parts.append(data + bytes(-len(data) % 4))

        def get_buffer(self):
            return b"".join(self.parts)


def order(states, operations, table, start, looms, numbers, labels, schedule):
    packer = Packer()

    def pack_seat(seat):
        packer.pack_uint(seat[0])
        packer.pack_uint(seat[1])

    packer.pack_uint(states)
    packer.pack_uint(operations)
    packer.pack_array(table, packer.pack_uint)
    packer.pack_uint(start)
    packer.pack_array(looms, pack_seat)
    for number in numbers:
        packer.pack_uint(number)
    for label in labels:
        packer.pack_opaque(label)
    packer.pack_array(schedule, packer.pack_uint)
    return packer.get_buffer()


def worked():
    table = [2, 2, 0, 3, 1, 2, 3, 2]
    schedule = [1, 1, 1, 0, 0, 1, 17, 0, 0, 0, 1, 1, 1]
    return order(4, 2, table, 2, [(0, 0), (1, 1)], [501, 733], [b"W501", b"W733 "], schedule)


def any_order(dice):
    """Small cells, so that some checks accept; a field is beyond its limit now and then."""
    states, operations, looms = dice.randint(2, 6), dice.randint(1, 3), dice.randint(2, 8)
    if dice.random() < 0.2:
        states, operations = dice.choice([1, 64, 65, 0]), dice.choice([16, 17, 1])
    table = [dice.randrange(max(states, 1)) for _ in range(states * operations)]
    seats = [(dice.randrange(2), dice.randrange(operations)) for _ in range(looms)]
    acts = [*range(looms), *range(16, 16 + looms), 32] + ([33] if dice.random() < 0.05 else [])
    schedule = dice.choices(acts, k=dice.choice([0, 7, 60, 4096]))
    labels = [bytes(dice.choices(range(32, 127), k=dice.randint(0, 32))) for _ in range(2)]
    numbers = [dice.choice([1, 501, 2**32 - 1]), dice.choice([1, 733, 0] if dice.random() < 0.1 else [1, 733])]
    return order(states, operations, table, dice.randrange(max(states, 1)), seats, numbers, labels, schedule)


def sticky_order(dice):
    """Always accepted: the first operation stays."""
    looms = dice.randint(2, 8)
    seats = [(k % 2, k % 2) for k in range(looms)]
    acts = [*range(looms), *range(looms), *range(16, 16 + looms), 32]
    labels = [b"A piece" + b" " * dice.randint(0, 9), b"B piece" + b" " * dice.randint(0, 9)]
    return order(3, 2, [1, 1, 2, 2, 1, 2], 0, seats, [501, 733], labels, dice.choices(acts, k=dice.randint(1, 200)))


def main():
    directory = pathlib.Path(sys.argv[1])
    dice = random.Random(1)
    directory.joinpath("worked.order").write_bytes(worked())
    for k in range(60):
        made = any_order(dice) if k % 2 else sticky_order(dice)
        directory.joinpath(f"any-{k}.order").write_bytes(made)


main()

#!/usr/bin/env python3
"""Writes the decks of the benchmark to bench/circuits/: an adder, two multipliers and a counter of latches."""
import pathlib

AND_DELAY = 2
OR_DELAY = 2
XOR_DELAY = 3
NOT_DELAY = 1


class Drawing:
    """A netlist in the making. Lines are numbered from 1, inputs first."""

    def __init__(self, inputs):
        self.inputs = inputs
        self.gates = []

    def gate(self, kind, delay, *reads):
        """Adds a gate and tells its line; a line read may be that of a later gate."""
        self.gates.append((kind, delay, reads))
        return self.inputs + len(self.gates)

    def next_line(self, ahead=0):
        """The line of the next gate, or of one so many further."""
        return self.inputs + len(self.gates) + 1 + ahead

    def half_adder(self, a, b):
        return self.gate("XOR", XOR_DELAY, a, b), self.gate("AND", AND_DELAY, a, b)

    def full_adder(self, a, b, c):
        half, both = self.half_adder(a, b)
        bit, passed = self.half_adder(half, c)
        return bit, self.gate("OR", OR_DELAY, both, passed)

    def latch(self, data, enable, disable):
        """A latch that follows its data while it is enabled and then holds it; tells its line.

        The third product keeps the line quiet while one of the others takes over from the other.
        """
        held = self.next_line(3)
        followed = self.gate("AND", AND_DELAY, data, enable)
        kept = self.gate("AND", AND_DELAY, held, disable)
        both = self.gate("AND", AND_DELAY, data, held)
        assert self.gate("OR", OR_DELAY, followed, kept, both) == held
        return held

    def deck(self, outputs):
        """The deck with these outputs."""
        records = [f"N{self.inputs:4}{len(self.gates):4}{len(outputs):4}"]
        records += [f"I{line + 1:4}" for line in range(self.inputs)]
        for place, (kind, delay, reads) in enumerate(self.gates):
            lines = "".join(f"{line:4}" for line in reads)
            records.append(f"G{self.inputs + place + 1:4}{kind:4}{delay:5}{lines}")
        records += [f"O{line:4}" for line in outputs]
        return "".join(record + "\n" for record in records + ["E"])


def adder(bits):
    """Adds two numbers and a carry: inputs are the bits of the one, then of the other, from the lowest, then the carry."""
    drawing = Drawing(2 * bits + 1)
    carry = 2 * bits + 1
    outputs = []
    for place in range(bits):
        bit, carry = drawing.full_adder(place + 1, bits + place + 1, carry)
        outputs.append(bit)
    return drawing.deck(outputs + [carry])


def multiplier(bits):
    """Multiplies two numbers: the products of their bits are added row by row."""
    drawing = Drawing(2 * bits)
    outputs = []
    above = []
    for row in range(bits):
        products = [drawing.gate("AND", AND_DELAY, place + 1, bits + row + 1) for place in range(bits)]
        sums, carry = add_row(drawing, products, above)
        outputs.append(sums[0])
        above = sums[1:] + ([carry] if carry else [])
    return drawing.deck(outputs + above)


def add_row(drawing, row, above):
    """Adds a row and what stands above it, from the lowest bit on."""
    sums = []
    carry = None
    for place, product in enumerate(row):
        others = [line for line in (above[place] if place < len(above) else None, carry) if line]
        if len(others) == 2:
            bit, carry = drawing.full_adder(product, *others)
        elif others:
            bit, carry = drawing.half_adder(product, others[0])
        else:
            bit, carry = product, None
        sums.append(bit)
    return sums, carry


def counter(bits):
    """Counts while its second input is 1: one latch of each bit follows while the clock, its first input, is 0, the other
    while it is 1. Its third input, where it is 0, makes it begin again."""
    drawing = Drawing(3)
    clock, carry, clear = 1, 2, 3
    low = drawing.gate("NOT", NOT_DELAY, clock)
    outputs = []
    for _ in range(bits):
        # The second latch is the last of two and four and four gates.
        held = drawing.next_line(2 + 4 + 3)
        total = drawing.gate("XOR", XOR_DELAY, held, carry)
        data = drawing.gate("AND", AND_DELAY, total, clear)
        assert drawing.latch(drawing.latch(data, low, clock), clock, low) == held
        carry = drawing.gate("AND", AND_DELAY, carry, held)
        outputs.append(held)
    return drawing.deck(outputs)


def main():
    folder = pathlib.Path(__file__).parent / "circuits"
    circuits = {"adder": adder(32), "multiplier-8": multiplier(8), "multiplier-11": multiplier(11), "counter": counter(16)}
    for name, deck in circuits.items():
        (folder / f"{name}.deck").write_text(deck, encoding="ascii")


main()

"""A vector, and the line of text that holds it. README.md describes the line."""

WORDS = ["AF", "BC", "DE", "HL", "AF'", "BC'", "DE'", "HL'", "IX", "IY", "SP", "PC"]
DIGITS = ["IEF1", "IEF2", "IM", "MODE", "EI"]
PORTS = ["CBAR", "CBR", "BBR", "IL", "ITC", "ICR"]
NAMES = WORDS + ["I", "R"] + DIGITS + PORTS
RESET = dict(CBAR=0xF0, CBR=0, BBR=0, IL=0, ITC=0x39, ICR=0x1F)

Z80EX, UCSIM, HAND = 1, 2, 3
CELLS = 3
LENGTH = 231


class Vector:
    def __init__(self, source, code, before, after, vouched, access, cost, cells):
        self.source, self.code, self.before, self.after = source, code, before, after
        # (0, 0, answer) none; (1, port, byte) read from the panel; (2, port, byte) written to it
        self.vouched, self.access, self.cost, self.cells = vouched, access, cost, cells

    def line(self):
        assert len(self.code) == 4 and len(self.cells) == CELLS
        assert len({a for a, _, _ in self.cells}) == CELLS
        words = [f"{self.source:X}", "".join(f"{b:02X}" for b in self.code)]
        for r in (self.before, self.after):
            words += [f"{r[w]:04X}" for w in WORDS]
            words += [f"{r['I']:02X}{r['R']:02X}", "".join(f"{r[d]:X}" for d in DIGITS)]
            words += [f"{r[a]:02X}{r[b]:02X}" for a, b in zip(PORTS[::2], PORTS[1::2])]
        kind, port, byte = self.access
        words += [f"{self.vouched:02X}", f"{kind:X}", f"{port:04X}", f"{byte:02X}"]
        words += [f"{n:02X}" for n in self.cost]
        words += [f"{a:05X}{b:02X}{c:02X}" for a, b, c in self.cells]
        text = " ".join(words)
        assert len(text) == LENGTH, len(text)
        return text


def read(text):
    """The vector that a line holds."""
    w = text.split()

    def registers(w):
        r = dict(zip(WORDS, (int(x, 16) for x in w[:12])))
        r.update(zip(["I", "R"], bytes.fromhex(w[12])), **dict(zip(DIGITS, map(int, w[13]))))
        r.update(zip(PORTS, bytes.fromhex("".join(w[14:17]))))
        return r

    vouched, kind, port, byte, cycles, states = (int(x, 16) for x in w[36:42])
    cells = [(int(c[:5], 16), int(c[5:7], 16), int(c[7:], 16)) for c in w[42:]]
    before, after = registers(w[2:19]), registers(w[19:36])
    v = Vector(int(w[0]), list(bytes.fromhex(w[1])), before, after, vouched, (kind, port, byte), (cycles, states), cells)
    assert v.line() == text
    return v

"""The data book's table of instructions: which bytes are defined, and the machine cycles, states and flags of each form."""
import os

HERE = os.path.dirname(os.path.abspath(__file__))
PAGES = {"main": [], "ED": [0xED], "CB": [0xCB], "DD": [0xDD], "FD": [0xFD], "DDCB": [0xDD, 0xCB], "FDCB": [0xFD, 0xCB]}


def rows(name):
    with open(os.path.join(HERE, name)) as f:
        lines = [line.rstrip("\n").split("\t") for line in f]
    return lines[1:]


class Form:
    """One line of the table. Costs are (cycles, states), first without and then with the branch or the repetition."""

    def __init__(self, row):
        self.page, pattern, self.name, length, cycles, lists, states = row[:7]
        self.flags = dict(zip("SZHPNC", row[7:]))
        self.pattern = pattern.split()
        self.length = int(length)
        self.costs = [(int(c), int(s)) for c, s in zip(cycles.split("/"), states.split("/"))]
        for (count, total), text in zip(self.costs, lists.split("/")):
            each = [int(x) for x in text.split(",")]
            assert (len(each), sum(each)) == (count, total), row
        # The place of the last opcode byte: behind DD CB and FD CB there is a displacement in front of it.
        self.place = {"main": 0, "DDCB": 3, "FDCB": 3}.get(self.page, 1)
        self.operands = self.length - (self.place + 1)
        # R counts opcode bytes, and no displacement.
        self.opcodes = {"main": 1, "DDCB": 3, "FDCB": 3}.get(self.page, 2)

    def covers(self, byte):
        return all(p in "01" and p == b or p not in "01" for p, b in zip(self.pattern[self.place], f"{byte:08b}"))

    def fixed(self):
        return sum(p in "01" for p in self.pattern[self.place])

    def cost(self, taken):
        return self.costs[-1] if taken else self.costs[0]


FORMS = [Form(row) for row in rows("book.tsv")]
DEFINED = {}
for page, ranges in rows("defined.tsv"):
    DEFINED[page] = [b for part in ranges.split() for b in range(int(part[:2], 16), int(part[-2:], 16) + 1)]


def form(page, byte):
    """The form of a defined byte: of those that cover it, the one with most fixed bits."""
    found = sorted((f for f in FORMS if f.page == page and f.covers(byte)), key=Form.fixed)
    assert byte in DEFINED[page] and found, (page, byte)
    assert len(found) == 1 or found[-1].fixed() > found[-2].fixed(), (page, byte)
    return found[-1]


def split(code):
    """Page and last opcode byte of an instruction's bytes."""
    if code[0] in (0xDD, 0xFD) and code[1] == 0xCB:
        return ("DDCB" if code[0] == 0xDD else "FDCB"), code[3]
    for page in ("ED", "CB", "DD", "FD"):
        if code[0] == PAGES[page][0]:
            return page, code[1]
    return "main", code[0]

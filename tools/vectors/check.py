"""Reads a file of vectors back and checks that it is whole. Usage: check.py FILE. It shares no code with make.py."""
import re
import sys
from collections import Counter, defaultdict

import book

LINE = re.compile(
    r"([123]) ([0-9A-F]{8})"
    r"((?: [0-9A-F]{4}){13} [01][01][0-2][0-2][01](?: [0-9A-F]{4}){3})"
    r"((?: [0-9A-F]{4}){13} [01][01][0-2][0-2][01](?: [0-9A-F]{4}){3})"
    r" ([0-9A-F]{2}) ([0-2]) ([0-9A-F]{4}) ([0-9A-F]{2}) ([0-9A-F]{2}) ([0-9A-F]{2})"
    r"((?: [0-9A-F]{9}){3})")
BITS = dict(S=0x80, Z=0x40, H=0x10, P=4, N=2, C=1)
BRANCHES = re.compile(r"JP|JR|DJNZ|CALL|RET|RST|HALT|SLP|OTIMR|OTDMR|[A-Z]{3}R$")


class Registers:
    def __init__(self, text):
        w = text.split()
        (self.af, self.bc, self.de, self.hl, self.af_, self.bc_, self.de_, self.hl_, self.ix, self.iy, self.sp, self.pc,
         self.ir) = (int(x, 16) for x in w[:13])
        self.ief1, self.ief2, self.im, self.mode, self.ei = (int(x) for x in w[13])
        self.cbar, self.cbr, self.bbr, self.il, self.itc, self.icr = bytes.fromhex("".join(w[14:]))
        self.r, self.f = self.ir & 255, self.af & 255
        assert self.itc & 0x38 == 0x38 and self.icr & 0x1F == 0x1F and self.il & 0x1F == 0
        assert self.cbr < 0x80 and self.bbr < 0x80


def check(number, line, seen, costs):
    found = LINE.fullmatch(line)
    assert found, f"line {number} has another form"
    source, text, b, a, vouched, kind, port, byte, cycles, states, cells = found.groups()
    source, kind = int(source), int(kind)
    code = bytes.fromhex(text)
    b, a = Registers(b), Registers(a)
    cells = [(int(c[:5], 16), c[5:7], c[7:]) for c in cells.split()]
    assert len({c[0] for c in cells}) == 3 and sum(c[1] != c[2] for c in cells) <= 2
    assert all(c[0] < 0x28000 for c in cells)
    fetched = {(b.pc + i) & 0xFFFF for i in range(4)}
    assert not fetched & {c[0] for c in cells}, f"line {number}: a cell among the instruction's bytes"
    cost = int(cycles, 16), int(states, 16)
    if b.mode:
        assert source == 3 and cost == (1, 3) and a.pc == b.pc and a.r == b.r
        seen[source]["idle"] += 1
        return
    page, opcode = book.split(code)
    assert a.ei == (text[:2] == "FB")
    opcodes = {"main": 1, "DDCB": 3, "FDCB": 3}.get(page, 2)
    if text[:4] != "ED4F":
        assert a.r == b.r & 0x80 | (b.r + opcodes) & 0x7F, f"line {number}: R"
    if opcode not in book.DEFINED[page]:
        assert source == 3, f"line {number}: an undefined byte"
        third = page in ("DDCB", "FDCB")
        assert cost == ((6, 18) if third else (4, 12)) and a.pc == 0 and a.itc == (b.itc & 0x3F | (0xC0 if third else 0x80))
        assert a.sp == (b.sp - 2) & 0xFFFF and a.af == b.af and kind == 0
        seen[source]["trap"] += 1
        return
    form = book.form(page, opcode)
    assert cost in form.costs, f"line {number}: cost"
    seen[source][page, opcode] += 1
    costs[page, opcode].add(cost)
    assert all(x == 0 for x in code[form.length:])
    if not BRANCHES.match(form.name):
        assert a.pc == (b.pc + form.length) & 0xFFFF, f"line {number}: PC"
    # What the table of flags forces, and bits 5 and 3.
    if form.name not in ("EX AF,AF'", "POP zz"):
        assert (a.f ^ b.f) & 0x28 == 0, f"line {number}: bits 5 and 3"
    for flag, mark in form.flags.items():
        bit = BITS[flag]
        if mark == "-":
            assert (a.f ^ b.f) & bit == 0, f"line {number}: {flag} is kept"
        elif mark in "01":
            assert (a.f & bit != 0) == (mark == "1"), f"line {number}: {flag} is {mark}"
        elif mark == "IEF2":
            assert (a.f & bit != 0) == (b.ief2 == 1), f"line {number}: {flag} is IEF2"
        elif mark == "bit7":
            # Inside the card nothing shows the byte but the cell; the window keeps the lower twelve bits of its address.
            moved = byte if kind else next(c[2] for c in cells if (c[0] ^ b.hl) & 0xFFF == 0)
            assert (a.f & bit != 0) == (int(moved, 16) >= 128), f"line {number}: {flag} is bit 7"
        elif mark == "B==0":
            assert (a.f & bit != 0) == (a.bc >> 8 == 0), f"line {number}: {flag} tells B"
        elif mark == "BC!=0":
            assert (a.f & bit != 0) == (a.bc != 0), f"line {number}: {flag} tells BC"
    # The panel: port numbers, and no access where none is due.
    name = form.name.split()[0]
    if name in ("IN", "OUT", "INI", "IND", "INIR", "INDR", "OUTI", "OUTD", "OTIR", "OTDR"):
        upper = b.af >> 8 if form.page == "main" else b.bc >> 8
        lower = code[1] if form.page == "main" else b.bc & 255
    elif name in ("IN0", "OUT0", "TSTIO", "OTIM", "OTDM", "OTIMR", "OTDMR"):
        upper, lower = 0, code[2] if name in ("IN0", "OUT0") else b.bc & 255
    else:
        assert kind == 0 and port == "0000", f"line {number}: a port access"
        return
    if upper == 0 and lower >> 6 == b.icr >> 6:
        assert kind == 0, f"line {number}: an internal port reached the panel"
    else:
        assert kind == (1 if name[:2] == "IN" or name == "TSTIO" else 2), f"line {number}: kind of access"
        assert int(port, 16) == upper << 8 | lower, f"line {number}: port"


def main():
    seen, costs = defaultdict(Counter), defaultdict(set)
    with open(sys.argv[1], newline="") as f:
        text = f.read()
    assert text.endswith("\n") and "\r" not in text
    lines = text[:-1].split("\n")
    for number, line in enumerate(lines, 1):
        check(number, line, seen, costs)
    assert len({len(line) for line in lines}) == 1
    print(f"{len(lines)} vectors, {len(text)} bytes, {len(lines[0]) + 1} to a line")
    for page in book.PAGES:
        # Ten by an emulator, or by hand what no emulator has; one that has both is counted by the emulator.
        counts = [seen[1][page, op] + seen[2][page, op] or seen[3][page, op] for op in book.DEFINED[page]]
        assert min(counts) >= 10, page
        for op in book.DEFINED[page]:
            form = book.form(page, op)
            assert costs[page, op] == set(form.costs), f"{form.name}: one way is missing"
        print(f"{page:5} {len(counts):3} opcodes, {sum(counts):4} vectors, {min(counts)} to {max(counts)} each")
    for source, name in ((1, "z80ex"), (2, "ucsim"), (3, "hand")):
        print(f"{name:6} {sum(seen[source].values()):4} vectors, {len(seen[source]):3} different opcodes, trap or idle steps included")
    print(f"hand: {seen[3]['trap']} traps, {seen[3]['idle']} idle steps")


main()

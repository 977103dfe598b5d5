"""Writes the vectors to standard output. Usage: make.py STEPPER, where STEPPER is z80ex-step.c compiled."""
import random
import subprocess
import sys

import book
import hand
import ucsim
from vector import CELLS, UCSIM, WORDS, Z80EX, Vector

STATES = 10
MORE = {"DAA": 40, "IN0 r,(n)": 14, "OUT0 (n),r": 14}
for _name in ("LDIR", "LDDR", "CPIR", "CPDR", "INIR", "INDR", "OTIR", "OTDR"):
    MORE[_name] = 16
# The HD64180's own: those that ucsim has, but for MLT SP, and those that stand in hand.py alone.
OWN = {"IN0 r,(n)", "OUT0 (n),r", "TST r", "TST (HL)", "TST n", "MLT ww"}
BY_HAND = {"TSTIO n", "SLP", "OTIM", "OTDM", "OTIMR", "OTDMR"}
MLT_SP = 0x7C
CONDITIONS = {"JR cc,e", "RET f", "JP f,mn", "CALL f,mn"}
BY_BC = {"LDI", "LDD", "LDIR", "LDDR", "CPI", "CPD", "CPIR", "CPDR"}
BY_B = {"INI", "IND", "INIR", "INDR", "OUTI", "OUTD", "OTIR", "OTDR"}
S, Z, H, P, N, C = 0x80, 0x40, 0x10, 4, 2, 1

rng = random.Random(64180)


def byte():
    return rng.choice([0x00, 0x01, 0x0F, 0x10, 0x7F, 0x80, 0x99, 0xFF]) if rng.random() < 0.25 else rng.randrange(256)


def word():
    return rng.choice([0, 1, 2, 0x7FFF, 0x8000, 0xFFFE, 0xFFFF]) if rng.random() < 0.12 else rng.randrange(65536)


def state():
    st = {w: byte() << 8 | byte() for w in WORDS[:8]}
    st.update({w: word() for w in ("IX", "IY", "SP")})
    st["PC"] = rng.randrange(0xFFFC, 0x10000) if rng.random() < 0.05 else rng.randrange(65536)
    st.update(I=byte(), R=byte(), IEF1=rng.randrange(2), IEF2=rng.randrange(2), IM=rng.randrange(3), MODE=0, EI=rng.randrange(2))
    # With both bases 0 every CBAR leaves logical addresses as they are. No line is asked for, so ITC and IL do not matter.
    st.update(CBAR=rng.randrange(256), CBR=0, BBR=0, IL=byte() & 0xE0, ITC=byte() | 0x38, ICR=rng.choice([0x1F, 0x3F]))
    return st


def high(st, pair, value):
    st[pair] = st[pair] & 255 | value << 8


def condition(form, opcode):
    """The flag that a conditional form asks for, and the value that it wants."""
    field = opcode >> 3 & (3 if form.name == "JR cc,e" else 7)
    return [Z, C, P, S][field >> 1], field & 1


def prepare(form, opcode, i):
    """The i-th state of an opcode, with its bytes; both ways of each conditional, and the ends of each count, come up."""
    st = state()
    code = list(book.PAGES[form.page]) + ([byte()] if form.place == 3 else []) + [opcode]
    code += [byte() for _ in range(form.operands)]
    given = {}
    if form.name in CONDITIONS:
        flag, wanted = condition(form, opcode)
        met = i % 2 == 0
        st["AF"] = st["AF"] | flag if met == (wanted == 1) else st["AF"] & ~flag
    if form.name == "DJNZ e":
        high(st, "BC", [1, 1, 1, 0, 2][i] if i < 5 else rng.randrange(2, 256))
    if form.name in BY_BC:
        st["BC"] = [1, 1, 1, 0, 2, 0x100][i] if i < 6 else rng.randrange(3, 65536)
        if form.name.startswith("CP") and i in (0, 4, 5, 7):
            given[st["HL"]] = st["AF"] >> 8
    if form.name in BY_B:
        high(st, "BC", [1, 1, 1, 0, 2, 0x10][i] if i < 6 else rng.randrange(256))
    return st, code, given


def outside(form, st, code):
    """Keeps a port of the Z80's instructions off the internal ones: with ICR as here these are 0000H to 003FH."""
    if form.name in ("IN A,(n)", "OUT (n),A") and st["AF"] >> 8 == 0:
        code[1] |= 0x40
    if form.name in ("IN r,(C)", "OUT (C),r") or form.name in BY_B:
        if st["BC"] >> 8 == 0:
            st["BC"] |= 0x40


def guarded(st, code, cells, taken=()):
    """Fills up with cells that no right step touches: at the neighbours of those that it does, and where pointers point."""
    cells = list(cells)
    used = {a for a, _, _ in cells} | {(st["PC"] + i) & 0xFFFF for i in range(4)} | set(taken)
    near = [(a + d) & 0xFFFF for a, _, _ in cells for d in (1, -1)]
    rng.shuffle(near)
    ports = [st[r] for r in ("HL", "DE", "BC", "SP", "IX", "IY")] + [(st["SP"] - 1) & 0xFFFF, code[-2] | code[-1] << 8]
    rng.shuffle(ports)
    for a in near + ports + [rng.randrange(65536) for _ in range(20)]:
        if len(cells) < CELLS and a not in used:
            b = rng.randrange(1, 256)
            used.add(a)
            cells.append((a, b, b))
    return cells


def padded(code):
    return code + [0] * (4 - len(code))


# The rules by which a Z80's result is made the HD64180's. Each answers the bits of F that it sets in place of the emulator's.

def keep(before, after, mask):
    after["AF"] = after["AF"] & ~mask | before["AF"] & mask
    return mask


def rule_user_bits(form, opcode, before, after, access):
    if form.name == "EX AF,AF'" or (form.name == "POP zz" and opcode == 0xF1):
        return 0
    return keep(before, after, 0x28)


def rule_ccf(form, opcode, before, after, access):
    if form.name != "CCF":
        return 0
    after["AF"] &= ~H
    return H


def rule_words(form, opcode, before, after, access):
    return keep(before, after, H) if form.name in ("ADD HL,ss", "ADD IX,xx", "ADD IY,yy", "ADC HL,ss", "SBC HL,ss") else 0


def rule_bit(form, opcode, before, after, access):
    return keep(before, after, S | P) if form.name.startswith("BIT ") else 0


def rule_block_ports(form, opcode, before, after, access):
    return keep(before, after, S | H | P | C) if form.name in BY_B else 0


def rule_block_output(form, opcode, before, after, access):
    if form.name in ("OUTI", "OUTD", "OTIR", "OTDR"):
        assert access[:2] == [2, (before["BC"] - 0x100) & 0xFFFF]
        access[1] = before["BC"]
    return 0


def rule_refresh(form, opcode, before, after, access):
    if form.page in ("DDCB", "FDCB"):
        after["R"] = after["R"] & 0x80 | (after["R"] + 1) & 0x7F
    return 0


def rule_halt(form, opcode, before, after, access):
    if form.name == "HALT":
        assert after["MODE"] == 1 and after["PC"] == before["PC"]
        after["PC"] = (before["PC"] + 1) & 0xFFFF
    return 0


def rule_reti(form, opcode, before, after, access):
    if form.name == "RETI":
        after["IEF1"] = before["IEF1"]
    return 0


RULES = [rule_user_bits, rule_ccf, rule_words, rule_bit, rule_block_ports, rule_block_output, rule_refresh, rule_halt, rule_reti]


def taken(form, opcode, before, after):
    """Whether the branch was taken, or another repetition follows; worked from the state before, held against PC after."""
    b, f = before["BC"] >> 8, before["AF"]
    if form.name in CONDITIONS:
        flag, wanted = condition(form, opcode)
        return (f & flag != 0) == (wanted == 1)
    if form.name == "DJNZ e":
        return b != 1
    if form.name in ("LDIR", "LDDR"):
        again = before["BC"] != 1
    elif form.name in ("CPIR", "CPDR"):
        again = before["BC"] != 1 and not after["AF"] & Z
    elif form.name in ("INIR", "INDR", "OTIR", "OTDR"):
        again = b != 1
    else:
        assert len(form.costs) == 1, form.name
        return False
    assert after["PC"] == (before["PC"] + (0 if again else 2)) & 0xFFFF, form.name
    return again


def request(code, st, answer, seed, given=()):
    """A line of input of z80ex-step.c; given holds pairs of address and byte."""
    numbers = [st[w] for w in WORDS] + [st[k] for k in ("I", "R", "IEF1", "IEF2", "IM")]
    numbers += [answer, seed, len(given)] + [x for pair in given for x in pair]
    return "".join(f"{b:02X}" for b in padded(code)) + " " + " ".join(f"{n:x}" for n in numbers) + "\n"


def emulate(stepper, requests):
    """The numbers of each line of its output."""
    out = subprocess.run([stepper], input="".join(requests), capture_output=True, text=True, check=True).stdout
    return [[int(x, 16) for x in line.split()] for line in out.splitlines()]


def from_z80ex(stepper, wanted):
    """Vectors of what a Z80 has too: wanted is a list of (page, opcode, i)."""
    vectors = {}
    left = list(wanted)
    while left:
        asked, requests = [], []
        for key in left:
            form = book.form(key[0], key[1])
            st, code, given = prepare(form, key[1], key[2])
            outside(form, st, code)
            answer = byte()
            requests.append(request(code, st, answer, rng.randrange(1, 1 << 31), list(given.items())))
            asked.append((key, form, st, code, answer))
        left = []
        for (key, form, st, code, answer), got in zip(asked, emulate(stepper, requests), strict=True):
            after = dict(st)
            after.update(zip(WORDS + ["I", "R", "IEF1", "IEF2", "IM", "MODE"], got[:18]))
            after["EI"] = int(form.name == "EI")
            access, count = got[18:21], got[21]
            cells = [tuple(got[22 + 3 * k:25 + 3 * k]) for k in range(count)]
            if got[22 + 3 * count]:
                left.append(key)  # it wrote over its own bytes: draw again
                continue
            if access[0] == 0:
                access[2] = answer
            vouched = 0xFF
            for rule in RULES:
                vouched &= ~rule(form, key[1], st, after, access)
            cost = form.cost(taken(form, key[1], st, after))
            cells = guarded(st, padded(code), cells)
            vectors[key] = Vector(Z80EX, padded(code), st, after, vouched, tuple(access), cost, cells)
    return [vectors[key] for key in wanted]


INTERNAL = [0x33, 0x34, 0x38, 0x39, 0x3A, 0x3F, 0x00]


def prepare_own(form, opcode, i):
    """The i-th state of an own instruction, with its bytes, the panel's answer and the cells. The first seven of those with a
    port go where an internal one would be, had ICR not moved them."""
    while True:
        st, code, _ = prepare(form, opcode, i)
        st["ICR"] = rng.randrange(8) << 5 | 0x1F
        if form.name in ("IN0 r,(n)", "OUT0 (n),r"):
            low = INTERNAL[i] if i < len(INTERNAL) else rng.randrange(64)
            code[2] = st["ICR"] & 0xC0 ^ rng.choice([0x40, 0x80, 0xC0]) | low
        if st["HL"] not in {(st["PC"] + k) & 0xFFFF for k in range(4)}:
            read = byte()
            touched = [(st["HL"], read, read)] if form.name == "TST (HL)" else []
            return st, code, byte(), guarded(st, padded(code), touched)


# The rules by which ucsim's result is completed. What else it does not show, an own instruction leaves alone.

def complete_refresh(after):
    after["R"] = after["R"] & 0x80 | (after["R"] + 2) & 0x7F


def complete_input(stepper, opcode, before, answer, after):
    """F of IN0, which ucsim leaves alone, is that of IN r,(C), by z80ex; the two must read the same into r. Answers the bits of F
    that z80ex does not vouch for."""
    [got] = emulate(stepper, [request([0xED, opcode | 0x40], before, answer, 1)])
    after["AF"] = after["AF"] & 0xFF00 | got[0] & 0xFF
    assert [after[w] for w in WORDS[:4]] == got[:4]
    return keep(before, after, 0x28)


def asked_of_ucsim(code, st, cells, answer):
    return ucsim.Request(padded(code), st, [(a, b) for a, b, _ in cells], code[-1], answer)


def completed(stepper, form, code, st, cells, answer, stepped):
    """What ucsim answered, completed: the state after, the bits of F vouched for, the panel's part, and the cells."""
    got, kept, written = stepped
    after = dict(st, EI=0, **got)
    complete_refresh(after)
    access, vouched = (0, 0, answer), 0xFF
    if form.name == "OUT0 (n),r":
        [(port, put)] = written.items()
        access = (2, port, put)
    else:
        assert not written, form.name
    if form.name == "IN0 r,(n)":
        access = (1, code[2], answer)
        vouched &= ~complete_input(stepper, code[1], st, answer, after)
    return after, vouched, access, [(a, b, c) for (a, b, _), c in zip(cells, kept, strict=True)]


def from_ucsim(stepper, wanted):
    """Vectors of the own instructions that ucsim has: wanted is a list of (page, opcode, i)."""
    forms = [book.form(page, opcode) for page, opcode, _ in wanted]
    states = [prepare_own(form, opcode, i) for form, (_, opcode, i) in zip(forms, wanted)]
    done = ucsim.steps([asked_of_ucsim(code, st, cells, answer) for st, code, answer, cells in states])
    vectors = []
    for form, (st, code, answer, cells), stepped in zip(forms, states, done, strict=True):
        after, vouched, access, cells = completed(stepper, form, code, st, cells, answer, stepped)
        vectors.append(Vector(UCSIM, padded(code), st, after, vouched, access, form.cost(False), cells))
    return vectors


def main():
    emulated, own = [], []
    for page in book.PAGES:
        for opcode in book.DEFINED[page]:
            name = book.form(page, opcode).name
            if name in BY_HAND or (page, opcode) == ("ED", MLT_SP):
                continue
            for i in range(MORE.get(name, STATES)):
                (own if name in OWN else emulated).append((page, opcode, i))
    vectors = from_z80ex(sys.argv[1], emulated)
    vectors += from_ucsim(sys.argv[1], own)
    vectors += hand.vectors()
    for v in vectors:
        print(v.line())


if __name__ == "__main__":
    main()

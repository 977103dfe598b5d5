"""Holds the vectors by hand against z80ex and ucsim, both with the rules, and the model; and those by ucsim against the model.

Usage: check-hand.py STEPPER FILE. Traps and idle steps have none of the three. Internal ports and the window, which neither
emulator has, are the model's here."""
import sys

import book
import hand
import make
import model
import ucsim
import vector
from vector import UCSIM, WORDS

PORTED = {"IN A,(n)", "OUT (n),A", "IN r,(C)", "OUT (C),r"} | make.BY_B


def modelled(v, form):
    step = model.Step(form.name, v.code, v.before, {a: b for a, b, _ in v.cells}, v.access[2])
    assert (step.st, step.access, form.cost(step.taken)) == (v.after, v.access, v.cost), v.line()


def ucsim_has(v, form):
    ports = form.name in ("IN0 r,(n)", "OUT0 (n),r")
    return form.name in make.OWN and v.code[1] != make.MLT_SP and (v.access[0] != 0 or not ports)


def stepped(v, form, stepper):
    code = v.code[:form.length]
    [done] = ucsim.steps([make.asked_of_ucsim(code, v.before, v.cells, v.access[2])])
    after, _, access, cells = make.completed(stepper, form, code, v.before, v.cells, v.access[2], done)
    assert (after, access, cells) == (v.after, v.access, v.cells), v.line()


def emulated(v, form, opcode, stepper):
    shown = [model.physical(v.before, a) for a in range(65536)]
    before = {a: b for a, b, _ in v.cells}
    port = v.before["AF"] & 0xFF00 | v.code[1] if form.page == "main" else v.before["BC"]
    internal = form.name in PORTED and model.internal(v.before, port)
    answer = model.internal_read(v.before, port) if internal else v.access[2]
    given = [(a, before[p]) for a, p in enumerate(shown) if p in before]
    [got] = make.emulate(stepper, [make.request(v.code, v.before, answer, 1, given)])
    after = dict(v.before, EI=int(form.name == "EI"))
    after.update(zip(WORDS + ["I", "R", "IEF1", "IEF2", "IM", "MODE"], got[:18]))
    access = got[18:21]
    for rule in make.RULES:
        rule(form, opcode, v.before, after, access)
    if internal and access[0] == 2:
        model.internal_write(after, access[1], access[2])
    if internal or access[0] == 0:
        access = [0, 0, v.access[2]]
    cost = form.cost(make.taken(form, opcode, v.before, after))
    assert (after, tuple(access), cost) == (v.after, v.access, v.cost), v.line()
    touched = {shown[got[22 + 3 * k]]: tuple(got[23 + 3 * k:25 + 3 * k]) for k in range(got[21])}
    listed = {a: (b, c) for a, b, c in v.cells}
    assert all(listed.get(a) == pair for a, pair in touched.items()), v.line()
    assert all(b == c or a in touched for a, (b, c) in listed.items()), v.line()


def by_hand(stepper):
    counts = dict.fromkeys(("z80ex", "ucsim", "model", "none"), 0)
    for v in hand.vectors():
        page, opcode = book.split(v.code)
        if v.before["MODE"] or opcode not in book.DEFINED[page]:
            counts["none"] += 1
            continue
        form = book.form(page, opcode)
        if form.name in make.OWN | make.BY_HAND:
            modelled(v, form)
            counts["model"] += 1
            if ucsim_has(v, form):
                stepped(v, form, stepper)
                counts["ucsim"] += 1
        else:
            emulated(v, form, opcode, stepper)
            counts["z80ex"] += 1
    print("by hand: {z80ex} as z80ex with the rules, {model} as the model, {ucsim} of them as ucsim with the rules too; "
          "{none} traps and idle steps".format(**counts))


def by_ucsim(lines):
    vectors = [vector.read(line) for line in lines if int(line[0]) == UCSIM]
    for v in vectors:
        modelled(v, book.form(*book.split(v.code)))
    print(f"by ucsim: {len(vectors)} as the model")


def main():
    by_hand(sys.argv[1])
    with open(sys.argv[2]) as f:
        by_ucsim(f.read().splitlines())


main()

"""Makes one step of ucsim's Z180 (Debian: sdcc-ucsim, ucsim 0.6.4) from each of some states, in one run of the program.

Of the HD64180's own instructions it has MLT BC, MLT DE and MLT HL, TST, IN0 and OUT0, and stops at the others as invalid. It shows
the registers below, memory, and what its ports hold. It does not tell which port was touched: so all ports, and all memory
that is not given, hold one byte that occurs nowhere else in the state, and a byte that came from or went to a wrong place shows."""
import re
import subprocess
import tempfile

ORDER = ["AF", "BC", "DE", "HL", "IX", "IY", "SP", "AF'", "BC'", "DE'", "HL'"]
PORTS = 0x100  # OUT0 and IN0 have 00 in the upper half
REGISTER = re.compile(r"^0x[0-9a] [A-Z_]+: +0b[01]+ 0x([0-9a-f]{4})", re.M)
# A line begins with its address, and a name if ucsim gave it one. Of memory that was once an instruction it has more bytes.
DUMPED = re.compile(r"^0x[0-9a-f]{4} (?:\.\w+\$\d+:)? *((?:[0-9a-f]{2} ){1,8})", re.M)


class Request:
    """The four bytes at PC, the registers, pairs of address and byte, and a port with the byte that it answers."""

    def __init__(self, code, st, cells, port, answer):
        self.code, self.st, self.cells, self.port, self.answer = code, st, cells, port, answer
        used = {st[w] >> s & 255 for w in ORDER for s in (0, 8)} | set(code) | {b for _, b in cells} | {answer}
        self.quiet = next(b for b in range(0xA5, 0x1A5) if b not in used)

    def commands(self):
        lines = [f"fill {kind} 0 0xffff {self.quiet:#x}" for kind in ("rom", "inputs", "outputs")]
        lines += [f"set memory inputs {self.port:#x} {self.answer:#x}"]
        lines += [f"set memory rom {(self.st['PC'] + i) & 0xFFFF:#x} {b:#x}" for i, b in enumerate(self.code)]
        lines += [f"set memory rom {a:#x} {b:#x}" for a, b in self.cells]
        lines += ["set memory regs16 0 " + " ".join(f"{self.st[w]:#x}" for w in ORDER), f"pc {self.st['PC']:#x}", "step"]
        lines += ["dump regs16 0 10"] + [f"dump rom {a:#x} {a:#x}" for a, _ in self.cells] + [f"dump outputs 0 {PORTS - 1:#x}"]
        return lines

    def answered(self, text):
        """The registers, the bytes of the cells, and the ports that were written, each with its byte."""
        assert "stepped" in text.split("\n")[0], text.split("\n")[0]
        pc = int(text[:6], 16)
        text = text[text.index("\n0x0 AF:"):]
        got = dict(zip(ORDER, [int(x, 16) for x in REGISTER.findall(text)]))
        rows = [bytes.fromhex(x) for x in DUMPED.findall(text)]
        count = len(self.cells)
        ports = b"".join(rows[count:])[:PORTS]
        assert len(ports) == PORTS
        return dict(got, PC=pc), [row[0] for row in rows[:count]], {p: b for p, b in enumerate(ports) if b != self.quiet}


def steps(requests):
    """What ucsim answers to each request. From a file of commands it goes on only when a step is done; from a pipe it would not."""
    with tempfile.NamedTemporaryFile("w", suffix=".cmd") as f:
        f.write("".join(line + "\n" for r in requests for line in r.commands()) + "kill\n")
        f.flush()
        done = subprocess.run(["sz80", "-t", "Z180", "-b", "-C", f.name], stdin=subprocess.DEVNULL, capture_output=True, text=True)
    parts = done.stdout.split("Stop at 0x")[1:]
    return [r.answered(part) for r, part in zip(requests, parts, strict=True)]

"""The HD64180's own instructions, and its internal ports: an independent reading of docs/CARD.md, not an emulator.

No vector comes from it: those by ucsim and by hand are held against it."""


def parity(byte):
    return bin(byte).count("1") % 2 == 0


def internal(st, port):
    """A port is internal if its upper half is 0 and its bits 7 and 6 are those of ICR."""
    return port >> 8 == 0 and (port ^ st["ICR"]) & 0xC0 == 0


def internal_read(st, port):
    name = {0x33: "IL", 0x34: "ITC", 0x38: "CBR", 0x39: "BBR", 0x3A: "CBAR", 0x3F: "ICR"}.get(port & 0x3F)
    return st[name] if name else 0xFF


def internal_write(st, port, byte):
    low = port & 0x3F
    if low == 0x33:
        st["IL"] = byte & 0xE0
    elif low == 0x34:
        st["ITC"] = (st["ITC"] & byte & 0x80) | (st["ITC"] & 0x40) | 0x38 | (byte & 7)
    elif low in (0x38, 0x39):
        st["CBR" if low == 0x38 else "BBR"] = byte & 0x7F
    elif low == 0x3A:
        st["CBAR"] = byte
    elif low == 0x3F:
        st["ICR"] = (byte & 0xE0) | 0x1F


def physical(st, address):
    page, base = address >> 12, 0
    if page >= st["CBAR"] >> 4:
        base = st["CBR"]
    elif page >= st["CBAR"] & 15:
        base = st["BBR"]
    return (page + base) % 128 << 12 | address & 0xFFF


class Step:
    """One step of an own instruction, on registers, a dictionary of bytes, and the panel's answer."""

    def __init__(self, name, code, before, memory, answer):
        self.name, self.code, self.memory, self.answer = name, code, memory, answer
        self.st = dict(before)
        self.access = (0, 0, answer)
        self.taken = False
        self.read = []
        self.run()

    def half(self, i):
        pair, high = [("BC", 1), ("BC", 0), ("DE", 1), ("DE", 0), ("HL", 1), ("HL", 0), None, ("AF", 1)][i]
        return pair, 8 * high

    def get(self, i):
        pair, shift = self.half(i)
        return self.st[pair] >> shift & 255

    def put(self, i, byte):
        pair, shift = self.half(i)
        self.st[pair] = self.st[pair] & (0xFF00 >> shift) | byte << shift

    def load(self, address):
        a = physical(self.st, address)
        self.read.append(a)
        return self.memory[a]

    def input(self, port):
        if internal(self.st, port):
            return internal_read(self.st, port)
        self.access = (1, port, self.answer)
        return self.answer

    def output(self, port, byte):
        if internal(self.st, port):
            internal_write(self.st, port, byte)
        else:
            self.access = (2, port, byte)

    def flags(self, **new):
        f = self.st["AF"] & 255
        for name, value in new.items():
            bit = dict(S=0x80, Z=0x40, H=0x10, P=4, N=2, C=1)[name]
            f = f | bit if value else f & ~bit
        self.st["AF"] = self.st["AF"] & 0xFF00 | f

    def tested(self, byte):
        self.flags(S=byte >= 128, Z=byte == 0, H=1, P=parity(byte), N=0, C=0)

    def run(self):
        st, code = self.st, self.code
        field = code[1] >> 3 & 7
        st["R"] = st["R"] & 0x80 | (st["R"] + 2) & 0x7F
        st["EI"] = 0
        length = 3 if self.name in ("IN0 r,(n)", "OUT0 (n),r", "TST n", "TSTIO n") else 2
        st["PC"] = (st["PC"] + length) & 0xFFFF
        a = st["AF"] >> 8
        if self.name == "IN0 r,(n)":
            byte = self.input(code[2])
            self.put(field, byte)
            self.flags(S=byte >= 128, Z=byte == 0, H=0, P=parity(byte), N=0)
        elif self.name == "OUT0 (n),r":
            self.output(code[2], self.get(field))
        elif self.name == "TST r":
            self.tested(a & self.get(field))
        elif self.name == "TST (HL)":
            self.tested(a & self.load(st["HL"]))
        elif self.name == "TST n":
            self.tested(a & code[2])
        elif self.name == "TSTIO n":
            self.tested(self.input(st["BC"] & 255) & code[2])
        elif self.name == "MLT ww":
            pair = ["BC", "DE", "HL", "SP"][field >> 1]
            st[pair] = (st[pair] >> 8) * (st[pair] & 255)
        elif self.name == "SLP":
            st["MODE"] = 2
        elif self.name in ("OTIM", "OTDM", "OTIMR", "OTDMR"):
            by = -1 if "D" in self.name else 1
            byte = self.load(st["HL"])
            b, c = st["BC"] >> 8, st["BC"] & 255
            self.output(c, byte)
            lowered = (b - 1) & 255
            st["BC"] = lowered << 8 | (c + by) & 255
            st["HL"] = (st["HL"] + by) & 0xFFFF
            self.flags(S=lowered >= 128, Z=lowered == 0, H=b & 15 == 0, P=parity(lowered), N=byte >= 128, C=b == 0)
            if self.name.endswith("R") and lowered:
                self.taken = True
                st["PC"] = (st["PC"] - 2) & 0xFFFF
        else:
            raise ValueError(self.name)

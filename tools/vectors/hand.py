"""Vectors worked out by hand, every value typed: what no emulator has right, and the worked numbers of docs/CARD.md.

Each has the instruction's bytes, its machine cycles and states, what stands before where it is not REST, what is changed
after, the cells (physical address, byte before, byte after), and the panel's port access. R and PC are typed as well."""
from vector import CELLS, HAND, RESET, Vector

REST = {"AF": 0x0000, "BC": 0x1122, "DE": 0x3344, "HL": 0x5566, "AF'": 0x7788, "BC'": 0x99AA, "DE'": 0xBBCC, "HL'": 0xDDEE,
        "IX": 0x6000, "IY": 0x7000, "SP": 0x8000, "PC": 0x1000, "I": 0x12, "R": 0x34,
        "IEF1": 1, "IEF2": 0, "IM": 1, "MODE": 0, "EI": 0, **RESET}
READ, WRITTEN = 1, 2
ONE, TWO, THREE = dict(R=0x35), dict(R=0x36), dict(R=0x37)  # one, two or three opcode bytes were read
# Cells that no step touches, for those that have fewer than three.
QUIET = [(0x05567, 0xA1, 0xA1), (0x05565, 0xB2, 0xB2), (0x00F00, 0xC3, 0xC3)]
WINDOW = dict(CBAR=0x84, BBR=0x20, CBR=0x7C)
LIST = []


def work(code, cost, before, after, cells=(), access=(0, 0, 0xEE)):
    code = list(bytes.fromhex(code))
    st = {**REST, **before}
    used = {a for a, _, _ in cells}
    cells = list(cells) + [c for c in QUIET if c[0] not in used][:CELLS - len(cells)]
    LIST.append(Vector(HAND, code + [0] * (4 - len(code)), st, {**st, **after}, 0, access, cost, cells))


def at(address, byte, to=None):
    return address, byte, byte if to is None else to


# 7FH + 01H, DAA of 9AH, and OTIM with B = 01H and the byte 80H.
work("C601", (2, 6), dict(AF=0x7F00), dict(AF=0x8094, PC=0x1002, **ONE))
work("27", (2, 4), dict(AF=0x9A00), dict(AF=0x0055, PC=0x1001, **ONE))
work("ED83", (6, 14), dict(BC=0x0180), dict(AF=0x0046, BC=0x0081, HL=0x5567, PC=0x1002, **TWO), [at(0x5566, 0x80)], (WRITTEN, 0x0080, 0x80))

# The OTIM family: B from 0 borrows, C and HL wrap by themselves, bits 5 and 3 stay, and the port's upper half is 0.
work("ED83", (6, 14), dict(AF=0x0028, BC=0x00FF, HL=0xFFFF), dict(AF=0x00BD, BC=0xFF00, HL=0x0000, PC=0x1002, **TWO), [at(0xFFFF, 0x7F)], (WRITTEN, 0x00FF, 0x7F))
work("ED83", (6, 14), dict(AF=0x00FF, BC=0x1081), dict(AF=0x003E, BC=0x0F82, HL=0x5567, PC=0x1002, **TWO), [at(0x5566, 0x80)], (WRITTEN, 0x0081, 0x80))
work("ED8B", (6, 14), dict(BC=0x8140, HL=0x0000), dict(AF=0x0080, BC=0x803F, HL=0xFFFF, PC=0x1002, **TWO), [at(0x0000, 0x05)], (WRITTEN, 0x0040, 0x05))
work("ED8B", (6, 14), dict(BC=0x0181), dict(AF=0x0044, BC=0x0080, HL=0x5565, PC=0x1002, **TWO), [at(0x5566, 0x7F)], (WRITTEN, 0x0081, 0x7F))
work("ED93", (6, 16), dict(AF=0x00FF, BC=0x0280), dict(AF=0x0028, BC=0x0181, HL=0x5567, **TWO), [at(0x5566, 0x0F)], (WRITTEN, 0x0080, 0x0F))
work("ED93", (6, 14), dict(BC=0x0181), dict(AF=0x0046, BC=0x0082, HL=0x5567, PC=0x1002, **TWO), [at(0x5566, 0xFF)], (WRITTEN, 0x0081, 0xFF))
work("ED93", (6, 16), dict(BC=0x0080), dict(AF=0x0095, BC=0xFF81, HL=0x5567, **TWO), [at(0x5566, 0x00)], (WRITTEN, 0x0080, 0x00))
work("ED9B", (6, 16), dict(BC=0x0082), dict(AF=0x0097, BC=0xFF81, HL=0x5565, **TWO), [at(0x5566, 0x80)], (WRITTEN, 0x0082, 0x80))
work("ED9B", (6, 14), dict(BC=0x0180), dict(AF=0x0044, BC=0x007F, HL=0x5565, PC=0x1002, **TWO), [at(0x5566, 0x01)], (WRITTEN, 0x0080, 0x01))
work("ED9B", (6, 16), dict(BC=0x2040), dict(AF=0x0010, BC=0x1F3F, HL=0x5565, **TWO), [at(0x5566, 0x33)], (WRITTEN, 0x0040, 0x33))
work("ED83", (6, 14), dict(BC=0x0538), dict(AF=0x0002, BC=0x0439, HL=0x5567, CBR=0x05, PC=0x1002, **TWO), [at(0x5566, 0x85)])
work("ED83", (6, 14), dict(BC=0x0433), dict(AF=0x0006, BC=0x0334, HL=0x5567, IL=0xE0, PC=0x1002, **TWO), [at(0x5566, 0xFF)])
work("ED93", (6, 16), dict(BC=0x033A), dict(AF=0x0002, BC=0x023B, HL=0x5567, CBAR=0x84, **TWO), [at(0x5566, 0x84)])
work("ED8B", (6, 14), dict(BC=0x0400), dict(AF=0x0004, BC=0x03FF, HL=0x5565, PC=0x1002, **TWO), [at(0x5566, 0x11)])

# OTIM: B falls and gives S, Z, P/V (an even number of ones) and, from a low digit of 0, H; C is 1 only from B = 00H; N is bit 7 of
# the byte. 02 to 01; 80 to 7F (seven ones), C wraps; 81 to 80, HL wraps; FF to FE (seven ones); A0 to 9F (six ones); 11 to 10.
work("ED83", (6, 14), dict(AF=0x12D7, BC=0x0280), dict(AF=0x1200, BC=0x0181, HL=0x5567, PC=0x1002, **TWO), [at(0x5566, 0x7F)], (WRITTEN, 0x0080, 0x7F))
work("ED83", (6, 14), dict(AF=0x5528, BC=0x80FF), dict(AF=0x553A, BC=0x7F00, HL=0x5567, PC=0x1002, **TWO), [at(0x5566, 0xFF)], (WRITTEN, 0x00FF, 0xFF))
work("ED83", (6, 14), dict(BC=0x8141, HL=0xFFFF), dict(AF=0x0080, BC=0x8042, HL=0x0000, PC=0x1002, **TWO), [at(0xFFFF, 0x00)], (WRITTEN, 0x0041, 0x00))
work("ED83", (6, 14), dict(AF=0x00FF, BC=0xFFC0), dict(AF=0x00AA, BC=0xFEC1, HL=0x5567, PC=0x1002, **TWO), [at(0x5566, 0x80)], (WRITTEN, 0x00C0, 0x80))
work("ED83", (6, 14), dict(AF=0x0029, BC=0xA07F), dict(AF=0x00BC, BC=0x9F80, HL=0x5567, PC=0x1002, **TWO), [at(0x5566, 0x40)], (WRITTEN, 0x007F, 0x40))
work("ED83", (6, 14), dict(BC=0x1190, R=0x7F, PC=0xFFFE, EI=1), dict(AF=0x0002, BC=0x1091, HL=0x5567, R=0x01, PC=0x0000, EI=0), [at(0x5566, 0xC3)], (WRITTEN, 0x0090, 0xC3))
# From page 3, shown by base 0; to CBR and past it, moved by ICR; TRAP cleared; ICR itself.
work("ED83", (6, 14), dict(BC=0x0681, HL=0x3FFF, **WINDOW), dict(AF=0x0004, BC=0x0582, HL=0x4000, PC=0x1002, **TWO), [at(0x03FFF, 0x21), at(0x23FFF, 0xDE)], (WRITTEN, 0x0081, 0x21))
work("ED83", (6, 14), dict(BC=0x0978, ICR=0x5F), dict(AF=0x0002, BC=0x0879, HL=0x5567, CBR=0x12, PC=0x1002, **TWO), [at(0x5566, 0x92)])
work("ED83", (6, 14), dict(AF=0xAA01, BC=0x0838, ICR=0x5F), dict(AF=0xAA00, BC=0x0739, HL=0x5567, PC=0x1002, **TWO), [at(0x5566, 0x55)], (WRITTEN, 0x0038, 0x55))
work("ED83", (6, 14), dict(BC=0x0334, ITC=0xB9), dict(AF=0x0000, BC=0x0235, HL=0x5567, ITC=0x38, PC=0x1002, **TWO), [at(0x5566, 0x00)])
work("ED83", (6, 14), dict(BC=0x0B3F), dict(AF=0x0006, BC=0x0A40, HL=0x5567, ICR=0xDF, PC=0x1002, **TWO), [at(0x5566, 0xC0)])

# OTDM: 00 to FF borrows; 10 to 0F, C wraps; 02 to 01; 80 to 7F, HL to 0; FF to FE; C0 to BF (seven ones), and R and PC at their ends.
work("ED8B", (6, 14), dict(BC=0x0080), dict(AF=0x0097, BC=0xFF7F, HL=0x5565, PC=0x1002, **TWO), [at(0x5566, 0x90)], (WRITTEN, 0x0080, 0x90))
work("ED8B", (6, 14), dict(AF=0x00D7, BC=0x1000, ICR=0x9F), dict(AF=0x0014, BC=0x0FFF, HL=0x5565, PC=0x1002, **TWO), [at(0x5566, 0x12)], (WRITTEN, 0x0000, 0x12))
work("ED8B", (6, 14), dict(AF=0x7728, BC=0x0241), dict(AF=0x772A, BC=0x0140, HL=0x5565, PC=0x1002, **TWO), [at(0x5566, 0xFE)], (WRITTEN, 0x0041, 0xFE))
work("ED8B", (6, 14), dict(AF=0x0008, BC=0x80C1, HL=0x0001), dict(AF=0x0018, BC=0x7FC0, HL=0x0000, PC=0x1002, **TWO), [at(0x0001, 0x01)], (WRITTEN, 0x00C1, 0x01))
work("ED8B", (6, 14), dict(AF=0x0001, BC=0xFF01, ICR=0xDF), dict(AF=0x0082, BC=0xFE00, HL=0x5565, PC=0x1002, **TWO), [at(0x5566, 0xAA)], (WRITTEN, 0x0001, 0xAA))
work("ED8B", (6, 14), dict(BC=0xC090, R=0xFE, PC=0xFFFD, EI=1), dict(AF=0x0090, BC=0xBF8F, HL=0x5565, R=0x80, PC=0xFFFF, EI=0), [at(0x5566, 0x7E)], (WRITTEN, 0x0090, 0x7E))
# From page 4, shown by BBR; to CBAR, IL, BBR moved by ICR, and ITC, where TRAP and UFO are not set by writing 1.
work("ED8B", (6, 14), dict(BC=0x07C4, HL=0x4000, **WINDOW), dict(AF=0x0006, BC=0x06C3, HL=0x3FFF, PC=0x1002, **TWO), [at(0x24000, 0x88), at(0x04000, 0x11)], (WRITTEN, 0x00C4, 0x88))
work("ED8B", (6, 14), dict(BC=0x0D3A), dict(AF=0x0004, BC=0x0C39, HL=0x5565, CBAR=0x48, PC=0x1002, **TWO), [at(0x5566, 0x48)])
work("ED8B", (6, 14), dict(AF=0x0081, BC=0x0833), dict(AF=0x0000, BC=0x0732, HL=0x5565, IL=0x40, PC=0x1002, **TWO), [at(0x5566, 0x5F)])
work("ED8B", (6, 14), dict(BC=0x14F9, ICR=0xDF), dict(AF=0x0002, BC=0x13F8, HL=0x5565, BBR=0x7F, PC=0x1002, **TWO), [at(0x5566, 0xFF)])
work("ED8B", (6, 14), dict(BC=0x2034), dict(AF=0x0012, BC=0x1F33, HL=0x5565, ITC=0x3F, PC=0x1002, **TWO), [at(0x5566, 0xFF)])

# OTIMR: flags as OTIM; PC stays at the instruction until B is 00H. 01 to 00 ends, C and HL wrap; 10 to 0F; 81 to 80; 80 to 7F;
# FF to FE, R wraps; E0 to DF (seven ones), with the instruction at the end of memory; 01 to 00 with PC wrapping.
work("ED93", (6, 14), dict(AF=0x00BB, BC=0x01FF, HL=0xFFFF), dict(AF=0x006C, BC=0x0000, HL=0x0000, PC=0x1002, **TWO), [at(0xFFFF, 0x00)], (WRITTEN, 0x00FF, 0x00))
work("ED93", (6, 16), dict(AF=0x3300, BC=0x1040), dict(AF=0x3316, BC=0x0F41, HL=0x5567, **TWO), [at(0x5566, 0x99)], (WRITTEN, 0x0040, 0x99))
work("ED93", (6, 16), dict(AF=0x0045, BC=0x81BF), dict(AF=0x0080, BC=0x80C0, HL=0x5567, **TWO), [at(0x5566, 0x66)], (WRITTEN, 0x00BF, 0x66))
work("ED93", (6, 16), dict(AF=0x00C5, BC=0x80FE), dict(AF=0x0012, BC=0x7FFF, HL=0x5567, **TWO), [at(0x5566, 0xE1)], (WRITTEN, 0x00FE, 0xE1))
work("ED93", (6, 16), dict(AF=0x0028, BC=0xFF83, HL=0x7FFF, R=0xFF, EI=1), dict(AF=0x00A8, BC=0xFE84, HL=0x8000, R=0x81, EI=0), [at(0x7FFF, 0x3C)], (WRITTEN, 0x0083, 0x3C))
work("ED93", (6, 16), dict(BC=0xE0C8, PC=0xFFFF), dict(AF=0x0092, BC=0xDFC9, HL=0x5567, **TWO), [at(0x5566, 0x80)], (WRITTEN, 0x00C8, 0x80))
work("ED93", (6, 14), dict(AF=0x0002, BC=0x0150, PC=0xFFFE), dict(AF=0x0044, BC=0x0051, HL=0x5567, PC=0x0000, **TWO), [at(0x5566, 0x0F)], (WRITTEN, 0x0050, 0x0F))
# From page 8, shown by CBR (84H modulo 80H); to BBR and to the end; to a port that is none, moved by ICR; to IL.
work("ED93", (6, 16), dict(BC=0x0A88, HL=0x8000, **WINDOW), dict(AF=0x0004, BC=0x0989, HL=0x8001, **TWO), [at(0x04000, 0x5A), at(0x08000, 0xA5)], (WRITTEN, 0x0088, 0x5A))
work("ED93", (6, 14), dict(BC=0x0139), dict(AF=0x0046, BC=0x003A, HL=0x5567, BBR=0x03, PC=0x1002, **TWO), [at(0x5566, 0x83)])
work("ED93", (6, 16), dict(AF=0x00FF, BC=0x1777, ICR=0x5F), dict(AF=0x0028, BC=0x1678, HL=0x5567, **TWO), [at(0x5566, 0x44)])
work("ED93", (6, 16), dict(BC=0x0633), dict(AF=0x0006, BC=0x0534, HL=0x5567, IL=0xA0, **TWO), [at(0x5566, 0xBF)])

# OTDMR: 02 to 01, C and HL wrap; 01 to 00 ends; 80 to 7F; 81 to 80; 10 to 0F (four ones); FF to FE, R wraps; F0 to EF (seven ones).
work("ED9B", (6, 16), dict(AF=0x00D7, BC=0x0200, HL=0x0000, ICR=0x5F), dict(AF=0x0000, BC=0x01FF, HL=0xFFFF, **TWO), [at(0x0000, 0x10)], (WRITTEN, 0x0000, 0x10))
work("ED9B", (6, 14), dict(AF=0x0039, BC=0x01C7), dict(AF=0x006E, BC=0x00C6, HL=0x5565, PC=0x1002, **TWO), [at(0x5566, 0xFF)], (WRITTEN, 0x00C7, 0xFF))
work("ED9B", (6, 16), dict(AF=0x6600, BC=0x8041), dict(AF=0x6610, BC=0x7F40, HL=0x5565, **TWO), [at(0x5566, 0x20)], (WRITTEN, 0x0041, 0x20))
work("ED9B", (6, 16), dict(BC=0x8180), dict(AF=0x0082, BC=0x807F, HL=0x5565, **TWO), [at(0x5566, 0xC0)], (WRITTEN, 0x0080, 0xC0))
work("ED9B", (6, 16), dict(AF=0x0008, BC=0x1081), dict(AF=0x001C, BC=0x0F80, HL=0x5565, **TWO), [at(0x5566, 0x08)], (WRITTEN, 0x0081, 0x08))
work("ED9B", (6, 16), dict(AF=0x0020, BC=0xFF99, R=0x7E, EI=1), dict(AF=0x00A2, BC=0xFE98, HL=0x5565, R=0x00, EI=0), [at(0x5566, 0x81)], (WRITTEN, 0x0099, 0x81))
work("ED9B", (6, 16), dict(BC=0xF0A1, HL=0x8000, PC=0xFFFE), dict(AF=0x0090, BC=0xEFA0, HL=0x7FFF, **TWO), [at(0x8000, 0x6B)], (WRITTEN, 0x00A1, 0x6B))
# From page 7, shown by BBR; to CBR; to ICR and to the end; to ITC, where TRAP and UFO stay by writing 1 to TRAP.
work("ED9B", (6, 16), dict(BC=0x12D0, HL=0x7FFF, **WINDOW), dict(AF=0x0006, BC=0x11CF, HL=0x7FFE, **TWO), [at(0x27FFF, 0xF1), at(0x07FFF, 0x0E)], (WRITTEN, 0x00D0, 0xF1))
work("ED9B", (6, 16), dict(BC=0x0C38), dict(AF=0x0002, BC=0x0B37, HL=0x5565, CBR=0x2B, **TWO), [at(0x5566, 0xAB)])
work("ED9B", (6, 14), dict(BC=0x013F), dict(AF=0x0044, BC=0x003E, HL=0x5565, ICR=0x7F, PC=0x1002, **TWO), [at(0x5566, 0x7F)])
work("ED9B", (6, 16), dict(BC=0x0534, ITC=0xF9), dict(AF=0x0002, BC=0x0433, HL=0x5565, ITC=0xFE, **TWO), [at(0x5566, 0x86)])

# TSTIO looks at port C with upper half 0, and not at A.
work("ED740F", (4, 12), dict(AF=0xFFFF, BC=0x1183), dict(AF=0xFF3C, PC=0x1003, **TWO), access=(READ, 0x0083, 0x1F))
work("ED74E0", (4, 12), dict(AF=0x0000, BC=0xFF83), dict(AF=0x0054, PC=0x1003, **TWO), access=(READ, 0x0083, 0x1F))
work("ED7480", (4, 12), dict(AF=0x0001, BC=0x5534), dict(AF=0x0054, PC=0x1003, **TWO))
work("ED7480", (4, 12), dict(AF=0x0000, BC=0x5534, ITC=0xB9), dict(AF=0x0090, PC=0x1003, **TWO))
work("ED74FF", (4, 12), dict(AF=0x0000, BC=0x0000), dict(AF=0x0094, PC=0x1003, **TWO))
work("ED74FF", (4, 12), dict(AF=0x0000, BC=0x0000, ICR=0xDF), dict(AF=0x0010, PC=0x1003, **TWO), access=(READ, 0x0000, 0x01))
# AA and 55 share nothing; FF and AA leave AA (four ones); 81 and 01; FF and 00; 80 and 7F; FF and FE (seven ones), R and PC wrap.
work("ED7455", (4, 12), dict(AF=0x12AA, BC=0xAA80), dict(AF=0x127C, PC=0x1003, **TWO), access=(READ, 0x0080, 0xAA))
work("ED74AA", (4, 12), dict(AF=0x0043, BC=0x0081), dict(AF=0x0094, PC=0x1003, **TWO), access=(READ, 0x0081, 0xFF))
work("ED7401", (4, 12), dict(AF=0x80D7, BC=0xFFFF), dict(AF=0x8010, PC=0x1003, **TWO), access=(READ, 0x00FF, 0x81))
work("ED7400", (4, 12), dict(AF=0x0083, BC=0x40C0), dict(AF=0x0054, PC=0x1003, **TWO), access=(READ, 0x00C0, 0xFF))
work("ED747F", (4, 12), dict(AF=0xFF28, BC=0x0041), dict(AF=0xFF7C, PC=0x1003, **TWO), access=(READ, 0x0041, 0x80))
work("ED74FE", (4, 12), dict(AF=0x00FF, BC=0x117F, R=0x7F, PC=0xFFFE, EI=1), dict(AF=0x00B8, R=0x01, PC=0x0001, EI=0), access=(READ, 0x007F, 0xFF))
# Inside: CBAR (84 and F0), CBR (7C and 3C leave four ones), IL (A0 and 60), BBR moved by ICR (55 and 0F); unmoved, a panel's.
work("ED74F0", (4, 12), dict(BC=0x553A, CBAR=0x84), dict(AF=0x0090, PC=0x1003, **TWO))
work("ED743C", (4, 12), dict(AF=0x0001, BC=0x1138, CBR=0x7C), dict(AF=0x0014, PC=0x1003, **TWO))
work("ED7460", (4, 12), dict(BC=0x0033, IL=0xA0), dict(AF=0x0010, PC=0x1003, **TWO))
work("ED740F", (4, 12), dict(BC=0x22B9, CBAR=0x88, BBR=0x55, ICR=0x9F), dict(AF=0x0014, PC=0x1003, **TWO))
work("ED740F", (4, 12), dict(AF=0x0091, BC=0x22B9), dict(AF=0x0014, PC=0x1003, **TWO), access=(READ, 0x00B9, 0x5A))

# IN0 of the panel, of each internal byte, and of an internal port that is none of these.
work("ED3883", (4, 12), dict(AF=0x1293), dict(AF=0x0045, PC=0x1003, **TWO), access=(READ, 0x0083, 0x00))
work("ED003A", (4, 12), {}, dict(AF=0x0084, BC=0xF022, PC=0x1003, **TWO))
work("ED1834", (4, 12), dict(ITC=0xB9), dict(AF=0x0080, DE=0x33B9, PC=0x1003, **TWO))
work("ED2833", (4, 12), dict(IL=0xE0), dict(AF=0x0080, HL=0x55E0, PC=0x1003, **TWO))
work("ED083F", (4, 12), dict(AF=0x00D6), dict(AF=0x0000, BC=0x111F, PC=0x1003, **TWO))
work("ED2038", (4, 12), dict(CBR=0x03, CBAR=0xF0), dict(AF=0x0004, HL=0x0366, PC=0x1003, **TWO))
work("ED3839", (4, 12), dict(CBAR=0x88, BBR=0x07), dict(AF=0x0700, PC=0x1003, **TWO))
work("ED1000", (4, 12), {}, dict(AF=0x0084, DE=0xFF44, PC=0x1003, **TWO))
# Each register reads four or more internal ports. S is bit 7, Z that all is 0, P/V that the ones are even in number; C stays.
work("ED0033", (4, 12), dict(AF=0x0001, IL=0x60), dict(AF=0x0005, BC=0x6022, PC=0x1003, **TWO))
work("ED0039", (4, 12), dict(AF=0x00D6, CBAR=0x88, BBR=0x7F), dict(AF=0x0000, BC=0x7F22, PC=0x1003, **TWO))
work("ED00BF", (4, 12), dict(AF=0x0028, ICR=0x9F), dict(AF=0x00AC, BC=0x9F22, PC=0x1003, **TWO))
work("ED083A", (4, 12), dict(AF=0x00BB, CBAR=0x00), dict(AF=0x006D, BC=0x1100, PC=0x1003, **TWO))
work("ED0838", (4, 12), dict(CBR=0x7F), dict(AF=0x0000, BC=0x117F, PC=0x1003, **TWO))
work("ED0874", (4, 12), dict(AF=0x0093, ICR=0x5F, ITC=0x7E), dict(AF=0x0005, BC=0x117E, PC=0x1003, **TWO))
work("ED1034", (4, 12), dict(ITC=0x38), dict(AF=0x0000, DE=0x3844, PC=0x1003, **TWO))
work("ED103A", (4, 12), dict(AF=0x0042, CBAR=0xFF), dict(AF=0x0084, DE=0xFF44, PC=0x1003, **TWO))
work("ED10F3", (4, 12), dict(AF=0x0055, ICR=0xDF, IL=0x80), dict(AF=0x0081, DE=0x8044, PC=0x1003, **TWO))
work("ED183F", (4, 12), dict(ICR=0x3F), dict(AF=0x0004, DE=0x333F, PC=0x1003, **TWO))
work("ED1839", (4, 12), dict(AF=0x0001, CBAR=0x88, BBR=0x00), dict(AF=0x0045, DE=0x3300, PC=0x1003, **TWO))
work("ED18B8", (4, 12), dict(AF=0x00FF, ICR=0x9F, CBR=0x40), dict(AF=0x0029, DE=0x3340, PC=0x1003, **TWO))
work("ED2033", (4, 12), dict(AF=0x0083, IL=0x00), dict(AF=0x0045, HL=0x0066, PC=0x1003, **TWO))
work("ED203A", (4, 12), dict(CBAR=0x81), dict(AF=0x0084, HL=0x8166, PC=0x1003, **TWO))
work("ED2079", (4, 12), dict(AF=0x0028, ICR=0x5F, CBAR=0x88, BBR=0x2A), dict(AF=0x0028, HL=0x2A66, PC=0x1003, **TWO))
work("ED2834", (4, 12), dict(AF=0x0001, ITC=0xFF), dict(AF=0x0085, HL=0x55FF, PC=0x1003, **TWO))
work("ED283F", (4, 12), dict(AF=0x00C2), dict(AF=0x0000, HL=0x551F, PC=0x1003, **TWO))
work("ED28C5", (4, 12), dict(ICR=0xFF), dict(AF=0x0084, HL=0x55FF, PC=0x1003, **TWO))
work("ED3834", (4, 12), dict(ITC=0xBB), dict(AF=0xBB84, PC=0x1003, **TWO))
work("ED3838", (4, 12), dict(AF=0xFFFF, CBR=0x01), dict(AF=0x0129, PC=0x1003, **TWO))
work("ED383A", (4, 12), dict(CBAR=0x8F), dict(AF=0x8F80, PC=0x1003, **TWO))
work("ED3833", (4, 12), dict(AF=0x1201, IL=0x20), dict(AF=0x2001, PC=0x1003, **TWO))

# OUT0 to the panel, and what each internal byte stores.
work("ED3980", (5, 13), dict(AF=0x0500), dict(PC=0x1003, **TWO), access=(WRITTEN, 0x0080, 0x05))
work("ED3938", (5, 13), dict(AF=0xFF00), dict(CBR=0x7F, PC=0x1003, **TWO))
work("ED0139", (5, 13), dict(BC=0x8522), dict(BBR=0x05, PC=0x1003, **TWO))
work("ED093A", (5, 13), dict(BC=0x1184), dict(CBAR=0x84, PC=0x1003, **TWO))
work("ED3934", (5, 13), dict(AF=0x0000, ITC=0xB9), dict(ITC=0x38, PC=0x1003, **TWO))
work("ED3934", (5, 13), dict(AF=0xFF00, ITC=0x39), dict(ITC=0x3F, PC=0x1003, **TWO))
work("ED3934", (5, 13), dict(AF=0xFF00, ITC=0xF9), dict(ITC=0xFF, PC=0x1003, **TWO))
work("ED3934", (5, 13), dict(AF=0x0700, ITC=0xF9), dict(ITC=0x7F, PC=0x1003, **TWO))
work("ED3934", (5, 13), dict(AF=0xC000, ITC=0x79), dict(ITC=0x78, PC=0x1003, **TWO))
work("ED3933", (5, 13), dict(AF=0xFF00), dict(IL=0xE0, PC=0x1003, **TWO))
work("ED3900", (5, 13), dict(AF=0xFF00), dict(PC=0x1003, **TWO))
# Each register writes three or more internal ports: 99 and 7F; F9 with TRAP cleared and UFO kept; ICR at 7FH; BF and E0; FF and 7F;
# B9 with TRAP kept; then 33, 44, 55 and 66 each to some bytes, and last to a port that is none.
work("ED0138", (5, 13), dict(BC=0x9922), dict(CBR=0x19, PC=0x1003, **TWO))
work("ED0134", (5, 13), dict(BC=0x0522, ITC=0xF9), dict(ITC=0x7D, PC=0x1003, **TWO))
work("ED017F", (5, 13), dict(BC=0xFF22, ICR=0x5F), dict(ICR=0xFF, PC=0x1003, **TWO))
work("ED0933", (5, 13), dict(BC=0x11BF), dict(IL=0xA0, PC=0x1003, **TWO))
work("ED0939", (5, 13), dict(BC=0x11FF), dict(BBR=0x7F, PC=0x1003, **TWO))
work("ED0934", (5, 13), dict(BC=0x1182, ITC=0xB9), dict(ITC=0xBA, PC=0x1003, **TWO))
work("ED1138", (5, 13), {}, dict(CBR=0x33, PC=0x1003, **TWO))
work("ED113A", (5, 13), {}, dict(CBAR=0x33, PC=0x1003, **TWO))
work("ED113F", (5, 13), dict(DE=0x8044), dict(ICR=0x9F, PC=0x1003, **TWO))
work("ED1939", (5, 13), {}, dict(BBR=0x44, PC=0x1003, **TWO))
work("ED1934", (5, 13), {}, dict(ITC=0x3C, PC=0x1003, **TWO))
work("ED19FA", (5, 13), dict(ICR=0xDF), dict(CBAR=0x44, PC=0x1003, **TWO))
work("ED2133", (5, 13), {}, dict(IL=0x40, PC=0x1003, **TWO))
work("ED213A", (5, 13), {}, dict(CBAR=0x55, PC=0x1003, **TWO))
work("ED21B8", (5, 13), dict(ICR=0x9F), dict(CBR=0x55, PC=0x1003, **TWO))
work("ED293F", (5, 13), {}, dict(ICR=0x7F, PC=0x1003, **TWO))
work("ED2938", (5, 13), {}, dict(CBR=0x66, PC=0x1003, **TWO))
work("ED2934", (5, 13), dict(ITC=0x79), dict(ITC=0x7E, PC=0x1003, **TWO))
work("ED2935", (5, 13), {}, dict(PC=0x1003, **TWO))

# ICR moves the internal ports, its own too.
work("ED393F", (5, 13), dict(AF=0x4000), dict(ICR=0x5F, PC=0x1003, **TWO))
work("ED393F", (5, 13), dict(AF=0x0000, ICR=0x5F), dict(PC=0x1003, **TWO), access=(WRITTEN, 0x003F, 0x00))
work("ED397F", (5, 13), dict(AF=0x0000, ICR=0x5F), dict(ICR=0x1F, PC=0x1003, **TWO))
work("ED39BA", (5, 13), dict(AF=0x4800, ICR=0x9F), dict(CBAR=0x48, PC=0x1003, **TWO))
work("ED393A", (5, 13), dict(AF=0x4800, ICR=0x9F), dict(PC=0x1003, **TWO), access=(WRITTEN, 0x003A, 0x48))
work("ED39F8", (5, 13), dict(AF=0x1100, ICR=0xFF), dict(CBR=0x11, PC=0x1003, **TWO))
work("ED387F", (4, 12), dict(ICR=0x5F), dict(AF=0x5F04, PC=0x1003, **TWO))
work("ED3880", (4, 12), dict(ICR=0x9F), dict(AF=0xFF84, PC=0x1003, **TWO))

# OUT (38H),A with A = 01H is panel port 0138H and not CBR; with A = 00H it is CBR. So with B in the upper half.
work("D338", (4, 10), dict(AF=0x0100), dict(PC=0x1002, **ONE), access=(WRITTEN, 0x0138, 0x01))
work("D338", (4, 10), dict(AF=0x0000, CBR=0x05), dict(CBR=0x00, PC=0x1002, **ONE))
work("ED51", (4, 10), dict(BC=0x0039, DE=0x2244), dict(BBR=0x22, PC=0x1002, **TWO))
work("ED51", (4, 10), dict(BC=0x0139, DE=0x2244), dict(PC=0x1002, **TWO), access=(WRITTEN, 0x0139, 0x22))
work("DB3A", (3, 9), dict(AF=0x0055), dict(AF=0xF055, PC=0x1002, **ONE))
work("DB3A", (3, 9), dict(AF=0x0155), dict(AF=0x5A55, PC=0x1002, **ONE), access=(READ, 0x013A, 0x5A))
work("ED60", (3, 9), dict(AF=0x0001, BC=0x0034), dict(AF=0x0005, HL=0x3966, PC=0x1002, **TWO))

# Block ports name their port with B before it falls, and change only Z and N.
work("EDA3", (4, 12), dict(AF=0x0095, BC=0x0138), dict(AF=0x00D5, BC=0x0038, HL=0x5567, PC=0x1002, **TWO), [at(0x5566, 0x77)], (WRITTEN, 0x0138, 0x77))
work("EDA3", (4, 12), dict(AF=0x0042, BC=0x0038), dict(AF=0x0000, BC=0xFF38, HL=0x5567, CBR=0x77, PC=0x1002, **TWO), [at(0x5566, 0x77)])
work("EDB3", (4, 12), dict(BC=0x0139), dict(AF=0x0042, BC=0x0039, HL=0x5567, PC=0x1002, **TWO), [at(0x5566, 0x80)], (WRITTEN, 0x0139, 0x80))
work("EDB3", (5, 14), dict(BC=0x0039), dict(AF=0x0002, BC=0xFF39, HL=0x5567, BBR=0x05, **TWO), [at(0x5566, 0x85)])
work("EDA2", (4, 12), dict(BC=0x003A), dict(AF=0x0002, BC=0xFF3A, HL=0x5567, PC=0x1002, **TWO), [at(0x5566, 0x11, 0xF0)])
work("EDA2", (4, 12), dict(AF=0x00FF, BC=0x8083), dict(AF=0x00BD, BC=0x7F83, HL=0x5567, PC=0x1002, **TWO), [at(0x5566, 0x11, 0x7F)], (READ, 0x8083, 0x7F))

# Sleeping and halting put PC behind the instruction. Asleep or halted a step reads nothing, and clears the flag of EI.
work("ED76", (3, 8), {}, dict(MODE=2, PC=0x1002, **TWO))
work("76", (1, 3), {}, dict(MODE=1, PC=0x1001, **ONE))
work("3C", (1, 3), dict(MODE=1, EI=1), dict(EI=0))
work("3C", (1, 3), dict(MODE=2, EI=1), dict(EI=0))
work("EDFF", (1, 3), dict(MODE=2, IEF1=0), {})
# SLP changes the mode, PC, R and the flag of EI, and nothing else whatever stands there.
work("ED76", (3, 8), dict(AF=0xFFFF, BC=0x0000, DE=0x0000, HL=0x0000, SP=0x0000), dict(MODE=2, PC=0x1002, **TWO))
work("ED76", (3, 8), dict(IEF1=0), dict(MODE=2, PC=0x1002, **TWO))
work("ED76", (3, 8), dict(IEF1=0, IEF2=1, IM=0), dict(MODE=2, PC=0x1002, **TWO))
work("ED76", (3, 8), dict(IEF2=1, IM=2, EI=1), dict(MODE=2, EI=0, PC=0x1002, **TWO))
work("ED76", (3, 8), dict(R=0x7F), dict(MODE=2, PC=0x1002, R=0x01))
work("ED76", (3, 8), dict(R=0xFE), dict(MODE=2, PC=0x1002, R=0x80))
work("ED76", (3, 8), dict(PC=0xFFFE), dict(MODE=2, PC=0x0000, **TWO))
work("ED76", (3, 8), dict(PC=0xFFFF), dict(MODE=2, PC=0x0001, **TWO))
work("ED76", (3, 8), dict(ITC=0xFF, IL=0xE0), dict(MODE=2, PC=0x1002, **TWO))
work("ED76", (3, 8), dict(PC=0x0FFE, ICR=0xDF, **WINDOW), dict(MODE=2, PC=0x1000, **TWO))

# Traps. The second opcode byte stacks the address plus 1 with UFO 0, the third the address plus 2 with UFO 1.
STACK1, STACK2 = [at(0x7FFF, 0x5A, 0x10), at(0x7FFE, 0xA5, 0x01)], [at(0x7FFF, 0x5A, 0x10), at(0x7FFE, 0xA5, 0x02)]
work("EDFF", (4, 12), dict(AF=0x00FF, EI=1), dict(EI=0, SP=0x7FFE, PC=0x0000, ITC=0xB9, **TWO), STACK1)
work("DDCB0530", (6, 18), dict(AF=0x00FF), dict(SP=0x7FFE, PC=0x0000, ITC=0xF9, **THREE), STACK2 + [at(0x6005, 0xE7)])
work("EDFF", (4, 12), dict(ITC=0xF9), dict(SP=0x7FFE, PC=0x0000, ITC=0xB9, **TWO), STACK1)
work("FDCB0530", (6, 18), dict(ITC=0xBF, IEF1=0, IEF2=1), dict(SP=0x7FFE, PC=0x0000, ITC=0xFF, **THREE), STACK2 + [at(0x7005, 0xE7)])
for second in ("CB30", "CB37", "DDDD", "DDED", "DDFD", "DD24", "DDEB", "DD76", "DD00", "FDFD", "FDDD", "FD7C", "FDEB", "FD76",
               "ED30", "ED31", "ED70", "ED71", "ED4E", "ED54", "ED5D", "ED7F", "ED8C", "ED9C", "EDA4", "EDCB", "EDDD", "ED77"):
    work(second, (4, 12), {}, dict(SP=0x7FFE, PC=0x0000, ITC=0xB9, **TWO), STACK1)
for third in ("DDCB0536", "DDCB0547", "DDCB0500", "DDCB05FF", "FDCB0536", "FDCB0507", "FDCB05C0"):
    work(third, (6, 18), {}, dict(SP=0x7FFE, PC=0x0000, ITC=0xF9, **THREE), STACK2)
work("CB30", (4, 12), dict(PC=0xFFFF), dict(SP=0x7FFE, PC=0x0000, ITC=0xB9, **TWO), [at(0x7FFF, 0x5A, 0x00), at(0x7FFE, 0xA5, 0x00)])
work("EDFF", (4, 12), dict(SP=0x0000), dict(SP=0xFFFE, PC=0x0000, ITC=0xB9, **TWO), [at(0xFFFF, 0x5A, 0x10), at(0xFFFE, 0xA5, 0x01)])
work("EDFF", (4, 12), dict(SP=0x0001), dict(SP=0xFFFF, PC=0x0000, ITC=0xB9, **TWO), [at(0x0000, 0x5A, 0x10), at(0xFFFF, 0xA5, 0x01)])

# The window: each byte of a two-byte access is mapped by itself. The third cell is where adding one physically would go.
work("2AFF3F", (5, 15), WINDOW, dict(HL=0xABCD, PC=0x1003, **ONE), [at(0x03FFF, 0xCD), at(0x24000, 0xAB), at(0x04000, 0xEE)])
work("22FF3F", (6, 16), WINDOW, dict(PC=0x1003, **ONE), [at(0x03FFF, 0x01, 0x66), at(0x24000, 0x02, 0x55), at(0x04000, 0x03)])
work("22FF7F", (6, 16), WINDOW, dict(PC=0x1003, **ONE), [at(0x27FFF, 0x01, 0x66), at(0x04000, 0x02, 0x55), at(0x08000, 0x03)])
work("C5", (4, 11), dict(SP=0x8001, **WINDOW), dict(SP=0x7FFF, PC=0x1001, **ONE), [at(0x04000, 0x01, 0x11), at(0x27FFF, 0x02, 0x22), at(0x08000, 0x03)])
work("7E", (2, 6), dict(HL=0x4000, **WINDOW), dict(AF=0x5A00, PC=0x1001, **ONE), [at(0x24000, 0x5A), at(0x04000, 0xA5)])
work("EDA0", (4, 12), dict(AF=0x00FF, BC=0x0001, HL=0x4000, DE=0x8000, **WINDOW), dict(AF=0x00E9, BC=0x0000, HL=0x4001, DE=0x8001, PC=0x1002, **TWO), [at(0x24000, 0x9C), at(0x04000, 0x11, 0x9C), at(0x08000, 0x77)])
work("22FFFF", (6, 16), WINDOW, dict(PC=0x1003, **ONE), [at(0x0BFFF, 0x01, 0x66), at(0x00000, 0x02, 0x55), at(0x0FFFF, 0x03)])
work("EDFF", (4, 12), dict(SP=0x4001, **WINDOW), dict(SP=0x3FFF, PC=0x0000, ITC=0xB9, **TWO), [at(0x24000, 0x5A, 0x10), at(0x03FFF, 0xA5, 0x01), at(0x04000, 0xEE)])
work("3A2341", (4, 12), dict(CBAR=0x84, BBR=0x7F, CBR=0x7C), dict(AF=0x3C00, PC=0x1003, **ONE), [at(0x03123, 0x3C), at(0x04123, 0xC3)])
work("3A0050", (4, 12), dict(CBAR=0x48, BBR=0x20, CBR=0x10), dict(AF=0x7700, PC=0x1003, **ONE), [at(0x15000, 0x77), at(0x25000, 0x88), at(0x05000, 0x99)])
work("3A0020", (4, 12), dict(CBAR=0x48, BBR=0x20, CBR=0x10), dict(AF=0x6600, PC=0x1003, **ONE), [at(0x02000, 0x66), at(0x22000, 0x88), at(0x12000, 0x99)])
work("E3", (6, 16), dict(SP=0x3FFF, **WINDOW), dict(HL=0xABCD, PC=0x1001, **ONE), [at(0x03FFF, 0xCD, 0x66), at(0x24000, 0xAB, 0x55), at(0x04000, 0xEE)])

# R counts opcode bytes, seven bits of it, before the operation; P/V of LD A,R and LD A,I is IEF2.
work("ED5F", (2, 6), dict(AF=0x0001, R=0xFE), dict(AF=0x8081, R=0x80, PC=0x1002))
work("ED5F", (2, 6), dict(AF=0x0001, R=0x7D, IEF1=0, IEF2=1), dict(AF=0x7F05, R=0x7F, PC=0x1002))
work("ED4F", (2, 6), dict(AF=0xFF00), dict(R=0xFF, PC=0x1002))
work("ED57", (2, 6), dict(AF=0xFF04, I=0x00), dict(AF=0x0040, PC=0x1002, **TWO))
work("DDCB0546", (5, 15), {}, dict(AF=0x0010, PC=0x1004, **THREE), [at(0x6005, 0x01)])
work("FDCBFBFE", (7, 19), dict(R=0xFF), dict(R=0x82, PC=0x1004), [at(0x6FFB, 0x01, 0x81)])

# Flip-flops.
work("ED45", (4, 12), dict(IEF1=0, IEF2=1), dict(IEF1=1, SP=0x8002, PC=0x1234, **TWO), [at(0x8000, 0x34), at(0x8001, 0x12)])
work("ED4D", (4, 12), dict(IEF1=0, IEF2=1), dict(SP=0x8002, PC=0x1234, **TWO), [at(0x8000, 0x34), at(0x8001, 0x12)])
work("FB", (1, 3), dict(IEF1=0), dict(IEF1=1, IEF2=1, EI=1, PC=0x1001, **ONE))
work("F3", (1, 3), dict(IEF2=1, EI=1), dict(IEF1=0, IEF2=0, EI=0, PC=0x1001, **ONE))
work("00", (1, 3), dict(EI=1), dict(EI=0, PC=0x1001, **ONE))
work("ED46", (2, 6), dict(IM=2), dict(IM=0, PC=0x1002, **TWO))

# Flags in which the HD64180 is another chip than the Z80.
work("3F", (1, 3), dict(AF=0x0011), dict(AF=0x0000, PC=0x1001, **ONE))
work("3F", (1, 3), dict(AF=0x00EE), dict(AF=0x00ED, PC=0x1001, **ONE))
work("09", (2, 7), dict(HL=0x0FFF, BC=0x0001), dict(HL=0x1000, PC=0x1001, **ONE))
work("09", (2, 7), dict(AF=0x00D6, HL=0x0FF0, BC=0x0001), dict(AF=0x00D4, HL=0x0FF1, PC=0x1001, **ONE))
work("ED5A", (3, 10), dict(HL=0x7FFF, DE=0x0001), dict(AF=0x0084, HL=0x8000, PC=0x1002, **TWO))
work("ED62", (3, 10), dict(AF=0x0001), dict(AF=0x0083, HL=0xFFFF, PC=0x1002, **TWO))
work("CB7F", (2, 6), dict(AF=0x80C7), dict(AF=0x8095, PC=0x1002, **TWO))
work("CB47", (2, 6), dict(AF=0x8000), dict(AF=0x8050, PC=0x1002, **TWO))
work("F1", (3, 9), dict(AF=0x00D7), dict(AF=0xAA28, SP=0x8002, PC=0x1001, **ONE), [at(0x8000, 0x28), at(0x8001, 0xAA)])

# The HD64180's own arithmetic.
work("ED4C", (3, 17), dict(AF=0x00FF, BC=0xFFFF), dict(BC=0xFE01, PC=0x1002, **TWO))
work("ED5C", (3, 17), dict(AF=0x0000, DE=0x00FF), dict(DE=0x0000, PC=0x1002, **TWO))
work("ED6C", (3, 17), dict(HL=0x1234), dict(HL=0x03A8, PC=0x1002, **TWO))
work("ED7C", (3, 17), dict(SP=0x0210), dict(SP=0x0020, PC=0x1002, **TWO))
# MLT SP, in decimal: 0; 255 x 255; 128 x 128; 255 x 1; 1 x 255; 127 x 2; 0 x 255; 18 x 52; 128 x 2; 15 x 17; 195 x 80; 16 x 16.
work("ED7C", (3, 17), dict(AF=0x00FF, SP=0x0000), dict(SP=0x0000, PC=0x1002, **TWO))
work("ED7C", (3, 17), dict(AF=0xFF00, SP=0xFFFF), dict(SP=0xFE01, PC=0x1002, **TWO))
work("ED7C", (3, 17), dict(AF=0xFFFF, SP=0x8080), dict(SP=0x4000, PC=0x1002, **TWO))
work("ED7C", (3, 17), dict(AF=0x0041, SP=0xFF01), dict(SP=0x00FF, PC=0x1002, **TWO))
work("ED7C", (3, 17), dict(AF=0x0084, SP=0x01FF), dict(SP=0x00FF, PC=0x1002, **TWO))
work("ED7C", (3, 17), dict(SP=0x7F02, EI=1), dict(SP=0x00FE, PC=0x1002, EI=0, **TWO))
work("ED7C", (3, 17), dict(SP=0x00FF, R=0x7F), dict(SP=0x0000, PC=0x1002, R=0x01))
work("ED7C", (3, 17), dict(AF=0x0093, SP=0x1234), dict(SP=0x03A8, PC=0x1002, **TWO))
work("ED7C", (3, 17), dict(SP=0x8002, PC=0xFFFD), dict(SP=0x0100, PC=0xFFFF, **TWO))
work("ED7C", (3, 17), dict(AF=0x0028, SP=0x0F11), dict(SP=0x00FF, PC=0x1002, **TWO))
work("ED7C", (3, 17), dict(AF=0x0012, SP=0xC350, IEF1=0), dict(SP=0x3CF0, PC=0x1002, **TWO))
work("ED7C", (3, 17), dict(SP=0x1010, ICR=0xFF, PC=0xFFFE), dict(SP=0x0100, PC=0x0000, **TWO))
work("ED04", (3, 7), dict(AF=0xF0FF, BC=0x0F22), dict(AF=0xF07C, PC=0x1002, **TWO))
work("ED34", (4, 10), dict(AF=0x8100), dict(AF=0x8190, PC=0x1002, **TWO), [at(0x5566, 0x80)])
work("ED64FF", (3, 9), dict(AF=0x0300), dict(AF=0x0314, PC=0x1003, **TWO))

# Branches: a JP or CALL that is not taken still passes three bytes, and PC wraps.
work("C23412", (2, 6), dict(AF=0x0040), dict(PC=0x1003, **ONE))
work("CC0020", (2, 6), dict(PC=0xFFFE), dict(PC=0x0001, **ONE))
work("10FE", (3, 7), dict(BC=0x0122), dict(BC=0x0022, PC=0x1002, **ONE))
work("10FE", (4, 9), dict(BC=0x0022), dict(BC=0xFF22, PC=0x1000, **ONE))
work("1880", (3, 8), dict(PC=0x0010), dict(PC=0xFF92, **ONE))


def vectors():
    return LIST

/* Writes crates/check_arithmetic/stdout: a checksum of every result of the operations that the Z80 has too, by z80ex.

   cc -O2 -o /tmp/z80ex-table bench/z80ex-table.c -lz80ex && /tmp/z80ex-table > crates/check_arithmetic/stdout

   Debian has z80ex as libz80ex-dev. A line is an operation, the bits of F that are compared, and a checksum of the values
   and of those bits, over every operand and every F; words are sampled. What is left out of F is where the HD64180 is
   another chip than the Z80:
   - bits 5 and 3, which the Z80 takes from a result and the HD64180 carries along;
   - H of CCF, which is the old C on the Z80 and 0 on the HD64180;
   - S and P/V of BIT, which the HD64180 keeps;
   - H of the 16-bit additions and subtractions, which the HD64180 keeps;
   - all but Z and N of the block port instructions, which the HD64180 keeps. */
#include <stdint.h>
#include <stdio.h>
#include <z80ex/z80ex.h>

static Z80EX_CONTEXT *cpu;
static uint8_t mem[65536];
static uint8_t port;
static uint32_t sum;

static Z80EX_BYTE rd(Z80EX_CONTEXT *c, Z80EX_WORD a, int m1, void *u) { (void)c; (void)m1; (void)u; return mem[a]; }
static void wr(Z80EX_CONTEXT *c, Z80EX_WORD a, Z80EX_BYTE v, void *u) { (void)c; (void)u; mem[a] = v; }
static Z80EX_BYTE in(Z80EX_CONTEXT *c, Z80EX_WORD p, void *u) { (void)c; (void)p; (void)u; return port; }
static void out(Z80EX_CONTEXT *c, Z80EX_WORD p, Z80EX_BYTE v, void *u) { (void)c; (void)p; (void)v; (void)u; }
static Z80EX_BYTE iv(Z80EX_CONTEXT *c, void *u) { (void)c; (void)u; return 255; }

enum { CODE = 0x100, DATA = 0x8000, TO = 0x9000 };

static void set(Z80_REG_T r, unsigned v) { z80ex_set_reg(cpu, r, v); }
static unsigned get(Z80_REG_T r) { return z80ex_get_reg(cpu, r); }

static void run(int first, int second)
{
    mem[CODE] = first;
    mem[CODE + 1] = second;
    set(regPC, CODE);
    do z80ex_step(cpu); while (z80ex_last_op_type(cpu));
}

static void hash(unsigned v) { sum = ((sum << 5 | sum >> 27) ^ (v & 255)) * 0x9E3779B1u; }
static void begin(void) { sum = 0; }
static void end(const char *name, unsigned mask) { printf("%s %02X %08X\n", name, mask, sum); }

#define ALL(x) for (unsigned x = 0; x < 256; x++)

/* A in, A out */
static void one(const char *name, int first, int second, unsigned mask)
{
    begin();
    ALL(f) ALL(a) {
        set(regAF, a << 8 | f);
        run(first, second);
        hash(get(regAF) >> 8);
        hash(get(regAF) & mask);
    }
    end(name, mask);
}

/* A and B in, A out; a test keeps A, and has the flags of an AND */
static void two(const char *name, int opcode, int keeps)
{
    begin();
    ALL(f) ALL(a) ALL(b) {
        set(regAF, a << 8 | f);
        set(regBC, b << 8);
        run(opcode, 0);
        hash(keeps ? a : get(regAF) >> 8);
        hash(get(regAF) & 0xD7);
    }
    end(name, 0xD7);
}

/* A and the byte at HL in, both out */
static void digits(const char *name, int opcode)
{
    begin();
    ALL(f) ALL(a) ALL(b) {
        set(regAF, a << 8 | f);
        set(regHL, DATA);
        mem[DATA] = b;
        run(0xED, opcode);
        hash(get(regAF) >> 8);
        hash(mem[DATA]);
        hash(get(regAF) & 0xD7);
    }
    end(name, 0xD7);
}

static void compare(const char *name, int opcode, unsigned left)
{
    begin();
    ALL(f) ALL(a) ALL(b) {
        set(regAF, a << 8 | f);
        set(regBC, left + 1);
        set(regHL, DATA);
        mem[DATA] = b;
        run(0xED, opcode);
        hash(get(regAF) >> 8);
        hash(get(regAF) & 0xD7);
    }
    end(name, 0xD7);
}

static void transfer(const char *name, int opcode, unsigned left)
{
    begin();
    ALL(f) ALL(b) {
        set(regAF, f);
        set(regBC, left + 1);
        set(regHL, DATA);
        set(regDE, TO);
        mem[DATA] = b;
        run(0xED, opcode);
        hash(mem[TO]);
        hash(get(regAF) & 0xD7);
    }
    end(name, 0xD7);
}

static void block_port(const char *name, int opcode)
{
    begin();
    ALL(f) ALL(b) ALL(byte) {
        set(regAF, f);
        set(regBC, b << 8);
        set(regHL, DATA);
        mem[DATA] = port = byte;
        run(0xED, opcode);
        hash(get(regBC) >> 8);
        hash(get(regAF) & 0x42);
    }
    end(name, 0x42);
}

static void input(void)
{
    begin();
    ALL(f) ALL(b) {
        set(regAF, f);
        port = b;
        run(0xED, 0x50);
        hash(get(regDE) >> 8);
        hash(get(regAF) & 0xD7);
    }
    end("IN D,(C)", 0xD7);
}

static void load(const char *name, int iff2)
{
    begin();
    ALL(f) ALL(b) {
        set(regAF, f);
        set(regI, b);
        set(regIFF2, iff2);
        run(0xED, 0x57);
        hash(get(regAF) >> 8);
        hash(get(regAF) & 0xD7);
    }
    end(name, 0xD7);
}

/* 512 words each way, and six values of F, three of them with C */
static void wide(const char *name, int first, int second)
{
    begin();
    for (unsigned f = 0; f < 256; f += 51)
        for (unsigned i = 0; i < 512; i++)
            for (unsigned j = 0; j < 512; j++) {
                set(regAF, f);
                set(regHL, i * 521 & 65535);
                set(regBC, j * 521 & 65535);
                run(first, second);
                hash(get(regHL) >> 8);
                hash(get(regHL));
                hash(get(regAF) & 0xC7);
            }
    end(name, 0xC7);
}

int main(void)
{
    static const char *eight[] = {"ADD", "ADC", "SUB", "SBC", "AND", "XOR", "OR", "CP"};
    static const char *rotate[] = {"RLC", "RRC", "RL", "RR", "SLA", "SRA", 0, "SRL"};
    static const char *accumulator[] = {"RLCA", "RRCA", "RLA", "RRA"};
    cpu = z80ex_create(rd, 0, wr, 0, in, 0, out, 0, iv, 0);
    for (int i = 0; i < 8; i++) two(eight[i], 0x80 + 8 * i, 0);
    two("TST", 0xA0, 1);
    one("NEG", 0xED, 0x44, 0xD7);
    one("CPL", 0x2F, 0, 0xD7);
    one("SCF", 0x37, 0, 0xD7);
    one("CCF", 0x3F, 0, 0xC7);
    one("INC", 0x3C, 0, 0xD7);
    one("DEC", 0x3D, 0, 0xD7);
    one("DAA", 0x27, 0, 0xD7);
    for (int i = 0; i < 8; i++) if (rotate[i]) one(rotate[i], 0xCB, 8 * i + 7, 0xD7);
    for (int i = 0; i < 4; i++) one(accumulator[i], 8 * i + 7, 0, 0xD7);
    digits("RLD", 0x6F);
    digits("RRD", 0x67);
    for (int i = 0; i < 8; i++) {
        printf("bit %d\n", i);
        one("BIT", 0xCB, 0x47 + 8 * i, 0x53);
        one("RES", 0xCB, 0x87 + 8 * i, 0xFF);
        one("SET", 0xCB, 0xC7 + 8 * i, 0xFF);
    }
    compare("CPI, BC = 0", 0xA1, 0);
    compare("CPI, BC > 0", 0xA1, 1);
    transfer("LDI, BC = 0", 0xA0, 0);
    transfer("LDI, BC > 0", 0xA0, 1);
    block_port("INI", 0xA2);
    block_port("OUTI", 0xA3);
    input();
    load("LD A,I, IEF2 = 0", 0);
    load("LD A,I, IEF2 = 1", 1);
    wide("ADD HL", 0x09, 0);
    wide("ADC HL", 0xED, 0x4A);
    wide("SBC HL", 0xED, 0x42);
    return 0;
}

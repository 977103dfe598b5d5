/* Makes one step of z80ex for each line of standard input, and prints what it did.

   cc -O2 -o z80ex-step z80ex-step.c -lz80ex        (Debian: libz80ex-dev)

   A line in, all hexadecimal: the four bytes at PC; AF BC DE HL AF' BC' DE' HL' IX IY SP PC I R IFF1 IFF2 IM; the byte that a
   port read answers; a seed; the number of cells, and an address and a byte for each. Memory that is not given holds a byte
   made from the seed when it is first touched, so no byte that matters is 0 by chance.

   A line out: the registers in the same order; 1 if halted; the port access (0 none, 1 read, 2 written), its port and
   byte; the number of cells that were read or written besides the four bytes, and for each its address, the byte before
   and the byte after; last, 1 if one of the four bytes was written, or there was more than one port access. */
#include <stdint.h>
#include <stdio.h>
#include <string.h>
#include <z80ex/z80ex.h>

enum { REGISTERS = 17, MOST = 16 };

static const Z80_REG_T order[REGISTERS] = {regAF, regBC, regDE, regHL, regAF_, regBC_, regDE_, regHL_, regIX,
                                           regIY, regSP, regPC, regI, regR, regIFF1, regIFF2, regIM};

static Z80EX_CONTEXT *cpu;
static uint8_t mem[65536], known[65536];
static unsigned pc, seed, answer;
static unsigned cells, address[MOST], before[MOST];
static unsigned access_kind, access_port, access_byte, odd;

static unsigned drawn(void)
{
    seed ^= seed << 13;
    seed ^= seed >> 17;
    seed ^= seed << 5;
    return seed >> 11 & 255;
}

static int fetched(unsigned a) { return (uint16_t)(a - pc) < 4; }

static void touch(unsigned a)
{
    if (fetched(a)) return;
    if (!known[a]) { known[a] = 1; mem[a] = drawn(); }
    for (unsigned i = 0; i < cells; i++) if (address[i] == a) return;
    if (cells == MOST) { odd = 1; return; }
    address[cells] = a;
    before[cells++] = mem[a];
}

static Z80EX_BYTE rd(Z80EX_CONTEXT *c, Z80EX_WORD a, int m1, void *u)
{
    (void)c; (void)m1; (void)u;
    touch(a);
    return mem[a];
}

static void wr(Z80EX_CONTEXT *c, Z80EX_WORD a, Z80EX_BYTE v, void *u)
{
    (void)c; (void)u;
    if (fetched(a)) odd = 1;
    touch(a);
    mem[a] = v;
}

static void port(unsigned kind, unsigned p, unsigned v)
{
    if (access_kind) odd = 1;
    access_kind = kind;
    access_port = p;
    access_byte = v;
}

static Z80EX_BYTE in(Z80EX_CONTEXT *c, Z80EX_WORD p, void *u) { (void)c; (void)u; port(1, p, answer); return answer; }
static void out(Z80EX_CONTEXT *c, Z80EX_WORD p, Z80EX_BYTE v, void *u) { (void)c; (void)u; port(2, p, v); }
static Z80EX_BYTE iv(Z80EX_CONTEXT *c, void *u) { (void)c; (void)u; return 255; }

/* z80ex counts R in a wider number, and keeps its bit 7 apart. */
static unsigned value(Z80_REG_T r)
{
    unsigned v = z80ex_get_reg(cpu, r);
    return r == regR ? (v & 0x7F) | (z80ex_get_reg(cpu, regR7) & 0x80) : v;
}

int main(void)
{
    unsigned b[4], r[REGISTERS], n, a, v;
    cpu = z80ex_create(rd, 0, wr, 0, in, 0, out, 0, iv, 0);
    while (scanf("%2x%2x%2x%2x", &b[0], &b[1], &b[2], &b[3]) == 4) {
        memset(known, 0, sizeof known);
        cells = access_kind = access_port = access_byte = odd = 0;
        for (int i = 0; i < REGISTERS; i++) if (scanf("%x", &r[i]) != 1) return 1;
        if (scanf("%x%x%x", &answer, &seed, &n) != 3) return 1;
        pc = r[11];
        for (int i = 0; i < 4; i++) mem[(uint16_t)(pc + i)] = b[i];
        while (n--) {
            if (scanf("%x%x", &a, &v) != 2) return 1;
            if (!fetched(a)) { mem[a] = v; known[a] = 1; }
        }
        z80ex_reset(cpu);
        for (int i = 0; i < REGISTERS; i++) z80ex_set_reg(cpu, order[i], r[i]);
        z80ex_set_reg(cpu, regR7, r[13]);
        do z80ex_step(cpu); while (z80ex_last_op_type(cpu));
        for (int i = 0; i < REGISTERS; i++) printf("%x ", value(order[i]));
        printf("%x %x %x %x %x", z80ex_doing_halt(cpu), access_kind, access_port, access_byte, cells);
        for (unsigned i = 0; i < cells; i++) printf(" %x %x %x", address[i], before[i], mem[address[i]]);
        printf(" %x\n", odd);
    }
    return 0;
}

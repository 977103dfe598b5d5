/* Runs bench/image.hex for a number of steps by z80ex, and prints what a second program can compare.

   cc -O3 -o z80ex-run bench/z80ex-run.c -lz80ex && ./z80ex-run 10000000 < bench/image.hex        (Debian: libz80ex-dev)

   Memory is a plain array of 65,536 bytes, zero but for the image. A step is one instruction, or one repetition of LDIR. The
   checksum takes in A, the bits S, Z, P/V, N and C of F, B, C, D, E, H, L, IX, IY, SP and PC (high bytes first), then
   all memory from 0000H up. Bits 5 and 3 of F, its H behind a 16-bit sum, and R are not alike on the two processors. */
#include <stdint.h>
#include <stdio.h>
#include <stdlib.h>
#include <z80ex/z80ex.h>

static uint8_t mem[65536];
static unsigned long long writes;
static unsigned last_port, last_byte;
static uint32_t sum;

static Z80EX_BYTE rd(Z80EX_CONTEXT *c, Z80EX_WORD a, int m1, void *u) { (void)c; (void)m1; (void)u; return mem[a]; }
static void wr(Z80EX_CONTEXT *c, Z80EX_WORD a, Z80EX_BYTE v, void *u) { (void)c; (void)u; mem[a] = v; }
static Z80EX_BYTE in(Z80EX_CONTEXT *c, Z80EX_WORD p, void *u) { (void)c; (void)p; (void)u; return 255; }

static void out(Z80EX_CONTEXT *c, Z80EX_WORD p, Z80EX_BYTE v, void *u)
{
    (void)c; (void)u;
    writes++;
    last_port = p;
    last_byte = v;
}

static Z80EX_BYTE iv(Z80EX_CONTEXT *c, void *u) { (void)c; (void)u; return 255; }

static void hash(unsigned v) { sum = ((sum << 5 | sum >> 27) ^ (v & 255)) * 0x9E3779B1u; }

static void load(void)
{
    unsigned at = 0, v;
    int c;
    while ((c = getchar()) != EOF)
        if (c == ';') while ((c = getchar()) != EOF && c != '\n') {}
        else if (c != ' ' && c != '\n') {
            ungetc(c, stdin);
            if (scanf("%2x", &v) != 1 || at > 65535) exit(1);
            mem[at++] = v;
        }
}

int main(int argc, char **argv)
{
    static const Z80_REG_T order[] = {regAF, regBC, regDE, regHL, regIX, regIY, regSP, regPC};
    unsigned long long n = argc > 1 ? strtoull(argv[1], 0, 10) : 1000000;
    Z80EX_CONTEXT *cpu = z80ex_create(rd, 0, wr, 0, in, 0, out, 0, iv, 0);
    load();
    z80ex_reset(cpu);
    for (int i = 0; i < 8; i++) z80ex_set_reg(cpu, order[i], 0);
    for (unsigned long long i = 0; i < n; i++) do z80ex_step(cpu); while (z80ex_last_op_type(cpu));
    for (int i = 0; i < 8; i++) {
        unsigned v = z80ex_get_reg(cpu, order[i]);
        hash(v >> 8);
        hash(i ? v : v & 0xC7);
    }
    for (unsigned a = 0; a < 65536; a++) hash(mem[a]);
    printf("steps %llu\nchecksum %08X\nport writes %llu, last %04X %02X\n", n, sum, writes, last_port, last_byte);
    return 0;
}

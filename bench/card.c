/* A plain interpreter of document 01's machine, to measure the proved one beside: the machine by pointer, every fetch and data
   access by a search of all 48 slots. It knows the instructions that bench/sweep.s and bench/unaligned.s use and their kin: the
   unaligned loads and stores too, and of doublewords LD, SD and DADDU. The others (LWU, linked ones, other arithmetic of doublewords,
   traps, divisions, likely branches) are reserved here. Usage: card [STEPS [PROGRAM]], PROGRAM sweep (usual) or unaligned. */
#include <stdint.h>
#include <stdio.h>
#include <stdlib.h>
#include <string.h>
#include "program.h"

enum { INT, MOD, TLBL, TLBS, ADEL, ADES, IBE, DBE, SYS, BP, RI, CPU, OV, TR };
enum { IE = 1, EXL = 2, ERL = 4, CU0 = 1 << 28, BEV = 1 << 22, IP7 = 1 << 15 };

typedef struct {
  uint32_t mask, hi, lo0, lo1; /* hi: page 31..13, G 12, ASID 7..0 */
} Slot;

typedef struct {
  uint64_t pc, target, hi, lo;
  int slot, link;
  uint32_t index, random, entrylo0, entrylo1, pagemask, wired, count, entryhi, compare, status, cause, config, lladdr;
  uint32_t taglo, taghi;
  uint64_t context, badvaddr, epc, errorepc;
  uint64_t regs[32];
  Slot tlb[48];
} Machine;

typedef struct {
  uint8_t *ram;
  const uint8_t *rom;
  uint64_t ram_length, rom_length;
} Memory;

static uint64_t extend(uint32_t x) { return (uint64_t)(int64_t)(int32_t)x; }

static int user(const Machine *m) { return (m->status & (0x18 | EXL | ERL)) == 0x10; }

/* An exception: where it stood, its cause, and the vector. */
static void enter(Machine *m, uint32_t code, uint32_t unit, int refill) {
  uint64_t base = m->status & BEV ? 0xffffffffbfc00200 : 0xffffffff80000000;
  uint64_t offset = refill && !(m->status & EXL) ? 0 : 0x180;
  if (!(m->status & EXL)) {
    m->epc = m->slot ? m->pc - 4 : m->pc;
    m->cause = (m->cause & ~(1u << 31)) | (uint32_t)m->slot << 31;
  }
  m->cause = (m->cause & ~(3u << 28 | 31u << 2)) | unit << 28 | code << 2;
  m->status |= EXL;
  m->pc = base + offset;
  m->slot = 0;
  m->target = 0;
}

static void enter_page(Machine *m, uint32_t code, uint64_t v, int refill) {
  m->badvaddr = v;
  m->context = (m->context & ~(uint64_t)0x7fffff) | (v >> 13 & 0x7ffff) << 4;
  m->entryhi = (uint32_t)(v & 0xffffe000) | (m->entryhi & 255);
  enter(m, code, 0, refill);
}

static void enter_address(Machine *m, uint32_t code, uint64_t v) {
  m->badvaddr = v;
  enter(m, code, 0, 0);
}

static int reserved(Machine *m) {
  enter(m, RI, 0, 0);
  return 0;
}

/* What became of an access: its physical address in *p, an exception that was entered, or stop 16. */
enum { OK, RAISED, DOUBLE };

static int mapped(Machine *m, uint64_t v, int store, uint64_t *p) {
  uint32_t asid = m->entryhi & 255, va = (uint32_t)v;
  int found = -1;
  for (int i = 0; i < 48; i++) {
    const Slot *s = &m->tlb[i];
    if (((s->hi ^ va) & ~s->mask & 0xffffe000) == 0 && ((s->hi & 4096) || (s->hi & 255) == asid)) {
      if (found >= 0)
        return DOUBLE;
      found = i;
    }
  }
  if (found < 0) {
    enter_page(m, store ? TLBS : TLBL, v, 1);
    return RAISED;
  }
  const Slot *s = &m->tlb[found];
  uint32_t offset = (s->mask | 0x1fff) >> 1;
  uint32_t lo = va & (offset + 1) ? s->lo1 : s->lo0;
  if (!(lo & 2)) {
    enter_page(m, store ? TLBS : TLBL, v, 0);
    return RAISED;
  }
  if (store && !(lo & 4)) {
    enter_page(m, MOD, v, 0);
    return RAISED;
  }
  *p = ((uint64_t)(lo >> 6) << 12 & ~(uint64_t)offset) | (va & offset);
  return OK;
}

static int translate(Machine *m, uint64_t v, uint64_t size, int store, uint64_t *p) {
  if ((v & (size - 1)) || v != extend((uint32_t)v) || (user(m) && (v & 0x80000000))) {
    enter_address(m, store ? ADES : ADEL, v);
    return RAISED;
  }
  if (!(v & 0x80000000)) {
    if (m->status & ERL) {
      *p = v;
      return OK;
    }
    return mapped(m, v, store, p);
  }
  if ((uint32_t)v < 0xc0000000) {
    *p = v & 0x1fffffff;
    return OK;
  }
  return mapped(m, v, store, p);
}

/* The bytes of a physical address, none where nothing answers. */
static const uint8_t *part(const Memory *y, uint64_t p) {
  if (p < y->ram_length)
    return y->ram + p;
  if (p >= 0x1fc00000 && p - 0x1fc00000 < y->rom_length)
    return y->rom + (p - 0x1fc00000);
  return 0;
}

static uint32_t half_at(const uint8_t *b) { return (uint32_t)b[0] << 8 | b[1]; }

static uint32_t word_at(const uint8_t *b) { return half_at(b) << 16 | half_at(b + 2); }

static inline uint64_t doubleword_at(const uint8_t *b) { return (uint64_t)word_at(b) << 32 | word_at(b + 4); }

static void put_word(uint8_t *b, uint32_t x) {
  b[0] = (uint8_t)(x >> 24);
  b[1] = (uint8_t)(x >> 16);
  b[2] = (uint8_t)(x >> 8);
  b[3] = (uint8_t)x;
}

static void put_doubleword(uint8_t *b, uint64_t x) {
  put_word(b, (uint32_t)(x >> 32));
  put_word(b + 4, (uint32_t)x);
}

static void write(Machine *m, unsigned i, uint64_t x) {
  if (i)
    m->regs[i] = x;
}

static void onward(Machine *m) {
  m->pc = m->slot ? m->target : m->pc + 4;
  m->slot = 0;
  m->target = 0;
}

static void branch(Machine *m, uint64_t to) {
  m->pc += 4;
  m->slot = 1;
  m->target = to;
}

static int load(Machine *m, const Memory *y, unsigned op, unsigned rt, uint64_t v) {
  uint64_t p, size = op == 0x37 ? 8 : op == 0x23 ? 4 : op & 1 ? 2 : 1;
  int went = translate(m, v, size, 0, &p);
  if (went == DOUBLE)
    return 16;
  if (went == RAISED)
    return 0;
  const uint8_t *b = part(y, p);
  if (!b) {
    enter(m, DBE, 0, 0);
    return 0;
  }
  switch (op) {
  case 0x20: write(m, rt, (uint64_t)(int64_t)(int8_t)*b); break;
  case 0x21: write(m, rt, (uint64_t)(int64_t)(int16_t)half_at(b)); break;
  case 0x23: write(m, rt, extend(word_at(b))); break;
  case 0x24: write(m, rt, *b); break;
  case 0x25: write(m, rt, half_at(b)); break;
  case 0x37: write(m, rt, doubleword_at(b)); break;
  }
  onward(m);
  return 0;
}

/* LWL, LWR, LDL, LDR: the bytes from the address to an end of its aligned word or doubleword; the rest of the register is kept. */
static int load_part(Machine *m, const Memory *y, unsigned op, unsigned rt, uint64_t old, uint64_t v) {
  uint64_t p;
  int went = translate(m, v, 1, 0, &p);
  if (went == DOUBLE)
    return 16;
  if (went == RAISED)
    return 0;
  const uint8_t *b = part(y, p & ~(uint64_t)(op < 0x20 ? 7 : 3));
  if (!b) {
    enter(m, DBE, 0, 0);
    return 0;
  }
  unsigned shift;
  uint32_t x;
  switch (op) {
  case 0x1a:
    shift = 8 * (p & 7);
    write(m, rt, doubleword_at(b) << shift | (old & (((uint64_t)1 << shift) - 1)));
    break;
  case 0x1b:
    shift = 56 - 8 * (p & 7);
    write(m, rt, doubleword_at(b) >> shift | (old & ~(~(uint64_t)0 >> shift)));
    break;
  case 0x22:
    shift = 8 * (p & 3);
    write(m, rt, extend(word_at(b) << shift | ((uint32_t)old & ((1u << shift) - 1))));
    break;
  case 0x26:
    shift = 24 - 8 * (p & 3);
    x = word_at(b) >> shift | ((uint32_t)old & ~(~0u >> shift));
    write(m, rt, shift ? (old & ~(uint64_t)0xffffffff) | x : extend(x));
    break;
  }
  onward(m);
  return 0;
}

static int store(Machine *m, const Memory *y, unsigned op, uint64_t x, uint64_t v) {
  uint64_t p, size = op == 0x3f ? 8 : op == 0x2b ? 4 : op == 0x29 ? 2 : 1;
  int went = translate(m, v, size, 1, &p);
  if (went == DOUBLE)
    return 16;
  if (went == RAISED)
    return 0;
  if (p >= y->ram_length) {
    enter(m, DBE, 0, 0);
    return 0;
  }
  for (uint64_t i = 0; i < size; i++)
    y->ram[p + i] = (uint8_t)(x >> (8 * (size - 1 - i)));
  onward(m);
  return 0;
}

/* SWL, SWR, SDL, SDR: the same bytes of memory, from an end of the register; the rest of the word or doubleword is kept. */
static int store_part(Machine *m, const Memory *y, unsigned op, uint64_t x, uint64_t v) {
  uint64_t p;
  int went = translate(m, v, 1, 1, &p);
  if (went == DOUBLE)
    return 16;
  if (went == RAISED)
    return 0;
  if (p >= y->ram_length) {
    enter(m, DBE, 0, 0);
    return 0;
  }
  uint8_t *word = y->ram + (p & ~(uint64_t)3), *doubleword = y->ram + (p & ~(uint64_t)7);
  unsigned shift;
  switch (op) {
  case 0x2a:
    shift = 8 * (p & 3);
    put_word(word, (word_at(word) & ~(~0u >> shift)) | (uint32_t)x >> shift);
    break;
  case 0x2c:
    shift = 8 * (p & 7);
    put_doubleword(doubleword, (doubleword_at(doubleword) & ~(~(uint64_t)0 >> shift)) | x >> shift);
    break;
  case 0x2d:
    shift = 56 - 8 * (p & 7);
    put_doubleword(doubleword, (doubleword_at(doubleword) & (((uint64_t)1 << shift) - 1)) | x << shift);
    break;
  case 0x2e:
    shift = 24 - 8 * (p & 3);
    put_word(word, (word_at(word) & ((1u << shift) - 1)) | (uint32_t)x << shift);
    break;
  }
  onward(m);
  return 0;
}

static int special(Machine *m, uint32_t w, uint64_t a, uint64_t b) {
  unsigned rd = w >> 11 & 31, sa = w >> 6 & 31;
  uint32_t x = (uint32_t)a, y = (uint32_t)b;
  int32_t sum;
  switch (w & 63) {
  case 0x00: write(m, rd, extend(y << sa)); break;
  case 0x02: write(m, rd, extend(y >> sa)); break;
  case 0x03: write(m, rd, extend((uint32_t)((int32_t)y >> sa))); break;
  case 0x04: write(m, rd, extend(y << (a & 31))); break;
  case 0x06: write(m, rd, extend(y >> (a & 31))); break;
  case 0x07: write(m, rd, extend((uint32_t)((int32_t)y >> (a & 31)))); break;
  case 0x08: case 0x09:
    if (m->slot)
      return 17;
    if (w & 1)
      write(m, rd, m->pc + 8);
    branch(m, a);
    return 0;
  case 0x0c: enter(m, SYS, 0, 0); return 0;
  case 0x0d: enter(m, BP, 0, 0); return 0;
  case 0x0f: break;
  case 0x10: write(m, rd, m->hi); break;
  case 0x11: m->hi = a; break;
  case 0x12: write(m, rd, m->lo); break;
  case 0x13: m->lo = a; break;
  case 0x18: {
    uint64_t product = (uint64_t)((int64_t)(int32_t)x * (int64_t)(int32_t)y);
    m->hi = extend((uint32_t)(product >> 32));
    m->lo = extend((uint32_t)product);
    break;
  }
  case 0x19: {
    uint64_t product = (uint64_t)x * y;
    m->hi = extend((uint32_t)(product >> 32));
    m->lo = extend((uint32_t)product);
    break;
  }
  case 0x20: case 0x22:
    if (w & 2 ? __builtin_sub_overflow((int32_t)x, (int32_t)y, &sum) : __builtin_add_overflow((int32_t)x, (int32_t)y, &sum)) {
      enter(m, OV, 0, 0);
      return 0;
    }
    write(m, rd, extend((uint32_t)sum));
    break;
  case 0x21: write(m, rd, extend(x + y)); break;
  case 0x23: write(m, rd, extend(x - y)); break;
  case 0x24: write(m, rd, a & b); break;
  case 0x25: write(m, rd, a | b); break;
  case 0x26: write(m, rd, a ^ b); break;
  case 0x27: write(m, rd, ~(a | b)); break;
  case 0x2a: write(m, rd, (int64_t)a < (int64_t)b); break;
  case 0x2b: write(m, rd, a < b); break;
  case 0x2d:
    if (user(m))
      return reserved(m);
    write(m, rd, a + b);
    break;
  default: return reserved(m);
  }
  onward(m);
  return 0;
}

static uint64_t move_out(const Machine *m, unsigned number, uint8_t lines) {
  switch (number) {
  case 0: return extend(m->index);
  case 1: return extend(m->random);
  case 2: return extend(m->entrylo0);
  case 3: return extend(m->entrylo1);
  case 4: return m->context;
  case 5: return extend(m->pagemask);
  case 6: return extend(m->wired);
  case 8: return m->badvaddr;
  case 9: return extend(m->count);
  case 10: return extend(m->entryhi);
  case 11: return extend(m->compare);
  case 12: return extend(m->status);
  case 13: return extend(m->cause | (uint32_t)lines << 10);
  case 14: return m->epc;
  case 15: return 0x400;
  case 16: return extend(m->config);
  case 17: return extend(m->lladdr);
  case 28: return extend(m->taglo);
  case 29: return extend(m->taghi);
  case 30: return m->errorepc;
  default: return 0;
  }
}

static int move_in(Machine *m, unsigned number, uint64_t x) {
  uint32_t w = (uint32_t)x, ones;
  switch (number) {
  case 0: m->index = w & 0x8000003f; break;
  case 2: m->entrylo0 = w & 0x3fffffff; break;
  case 3: m->entrylo1 = w & 0x3fffffff; break;
  case 4: m->context = (x & ~(uint64_t)0x7fffff) | (m->context & 0x7ffff0); break;
  case 5:
    ones = w >> 13;
    if ((w & 0xfe001fff) || (ones & (ones + 1)) || (__builtin_popcount(ones) & 1))
      return 18;
    m->pagemask = w;
    break;
  case 6: m->wired = w & 63; m->random = 48; break; /* the end of this step makes it 47 */
  case 9: m->count = w; break;
  case 10: m->entryhi = w & 0xffffe0ff; break;
  case 11: m->compare = w; m->cause &= ~(uint32_t)IP7; break;
  case 12:
    if ((w & 0xe20000e0) || (w & 8))
      return 18;
    m->status = w & 0x1040ff1f;
    break;
  case 13: m->cause = (m->cause & ~0x300u) | (w & 0x300); break;
  case 14: m->epc = x; break;
  case 16: m->config = (m->config & ~7u) | (w & 7); break;
  case 28: m->taglo = w; break;
  case 29: m->taghi = w; break;
  case 30: m->errorepc = x; break;
  }
  return 0;
}

static void put_slot(Machine *m, unsigned i) {
  if (i >= 48)
    return;
  uint32_t global = m->entrylo0 & m->entrylo1 & 1;
  m->tlb[i] = (Slot){m->pagemask, (m->entryhi & ~m->pagemask & 0xffffe0ff) | global << 12, m->entrylo0 & ~1u, m->entrylo1 & ~1u};
}

static int cop0(Machine *m, uint32_t w, uint8_t lines) {
  unsigned rt = w >> 16 & 31, rd = w >> 11 & 31;
  int stop = 0;
  if (user(m) && !(m->status & CU0)) {
    enter(m, CPU, 0, 0);
    return 0;
  }
  switch (w >> 21 & 31) {
  case 0: write(m, rt, extend((uint32_t)move_out(m, rd, lines))); break;
  case 4: stop = move_in(m, rd, extend((uint32_t)m->regs[rt])); break;
  case 16:
    switch (w & 63) {
    case 2: put_slot(m, m->index & 63); break;
    case 6: put_slot(m, m->random); break;
    case 24:
      if (m->slot)
        return 17;
      m->pc = m->status & ERL ? m->errorepc : m->epc;
      m->status &= ~(uint32_t)(m->status & ERL ? ERL : EXL);
      m->link = 0;
      return 0;
    default: return reserved(m);
    }
    break;
  default: return reserved(m);
  }
  if (stop == 0)
    onward(m);
  return stop;
}

static int plain(Machine *m, uint32_t w, int taken) {
  if (m->slot)
    return 17;
  branch(m, taken ? m->pc + 4 + ((uint64_t)(int64_t)(int16_t)w << 2) : m->pc + 8);
  return 0;
}

static int execute(Machine *m, const Memory *y, uint8_t lines, uint32_t w) {
  unsigned op = w >> 26, rt = w >> 16 & 31;
  uint64_t a = m->regs[w >> 21 & 31], b = m->regs[rt], immediate = (uint64_t)(int64_t)(int16_t)w;
  int32_t sum;
  switch (op) {
  case 0x00: return special(m, w, a, b);
  case 0x01:
    switch (rt) {
    case 0: return plain(m, w, (int64_t)a < 0);
    case 1: return plain(m, w, (int64_t)a >= 0);
    default: return reserved(m);
    }
  case 0x02: case 0x03:
    if (m->slot)
      return 17;
    if (op & 1)
      m->regs[31] = m->pc + 8;
    branch(m, ((m->pc + 4) & ~(uint64_t)0xfffffff) | (uint64_t)(w & 0x3ffffff) << 2);
    return 0;
  case 0x04: return plain(m, w, a == b);
  case 0x05: return plain(m, w, a != b);
  case 0x06: return plain(m, w, (int64_t)a <= 0);
  case 0x07: return plain(m, w, (int64_t)a > 0);
  case 0x08:
    if (__builtin_add_overflow((int32_t)a, (int32_t)immediate, &sum)) {
      enter(m, OV, 0, 0);
      return 0;
    }
    write(m, rt, extend((uint32_t)sum));
    break;
  case 0x09: write(m, rt, extend((uint32_t)(a + immediate))); break;
  case 0x0a: write(m, rt, (int64_t)a < (int64_t)immediate); break;
  case 0x0b: write(m, rt, a < immediate); break;
  case 0x0c: write(m, rt, a & (w & 0xffff)); break;
  case 0x0d: write(m, rt, a | (w & 0xffff)); break;
  case 0x0e: write(m, rt, a ^ (w & 0xffff)); break;
  case 0x0f: write(m, rt, extend(w << 16)); break;
  case 0x10: return cop0(m, w, lines);
  case 0x11: case 0x12: enter(m, CPU, op & 3, 0); return 0;
  case 0x37:
    if (user(m))
      return reserved(m);
    /* fall through */
  case 0x20: case 0x21: case 0x23: case 0x24: case 0x25: return load(m, y, op, rt, a + immediate);
  case 0x1a: case 0x1b:
    if (user(m))
      return reserved(m);
    /* fall through */
  case 0x22: case 0x26: return load_part(m, y, op, rt, b, a + immediate);
  case 0x3f:
    if (user(m))
      return reserved(m);
    /* fall through */
  case 0x28: case 0x29: case 0x2b: return store(m, y, op, b, a + immediate);
  case 0x2c: case 0x2d:
    if (user(m))
      return reserved(m);
    /* fall through */
  case 0x2a: case 0x2e: return store_part(m, y, op, b, a + immediate);
  default: return reserved(m);
  }
  onward(m);
  return 0;
}

/* What a step does before its end: the interrupt, or the fetch and the instruction. */
static int body(Machine *m, const Memory *y, uint8_t lines) {
  uint64_t p;
  if ((m->status & (IE | EXL | ERL)) == IE && (m->status & (m->cause | (uint32_t)lines << 10) & 0xff00)) {
    enter(m, INT, 0, 0);
    return 0;
  }
  int went = translate(m, m->pc, 4, 0, &p);
  if (went == DOUBLE)
    return 16;
  if (went == RAISED)
    return 0;
  const uint8_t *b = part(y, p);
  if (!b) {
    enter(m, IBE, 0, 0);
    return 0;
  }
  return execute(m, y, lines, word_at(b));
}

static int step(Machine *m, const Memory *y, uint8_t lines) {
  int stop = body(m, y, lines);
  if (stop)
    return stop;
  m->count++;
  if (m->count == m->compare)
    m->cause |= IP7;
  m->random = m->random == m->wired || m->random == 0 ? 47 : m->random - 1;
  return 0;
}

static int run(Machine *m, const Memory *y, uint8_t lines, uint64_t budget, uint64_t *steps) {
  for (*steps = 0; *steps < budget; ++*steps) {
    int stop = step(m, y, lines);
    if (stop)
      return stop;
  }
  return 0;
}

typedef struct {
  const uint32_t *words;
  unsigned count;
} Table;

typedef struct {
  const char *name;
  Table start, user, other;
} Program;

#define TABLE(words) {words, sizeof words / 4}

static const Program programs[] = {
  {"sweep", TABLE(SWEEP_START), TABLE(SWEEP_USER), TABLE(SWEEP_OTHER)},
  {"unaligned", TABLE(UNALIGNED_START), TABLE(UNALIGNED_USER), TABLE(UNALIGNED_OTHER)},
};

static const Program *program_of(const char *name) {
  for (unsigned i = 0; i < sizeof programs / sizeof *programs; i++)
    if (!strcmp(name, programs[i].name))
      return &programs[i];
  return 0;
}

static void poke(uint8_t *to, Table t) {
  for (unsigned i = 0; i < t.count; i++)
    put_word(to + 4 * i, t.words[i]);
}

static uint64_t mix(uint64_t x, uint64_t v) { return x * 31 + v; }

int main(int argc, char **argv) {
  static uint8_t ram[32768], rom[256];
  static Machine machine;
  Machine *m = &machine;
  Memory memory = {ram, rom, sizeof ram, sizeof rom};
  uint64_t steps, budget = argc > 1 ? strtoull(argv[1], 0, 10) : 1000;
  const Program *program = program_of(argc > 2 ? argv[2] : "sweep");
  if (argc > 3 || !program) {
    fputs("card: write card [STEPS [PROGRAM]], PROGRAM sweep or unaligned\n", stderr);
    return 2;
  }
  poke(rom, (Table)TABLE(BOOT));
  poke(rom + 0x88, program->start);
  poke(ram + 0x180, (Table)TABLE(KERNEL));
  poke(ram + 0x2000, program->user);
  poke(ram + 0x3000, program->other);
  m->pc = 0xffffffffbfc00000;
  m->status = BEV | ERL;
  m->random = 47;
  m->config = 0x8000;
  for (uint32_t i = 0; i < 48; i++)
    m->tlb[i].hi = 0x80000000 + i * 0x2000;
  int stop = run(m, &memory, 0, budget, &steps);
  uint64_t x = (uint64_t)stop;
  for (int i = 0; i < 32; i++)
    x = mix(x, m->regs[i]);
  x = mix(mix(mix(x, m->pc), m->hi), m->lo);
  x = mix(mix(mix(x, m->count), m->random), m->cause);
  x = mix(mix(mix(x, m->compare), m->status), m->epc);
  for (unsigned i = 0; i < sizeof ram; i++)
    x = mix(x, ram[i]);
  printf("%llu %016llx\n", (unsigned long long)steps, (unsigned long long)x);
  return 0;
}

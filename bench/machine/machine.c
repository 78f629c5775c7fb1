/* The yardstick of bench/machine: a plain interpreter of the machine for RV32IM that docs/MACHINE.md
   describes. It reads one ELF file, takes its segments and a region of 1 MiB as memory, and fetches, decodes
   and carries out one instruction after the other. At the end it prints how many it retired. */
#include <stdint.h>
#include <stdio.h>
#include <stdlib.h>
#include <string.h>

#define REGION 0x10000000u
#define ROOM 1048576u

enum { FETCH = 1, STORE = 2, LOAD = 4 };

struct area { uint32_t at, size, flags; uint8_t *bytes; };

static struct area areas[64];
static int count;

static void trap(const char *cause, uint32_t pc)
{
    fprintf(stderr, "trap %s at %u\n", cause, pc);
    exit(8);
}

/* The n bytes at an address, where one area has them all and allows it. */
static uint8_t *find(uint32_t at, uint32_t n, uint32_t flag)
{
    for (int i = 0; i < count; i++) {
        struct area *a = &areas[i];
        if (at - a->at < a->size && a->size - (at - a->at) >= n)
            return a->flags & flag ? a->bytes + (at - a->at) : NULL;
    }
    return NULL;
}

static void add_area(uint32_t at, uint32_t size, uint32_t flags, const uint8_t *from, uint32_t filled)
{
    struct area *a = &areas[count++];
    a->at = at;
    a->size = size;
    a->flags = flags;
    a->bytes = calloc(size, 1);
    if (filled)
        memcpy(a->bytes, from, filled);
}

static uint32_t word_of(const uint8_t *p)
{
    uint32_t w;
    memcpy(&w, p, 4);
    return w;
}

static uint32_t load(const char *path)
{
    static uint8_t file[1 << 20];
    FILE *f = fopen(path, "rb");
    if (!f || fread(file, 1, sizeof file, f) < 84)
        exit(5);
    fclose(f);
    uint32_t table = word_of(file + 28);
    int headers = file[44] + 256 * file[45];
    for (int i = 0; i < headers; i++) {
        const uint8_t *h = file + table + 32 * i;
        if (word_of(h) == 1 && word_of(h + 20) > 0)
            add_area(word_of(h + 8), word_of(h + 20), word_of(h + 24), file + word_of(h + 4), word_of(h + 16));
    }
    add_area(REGION, ROOM, STORE | LOAD, NULL, 0);
    return word_of(file + 24);
}

static uint32_t load_from(uint32_t at, uint32_t n, uint32_t pc)
{
    if (at % n)
        trap("misaligned", pc);
    uint8_t *p = find(at, n, LOAD);
    if (!p)
        trap("load", pc);
    if (n == 4)
        return word_of(p);
    return n == 2 ? p[0] + 256u * p[1] : p[0];
}

static void store_to(uint32_t at, uint32_t n, uint32_t v, uint32_t pc)
{
    if (at % n)
        trap("misaligned", pc);
    uint8_t *p = find(at, n, STORE);
    if (!p)
        trap("store", pc);
    memcpy(p, &v, n);
}

static uint32_t immediate(uint32_t f3, uint32_t f7, uint32_t a, uint32_t i, uint32_t pc)
{
    switch (f3) {
    case 0: return a + i;
    case 1: if (f7) trap("illegal", pc); return a << (i & 31);
    case 2: return (int32_t)a < (int32_t)i;
    case 3: return a < i;
    case 4: return a ^ i;
    case 5: if (f7 & ~32u) trap("illegal", pc); return f7 ? (uint32_t)((int32_t)a >> (i & 31)) : a >> (i & 31);
    case 6: return a | i;
    default: return a & i;
    }
}

static uint32_t base(uint32_t f3, uint32_t f7, uint32_t a, uint32_t b, uint32_t pc)
{
    if (f7 && !(f7 == 32 && (f3 == 0 || f3 == 5)))
        trap("illegal", pc);
    switch (f3) {
    case 0: return f7 ? a - b : a + b;
    case 1: return a << (b & 31);
    case 2: return (int32_t)a < (int32_t)b;
    case 3: return a < b;
    case 4: return a ^ b;
    case 5: return f7 ? (uint32_t)((int32_t)a >> (b & 31)) : a >> (b & 31);
    case 6: return a | b;
    default: return a & b;
    }
}

static uint32_t product(uint32_t f3, uint32_t a, uint32_t b)
{
    int64_t x = (int32_t)a, y = (int32_t)b;
    switch (f3) {
    case 0: return a * b;
    case 1: return (uint32_t)((uint64_t)(x * y) >> 32);
    case 2: return (uint32_t)((uint64_t)(x * (int64_t)b) >> 32);
    case 3: return (uint32_t)((uint64_t)a * b >> 32);
    case 4: return b ? (uint32_t)(x / y) : 0xffffffffu;
    case 5: return b ? a / b : 0xffffffffu;
    case 6: return b ? (uint32_t)(x % y) : a;
    default: return b ? a % b : a;
    }
}

static int taken(uint32_t f3, uint32_t a, uint32_t b, uint32_t pc)
{
    switch (f3) {
    case 0: return a == b;
    case 1: return a != b;
    case 4: return (int32_t)a < (int32_t)b;
    case 5: return (int32_t)a >= (int32_t)b;
    case 6: return a < b;
    case 7: return a >= b;
    }
    trap("illegal", pc);
    return 0;
}

int main(int argc, char **argv)
{
    if (argc != 2)
        return 1;
    static uint32_t x[32];
    uint32_t pc = load(argv[1]);
    uint64_t retired = 0;
    x[10] = REGION;
    x[11] = REGION + ROOM;
    for (;;) {
        if (pc % 4)
            trap("fetch", pc);
        uint8_t *p = find(pc, 4, FETCH);
        if (!p)
            trap("fetch", pc);
        uint32_t w = word_of(p), rd = w >> 7 & 31, f3 = w >> 12 & 7, f7 = w >> 25;
        uint32_t a = x[w >> 15 & 31], b = x[w >> 20 & 31], next = pc + 4, v = 0, to;
        uint32_t i = (uint32_t)((int32_t)w >> 20);
        switch (w & 127) {
        case 0x37: v = w & 0xfffff000u; break;
        case 0x17: v = pc + (w & 0xfffff000u); break;
        case 0x6f:
            to = pc + ((uint32_t)((int32_t)w >> 31) << 20 | (w & 0xff000) | (w >> 9 & 0x800) | (w >> 20 & 0x7fe));
            if (to % 4) trap("jump", pc);
            v = next; next = to; break;
        case 0x67:
            if (f3) trap("illegal", pc);
            to = (a + i) & ~1u;
            if (to % 4) trap("jump", pc);
            v = next; next = to; break;
        case 0x63:
            if (taken(f3, a, b, pc)) {
                next = pc + ((uint32_t)((int32_t)w >> 31) << 12 | (w << 4 & 0x800) | (w >> 20 & 0x7e0) | (w >> 7 & 0x1e));
                if (next % 4) trap("jump", pc);
            }
            rd = 0; break;
        case 0x03:
            switch (f3) {
            case 0: v = (uint32_t)(int8_t)load_from(a + i, 1, pc); break;
            case 1: v = (uint32_t)(int16_t)load_from(a + i, 2, pc); break;
            case 2: v = load_from(a + i, 4, pc); break;
            case 4: v = load_from(a + i, 1, pc); break;
            case 5: v = load_from(a + i, 2, pc); break;
            default: trap("illegal", pc);
            }
            break;
        case 0x23:
            if (f3 > 2) trap("illegal", pc);
            store_to(a + ((uint32_t)((int32_t)w >> 25) << 5 | rd), 1u << f3, b, pc);
            rd = 0; break;
        case 0x13: v = immediate(f3, f7, a, i, pc); break;
        case 0x33: v = f7 == 1 ? product(f3, a, b) : base(f3, f7, a, b, pc); break;
        case 0x0f: if (f3) trap("illegal", pc); rd = 0; break;
        case 0x73:
            if (w == 0x100073) trap("ebreak", pc);
            if (w != 0x73) trap("illegal", pc);
            if (x[17] == 1) putchar((int)(x[10] & 255));
            else if (x[17] == 2) { rd = 10; v = (uint32_t)getchar(); }
            else if (x[17] == 3) { printf("%llu\n", (unsigned long long)retired + 1); return 0; }
            else trap("ecall", pc);
            break;
        default: trap("illegal", pc);
        }
        if (rd)
            x[rd] = v;
        pc = next;
        retired++;
    }
}

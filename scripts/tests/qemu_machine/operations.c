// Reads a list of operations (operations.bin) by semihosting, runs each on the machine, and writes what it answered (results.bin).
typedef unsigned char u8;
typedef unsigned short u16;
typedef unsigned int u32;
typedef unsigned long u64;

// What they mean is said where they run, in `main`. scripts/tests/test_qemu.py has the same list, and the same two structures.
enum { RESET, IRG, ADDG, SUBG, GMI, LDG, STG, ST2G, STZG, LOAD, STORE, TAGS, ZERO, COPY, DUMP, SEEDS, MASKS };
enum { SUMS = 1, ALIKE = 2 };       // flags: add checksums of all tags and bytes; the bytes of a store are all alike
struct operation { u8 code, flags; u16 length; u32 n; u64 a, b; };
struct result { u32 esr, rgsr, tags, bytes; u64 value, far; };

#define BASE (1UL << 36)            // the region's first place
#define REGION ((u8 *)0x60000000)   // the region under its physical address, which is mapped without tags: no access there is checked
#define INPUT ((u8 *)0x48000000)
#define OUTPUT ((u8 *)0x68000000)
#define ROOM 0x10000000UL
#define UNTOUCHED 0xa5

typedef u64 function(u64, u64);
function set_rgsr, irg, gmi, ldg, stg, st2g, stzg;
extern u8 addg_table[], subg_table[];
function load_1, load_2, load_4, load_8, load_16, load_32, store_1, store_2, store_4, store_8, store_16, store_32;
static const struct { u32 length; function *load, *store; } accesses[] = {
    {32, load_32, store_32}, {16, load_16, store_16}, {8, load_8, store_8},
    {4, load_4, store_4}, {2, load_2, store_2}, {1, load_1, store_1},
};

long semihosting(long call, void *words);

struct { u64 esr, far; } fault;     // of the last operation; the vectors write it
static u64 level1[512] __attribute__((aligned(4096))), level2[512] __attribute__((aligned(4096)));
static u64 level3[1024] __attribute__((aligned(4096)));
static u32 granules;
static long results;
static u8 *out = OUTPUT;

void stop(u64 esr, u64 elr) {       // ends QEMU; its status is 1 if there was an exception that no operation should have
    u64 words[] = {0x20026, esr ? 1 : 0};
    if (esr) {
        static char text[] = "stopped: ESR ................, ELR ................\n";
        for (int i = 0; i < 16; i++) {
            text[13 + i] = "0123456789abcdef"[esr >> (60 - 4 * i) & 15];
            text[35 + i] = "0123456789abcdef"[elr >> (60 - 4 * i) & 15];
        }
        semihosting(4, text);
    }
    for (;;) semihosting(0x18, words);
}

void *memset(void *to, int byte, u64 n) {
    for (u64 i = 0; i < n; i++) ((volatile u8 *)to)[i] = byte;
    return to;
}

void *memcpy(void *to, const void *from, u64 n) {
    for (u64 i = 0; i < n; i++) ((volatile u8 *)to)[i] = ((const u8 *)from)[i];
    return to;
}

u64 *page_tables(void) {
    level1[1] = 0x40000000 | 3 << 8 | 1 << 10 | 1;              // 1 GB of RAM under its own address, Normal memory: this program
    level1[BASE >> 30] = (u64)level2 | 3;
    level2[0] = (u64)level3 | 3;
    level2[1] = (u64)(level3 + 512) | 3;
    return level1;
}

static void reset(u32 r) {          // maps the pages of a region of r granules and no others; all tags and bytes are 0
    granules = r;
    for (u32 i = 0; i < 1024; i++) level3[i] = i < (r + 255) / 256 ? ((u64)REGION + 4096 * i) | 1 << 2 | 3 << 8 | 1 << 10 | 3 : 0;
    asm volatile("dsb sy; tlbi vmalle1; dsb sy; isb" ::: "memory");
    for (u64 g = 0; g < (r + 255) / 256 * 256; g++) stzg(BASE + 16 * g, 0);
}

static void flush(void) {
    u64 words[] = {results, (u64)OUTPUT, out - OUTPUT};
    if (out > OUTPUT && semihosting(5, words)) stop(2, 0);
    out = OUTPUT;
}

static void checksums(struct result *r) {                       // zlib's crc32 of all tags, a byte each, and of all bytes
    u32 tags = ~0, bytes = ~0;
    for (u64 g = 0; g < granules; g++) {
        u64 tag = ldg(BASE + 16 * g, 0) >> 56;
        asm("crc32b %w0, %w0, %w1" : "+r"(tags) : "r"(tag));
        asm("crc32x %w0, %w0, %x1" : "+r"(bytes) : "r"(((u64 *)REGION)[2 * g]));
        asm("crc32x %w0, %w0, %x1" : "+r"(bytes) : "r"(((u64 *)REGION)[2 * g + 1]));
    }
    r->tags = ~tags;
    r->bytes = ~bytes;
}

// A load or a store of 1 to 64 bytes. Where there is no instruction of that length it is made of several, the longest that fit, lowest
// first, up to the first fault. An access that is not mapped as a whole has to fault before any tag is checked, so its last byte is
// accessed first; and what a store had written before its fault is put back.
static void access(int store, u64 a, u8 *buffer, u32 length) {
    u8 part[64], old[64];
    u32 done = 0;
    u64 translated;
    asm volatile("at s1e1r, %1; isb; mrs %0, par_el1" : "=r"(translated) : "r"(a + length - 1));
    if (translated & 1) (store ? store_1 : load_1)(a + length - 1, (u64)(store ? buffer : part));
    for (int i = 0; done < length && !fault.esr; i = 0) {
        while (accesses[i].length > length - done) i++;
        u32 n = accesses[i].length;
        memcpy(part, buffer + done, n);
        if (store) {
            memcpy(old + done, part, n);
            accesses[i].load(a + done, (u64)(old + done));
            memset(&fault, 0, sizeof fault);                    // if it faulted, the store does too
            accesses[i].store(a + done, (u64)part);
        } else {
            accesses[i].load(a + done, (u64)part);
            if (!fault.esr) memcpy(buffer + done, part, n);
        }
        if (!fault.esr) done += n;
    }
    if (!fault.esr || !done) return;
    if (store) memcpy(REGION + ((a & ~(15UL << 56)) - BASE), old, done);
    else memset(buffer, UNTOUCHED, 64);
}

void main(void) {
    u64 input[] = {(u64) "operations.bin", 1, 14}, output[] = {(u64) "results.bin", 5, 11};
    long operations = semihosting(1, input);
    results = semihosting(1, output);
    if (operations < 0 || results < 0) stop(3, 0);
    u64 size = semihosting(0x0c, &operations), words[] = {operations, (u64)INPUT, size};
    if (size > ROOM || semihosting(6, words)) stop(4, size);
    for (struct operation *op = (void *)INPUT; (u8 *)op < INPUT + size; op++) {
        struct result r = {0};
        u8 buffer[64] __attribute__((aligned(16)));
        u64 a = op->a, b = op->b;
        if (out > OUTPUT + ROOM / 16) flush();
        u8 *end = out + sizeof r;
        fault.esr = fault.far = 0;
        switch (op->code) {
        case RESET: reset(op->n); set_rgsr(a, 0); break;        // a new memory of n granules, and RGSR_EL1 = a
        case IRG: r.value = irg(a, b); break;
        case ADDG: r.value = ((function *)(addg_table + 8 * b))(a, 0); break;      // b is 16 u6 + u4
        case SUBG: r.value = ((function *)(subg_table + 8 * b))(a, 0); break;
        case GMI: r.value = gmi(a, b); break;
        case LDG: r.value = ldg(a, b); break;
        case STG: stg(a, b); break;
        case ST2G: st2g(a, b); break;
        case STZG: stzg(a, b); break;
        case LOAD: memset(buffer, UNTOUCHED, 64); access(0, a, buffer, op->length); break;
        case STORE:                                             // the bytes are n, n + 37, n + 74, .., or all n
            for (int i = 0; i < 64; i++) buffer[i] = op->n + (op->flags & ALIKE ? 0 : 37 * i);
            access(1, a, buffer, op->length);
            break;
        case TAGS: for (u32 i = 0; i < op->n; i++) stg(a + 16 * i, b); break;
        case ZERO: for (u32 i = 0; i < op->n; i++) stzg(a + 16 * i, b); break;
        case COPY:                                              // n bytes from b to a, by checked accesses of one byte
            for (u32 i = 0; i < op->n; i++) { load_1(b + i, (u64)buffer); store_1(a + i, (u64)buffer); }
            break;
        case DUMP:                                              // all tags, a byte each, and all bytes
            for (u64 g = 0; g < granules; g++) *end++ = ldg(BASE + 16 * g, 0) >> 56;
            memcpy(end, REGION, 16 * granules);
            end += 16 * granules;
            break;
        case SEEDS:                                             // IRG from each seed, with TAG a and the mask b: RGSR_EL1 afterwards
            for (u64 seed = 1; seed < 65536; seed++, end += 4) {
                u64 now;
                set_rgsr(seed << 8 | a, 0);
                irg(0, b);
                asm volatile("mrs %0, rgsr_el1" : "=r"(now));
                *(u32 *)end = now;
            }
            break;
        case MASKS:                                             // IRG from RGSR_EL1 = a with each mask: the tag
            for (u64 mask = 0; mask < 65536; mask++) { set_rgsr(a, 0); *end++ = irg(0, mask) >> 56; }
            break;
        default: stop(5, op->code);
        }
        r.esr = fault.esr;
        r.far = fault.far;
        if (r.esr && (r.esr & 63) == 0x11) r.value = ldg(r.far, 0) >> 56 & 15;  // a tag check fault: the tag of the granule at FAR
        if (op->code == LOAD) { memcpy(end, buffer, 64); end += 64; }
        u64 rgsr;
        asm volatile("mrs %0, rgsr_el1" : "=r"(rgsr));
        r.rgsr = rgsr;
        if (op->flags & SUMS) checksums(&r);
        memcpy(out, &r, sizeof r);
        out = end;
    }
    flush();
    stop(0, 0);
}

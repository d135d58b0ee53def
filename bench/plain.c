/* Written from document 01 and requests 1/12, 2/12 and 5/12 alone, with their numbers spelt out here a second time, so that
   nothing is shared with what it is compared with. */
#include "plain.h"
#include "plain_words.h"

enum { PERIOD = 40960000 };
enum { PROTECTION = 4, ADDRESSING = 5, SEGMENT = 0x10, PAGE = 0x11, SPECIFICATION = 0x12, VALIDITY = 32 };
enum { NO_STAGE = 0, GUEST_SEGMENT = 1, GUEST_PAGE = 2, HOST_SEGMENT = 3, HOST_PAGE = 4 };

/* What table reads need of the guest and of the host; origin and extent in bytes. */
struct space {
    const uint8_t *storage;
    uint32_t length, designation, origin, extent, prefix;
};

/* A failure's answer, with *where set. The entry's address is 0 where it was not read; the other one is a host fault's. */
static uint64_t fail(uint64_t kind, uint64_t number, uint64_t stage, uint32_t entry_at, uint32_t a, uint64_t *where)
{
    *where = (uint64_t)entry_at << 32 | a;
    return answer(kind, number) | stage << 40;
}

/* Refusal 1 or 2, or 0. */
static unsigned bad_head(const uint8_t *record, size_t record_len)
{
    if ((record_len != 200 && record_len != 208) || half(record) != record_len)
        return 1;
    return record[2] == (record_len == 200 ? 1 : 2) ? 0 : 2;
}

/* Refusal 3 or 4, or 0. */
static unsigned bad_sizes(size_t storage_len, size_t keys_len)
{
    if (storage_len == 0 || storage_len > (size_t)4096 * 4096 || storage_len % 4096 != 0)
        return 3;
    return storage_len / 4096 == keys_len ? 0 : 4;
}

static int reserved_used(const uint8_t *record)
{
    if ((word(record + 66) | half(record + 70)) != 0)
        return 1;
    return record[2] == 2 && ((word(record + 200) & 0xffffff) != 0 || word(record + 204) >= PERIOD);
}

static int is_system370(const uint8_t *record)
{
    return (record[4] & 0x0c) == 0x04;
}

static int entry_fails(const uint8_t *record)
{
    uint32_t prefix = word(record + 8) & BLOCK, origin = half(record + 12), extent = half(record + 14);

    if ((record[4] & 0x0e) != 0x08 && ((record[4] & 0x0e) != 0x04 || record[2] != 2))
        return 1;
    if (is_system370(record) && prefix > 0xffffffu)
        return 1;
    if (origin > 32767 || extent == 0 || origin + extent > 32768)
        return 1;
    return prefix + 4096 > extent * 65536;
}

/* The tests that a segment entry and a page entry make by themselves: 0 or a program code. */

static unsigned segment_code(uint32_t entry)
{
    if (entry & BIT(26))
        return SEGMENT;
    return entry & BIT(0) ? SPECIFICATION : 0;
}

static unsigned page_code(uint32_t entry)
{
    if (entry & BIT(21))
        return PAGE;
    return entry & (BIT(0) | BIT(20) | BIT(23)) ? SPECIFICATION : 0;
}

static int past_segment_table(uint32_t designation, uint32_t a)
{
    return a >> 24 > (designation & 127);
}

static int past_page_table(uint32_t entry, uint32_t a)
{
    return (a >> 16 & 15) > (entry & 15);
}

static uint32_t segment_entry_at(uint32_t designation, uint32_t a)
{
    return (designation & BLOCK) + (a >> 20) * 4;
}

static uint32_t page_entry_at(uint32_t entry, uint32_t a)
{
    return (entry & 0x7fffffc0u) + (a >> 12 & 255) * 4;
}

/* The page entry of a host virtual address whose frame is in storage: 0 or the host fault to answer, with *where set. */
static uint64_t host_page(const struct space *s, uint32_t a, uint32_t *entry, uint64_t *where)
{
    uint32_t at = segment_entry_at(s->designation, a), e;
    unsigned code;

    if (past_segment_table(s->designation, a))
        return fail(HOST_FAULT, SEGMENT, HOST_SEGMENT, 0, a, where);
    if (at >= s->length)
        return fail(HOST_FAULT, ADDRESSING, HOST_SEGMENT, 0, a, where);
    e = word(s->storage + at);
    code = segment_code(e);
    if (code)
        return fail(HOST_FAULT, code, HOST_SEGMENT, at, a, where);
    if (past_page_table(e, a))
        return fail(HOST_FAULT, PAGE, HOST_PAGE, 0, a, where);
    at = page_entry_at(e, a);
    if (at >= s->length)
        return fail(HOST_FAULT, ADDRESSING, HOST_PAGE, 0, a, where);
    e = word(s->storage + at);
    code = page_code(e);
    if (code)
        return fail(HOST_FAULT, code, HOST_PAGE, at, a, where);
    if ((e & BLOCK) >= s->length)
        return fail(HOST_FAULT, ADDRESSING, HOST_PAGE, at, a, where);
    *entry = e;
    return 0;
}

static uint32_t absolute(const struct space *s, uint32_t real)
{
    uint32_t block = real & ~4095u;

    if (block == 0)
        return s->prefix | real;
    return block == s->prefix ? real & 4095 : real;
}

/* The host page entry behind a guest real address: 0 or the answer to give, with *where set. Stage is for an address past the
   extent: the table whose entry stands there, or none. */
static uint64_t reach(const struct space *s, uint32_t real, uint64_t stage, uint32_t *entry, uint64_t *where)
{
    uint32_t a = absolute(s, real);

    if (a >= s->extent)
        return fail(EXCEPTION, ADDRESSING, stage, 0, 0, where);
    return host_page(s, s->origin + a, entry, where);
}

/* A guest table entry at a real address: 0 or the answer to give, with *where set. */
static uint64_t guest_entry(const struct space *s, uint32_t real, uint64_t stage, uint32_t *entry, uint64_t *where)
{
    uint32_t page = 0;
    uint64_t stop = reach(s, real, stage, &page, where);

    if (stop == 0)
        *entry = word(s->storage + ((page & BLOCK) | (real & 4095)));
    return stop;
}

/* The guest page entry of a virtual address: 0 or the answer to give, with *where set. */
static uint64_t guest_page(const struct space *s, uint32_t cr1, uint32_t a, uint32_t *entry, uint64_t *where)
{
    uint32_t at = segment_entry_at(cr1, a), e = 0;
    uint64_t stop;
    unsigned code;

    if (past_segment_table(cr1, a))
        return fail(EXCEPTION, SEGMENT, GUEST_SEGMENT, 0, 0, where);
    stop = guest_entry(s, at, GUEST_SEGMENT, &e, where);
    if (stop)
        return stop;
    code = segment_code(e);
    if (code)
        return fail(EXCEPTION, code, GUEST_SEGMENT, at, 0, where);
    if (past_page_table(e, a))
        return fail(EXCEPTION, PAGE, GUEST_PAGE, 0, 0, where);
    at = page_entry_at(e, a);
    stop = guest_entry(s, at, GUEST_PAGE, entry, where);
    if (stop)
        return stop;
    code = page_code(*entry);
    return code ? fail(EXCEPTION, code, GUEST_PAGE, at, 0, where) : 0;
}

static int key_protects(unsigned access_key, unsigned key, int store)
{
    return access_key != 0 && access_key != key >> 4 && (store || (key & 8));
}

/* One byte at a wrapped logical address, for a guest whose entry is good. */
static uint64_t reach_byte(const struct space *s, const uint8_t *keys, uint32_t psw, uint32_t cr0, uint32_t cr1, uint32_t a,
                           int store, uint64_t *where)
{
    uint32_t guest = 0, host = 0, real = a;
    uint64_t stop;

    if (store && a < 512 && (cr0 & BIT(3)))
        return answer(EXCEPTION, PROTECTION);
    if (psw & BIT(5)) {
        if ((cr0 >> 19 & 31) != 0x16)
            return answer(EXCEPTION, SPECIFICATION);
        stop = guest_page(s, cr1, a, &guest, where);
        if (stop)
            return stop;
        real = (guest & BLOCK) | (a & 4095);
    }
    stop = reach(s, real, NO_STAGE, &host, where);
    if (stop)
        return stop;
    if (store && (guest & BIT(22)))
        return answer(EXCEPTION, PROTECTION);
    if (key_protects(psw >> 20 & 15, keys[(host & BLOCK) >> 12], store))
        return answer(EXCEPTION, PROTECTION);
    if (store && (host & BIT(22))) {
        *where = s->origin + absolute(s, real);
        return answer(HOST_FAULT, PROTECTION);
    }
    *where = (host & BLOCK) | (real & 4095);
    return answer(GOOD, 0);
}

uint64_t plain_check(const uint8_t *record, size_t record_len)
{
    unsigned refusal = bad_head(record, record_len);

    if (refusal)
        return answer(REFUSED, refusal);
    if (reserved_used(record))
        return answer(REFUSED, 7);
    return entry_fails(record) ? answer(INTERCEPTED, VALIDITY) : answer(GOOD, 0);
}

uint64_t plain_translate(const uint8_t *record, size_t record_len, const uint8_t *storage, size_t storage_len,
                         const uint8_t *keys, size_t keys_len, uint32_t designation, uint32_t address,
                         uint32_t access, uint64_t *where)
{
    unsigned refusal = bad_head(record, record_len);
    struct space s;
    uint32_t psw;

    if (refusal == 0)
        refusal = bad_sizes(storage_len, keys_len);
    if (refusal)
        return answer(REFUSED, refusal);
    if (reserved_used(record))
        return answer(REFUSED, 7);
    if (access > 2)
        return answer(REFUSED, 8);
    psw = word(record + 16);
    *where = 0;
    if (entry_fails(record))
        return answer(INTERCEPTED, VALIDITY);
    if (is_system370(record)) {
        if ((psw & BIT(5)) && (psw & BIT(12)))
            return answer(INTERCEPTED, VALIDITY);
        psw &= ~BIT(5);
        address &= 0xffffffu;
    }
    s.storage = storage;
    s.length = (uint32_t)storage_len;
    s.designation = designation;
    s.prefix = word(record + 8) & BLOCK;
    s.origin = half(record + 12) * 65536;
    s.extent = half(record + 14) * 65536;
    return reach_byte(&s, keys, psw, word(record + 72), word(record + 76),
                      address & (record[20] & 0x80 ? 0x7fffffffu : 0xffffffu), access == 1, where);
}

/* The run. */

enum { BUDGET = 3 };

struct cpu {
    uint32_t left, right; /* PSW */
    int system370;
    uint64_t timer;
    uint32_t cr[16], gr[16];
};

struct guest {
    struct space s;
    uint8_t *storage, *keys;
    const uint8_t *record;
    struct cpu c;
    uint64_t clock;
    uint8_t ilc;          /* of an exception that comes now */
    uint32_t text[3];
    uint32_t frame[2];    /* frames that the text was fetched from */
    int frames;
    uint8_t request;      /* of the interval timer; bit 0 is T */
    uint32_t residue;
    int active;           /* the interval timer is */
    int dry;              /* the unit is tried: it stores and marks nothing */
    uint64_t stop;        /* the answer that ends the run, or 0 */
    uint64_t where;
    uint8_t results[14];
};

/* Where an operand's bytes stand: n of them from first on, the others from second on. */
struct operand {
    uint32_t first, n, second, length;
};

static uint64_t double_word(const uint8_t *p)
{
    return (uint64_t)word(p) << 32 | word(p + 4);
}

static void put64(uint8_t *p, uint64_t v)
{
    put32(p, (uint32_t)(v >> 32));
    put32(p + 4, (uint32_t)v);
}

/* The PSW's form is BC. */
static int basic(const struct cpu *c)
{
    return c->system370 && !(c->left & BIT(12));
}

static uint32_t wrap(const struct cpu *c, uint64_t a)
{
    return (uint32_t)(a & ((c->right & BIT(0)) && !c->system370 ? 0x7fffffffu : 0xffffffu));
}

static uint32_t instruction_address(const struct cpu *c)
{
    return c->right & (c->system370 ? 0xffffffu : 0x7fffffffu);
}

static void go_to(struct cpu *c, uint32_t a)
{
    c->right = (c->right & (c->system370 ? 0xff000000u : BIT(0))) | wrap(c, a);
}

static void mark(struct guest *g, uint32_t at, int store)
{
    if (!g->dry)
        g->keys[at >> 12] |= store ? 6 : 4;
}

static void mark_text(struct guest *g)
{
    int i;

    if (g->dry)
        return;
    for (i = 0; i < g->frames; i++)
        g->keys[g->frame[i]] |= 4;
}

static int intercept(struct guest *g, unsigned code, unsigned ilc, unsigned interruption, uint32_t address, int with_text)
{
    int i;

    g->stop = answer(INTERCEPTED, code);
    g->results[0] = (uint8_t)code;
    g->results[1] = (uint8_t)ilc;
    g->results[2] = (uint8_t)(interruption >> 8);
    g->results[3] = (uint8_t)interruption;
    put32(g->results + 4, address);
    for (i = 0; i < 3; i++) {
        g->results[8 + 2 * i] = with_text ? (uint8_t)(g->text[i] >> 8) : 0;
        g->results[9 + 2 * i] = with_text ? (uint8_t)g->text[i] : 0;
    }
    return 0;
}

static int host_fault(struct guest *g, uint64_t stop, uint64_t where)
{
    g->stop = stop;
    g->where = where;
    return 0;
}

/* An interruption: 1 where the unit completed. All areas stand in the prefix page. */
static int interrupt(struct guest *g, uint32_t old, uint32_t code, uint32_t new, uint32_t word_stored, int with_address,
                     uint32_t address)
{
    uint32_t entry = 0, at, left, right;
    uint32_t a = g->s.origin + g->s.prefix + old;
    uint64_t where = 0, stop = host_page(&g->s, a, &entry, &where);

    if (stop)
        return host_fault(g, stop, where);
    if (entry & BIT(22))
        return host_fault(g, answer(HOST_FAULT, PROTECTION), a);
    at = entry & BLOCK;
    left = word(g->storage + at + new);
    right = word(g->storage + at + new + 4);
    if (basic(&g->c)) {
        put32(g->storage + at + old, (g->c.left & 0xffff0000u) | (word_stored & 0xffff));
        put32(g->storage + at + old + 4, word_stored >> 17 << 30 | (g->c.right & 0x3fffffffu));
    } else {
        put32(g->storage + at + old, g->c.left);
        put32(g->storage + at + old + 4, g->c.right);
        put32(g->storage + at + code, word_stored);
        if (with_address)
            put32(g->storage + at + code + 4, address);
    }
    g->c.left = left;
    g->c.right = right;
    mark_text(g);
    mark(g, at, 1);
    return 1;
}

/* A program exception, or a host fault: 1 where the unit completed. Before is the state that a fault goes back to. */
static int exception(struct guest *g, const struct cpu *before, uint64_t stop, uint64_t where, uint32_t virtual)
{
    unsigned code = (unsigned)(stop >> 48 & 255);
    int translation = code == SEGMENT || code == PAGE;
    struct cpu at_start = *before;

    if (stop >> 56 == HOST_FAULT) {
        g->c = at_start;
        return host_fault(g, stop, where);
    }
    if (!translation && g->ilc)
        go_to(&g->c, instruction_address(&g->c) + 2u * g->ilc);
    if (code == 1 && (g->record[5] & 0x80))
        return intercept(g, 44, g->ilc, 0, 0, 1);
    if (g->record[5] & 0x40)
        return intercept(g, 8, g->ilc, code, translation ? virtual & ~4095u : 0, 0);
    if (interrupt(g, 40, 140, 104, (uint32_t)g->ilc << 17 | code, translation, virtual & ~4095u))
        return 1;
    g->c = at_start;
    return 0;
}

static uint64_t find(struct guest *g, uint32_t a, uint32_t n, int store, struct operand *o, uint32_t *failed_at)
{
    uint32_t here = 4096 - (a & 4095), psw = g->c.system370 ? g->c.left & ~BIT(5) : g->c.left;
    uint64_t stop, where = 0;

    *failed_at = a;
    stop = reach_byte(&g->s, g->keys, psw, g->c.cr[0], g->c.cr[1], a, store, &where);
    g->where = where;
    if (stop >> 56 != GOOD)
        return stop;
    o->first = (uint32_t)where;
    o->n = n < here ? n : here;
    o->length = n;
    o->second = 0;
    if (n > here) {
        *failed_at = wrap(&g->c, (uint64_t)a + here);
        stop = reach_byte(&g->s, g->keys, psw, g->c.cr[0], g->c.cr[1], *failed_at, store, &where);
        g->where = where;
        if (stop >> 56 != GOOD)
            return stop;
        o->second = (uint32_t)where;
    }
    return 0;
}

static void mark_operand(struct guest *g, const struct operand *o, int store)
{
    mark_text(g);
    mark(g, o->first, store);
    if (o->length > o->n)
        mark(g, o->second, store);
}

static void get(const struct guest *g, const struct operand *o, uint8_t *bytes)
{
    uint32_t i;

    for (i = 0; i < o->n; i++)
        bytes[i] = g->storage[o->first + i];
    for (; i < o->length; i++)
        bytes[i] = g->storage[o->second + i - o->n];
}

static void put(struct guest *g, const struct operand *o, const uint8_t *bytes)
{
    uint32_t i;

    if (g->dry)
        return;
    for (i = 0; i < o->n; i++)
        g->storage[o->first + i] = bytes[i];
    for (; i < o->length; i++)
        g->storage[o->second + i - o->n] = bytes[i];
}

static int excepted(struct guest *g, unsigned code)
{
    return exception(g, &g->c, answer(EXCEPTION, code), 0, 0);
}

/* One halfword of the text: 1 where it is fetched. */
static int fetch_half(struct guest *g, int i, int *done)
{
    struct operand o;
    uint32_t failed_at, a = wrap(&g->c, (uint64_t)instruction_address(&g->c) + 2u * (unsigned)i);
    uint64_t stop = find(g, a, 2, 0, &o, &failed_at);

    if (stop) {
        *done = exception(g, &g->c, stop, g->where, failed_at);
        return 0;
    }
    g->text[i] = half(g->storage + o.first);
    if (g->frames == 0 || g->frame[g->frames - 1] != o.first >> 12)
        g->frame[g->frames++] = o.first >> 12;
    return 1;
}

static uint32_t part(const struct cpu *c, uint32_t i)
{
    return i ? c->gr[i] : 0;
}

static void set_code(struct cpu *c, uint32_t code)
{
    if (basic(c))
        c->right = (c->right & ~0x30000000u) | code << 28;
    else
        c->left = (c->left & ~0x3000u) | code << 12;
}

static uint32_t code_of(const struct cpu *c)
{
    return (basic(c) ? c->right >> 28 : c->left >> 12) & 3;
}

static int overflow_enabled(const struct cpu *c)
{
    return (basic(c) ? c->right & BIT(4) : c->left & BIT(20)) != 0;
}

static int sum(struct guest *g, uint32_t r1, uint32_t value, int overflow)
{
    struct cpu before = g->c;

    g->c.gr[r1] = value;
    set_code(&g->c, overflow ? 3 : value == 0 ? 0 : value & BIT(0) ? 1 : 2);
    if (overflow && overflow_enabled(&g->c))
        return exception(g, &before, answer(EXCEPTION, 8), 0, 0);
    mark_text(g);
    go_to(&g->c, instruction_address(&g->c) + 2);
    return 1;
}

static int svc_intercepted(const uint8_t *r, uint32_t number)
{
    return (r[48] & 0x80) || ((r[48] & 0x40) && r[49] == number) || ((r[48] & 0x20) && r[50] == number)
           || ((r[48] & 0x10) && r[51] == number);
}

/* The instruction whose text is fetched: 1 where the unit completed. */
static int perform(struct guest *g)
{
    struct cpu *c = &g->c;
    uint32_t first = g->text[0], op = first >> 8, r1 = first >> 4 & 15, r2 = first & 15;
    uint32_t base = part(c, g->text[1] >> 12), disp = g->text[1] & 4095, next = instruction_address(c) + 2u * g->ilc;
    uint32_t b2 = wrap(c, (uint64_t)base + disp), x2 = wrap(c, (uint64_t)base + part(c, r2) + disp);
    uint32_t count = (r2 - r1) % 16 + 1, i, failed_at, taken = 8u >> code_of(c) & r1;
    int privileged = op == 0x82 || op == 0x83 || op == 0xae || op == 0xb6 || op == 0xb7;
    int asked = 0, mandatory = op == 0x83 || op == 0xae;
    uint8_t bytes[64];
    struct operand o;
    uint64_t stop;

    if (op == 0xb2) {
        op = first;
        mandatory = op >= 0xb230 && op <= 0xb23c && !c->system370;
        privileged = op == 0xb208 || op == 0xb209 || mandatory;
    } else if (op >= 0x9c && op <= 0x9f && c->system370)
        privileged = mandatory = 1;
    if (privileged && (c->left & BIT(15)))
        return excepted(g, 2);
    if (op == 0x0a)
        asked = svc_intercepted(g->record, first & 255);
    if (op == 0x82)
        asked = g->record[5] >> 5 & 1;
    if (op == 0xb7)
        for (i = 0; i < count; i++)
            asked |= (int)(half(g->record + 6) >> (15 - (r1 + i) % 16) & 1);
    if (asked || mandatory) {
        go_to(c, next);
        return intercept(g, 4, g->ilc, 0, 0, 1);
    }
    if (((op == 0x82 || op == 0xb208 || op == 0xb209) && b2 % 8) || ((op == 0xb6 || op == 0xb7) && b2 % 4))
        return excepted(g, 6);
    switch (op) {
    case 0x18:
        mark_text(g);
        c->gr[r1] = c->gr[r2];
        go_to(c, next);
        return 1;
    case 0x1a:
        return sum(g, r1, c->gr[r1] + c->gr[r2], (~(c->gr[r1] ^ c->gr[r2]) & (c->gr[r1] ^ (c->gr[r1] + c->gr[r2]))) >> 31);
    case 0x1b:
        return sum(g, r1, c->gr[r1] - c->gr[r2], ((c->gr[r1] ^ c->gr[r2]) & (c->gr[r1] ^ (c->gr[r1] - c->gr[r2]))) >> 31);
    case 0x07:
        mark_text(g);
        go_to(c, taken && r2 ? c->gr[r2] : next);
        return 1;
    case 0x0a: {
        struct cpu before = *c;

        go_to(c, next);
        if (interrupt(g, 32, 136, 96, (uint32_t)g->ilc << 17 | (first & 255), 0, 0))
            return 1;
        *c = before;
        return 0;
    }
    case 0x41:
        mark_text(g);
        c->gr[r1] = x2;
        go_to(c, next);
        return 1;
    case 0x47:
        mark_text(g);
        go_to(c, taken ? x2 : next);
        return 1;
    case 0x50:
    case 0xb6:
    case 0xb205:
    case 0xb209:
        stop = find(g, op == 0x50 ? x2 : b2, op == 0x50 ? 4 : op == 0xb6 ? 4 * count : 8, 1, &o, &failed_at);
        if (stop)
            return exception(g, c, stop, g->where, failed_at);
        if (op == 0x50)
            put32(bytes, c->gr[r1]);
        else if (op == 0xb6)
            for (i = 0; i < count; i++)
                put32(bytes + 4 * i, c->cr[(r1 + i) % 16]);
        else
            put64(bytes, op == 0xb209 ? c->timer : g->clock + double_word(g->record + 40));
        put(g, &o, bytes);
        mark_operand(g, &o, 1);
        if (op == 0xb205)
            set_code(c, 0);
        go_to(c, next);
        return 1;
    case 0x58:
    case 0x82:
    case 0xb7:
    case 0xb208:
        stop = find(g, op == 0x58 ? x2 : b2, op == 0x58 ? 4 : op == 0xb7 ? 4 * count : 8, 0, &o, &failed_at);
        if (stop)
            return exception(g, c, stop, g->where, failed_at);
        get(g, &o, bytes);
        mark_operand(g, &o, 0);
        go_to(c, next);
        if (op == 0x58)
            c->gr[r1] = word(bytes);
        else if (op == 0xb208)
            c->timer = double_word(bytes);
        else if (op == 0xb7)
            for (i = 0; i < count; i++)
                c->cr[(r1 + i) % 16] = word(bytes + 4 * i);
        else {
            c->left = word(bytes);
            c->right = word(bytes + 4);
        }
        return 1;
    default:
        return excepted(g, 1);
    }
}

/* The PSW asks for what is not installed; it is malformed; an I/O interruption is enabled. */

static int not_installed(const struct cpu *c)
{
    if (basic(c))
        return 0;
    return (c->left & (BIT(1) | BIT(16) | (c->system370 ? BIT(5) : 0))) != 0;
}

static int malformed(const struct cpu *c)
{
    if (basic(c))
        return 0;
    if (c->left & (BIT(0) | BIT(2) | BIT(3) | BIT(4) | BIT(17) | 255))
        return 1;
    if (c->system370)
        return (c->right & 0xff000000u) != 0;
    return !(c->left & BIT(12)) || (!(c->right & BIT(0)) && (c->right & 0x7f000000u));
}

static int io_enabled(const struct cpu *c)
{
    return (c->left & (basic(c) ? 0xfe000000u : BIT(6))) != 0;
}

/* One unit: 1 where it completed. */
static int unit(struct guest *g)
{
    struct cpu *c = &g->c;
    int done = 0, requests = g->record[3];
    int length;

    g->frames = 0;
    g->text[0] = g->text[1] = g->text[2] = 0;
    g->ilc = 0;
    if (requests & 4)
        return intercept(g, 40, 0, 0, 0, 0);
    if (not_installed(c))
        return intercept(g, 32, 0, 0, 0, 0);
    if (malformed(c))
        return excepted(g, 6);
    if ((c->left & BIT(7)) && (c->cr[0] & BIT(20)) && g->clock + double_word(g->record + 40) > double_word(g->record + 32))
        return intercept(g, 20, 0, 0x1004, 0, 0);
    if ((c->left & BIT(7)) && (c->cr[0] & BIT(21)) && c->timer >> 63)
        return intercept(g, 20, 0, 0x1005, 0, 0);
    if (g->active && (g->request & 128) && (c->left & BIT(7)) && (c->cr[0] & BIT(24))) {
        g->request &= 127;
        return intercept(g, 20, 0, 0x80, 0, 0);
    }
    if ((requests & 1) && (c->left & BIT(7)))
        return intercept(g, 16, 0, 0, 0, 0);
    if ((requests & 2) && io_enabled(c))
        return intercept(g, 24, 0, 0, 0, 0);
    if (c->left & BIT(14))
        return intercept(g, 28, 0, 0, 0, 0);
    g->ilc = 1;
    if (c->right & 1)
        return excepted(g, 6);
    if (!fetch_half(g, 0, &done))
        return done;
    length = g->text[0] >> 14 == 0 ? 1 : g->text[0] >> 14 == 3 ? 3 : 2;
    g->ilc = (uint8_t)length;
    if (length > 1 && !fetch_half(g, 1, &done))
        return done;
    if (length > 2 && !fetch_half(g, 2, &done))
        return done;
    return perform(g);
}

/* One unit with the interval timer's update, in which its word may fall. A host fault there undoes the unit. */
static int timed_unit(struct guest *g, uint32_t time)
{
    uint32_t risen = g->residue + 3 * time, entry = 0, a = g->s.origin + g->s.prefix + 80, old;
    struct cpu before = g->c;
    uint64_t stop = 0, where = a;
    uint8_t *at;

    if (risen >= PERIOD) {
        stop = host_page(&g->s, a, &entry, &where);
        if (stop == 0 && (entry & BIT(22)))
            stop = answer(HOST_FAULT, PROTECTION);
    }
    g->dry = stop != 0;
    if (!unit(g))
        return 0;
    if (stop) {
        g->c = before;
        return host_fault(g, stop, where);
    }
    g->residue = risen;
    if (risen < PERIOD)
        return 1;
    g->residue = risen - PERIOD;
    at = g->storage + ((entry & BLOCK) | 80);
    old = word(at);
    put32(at, old - 256);
    if (old < 256)
        g->request |= 128;
    return 1;
}

uint64_t plain_run(uint8_t *record, size_t record_len, uint8_t *storage, size_t storage_len, uint8_t *keys, size_t keys_len,
                   uint32_t designation, uint64_t clock, uint32_t time, uint32_t budget, uint64_t *where)
{
    unsigned refusal = bad_head(record, record_len);
    struct guest g;
    uint32_t units;
    int i;

    if (refusal == 0)
        refusal = bad_sizes(storage_len, keys_len);
    if (refusal == 0 && budget > 65535)
        refusal = 5;
    if (refusal == 0 && (time < 1 || time > 1048576))
        refusal = 6;
    if (refusal == 0 && reserved_used(record))
        refusal = 7;
    if (refusal)
        return answer(REFUSED, refusal);
    for (i = 0; i < 14; i++)
        record[52 + i] = g.results[i] = 0;
    *where = 0;
    if (entry_fails(record)) {
        record[52] = VALIDITY;
        return answer(INTERCEPTED, VALIDITY);
    }
    g.s.storage = storage;
    g.s.length = (uint32_t)storage_len;
    g.s.designation = designation;
    g.s.prefix = word(record + 8) & BLOCK;
    g.s.origin = half(record + 12) * 65536;
    g.s.extent = half(record + 14) * 65536;
    g.storage = storage;
    g.keys = keys;
    g.record = record;
    g.clock = clock;
    g.stop = 0;
    g.where = 0;
    g.dry = 0;
    g.request = record_len == 208 ? record[200] : 0;
    g.residue = record_len == 208 ? word(record + 204) : 0;
    g.c.system370 = is_system370(record);
    g.active = g.c.system370 && !(record[4] & 1);
    g.c.left = word(record + 16);
    g.c.right = word(record + 20);
    g.c.timer = double_word(record + 24);
    for (i = 0; i < 16; i++) {
        g.c.cr[i] = word(record + 72 + 4 * i);
        g.c.gr[i] = word(record + 136 + 4 * i);
    }
    for (units = 0; units < budget && (g.active ? timed_unit(&g, time) : unit(&g)); units++) {
        g.c.timer -= time;
        g.clock += time;
    }
    if (g.active) {
        record[200] = g.request;
        put32(record + 204, g.residue);
    }
    put32(record + 16, g.c.left);
    put32(record + 20, g.c.right);
    put64(record + 24, g.c.timer);
    for (i = 0; i < 16; i++) {
        put32(record + 72 + 4 * i, g.c.cr[i]);
        put32(record + 136 + 4 * i, g.c.gr[i]);
    }
    for (i = 0; i < 14; i++)
        record[52 + i] = g.results[i];
    if (g.stop >> 56 == HOST_FAULT)
        *where = g.where;
    return (g.stop ? g.stop : answer(BUDGET, 0)) | units;
}

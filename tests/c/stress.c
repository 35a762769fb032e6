/* The calls on a bench, on lists that are blocks of their own of exactly their size. Random calls give what the wrappers and the replay
 * give; with one list too short, or refused, they change nothing; on rubbish they end and stay inside their lists. Prints one line; the
 * exit status is 1 where anything differs.
 *
 * valgrind sees a touch past a block. AddressSanitizer sees it only in code that it was built into, not in the library: with -DGUARD every
 * block ends where a stretch of pages begins that may not be touched. */
#ifdef GUARD
#define _DEFAULT_SOURCE
#include <sys/mman.h>
#endif
#include "scrollcairn_replay.h"
#include <stdio.h>
#include <stdlib.h>
#include <string.h>

enum { ROUNDS = 30, CALLS = 700, OPENS = 1500, OPEN = SCROLLCAIRN_CALL_REST + 1, KINDS };
enum { GROUPS, PARENTS, TABLES, MESSAGES, PAIRS, GAUGES, HOPS, BOOK, LISTS };

static const size_t places[LISTS] = {
    SCROLLCAIRN_GROUPS, SCROLLCAIRN_UNITS, SCROLLCAIRN_TABLES, SCROLLCAIRN_MESSAGE_NUMBERS,
    SCROLLCAIRN_PAIRS, SCROLLCAIRN_GAUGES, SCROLLCAIRN_HOPS, SCROLLCAIRN_BOOK};
static const size_t widths[LISTS] = {
    sizeof(uint32_t), sizeof(uint8_t), sizeof(uint32_t), sizeof(uint32_t),
    sizeof(uint16_t[32][32]), sizeof(uint16_t), sizeof(scrollcairn_hop), sizeof(uint16_t)};

/* The lists that each kind of call is lent. */
static const uint8_t lent[KINDS][LISTS] = {
    {0, 0, 1, 1, 1, 0, 1, 0}, {0, 0, 1, 1, 1, 1, 1, 1}, {0, 0, 1, 0, 0, 1, 0, 1}, {0, 0, 1, 0, 0, 1, 0, 1}, {0, 0, 0, 0, 0, 0, 1, 0},
    {1, 1, 1, 1, 1, 1, 1, 1}};

struct lists {
    size_t units, count;
    scrollcairn_totals totals;
    void *list[LISTS];
    size_t length[LISTS];
};

struct call {
    uint16_t kind, a, b;
    uint32_t c;
};

/* The calls of a round, as the replay is given them, and the replies that it must give. */
struct record {
    size_t calls, numbers;
    uint32_t call[CALLS * SCROLLCAIRN_CALL_NUMBERS];
    uint16_t reply[CALLS * SCROLLCAIRN_REPLY_NUMBERS];
};

/* How often each refusal and kind of reply came, and each list of a call was one element too short. */
static unsigned refusals[18], replies[9], shorts[KINDS][LISTS];
static int failed;

static void expect(int holds, const char *what) {
    if (!holds && !failed)
        printf("stress: not so: %s\n", what);
    failed = failed || !holds;
}

/* Pseudo-random numbers. */
static uint32_t any(void) {
    static uint32_t state = 1988;
    state ^= state << 13;
    state ^= state >> 17;
    state ^= state << 5;
    return state;
}

static uint16_t below(uint32_t n) { return (uint16_t)(any() % n); }

/* ---- blocks and lists */

#ifdef GUARD
enum { PAGE = 4096, STRETCH = 1 << 20 }; /* more than 65,535 hop records */

static size_t pages(size_t size) { return (size + PAGE - 1) / PAGE * PAGE; }

static void *take(size_t size) {
    char *block = mmap(NULL, pages(size) + STRETCH, PROT_NONE, MAP_PRIVATE | MAP_ANONYMOUS, -1, 0);
    if (block == MAP_FAILED || mprotect(block, pages(size), PROT_READ | PROT_WRITE) != 0)
        exit(2);
    return block + pages(size) - size;
}

static void give_back(void *block, size_t size) { munmap((char *)block + size - pages(size), pages(size) + STRETCH); }
#else
static void *take(size_t size) {
    void *block = malloc(size);
    if (block == NULL)
        exit(2);
    return block;
}

static void give_back(void *block, size_t size) {
    (void)size;
    free(block);
}
#endif

static void scribble(void *block, size_t size) {
    uint32_t word = any();
    for (uint8_t *byte = block; size > 0; size--, word = size % 4 == 0 ? any() : word >> 8)
        *byte++ = (uint8_t)word;
}

/* Lists of rubbish; `more` elements longer than a call needs. */
static struct lists rubbish_lists(size_t more) {
    struct lists l = {0, 0, {0, 0, 0, 0}, {NULL}, {0}};
    for (int i = 0; i < LISTS; i++) {
        l.length[i] = places[i] + more;
        l.list[i] = take(l.length[i] * widths[i]);
        scribble(l.list[i], l.length[i] * widths[i]);
    }
    return l;
}

/* A copy, of which list `cut` has `length` elements only. */
static struct lists copy_of(const struct lists *l, int cut, size_t length) {
    struct lists copy = *l;
    for (int i = 0; i < LISTS; i++) {
        copy.length[i] = i == cut ? length : l->length[i];
        copy.list[i] = take(copy.length[i] * widths[i]);
        memcpy(copy.list[i], l->list[i], copy.length[i] * widths[i]);
    }
    return copy;
}

static void free_lists(struct lists *l) {
    for (int i = 0; i < LISTS; i++)
        give_back(l->list[i], l->length[i] * widths[i]);
}

/* A record's last byte is no member, and a call that stores a record may leave anything there: a number, for comparing bytes. */
static void fill_gaps(scrollcairn_hop *hops) {
    uint8_t *byte = (uint8_t *)hops;
    for (size_t i = 0; i < SCROLLCAIRN_HOPS; i++)
        byte[i * sizeof *hops + sizeof *hops - 1] = 0;
}

static int same_totals(scrollcairn_totals a, scrollcairn_totals b) {
    return a.made == b.made && a.taken == b.taken && a.sent == b.sent && a.routed == b.routed;
}

/* Byte for byte, as far as list b goes, from element `from` on. */
static int same_list(const struct lists *a, const struct lists *b, int i, size_t from) {
    size_t start = from * widths[i], end = b->length[i] * widths[i];
    return end <= start || memcmp((char *)a->list[i] + start, (char *)b->list[i] + start, end - start) == 0;
}

static int same_lists(const struct lists *a, const struct lists *b) {
    int same = same_totals(a->totals, b->totals);
    for (int i = 0; i < LISTS; i++)
        same = same && same_list(a, b, i, 0);
    return same;
}

/* ---- calls */

static scrollcairn_step open_lists(struct lists *l) {
    void **p = l->list;
    size_t *n = l->length;
    return scrollcairn_open(l->units, p[GROUPS], n[GROUPS], l->count, p[PARENTS], n[PARENTS], p[TABLES], n[TABLES],
                            p[MESSAGES], n[MESSAGES], p[PAIRS], n[PAIRS], p[GAUGES], n[GAUGES], p[HOPS], n[HOPS], p[BOOK], n[BOOK]);
}

/* A log as the replay replies. */
static scrollcairn_reply log_lists(const struct lists *l, uint16_t unit, const uint16_t **first) {
    void *const *p = l->list;
    const size_t *n = l->length;
    scrollcairn_part part = scrollcairn_log(unit, p[TABLES], n[TABLES], p[GAUGES], n[GAUGES], p[BOOK], n[BOOK]);
    scrollcairn_reply reply = {0, SCROLLCAIRN_REPLY_LOG, (uint16_t)part.length};
    expect(part.start <= n[BOOK] && part.length <= n[BOOK] - part.start, "a log is inside the book");
    expect(part.length <= SCROLLCAIRN_MESSAGES && (part.start == 0 || part.start == SCROLLCAIRN_MESSAGES * (size_t)unit), "and in its row");
    *first = (const uint16_t *)p[BOOK] + part.start;
    return reply;
}

/* One call; `first` gets where a log begins. */
static scrollcairn_step call_lists(struct lists *l, struct call c, const uint16_t **first) {
    void **p = l->list;
    size_t *n = l->length;
    scrollcairn_step step = {l->totals, {0, 0, 0}};
    switch (c.kind) {
    case SCROLLCAIRN_CALL_SEND:
        return scrollcairn_send(l->totals, c.a, c.b, c.c, p[TABLES], n[TABLES], p[MESSAGES], n[MESSAGES], p[PAIRS], n[PAIRS],
                                p[HOPS], n[HOPS]);
    case SCROLLCAIRN_CALL_ARRIVE:
        return scrollcairn_arrive(l->totals, c.a, p[TABLES], n[TABLES], p[MESSAGES], n[MESSAGES], p[PAIRS], n[PAIRS],
                                  p[GAUGES], n[GAUGES], p[HOPS], n[HOPS], p[BOOK], n[BOOK]);
    case SCROLLCAIRN_CALL_LOG:
        step.reply = log_lists(l, c.a, first);
        return step;
    case SCROLLCAIRN_CALL_LOG_LENGTH:
        step.reply = scrollcairn_log_length(c.a, p[TABLES], n[TABLES], p[GAUGES], n[GAUGES], p[BOOK], n[BOOK]);
        return step;
    case SCROLLCAIRN_CALL_REST:
        step.reply = scrollcairn_rest(l->totals, p[HOPS], n[HOPS]);
        return step;
    default:
        return open_lists(l);
    }
}

/* The same call by its wrapper. */
static scrollcairn_reply call_bench(scrollcairn_bench *bench, struct call c, const uint16_t **first) {
    scrollcairn_reply reply = {0, SCROLLCAIRN_REPLY_LOG, 0};
    size_t length;
    switch (c.kind) {
    case SCROLLCAIRN_CALL_SEND:
        return scrollcairn_bench_send(bench, c.a, c.b, c.c);
    case SCROLLCAIRN_CALL_ARRIVE:
        return scrollcairn_bench_arrive(bench, c.a);
    case SCROLLCAIRN_CALL_LOG:
        *first = scrollcairn_bench_log(bench, c.a, &length);
        reply.value = (uint16_t)length;
        return reply;
    case SCROLLCAIRN_CALL_LOG_LENGTH:
        return scrollcairn_bench_log_length(bench, c.a);
    default:
        return scrollcairn_bench_rest(bench);
    }
}

static int is_reply(scrollcairn_reply r, unsigned refusal, unsigned kind, unsigned value) {
    return r.refusal == refusal && r.kind == kind && r.value == value;
}

/* The same call with one list too short: refused, and nothing changes. */
static void call_short(const struct lists *l, struct call c) {
    static const scrollcairn_totals none;
    const uint16_t *first;
    int cut = below(LISTS);
    while (!lent[c.kind][cut])
        cut = below(LISTS);
    size_t length = below(4) != 0 ? places[cut] - 1 : below((uint32_t)places[cut]);
    struct lists copy = copy_of(l, cut, length);
    scrollcairn_step step = call_lists(&copy, c, &first);
    if (c.kind == SCROLLCAIRN_CALL_LOG)
        expect(is_reply(step.reply, 0, SCROLLCAIRN_REPLY_LOG, 0) && first == copy.list[BOOK], "the log of a short list is empty");
    else
        expect(is_reply(step.reply, SCROLLCAIRN_REFUSAL_LIST_TOO_SHORT, SCROLLCAIRN_REPLY_REFUSED, 0), "a short list is refused");
    expect(same_totals(step.totals, c.kind == OPEN ? none : l->totals), "the totals of a short list");
    expect(same_lists(l, &copy), "a short list changes nothing");
    free_lists(&copy);
    shorts[c.kind][cut] += length == places[cut] - 1;
}

/* ---- forests */

/* A forest that is accepted: parents have lower numbers than their children, a group is a unit and some that it is above. A third are one
 * tree with unit 0 in every group, so that ways are long. */
static void draw(struct lists *l) {
    uint32_t *groups = l->list[GROUPS], above[SCROLLCAIRN_UNITS];
    uint8_t *parents = l->list[PARENTS];
    unsigned thin = 1u + below(4), tree = below(3) == 0;
    l->units = 1u + below(SCROLLCAIRN_UNITS);
    l->count = below(SCROLLCAIRN_GROUPS + 1);
    for (uint32_t u = 0; u < l->units; u++) {
        parents[u] = u == 0 || (!tree && below(6) == 0) ? SCROLLCAIRN_ROOT : (uint8_t)below(u);
        above[u] = (uint32_t)1 << u | (parents[u] == SCROLLCAIRN_ROOT ? 0 : above[parents[u]]);
    }
    for (size_t g = 0; g < l->count; g++) {
        uint16_t primary = tree ? 0 : below((uint32_t)l->units);
        groups[g] = (uint32_t)1 << primary;
        for (uint32_t u = 0; u < l->units; u++)
            if ((above[u] >> primary & 1) != 0 && below(thin) == 0)
                groups[g] |= (uint32_t)1 << u;
    }
}

/* Another number somewhere in it. */
static void spoil(struct lists *l) {
    uint32_t *groups = l->list[GROUPS];
    uint8_t *parents = l->list[PARENTS];
    switch (below(6)) {
    case 0:
        l->units = below(2) == 0 ? below(36) : any();
        return;
    case 1:
        l->count = below(2) == 0 ? below(28) : any();
        return;
    case 2:
        groups[below(SCROLLCAIRN_GROUPS)] = 0;
        return;
    case 3:
        groups[below(SCROLLCAIRN_GROUPS)] ^= (uint32_t)1 << below(SCROLLCAIRN_UNITS);
        return;
    default:
        parents[below(SCROLLCAIRN_UNITS)] = (uint8_t)below(34);
    }
}

static int is_zero(const struct lists *l, int i) {
    const uint8_t *byte = l->list[i];
    for (size_t at = 0; at < places[i] * widths[i]; at++)
        if (byte[at] != 0)
            return 0;
    return 1;
}

/* Opens a forest that may be bad: refused as scrollcairn_check refuses, with all left as it was; else a bench of zeros. */
static void open_any(size_t more) {
    uint8_t parents[SCROLLCAIRN_UNITS];
    uint64_t answer[3];
    struct lists l = rubbish_lists(more);
    draw(&l);
    for (unsigned n = below(4); n > 0; n--)
        spoil(&l);
    struct lists before = copy_of(&l, LISTS, 0);
    struct call open = {OPEN, 0, 0, 0};
    call_short(&l, open);
    scrollcairn_check(l.units, l.list[GROUPS], l.count, l.list[PARENTS], parents, answer);
    scrollcairn_step step = open_lists(&l);
    expect(step.reply.refusal == answer[0] && step.reply.value == answer[1], "open refuses as check does");
    expect(step.reply.kind == (answer[0] == 0 ? SCROLLCAIRN_REPLY_OPENED : SCROLLCAIRN_REPLY_REFUSED), "the kind of an open");
    expect(same_totals(step.totals, before.totals), "the totals of an open are zeros");
    if (answer[0] == 0)
        fill_gaps(l.list[HOPS]);
    for (int i = 0; i < LISTS; i++) {
        expect(same_list(&l, &before, i, answer[0] == 0 && i > PARENTS ? places[i] : 0), "an open leaves the rest, refused all");
        expect(answer[0] != 0 || i <= TABLES || is_zero(&l, i), "a fresh bench has zeros");
    }
    refusals[step.reply.refusal % 18]++;
    replies[step.reply.kind % 9]++;
    free_lists(&before);
    free_lists(&l);
}

/* ---- rounds */

/* A call on a bench as it is, sometimes one that is refused. */
static struct call some_call(const struct lists *l, unsigned sends) {
    static const uint16_t far[] = {32, 200, 2000, 65535};
    struct call c = {below(10), below(40), below((uint32_t)l->count + 1), any()};
    if (c.kind > SCROLLCAIRN_CALL_REST)
        c.kind = below(4) < sends ? SCROLLCAIRN_CALL_SEND : SCROLLCAIRN_CALL_ARRIVE;
    if (c.kind == SCROLLCAIRN_CALL_SEND && below(8) != 0)
        c.a = below((uint32_t)l->units);
    if (c.kind == SCROLLCAIRN_CALL_ARRIVE)
        c.a = below(2) == 0 ? below(l->totals.made + 2u) : (uint16_t)(l->totals.taken + below(8));
    if (below(40) == 0)
        c.a = far[below(4)];
    return c;
}

static void put(struct record *r, struct call c, scrollcairn_reply reply, const uint16_t *first) {
    uint32_t call[] = {c.kind, c.a, c.b, c.c, SCROLLCAIRN_HOPS_LENT, SCROLLCAIRN_BOOK};
    memcpy(r->call + r->calls * SCROLLCAIRN_CALL_NUMBERS, call, sizeof call);
    memcpy(r->reply + r->numbers, &reply, sizeof reply);
    r->calls++;
    r->numbers += 3;
    if (c.kind == SCROLLCAIRN_CALL_LOG) {
        memcpy(r->reply + r->numbers, first, reply.value * sizeof *first);
        r->numbers += reply.value;
    }
}

/* One call on the lists and on the struct. */
static void call_both(struct lists *l, scrollcairn_bench *bench, struct call c, struct record *r) {
    static const uint8_t changes[9] = {0, 1, 0, 1, 1, 0, 0, 0, 0}; /* sent, held, taken */
    const uint16_t *first = NULL, *other = NULL;
    struct lists before = copy_of(l, LISTS, 0);
    if (below(4) == 0)
        call_short(l, c);
    scrollcairn_step step = call_lists(l, c, &first);
    scrollcairn_reply reply = call_bench(bench, c, &other);
    l->totals = step.totals;
    expect(is_reply(reply, step.reply.refusal, step.reply.kind, step.reply.value), "the wrapper gives the same reply");
    expect(same_totals(l->totals, bench->totals), "and the same totals");
    if (c.kind == SCROLLCAIRN_CALL_LOG)
        expect(first - (uint16_t *)l->list[BOOK] == other - bench->book, "and the same part");
    if (changes[step.reply.kind % 9])
        fill_gaps(l->list[HOPS]);
    else
        expect(same_lists(l, &before), "what is refused, repeated or asked changes nothing");
    expect(same_list(l, &before, TABLES, 0), "the tables stay");
    put(r, c, step.reply, first);
    refusals[step.reply.refusal % 18]++;
    replies[step.reply.kind % 9]++;
    free_lists(&before);
}

/* The lists, and what the replay left: hop by hop, number by number. */
static void compare_left(const struct lists *l, const scrollcairn_bench *bench, const uint16_t *hop, const uint32_t *number) {
    const uint32_t *messages = l->list[MESSAGES];
    const uint16_t *gauges = l->list[GAUGES], *pairs = l->list[PAIRS];
    const scrollcairn_hop *h = l->list[HOPS];
    scrollcairn_totals totals = {(uint16_t)number[0], (uint16_t)number[1], (uint16_t)number[2], (uint16_t)number[3]};
    int same = same_totals(l->totals, totals);
    for (size_t i = 0; i < SCROLLCAIRN_HOPS; i++, hop += 5) {
        const scrollcairn_hop *b = &bench->hops[i];
        same = same && h[i].sender == hop[0] && h[i].receiver == hop[1] && h[i].sequence == hop[2] && h[i].message == hop[3] &&
               h[i].state == hop[4] && b->sender == hop[0] && b->receiver == hop[1] && b->sequence == hop[2] && b->message == hop[3] &&
               b->state == hop[4];
    }
    for (size_t i = 0; i < SCROLLCAIRN_GAUGES; i++)
        same = same && gauges[i] == number[4 + i] && bench->gauges[i] == number[4 + i];
    for (size_t i = 0; i < SCROLLCAIRN_MESSAGE_NUMBERS; i++)
        same = same && messages[i] == number[36 + i] && bench->messages[i] == number[36 + i];
    for (size_t i = 0; i < 2048; i++)
        same = same && pairs[i] == number[636 + i] && bench->pairs[i / 1024][i / 32 % 32][i % 32] == number[636 + i];
    expect(same, "hops, counts and messages are those of the replay");
    expect(memcmp(l->list[TABLES], bench->tables, sizeof bench->tables) == 0, "the tables of list and struct are the same");
}

/* The calls of a round by the replay. */
static void replay(const struct lists *l, const scrollcairn_bench *bench, const struct record *r) {
    static uint16_t book[SCROLLCAIRN_BOOK], hops[SCROLLCAIRN_HOP_NUMBERS], given[CALLS * SCROLLCAIRN_REPLY_NUMBERS];
    static uint32_t numbers[SCROLLCAIRN_BENCH_NUMBERS];
    uint64_t answer[3];
    scrollcairn_calls(l->units, l->list[GROUPS], l->count, l->list[PARENTS], SCROLLCAIRN_HOPS_LENT, SCROLLCAIRN_BOOK,
                      r->call, r->calls * SCROLLCAIRN_CALL_NUMBERS, book, SCROLLCAIRN_BOOK, hops, SCROLLCAIRN_HOP_NUMBERS,
                      numbers, SCROLLCAIRN_BENCH_NUMBERS, given, CALLS * SCROLLCAIRN_REPLY_NUMBERS, answer);
    expect(answer[0] == 0 && answer[1] == r->calls && answer[2] == r->numbers, "the replay runs all calls");
    expect(memcmp(given, r->reply, r->numbers * sizeof given[0]) == 0, "the replay gives the same replies");
    expect(memcmp(book, l->list[BOOK], sizeof book) == 0 && memcmp(book, bench->book, sizeof book) == 0, "and the same book");
    compare_left(l, bench, hops, numbers);
}

/* Calls on a bench of which much or little is rubbish. */
static void call_rubbish(struct lists *l) {
    const uint16_t *first;
    for (int n = 0; n < 40; n++) {
        int i = TABLES + below(LISTS - TABLES);
        size_t size = below(3) == 0 ? l->length[i] : 1, at = below((uint32_t)(l->length[i] - size + 1));
        scribble((char *)l->list[i] + at * widths[i], size * widths[i]);
        if (below(3) == 0)
            scribble(&l->totals, sizeof l->totals);
        struct lists before = copy_of(l, LISTS, 0);
        struct call c = some_call(l, 2);
        l->totals = call_lists(l, c, &first).totals;
        fill_gaps(l->list[HOPS]);
        fill_gaps(before.list[HOPS]);
        expect(same_list(l, &before, TABLES, 0), "the tables stay, rubbish or not");
        for (int k = TABLES; k < LISTS; k++)
            expect(same_list(l, &before, k, lent[c.kind][k] ? places[k] : 0), "a list past its places, or not lent, stays");
        free_lists(&before);
    }
}

/* A bench opened in lists and in a struct, calls on both, the replay, rubbish. */
static void run_round(unsigned round) {
    static scrollcairn_bench bench, before;
    static struct record r;
    uint64_t answer[3];
    struct lists l = rubbish_lists(round % 3);
    draw(&l);
    r.calls = r.numbers = 0;
    if (round % 2 == 0)
        scrollcairn_build(l.units, l.list[GROUPS], l.count, l.list[PARENTS], answer);
    scrollcairn_reply reply = round % 2 == 0 ? scrollcairn_bench_build(&bench, l.units, l.list[GROUPS], l.count)
                                             : scrollcairn_bench_open(&bench, l.units, l.list[GROUPS], l.count, l.list[PARENTS]);
    expect(open_lists(&l).reply.kind == SCROLLCAIRN_REPLY_OPENED && is_reply(reply, 0, SCROLLCAIRN_REPLY_OPENED, 0), "a bench is opened");
    fill_gaps(l.list[HOPS]);
    for (int n = 0; n < CALLS; n++)
        call_both(&l, &bench, some_call(&l, 1 + round % 3), &r);
    replay(&l, &bench, &r);
    fill_gaps(bench.hops);
    memcpy(&before, &bench, sizeof before);
    reply = scrollcairn_bench_build(&bench, l.units, l.list[GROUPS], SCROLLCAIRN_GROUPS + 1);
    expect(is_reply(reply, SCROLLCAIRN_REFUSAL_BAD_COUNT, SCROLLCAIRN_REPLY_REFUSED, 0), "a build of 25 groups is refused");
    reply = scrollcairn_bench_open(&bench, 0, l.list[GROUPS], l.count, l.list[PARENTS]);
    expect(is_reply(reply, SCROLLCAIRN_REFUSAL_BAD_COUNT, SCROLLCAIRN_REPLY_REFUSED, 0), "an open of no units is refused");
    expect(memcmp(&bench, &before, sizeof bench) == 0, "refused, a struct stays as it was");
    call_rubbish(&l);
    free_lists(&l);
}

static void expect_all_came(void) {
    static const uint8_t wanted[] = {4, 5, 6, 10, 11, 12, 13, 14, 15, 16, 17};
    for (size_t i = 0; i < sizeof wanted; i++)
        expect(refusals[wanted[i]] > 0, "every refusal came");
    for (int kind = 0; kind < 9; kind++)
        expect(replies[kind] > 0, "every kind of reply came");
    for (int kind = 0; kind < KINDS; kind++)
        for (int i = 0; i < LISTS; i++)
            expect(!lent[kind][i] || shorts[kind][i] > 0, "every list of every call was one element too short");
}

int main(void) {
    for (unsigned n = 0; n < OPENS; n++)
        open_any(n % 3);
    for (unsigned round = 0; round < ROUNDS; round++)
        run_round(round);
    expect_all_came();
    if (!failed)
        printf("stress: %d opens and %d calls, whole, short and on rubbish: as they should be\n", OPENS, ROUNDS * CALLS);
    return failed;
}

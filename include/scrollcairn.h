/* Scrollcairn for C and C++: calls that are proved in Rattle (crates/scrollcairn_c; docs/CALLS.md). Link libscrollcairn_c.a.
 *
 * A bench that is kept by the caller is a `scrollcairn_bench`, and the calls on it are those at the end, scrollcairn_bench_open and on.
 * They need nothing else of this header; scrollcairn_run and its like take whole bench files and forests.
 *
 * Every call ends, touches no memory but its own stack and what it is lent, and is safe for every content of it. A pointer with a length
 * behind it is a list of so many numbers or records; the list may be empty, and no list that a call writes to may overlap another. A
 * refused call answers the number of the refusal, and changes nothing else that it is lent.
 *
 *   refusal                                                                        calls
 *    1  too short a lent list                                                      run, read, write; the six on lists of a bench
 *    2  a file of more than 32,768 bytes                                           read
 *    3  no line where one is due, a line without LF, or the wrong key              read
 *    4  a value in bad form; an empty group                                        read; build, check, open
 *    5  no units or more than 32, or more than 24 groups                           read, build, check, open
 *    6  a number of no unit, as member or parent                                   read, build, check, open
 *    7  members that do not go up                                                  read
 *    8  more or fewer parents than units                                           read
 *    9  one event more than 3,000                                                  read
 *   10  a unit among its own ancestors                                             check, open
 *   11  a group without a primary (told: the lowest such group)                    check, open
 *   12  a source that is no unit                                                   send
 *   13  a group that is none                                                       send
 *   14  one message more than 200                                                  send
 *   15  no room for the message's way: all ways may have 2,000 units in all        send
 *   16  a hop that was not made                                                    arrive
 *   17  a log of no unit                                                           log_length
 *
 * scrollcairn_run prints what its file meets of 2 to 16, and scrollcairn_log answers an empty part in place of 1 and 17.
 *
 * Threads: there is no global state and no heap. Calls on different benches and lists may run at the same time; one bench, or one list,
 * belongs to one thread at a time.
 *
 * Stack: scrollcairn_run takes some 120 KB; scrollcairn_open and scrollcairn_bench_open some 16 KB at most; the other calls on a bench
 * under 6 KB; the rest less than scrollcairn_run. */
#ifndef SCROLLCAIRN_H
#define SCROLLCAIRN_H

#include <stddef.h>
#include <stdint.h>

#define SCROLLCAIRN_VERSION_MAJOR 0
#define SCROLLCAIRN_VERSION_MINOR 3
#define SCROLLCAIRN_VERSION_PATCH 0
#define SCROLLCAIRN_VERSION "0.3.0"

#ifdef __cplusplus
extern "C" {
#endif

/* Limits, and how long lists are. */
enum {
    SCROLLCAIRN_UNITS = 32,
    SCROLLCAIRN_GROUPS = 24,
    SCROLLCAIRN_MESSAGES = 200,
    SCROLLCAIRN_TABLES = 140,
    SCROLLCAIRN_MESSAGE_NUMBERS = 600, /* three for each message */
    SCROLLCAIRN_PAIRS = 2,
    SCROLLCAIRN_GAUGES = 32,
    SCROLLCAIRN_HOPS = 2000,
    SCROLLCAIRN_BOOK = 6400,           /* log numbers: 32 rows of 200 */
    SCROLLCAIRN_EVENTS = 9000,         /* event numbers, three for each of 3,000 events */
    SCROLLCAIRN_FILE = 32768,          /* bytes of a bench file */
    SCROLLCAIRN_OUTPUT = 98740,        /* bytes that scrollcairn_run may print */
    SCROLLCAIRN_ROOT = 255             /* a root's parent */
};

/* The refusals of the table above. */
enum {
    SCROLLCAIRN_REFUSAL_LIST_TOO_SHORT = 1,
    SCROLLCAIRN_REFUSAL_FILE_TOO_LONG = 2,
    SCROLLCAIRN_REFUSAL_NO_LINE = 3,
    SCROLLCAIRN_REFUSAL_BAD_VALUE = 4,
    SCROLLCAIRN_REFUSAL_BAD_COUNT = 5,
    SCROLLCAIRN_REFUSAL_OUTSIDE_UNITS = 6,
    SCROLLCAIRN_REFUSAL_NOT_RISING = 7,
    SCROLLCAIRN_REFUSAL_WRONG_LENGTH = 8,
    SCROLLCAIRN_REFUSAL_TOO_MANY_EVENTS = 9,
    SCROLLCAIRN_REFUSAL_OWN_ANCESTOR = 10,
    SCROLLCAIRN_REFUSAL_NO_PRIMARY = 11,
    SCROLLCAIRN_REFUSAL_NO_SUCH_SOURCE = 12,
    SCROLLCAIRN_REFUSAL_NO_SUCH_GROUP = 13,
    SCROLLCAIRN_REFUSAL_TOO_MANY_MESSAGES = 14,
    SCROLLCAIRN_REFUSAL_WAYS_TOO_LONG = 15,
    SCROLLCAIRN_REFUSAL_HOP_NOT_MADE = 16,
    SCROLLCAIRN_REFUSAL_NO_SUCH_UNIT = 17
};

/* Kinds of reply, and what the reply's value is; it is 0 where nothing is told. */
enum {
    SCROLLCAIRN_REPLY_REFUSED = 0,     /* of refusal 11: the group */
    SCROLLCAIRN_REPLY_SENT = 1,        /* the message's number, from 1 on */
    SCROLLCAIRN_REPLY_REPEAT = 2,      /* a copy of a hop that is held or taken: nothing changes */
    SCROLLCAIRN_REPLY_HELD = 3,        /* the copy waits for its turn */
    SCROLLCAIRN_REPLY_TAKEN = 4,       /* how many copies were taken: this one, and those that waited for it */
    SCROLLCAIRN_REPLY_LOG_LENGTH = 5,  /* the length */
    SCROLLCAIRN_REPLY_REST = 6,        /* 1 for yes, 0 for no */
    SCROLLCAIRN_REPLY_OPENED = 8
};

/* States of a hop. */
enum { SCROLLCAIRN_HOP_OUT = 0, SCROLLCAIRN_HOP_HELD = 1, SCROLLCAIRN_HOP_TAKEN = 2 };

/* ---- Whole files and forests. Each call answers three numbers: answer[0] is 0, or the number of a refusal; answer[1] and answer[2] are as
 * told at the call, 0 where nothing is told. */

/* Runs a bench file; what is printed is left at the start of `out`, of at least SCROLLCAIRN_OUTPUT bytes.
 * Answers the bytes printed and the sum of the copies taken. Refused: 1. A file that is refused prints its line `refused=`. */
void scrollcairn_run(const uint8_t *file, size_t file_length, uint8_t *out, size_t out_length, uint64_t answer[3]);

/* Lays out a forest for `units` units and the first `count` groups; a group is the sum of 2^u
 * over its units u. Refused: 5, 4, 6, with line 0. */
void scrollcairn_build(size_t units, const uint32_t groups[24], size_t count, uint8_t parents[32], uint64_t answer[3]);

/* Checks a drawn forest; an accepted one is left in `parents`, with SCROLLCAIRN_ROOT from place `units` on.
 * Refused: 5, 4, 6, with line 0; 10; 11, with the group. */
void scrollcairn_check(size_t units, const uint32_t groups[24], size_t count, const uint8_t drawn[32], uint8_t parents[32],
                       uint64_t answer[3]);

/* Reads a bench file. `counts` gets the units, the groups that count, 1 for `parents=build` (else 0), and the events; `parents` the drawn
 * forest; `events`, of at least SCROLLCAIRN_EVENTS numbers, three numbers for each event: of a send source + 1, group and word, of an
 * arrival 0, hop and 0. Answers how many numbers were written to `events`, and the line of `parents=`. Refused: 1; 2 to 9, and at which
 * line. */
void scrollcairn_read(const uint8_t *file, size_t file_length, uint32_t *events, size_t events_length,
                      uint32_t groups[24], uint8_t parents[32], uint16_t counts[4], uint64_t answer[3]);

/* Writes the bench file that scrollcairn_read took apart, at the start of `out`, of at least SCROLLCAIRN_FILE bytes.
 * Of `counts` the first two are taken as their lowest eight bits, and a third other than 0 is `build`. Answers how many bytes.
 * Refused: 1. */
void scrollcairn_write(const uint32_t groups[24], const uint8_t parents[32], const uint16_t counts[4],
                       const uint32_t *events, size_t events_length, uint8_t *out, size_t out_length, uint64_t answer[3]);

/* ---- A bench in lists of the caller's own. A bench is its totals, by value, and six lists:
 *
 *   tables    140 numbers             what is computed of the forest; only scrollcairn_open writes it
 *   messages  600 numbers             200 sources, 200 groups, 200 words; message m has places m - 1, 199 + m and 399 + m
 *   pairs     2 arrays of 32 by 32    by sender and receiver: hops made, hops taken
 *   gauges    32 numbers              the length of each unit's log
 *   hops      2,000 records           in the order made, from hop 0 on; zeros past those made
 *   book      6,400 numbers           32 rows of 200: what unit u logged begins at 200 u
 *
 * A list may be longer: what lies past these places is not touched. A shorter one is refused with 1. */

typedef struct scrollcairn_hop {
    uint8_t sender, receiver;
    uint16_t sequence, message;        /* the number in sequence of this pair of units; the message's number */
    uint8_t state;                     /* SCROLLCAIRN_HOP_.. */
} scrollcairn_hop;

typedef struct scrollcairn_totals {
    uint16_t made, taken, sent, routed; /* hops made, hops taken, messages sent, the sum of their way sizes */
} scrollcairn_totals;

typedef struct scrollcairn_reply {
    uint16_t refusal, kind, value;     /* 0 or SCROLLCAIRN_REFUSAL_..; SCROLLCAIRN_REPLY_..; as told there */
} scrollcairn_reply;

/* The totals that the next call is given, and the reply. */
typedef struct scrollcairn_step {
    scrollcairn_totals totals;
    scrollcairn_reply reply;
} scrollcairn_step;

/* A part of the book: where it begins, and how many numbers it has. */
typedef struct scrollcairn_part {
    size_t start, length;
} scrollcairn_part;

/* Checks the forest as scrollcairn_check does, and makes a fresh bench on it; `groups` has at least 24 places, of which the first `count`
 * are groups, and `parents` at least 32. The totals are four zeros. Replies: opened. Refused: 1, 5, 4, 6, 10, 11, in this order. */
scrollcairn_step scrollcairn_open(size_t units, const uint32_t *groups, size_t groups_length, size_t count,
                                  const uint8_t *parents, size_t parents_length, uint32_t *tables, size_t tables_length,
                                  uint32_t *messages, size_t messages_length, uint16_t (*pairs)[32][32], size_t pairs_length,
                                  uint16_t *gauges, size_t gauges_length, scrollcairn_hop *hops, size_t hops_length,
                                  uint16_t *book, size_t book_length);

/* Sends a word, of 32 bits, from a source to a group: records the message, and a hop from the source to the group's primary, whose number
 * is that of the hops made before. Replies: sent. Refused: 1, 12, 13, 14, 15, in this order. */
scrollcairn_step scrollcairn_send(scrollcairn_totals totals, uint16_t source, uint16_t group, uint32_t word,
                                  uint32_t *tables, size_t tables_length, uint32_t *messages, size_t messages_length,
                                  uint16_t (*pairs)[32][32], size_t pairs_length, scrollcairn_hop *hops, size_t hops_length);

/* A cable brings a copy of a hop. What is taken is logged by members, and goes on to children as further hops, numbered on from the
 * hops made before. Replies: repeat, held, taken. Refused: 1, 16, in this order. */
scrollcairn_step scrollcairn_arrive(scrollcairn_totals totals, uint16_t hop, uint32_t *tables, size_t tables_length,
                                    uint32_t *messages, size_t messages_length, uint16_t (*pairs)[32][32], size_t pairs_length,
                                    uint16_t *gauges, size_t gauges_length, scrollcairn_hop *hops, size_t hops_length,
                                    uint16_t *book, size_t book_length);

/* Which part of the book is the unit's log: the numbers of the messages that it logged, in order. Never past the book's end, whatever the
 * lists hold. Start 0 and length 0 where a list is too short, or there is no such unit. */
scrollcairn_part scrollcairn_log(uint16_t unit, const uint32_t *tables, size_t tables_length, const uint16_t *gauges, size_t gauges_length,
                                 const uint16_t *book, size_t book_length);

/* The length of that log, or why there is none. Replies: log length. Refused: 1, 17, in this order. */
scrollcairn_reply scrollcairn_log_length(uint16_t unit, const uint32_t *tables, size_t tables_length,
                                         const uint16_t *gauges, size_t gauges_length, const uint16_t *book, size_t book_length);

/* Whether every hop made is taken. Replies: rest. Refused: 1. */
scrollcairn_reply scrollcairn_rest(scrollcairn_totals totals, const scrollcairn_hop *hops, size_t hops_length);

/* ---- A bench in one struct: 35,928 bytes of plain data, which the caller keeps where it likes (not on a small stack). A copy is a
 * snapshot, and goes its own way.
 *
 * Until it is opened its content may be anything: calls on it are safe, and what they answer is not promised. After
 * scrollcairn_bench_open or scrollcairn_bench_build replied opened, each call does exactly what the documents say, as long as nothing else
 * writes to the members; reading them is free. */
typedef struct scrollcairn_bench {
    scrollcairn_totals totals;
    uint32_t tables[SCROLLCAIRN_TABLES];
    uint32_t messages[SCROLLCAIRN_MESSAGE_NUMBERS];
    uint16_t pairs[SCROLLCAIRN_PAIRS][SCROLLCAIRN_UNITS][SCROLLCAIRN_UNITS];
    uint16_t gauges[SCROLLCAIRN_GAUGES];
    scrollcairn_hop hops[SCROLLCAIRN_HOPS];
    uint16_t book[SCROLLCAIRN_BOOK];
} scrollcairn_bench;

/* Opens a bench on a drawn forest (scrollcairn_open). A refused open leaves the bench as it was. */
static inline scrollcairn_reply scrollcairn_bench_open(scrollcairn_bench *bench, size_t units, const uint32_t groups[24], size_t count,
                                                       const uint8_t parents[32]) {
    scrollcairn_step step = scrollcairn_open(
        units, groups, SCROLLCAIRN_GROUPS, count, parents, SCROLLCAIRN_UNITS, bench->tables, SCROLLCAIRN_TABLES,
        bench->messages, SCROLLCAIRN_MESSAGE_NUMBERS, bench->pairs, SCROLLCAIRN_PAIRS, bench->gauges, SCROLLCAIRN_GAUGES,
        bench->hops, SCROLLCAIRN_HOPS, bench->book, SCROLLCAIRN_BOOK);
    if (step.reply.refusal == 0)
        bench->totals = step.totals;
    return step.reply;
}

/* Opens a bench on a forest that scrollcairn_build lays out. Refused: 5, 4, 6, in this order; the bench is then as it was. */
static inline scrollcairn_reply scrollcairn_bench_build(scrollcairn_bench *bench, size_t units, const uint32_t groups[24], size_t count) {
    scrollcairn_reply refused = {0, SCROLLCAIRN_REPLY_REFUSED, 0};
    uint8_t parents[SCROLLCAIRN_UNITS];
    uint64_t answer[3];
    scrollcairn_build(units, groups, count, parents, answer);
    if (answer[0] == 0)
        return scrollcairn_bench_open(bench, units, groups, count, parents);
    refused.refusal = answer[0] & 0xffff;
    return refused;
}

static inline scrollcairn_reply scrollcairn_bench_send(scrollcairn_bench *bench, uint16_t source, uint16_t group, uint32_t word) {
    scrollcairn_step step = scrollcairn_send(
        bench->totals, source, group, word, bench->tables, SCROLLCAIRN_TABLES, bench->messages, SCROLLCAIRN_MESSAGE_NUMBERS,
        bench->pairs, SCROLLCAIRN_PAIRS, bench->hops, SCROLLCAIRN_HOPS);
    bench->totals = step.totals;
    return step.reply;
}

static inline scrollcairn_reply scrollcairn_bench_arrive(scrollcairn_bench *bench, uint16_t hop) {
    scrollcairn_step step = scrollcairn_arrive(
        bench->totals, hop, bench->tables, SCROLLCAIRN_TABLES, bench->messages, SCROLLCAIRN_MESSAGE_NUMBERS,
        bench->pairs, SCROLLCAIRN_PAIRS, bench->gauges, SCROLLCAIRN_GAUGES, bench->hops, SCROLLCAIRN_HOPS, bench->book, SCROLLCAIRN_BOOK);
    bench->totals = step.totals;
    return step.reply;
}

/* The unit's log, a part of the bench's own book, and its length: 0 where there is no such unit. Further sends and arrivals may add to
 * the log, and leave what it has. */
static inline const uint16_t *scrollcairn_bench_log(const scrollcairn_bench *bench, uint16_t unit, size_t *length) {
    scrollcairn_part part = scrollcairn_log(
        unit, bench->tables, SCROLLCAIRN_TABLES, bench->gauges, SCROLLCAIRN_GAUGES, bench->book, SCROLLCAIRN_BOOK);
    *length = part.length;
    return bench->book + part.start;
}

static inline scrollcairn_reply scrollcairn_bench_log_length(const scrollcairn_bench *bench, uint16_t unit) {
    return scrollcairn_log_length(
        unit, bench->tables, SCROLLCAIRN_TABLES, bench->gauges, SCROLLCAIRN_GAUGES, bench->book, SCROLLCAIRN_BOOK);
}

/* Whether every hop made is taken: value 1. */
static inline scrollcairn_reply scrollcairn_bench_rest(const scrollcairn_bench *bench) {
    return scrollcairn_rest(bench->totals, bench->hops, SCROLLCAIRN_HOPS);
}

/* ---- The layouts that the library is compiled for; C99 has no word for an alignment. */
#if defined __cplusplus
#define SCROLLCAIRN_HOLDS(name, fact) static_assert(fact, #name)
#define SCROLLCAIRN_ALIGNED(type, bytes) (alignof(type) == (bytes))
#elif defined __STDC_VERSION__ && __STDC_VERSION__ >= 201112L
#define SCROLLCAIRN_HOLDS(name, fact) _Static_assert(fact, #name)
#define SCROLLCAIRN_ALIGNED(type, bytes) (_Alignof(type) == (bytes))
#else
#define SCROLLCAIRN_HOLDS(name, fact) typedef char scrollcairn_holds_##name[(fact) ? 1 : -1]
#define SCROLLCAIRN_ALIGNED(type, bytes) 1
#endif

SCROLLCAIRN_HOLDS(layout_of_hop, sizeof(scrollcairn_hop) == 8 && SCROLLCAIRN_ALIGNED(scrollcairn_hop, 2)
    && offsetof(scrollcairn_hop, sender) == 0 && offsetof(scrollcairn_hop, receiver) == 1 && offsetof(scrollcairn_hop, sequence) == 2
    && offsetof(scrollcairn_hop, message) == 4 && offsetof(scrollcairn_hop, state) == 6);
SCROLLCAIRN_HOLDS(layout_of_totals, sizeof(scrollcairn_totals) == 8 && SCROLLCAIRN_ALIGNED(scrollcairn_totals, 2)
    && offsetof(scrollcairn_totals, made) == 0 && offsetof(scrollcairn_totals, taken) == 2
    && offsetof(scrollcairn_totals, sent) == 4 && offsetof(scrollcairn_totals, routed) == 6);
SCROLLCAIRN_HOLDS(layout_of_reply, sizeof(scrollcairn_reply) == 6 && SCROLLCAIRN_ALIGNED(scrollcairn_reply, 2)
    && offsetof(scrollcairn_reply, refusal) == 0 && offsetof(scrollcairn_reply, kind) == 2 && offsetof(scrollcairn_reply, value) == 4);
SCROLLCAIRN_HOLDS(layout_of_step, sizeof(scrollcairn_step) == 14 && SCROLLCAIRN_ALIGNED(scrollcairn_step, 2)
    && offsetof(scrollcairn_step, totals) == 0 && offsetof(scrollcairn_step, reply) == 8);
SCROLLCAIRN_HOLDS(layout_of_part, sizeof(scrollcairn_part) == 2 * sizeof(size_t) && SCROLLCAIRN_ALIGNED(scrollcairn_part, sizeof(size_t))
    && offsetof(scrollcairn_part, start) == 0 && offsetof(scrollcairn_part, length) == sizeof(size_t));
SCROLLCAIRN_HOLDS(size_of_bench, sizeof(scrollcairn_bench) == 35928);

#undef SCROLLCAIRN_HOLDS
#undef SCROLLCAIRN_ALIGNED

#ifdef __cplusplus
}
#endif

#endif

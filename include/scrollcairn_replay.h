/* Scrollcairn's replay, for tests: a list of calls run on a bench of its own, in one call. Programs keep a bench (scrollcairn.h). */
#ifndef SCROLLCAIRN_REPLAY_H
#define SCROLLCAIRN_REPLAY_H

#include "scrollcairn.h"

#ifdef __cplusplus
extern "C" {
#endif

enum {
    SCROLLCAIRN_HOPS_LENT = 2008,      /* hop records that the calls of scrollcairn_calls may be lent */
    SCROLLCAIRN_HOP_NUMBERS = 10040,   /* five numbers for each of them */
    SCROLLCAIRN_BENCH_NUMBERS = 2684,
    SCROLLCAIRN_CALL_NUMBERS = 6,      /* numbers of one call */
    SCROLLCAIRN_REPLY_NUMBERS = 203    /* numbers of one reply, at most */
};

/* Kinds of call. */
enum {
    SCROLLCAIRN_CALL_SEND = 0,         /* source a, group b, word c */
    SCROLLCAIRN_CALL_ARRIVE = 1,       /* hop a */
    SCROLLCAIRN_CALL_LOG = 2,          /* unit a */
    SCROLLCAIRN_CALL_LOG_LENGTH = 3,   /* unit a */
    SCROLLCAIRN_CALL_REST = 4          /* and every number above */
};

/* A kind of reply beside those of scrollcairn.h. */
enum { SCROLLCAIRN_REPLY_LOG = 7 };    /* how many messages; they follow. Turned away: none */

/* Makes a fresh bench on a forest, lent the first `fresh_hops` of 2,008 hop records and the first `fresh_book` of `book`, and runs a list
 * of calls on it. A call is six numbers: kind, a, b, c, and how many hop records and log numbers it is lent (all there are where that is
 * more). A source, group, hop or unit above 65,535 is taken for 65,535, which is none. Fewer than six numbers at the end are no
 * call.
 *
 * `replies` gets three numbers for each call, in order: the number of the refusal (or 0), the kind of the reply, its value; behind those
 * of a log its messages.
 *
 * `hops` gets five numbers for each of the 2,008 records, as they are left: sender, receiver, number in sequence, message, state. The
 * last eight, which no call uses, held 9, 9, 9, 9, 9 before. `bench`, a list of 32-bit numbers, gets the hops made, the hops taken, the
 * messages sent, the sum of their way sizes; the length of each unit's log (32); the sources, groups and words of the messages (200 each,
 * 0 past the messages sent); by sender and receiver, the hops made (1,024), and the hops taken (1,024). `book` is the log book itself.
 *
 * Answers how many calls were run, and how many numbers `replies` got. Refused, in this order: 1 with 1, where `hops`, `bench` or
 * `replies` is shorter than SCROLLCAIRN_HOP_NUMBERS, SCROLLCAIRN_BENCH_NUMBERS, or SCROLLCAIRN_REPLY_NUMBERS for each call; 5, 4, 6, 10,
 * 11 as scrollcairn_check; 1 with 0, where a list lent to the fresh bench is too short. Its stack is some 60 KB. */
void scrollcairn_calls(size_t units, const uint32_t groups[24], size_t count, const uint8_t parents[32],
                       size_t fresh_hops, size_t fresh_book, const uint32_t *calls, size_t calls_length,
                       uint16_t *book, size_t book_length, uint16_t *hops, size_t hops_length,
                       uint32_t *bench, size_t bench_length, uint16_t *replies, size_t replies_length, uint64_t answer[3]);

#ifdef __cplusplus
}
#endif

#endif

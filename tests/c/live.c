/* Document 01's run P8, call by call: prints what the program prints for examples/rack-of-four.bench. */
#include "scrollcairn.h"
#include <stdio.h>

/* a group is the sum of 2^u over its units u; unit 0 is the root, 2 its child, 1 and 3 are the children of 2 */
static const uint32_t groups[SCROLLCAIRN_GROUPS] = {1 + 8, 1 + 2, 4 + 8, 2 + 4};
static const uint8_t parents[SCROLLCAIRN_UNITS] = {SCROLLCAIRN_ROOT, 2, 0, 2};
static const uint16_t copies[] = {0, 1, 2, 4, 3}; /* hops, as the cables bring them */
static scrollcairn_bench bench;

static void print_log(uint16_t unit) {
    size_t length;
    const uint16_t *log = scrollcairn_bench_log(&bench, unit, &length);
    printf("log=%u", unit);
    for (size_t i = 0; i < length; i++)
        printf(",%u", log[i]);
    printf("\n");
}

int main(void) {
    scrollcairn_reply reply = scrollcairn_bench_open(&bench, 4, groups, 4, parents);
    if (reply.kind != SCROLLCAIRN_REPLY_OPENED)
        return 1;
    scrollcairn_bench_send(&bench, 3, 0, 500); /* message 1, from unit 3 to group 0: hop 0, to its primary, unit 0 */
    scrollcairn_bench_send(&bench, 1, 2, 600); /* message 2, from unit 1 to group 2: hop 1, to its primary, unit 2 */
    for (size_t i = 0; i < sizeof copies / sizeof copies[0]; i++)
        reply = scrollcairn_bench_arrive(&bench, copies[i]);
    for (uint16_t unit = 0; unit < 4; unit++)
        print_log(unit);
    printf("hops=%u\nrest=%s\n", bench.totals.made, scrollcairn_bench_rest(&bench).value == 1 ? "yes" : "no");
    return reply.kind == SCROLLCAIRN_REPLY_TAKEN && reply.value == 2 ? 0 : 1; /* hop 3, and hop 4 that waited for it */
}

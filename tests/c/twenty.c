/* Document 01's run P8, from C: prints what the program prints. */
#include "scrollcairn.h"
#include <stdio.h>
#include <string.h>

static const char file[] =
    "units=4\ngroups=4\ngroup=0,3\ngroup=0,1\ngroup=2,3\ngroup=1,2\nparents=-,2,0,2\n"
    "send=3,0,500\nsend=1,2,600\narrive=0\narrive=1\narrive=2\narrive=4\narrive=3\n";

int main(void) {
    static uint8_t out[SCROLLCAIRN_OUTPUT];
    uint64_t answer[3];
    scrollcairn_run((const uint8_t *)file, strlen(file), out, sizeof out, answer);
    if (answer[0] != 0)
        return 1;
    fwrite(out, 1, answer[1], stdout);
    return answer[2] == 5 ? 0 : 1; /* five copies were taken */
}

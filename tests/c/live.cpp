// Document 01's run P8 in C++, with a word of 32 bits: prints what the program prints for examples/rack-of-four.bench. A copy of the
// bench goes its own way.
#include "scrollcairn.hpp"
#include <cstdio>

using namespace scrollcairn;

static const group_list groups = {{1 + 8, 1 + 2, 4 + 8, 2 + 4}};
static const std::uint16_t early[] = {0, 1, 2, 4};
static bench rack;

static void print_log(std::uint16_t unit) {
    std::printf("log=%u", unit);
    for (std::uint16_t message : rack.log(unit))
        std::printf(",%u", message);
    std::printf("\n");
}

// A bench without units: it was not opened, or its open was refused.
static bool is_empty(bench b) {
    return b.send(0, 0, 7).refused == refusal::no_such_source && b.arrive(0).refused == refusal::hop_not_made &&
           b.log_length(0).refused == refusal::no_such_unit && b.log(0).empty() && b.hops().empty() && b.at_rest();
}

// In the rack hop 4 is held. The snapshot takes it, with hop 3, and sends a third message.
static bool goes_its_own_way(bench snapshot) {
    const reply last = snapshot.arrive(3);
    return last && last.kind == reply_kind::taken && last.value == 2 && snapshot.send(0, 0, 1).value == 3 && snapshot.log(3).size() == 2 &&
           snapshot.log(3)[0] == 2 && snapshot.log(3)[1] == 1 && state_of(snapshot.hops()[4]) == hop_state::taken &&
           rack.log_length(3).value == 0 && state_of(rack.hops()[4]) == hop_state::held && rack.plain().totals.sent == 2;
}

int main() {
    const reply bad = rack.open(4, groups, 4, {{SCROLLCAIRN_ROOT, 0, 0, 0}}); // document 01's P5: group 2 has no primary
    if (bad || bad.refused != refusal::no_primary || bad.value != 2 || !is_empty(rack))
        return 1;
    if (!rack.build(4, groups, 4) || !rack.open(4, groups, 4, {{SCROLLCAIRN_ROOT, 2, 0, 2}}))
        return 1;
    rack.send(3, 0, 500);
    rack.send(1, 2, 4294967295);
    if (rack.plain().messages[SCROLLCAIRN_MESSAGES * 2 + 1] != 4294967295)
        return 1;
    for (std::uint16_t hop : early)
        rack.arrive(hop);
    if (!goes_its_own_way(rack))
        return 1;
    rack.arrive(3);
    for (std::uint16_t unit = 0; unit < 4; unit++)
        print_log(unit);
    std::printf("hops=%u\nrest=%s\n", rack.plain().totals.made, rack.at_rest() ? "yes" : "no");
    return 0;
}

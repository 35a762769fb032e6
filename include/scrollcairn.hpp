// Scrollcairn's bench for C++11 and later: a value type over scrollcairn.h, which says what each call does, what refuses it, how much stack
// it takes and what threads may do. Nothing is thrown: every call answers.
#ifndef SCROLLCAIRN_HPP
#define SCROLLCAIRN_HPP

#include "scrollcairn.h"

#include <array>
#include <cstddef>
#include <cstdint>
#include <type_traits>

namespace scrollcairn {

// The table of scrollcairn.h, 2, 3 and 7 to 9 aside: no call on a bench answers these.
enum class refusal : std::uint16_t {
    none = 0,
    list_too_short = SCROLLCAIRN_REFUSAL_LIST_TOO_SHORT,
    empty_group = SCROLLCAIRN_REFUSAL_BAD_VALUE,
    bad_count = SCROLLCAIRN_REFUSAL_BAD_COUNT,
    outside_units = SCROLLCAIRN_REFUSAL_OUTSIDE_UNITS,
    own_ancestor = SCROLLCAIRN_REFUSAL_OWN_ANCESTOR,
    no_primary = SCROLLCAIRN_REFUSAL_NO_PRIMARY,
    no_such_source = SCROLLCAIRN_REFUSAL_NO_SUCH_SOURCE,
    no_such_group = SCROLLCAIRN_REFUSAL_NO_SUCH_GROUP,
    too_many_messages = SCROLLCAIRN_REFUSAL_TOO_MANY_MESSAGES,
    ways_too_long = SCROLLCAIRN_REFUSAL_WAYS_TOO_LONG,
    hop_not_made = SCROLLCAIRN_REFUSAL_HOP_NOT_MADE,
    no_such_unit = SCROLLCAIRN_REFUSAL_NO_SUCH_UNIT
};

enum class reply_kind : std::uint16_t {
    refused = SCROLLCAIRN_REPLY_REFUSED,
    sent = SCROLLCAIRN_REPLY_SENT,
    repeat = SCROLLCAIRN_REPLY_REPEAT,
    held = SCROLLCAIRN_REPLY_HELD,
    taken = SCROLLCAIRN_REPLY_TAKEN,
    log_length = SCROLLCAIRN_REPLY_LOG_LENGTH,
    rest = SCROLLCAIRN_REPLY_REST,
    opened = SCROLLCAIRN_REPLY_OPENED
};

enum class hop_state : std::uint8_t { out = SCROLLCAIRN_HOP_OUT, held = SCROLLCAIRN_HOP_HELD, taken = SCROLLCAIRN_HOP_TAKEN };

inline hop_state state_of(const scrollcairn_hop &hop) noexcept { return static_cast<hop_state>(hop.state); }

// A reply is true where the call was not refused.
struct reply {
    refusal refused;
    reply_kind kind;
    std::uint16_t value;

    explicit operator bool() const noexcept { return refused == refusal::none; }
};

// A part of a bench's own list: valid as long as that bench is.
template <class T>
class span {
public:
    span(const T *first, std::size_t length) noexcept : first_(first), length_(length) {}

    const T *data() const noexcept { return first_; }
    std::size_t size() const noexcept { return length_; }
    bool empty() const noexcept { return length_ == 0; }
    const T *begin() const noexcept { return first_; }
    const T *end() const noexcept { return first_ + length_; }
    const T &operator[](std::size_t i) const noexcept { return first_[i]; }

private:
    const T *first_;
    std::size_t length_;
};

// The first of 24 places are groups, each the sum of 2^u over its units u; a parent is a unit, or SCROLLCAIRN_ROOT.
using group_list = std::array<std::uint32_t, SCROLLCAIRN_GROUPS>;
using parent_list = std::array<std::uint8_t, SCROLLCAIRN_UNITS>;

// A bench: 35,928 bytes, so not for a small stack. A copy is a snapshot, and goes its own way. Calls on a bench that was not opened are
// safe, and what they answer is not promised.
class bench {
public:
    // A refused open or build leaves the bench as it was.
    reply open(std::size_t units, const group_list &groups, std::size_t count, const parent_list &parents) noexcept {
        return told(scrollcairn_bench_open(&bench_, units, groups.data(), count, parents.data()));
    }
    reply build(std::size_t units, const group_list &groups, std::size_t count) noexcept {
        return told(scrollcairn_bench_build(&bench_, units, groups.data(), count));
    }

    reply send(std::uint16_t source, std::uint16_t group, std::uint32_t word) noexcept {
        return told(scrollcairn_bench_send(&bench_, source, group, word));
    }
    reply arrive(std::uint16_t hop) noexcept { return told(scrollcairn_bench_arrive(&bench_, hop)); }

    // The numbers of the messages that the unit logged; none where there is no such unit. Not of a temporary: the span would outlive it.
    span<std::uint16_t> log(std::uint16_t unit) const & noexcept {
        std::size_t length = 0;
        const std::uint16_t *first = scrollcairn_bench_log(&bench_, unit, &length);
        return {first, length};
    }
    span<std::uint16_t> log(std::uint16_t unit) const && = delete;

    reply log_length(std::uint16_t unit) const noexcept { return told(scrollcairn_bench_log_length(&bench_, unit)); }

    reply rest() const noexcept { return told(scrollcairn_bench_rest(&bench_)); }
    bool at_rest() const noexcept { return rest().value == 1; }

    // The hops made, hop 0 first.
    span<scrollcairn_hop> hops() const & noexcept { return {bench_.hops, bench_.totals.made}; }
    span<scrollcairn_hop> hops() const && = delete;

    // The struct, to read what it holds: totals, messages, counts.
    const scrollcairn_bench &plain() const & noexcept { return bench_; }
    const scrollcairn_bench &plain() const && = delete;

private:
    static reply told(scrollcairn_reply r) noexcept {
        return {static_cast<refusal>(r.refusal), static_cast<reply_kind>(r.kind), r.value};
    }

    scrollcairn_bench bench_{};
};

static_assert(std::is_trivially_copyable<bench>::value, "a bench is plain data");
static_assert(!std::is_trivially_default_constructible<bench>::value, "a bench has zeros at first");
static_assert(sizeof(bench) == sizeof(scrollcairn_bench), "a bench is its lists and no more");

} // namespace scrollcairn

#endif

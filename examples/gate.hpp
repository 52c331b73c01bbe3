// A gate for C++17 programs: a class that owns its memory, over the functions of ekhurtza.h. Copying a Gate copies the gate.
// Debug builds (without NDEBUG) assert what the library can't test: that a buffer you lend does not overlap the gate's own memory.
#ifndef EKHURTZA_GATE_HPP
#define EKHURTZA_GATE_HPP

#include <cassert>
#include <cstddef>
#include <cstdint>
#include <functional>
#include <optional>
#include <stdexcept>
#include <string>
#include <string_view>
#include <vector>

#include "ekhurtza.h"

namespace ekhurtza {

using Answer = ekhurtza_answer;

// A refusal of something that only a programming error or foreign memory can have refused.
struct Refused : std::runtime_error {
    std::uint64_t number;
    explicit Refused(std::uint64_t refusal) : std::runtime_error(std::to_string(refusal) + ": " + ekhurtza_meaning(refusal)), number(refusal) {}
};

// A row of the listing. Maximum and own quota in millions of yuan, nothing where the maximum is none; money in mils, as 64-bit integers.
struct Row {
    std::uint64_t code, control_class;
    std::optional<std::uint64_t> maximum, own;
    std::int64_t net;
    std::uint64_t open, bought, sold;
};

// sign (1 below 0) and size, as the library hands out net and room; the size is below 2^63
inline std::int64_t with_sign(std::uint64_t below, std::uint64_t size) {
    const auto mils = static_cast<std::int64_t>(size);
    return below != 0 ? -mils : mils;
}

inline Row row_of(const std::uint64_t (&words)[EKHURTZA_ROW_WORDS]) {
    const auto limit = [](std::uint64_t word) { return word == EKHURTZA_DASH ? std::nullopt : std::optional<std::uint64_t>(word); };
    return Row{words[EKHURTZA_ROW_CODE], words[EKHURTZA_ROW_CLASS], limit(words[EKHURTZA_ROW_MAXIMUM]), limit(words[EKHURTZA_ROW_OWN]),
        with_sign(words[EKHURTZA_ROW_BELOW], words[EKHURTZA_ROW_NET]), words[EKHURTZA_ROW_OPEN], words[EKHURTZA_ROW_BOUGHT], words[EKHURTZA_ROW_SOLD]};
}

class Gate {
public:
    // A fresh gate with so many order places, 1 to 65,536.
    explicit Gate(std::size_t orders) : register_(EKHURTZA_REGISTER), book_(EKHURTZA_BOOK), places_(EKHURTZA_PLACE * orders) {
        accept(ekhurtza_open(register_.data(), register_.size(), book_.data(), book_.size(), places_.data(), places_.size()));
    }

    // A ratio file, 33 bytes, before the first group is enrolled: 0, 2 or 23. Quotas follow from bases by it from then on.
    std::uint64_t load(std::string_view text) {
        return ekhurtza_load(register_.data(), register_.size(), book_.data(), book_.size(), places_.data(), places_.size(), reinterpret_cast<const std::uint8_t *>(text.data()), text.size());
    }

    // A refusal is an ordinary answer here: 16 is what the gate is for.
    Answer call(std::uint64_t code, std::uint64_t a = 0, std::uint64_t b = 0, std::uint64_t c = 0, std::uint64_t d = 0) {
        return ekhurtza_call(register_.data(), register_.size(), book_.data(), book_.size(), places_.data(), places_.size(), code, a, b, c, d);
    }

    // The listing into a buffer of yours; 6,912 bytes are never too few.
    Answer listing_into(std::uint8_t *buffer, std::size_t bytes) const {
        assert(apart(buffer, bytes) && "the buffer overlaps the gate's memory");
        return ekhurtza_listing(register_.data(), register_.size(), book_.data(), book_.size(), places_.data(), places_.size(), buffer, bytes);
    }

    std::string listing() const {
        std::vector<std::uint8_t> buffer(EKHURTZA_ROW_BYTES * EKHURTZA_MOST_GROUPS);
        const Answer listed = listing_into(buffer.data(), buffer.size());
        accept(listed.refusal);
        return std::string(buffer.begin(), buffer.begin() + static_cast<std::ptrdiff_t>(listed.number));
    }

    // The row's nine words into words of yours.
    std::uint64_t row_into(std::uint64_t group, std::uint64_t *words, std::size_t count) const {
        assert(apart(words, count) && "the words overlap the gate's memory");
        return ekhurtza_row(register_.data(), register_.size(), book_.data(), book_.size(), places_.data(), places_.size(), group, words, count);
    }

    Row row(std::uint64_t group) const {
        std::uint64_t words[EKHURTZA_ROW_WORDS] = {};
        accept(row_into(group, words, EKHURTZA_ROW_WORDS));
        return row_of(words);
    }

    // Own quota - net, in mils; nothing where the maximum is none. A buy passes the quota exactly where it is 1 or more.
    std::optional<std::int64_t> room(std::uint64_t group) const {
        std::uint64_t words[EKHURTZA_ROOM_WORDS] = {};
        const std::uint64_t refusal = ekhurtza_room(register_.data(), register_.size(), book_.data(), book_.size(), places_.data(), places_.size(), group, words, EKHURTZA_ROOM_WORDS);
        if (refusal == EKHURTZA_NO_MAXIMUM) return std::nullopt;
        accept(refusal);
        return with_sign(words[0], words[1]);
    }

    // The words, to save them. Write nothing there: whatever stands in its range is taken for the gate's own.
    const std::vector<std::uint32_t> &register_words() const { return register_; }
    const std::vector<std::uint64_t> &book_words() const { return book_; }
    const std::vector<std::uint64_t> &place_words() const { return places_; }

private:
    std::vector<std::uint32_t> register_;
    std::vector<std::uint64_t> book_, places_;

    static void accept(std::uint64_t refusal) {
        if (refusal != EKHURTZA_ACCEPTED) throw Refused(refusal);
    }

    // No byte of the one is a byte of the other; std::less orders any two pointers.
    template <class A, class B> static bool apart(const A *a, std::size_t a_count, const B *b, std::size_t b_count) {
        const auto *a_first = reinterpret_cast<const unsigned char *>(a), *a_end = reinterpret_cast<const unsigned char *>(a + a_count);
        const auto *b_first = reinterpret_cast<const unsigned char *>(b), *b_end = reinterpret_cast<const unsigned char *>(b + b_count);
        const std::less<const unsigned char *> before;
        return a_count == 0 || b_count == 0 || !before(b_first, a_end) || !before(a_first, b_end);
    }
    template <class A> bool apart(const A *lent, std::size_t count) const {
        return apart(lent, count, register_.data(), register_.size()) && apart(lent, count, book_.data(), book_.size()) && apart(lent, count, places_.data(), places_.size());
    }
};

// The call line of a call, line feed included.
inline std::string call_line(std::uint64_t code, std::uint64_t a = 0, std::uint64_t b = 0, std::uint64_t c = 0, std::uint64_t d = 0) {
    std::uint8_t line[EKHURTZA_CALL_BYTES] = {};
    const std::uint64_t refusal = ekhurtza_call_line(code, a, b, c, d, line, sizeof line);
    if (refusal != EKHURTZA_ACCEPTED) throw Refused(refusal);
    return std::string(line, line + sizeof line);
}

// The rows of a listing's text; Refused by 21 where it is none.
inline std::vector<Row> read_listing(std::string_view text) {
    std::vector<Row> rows;
    const auto *bytes = reinterpret_cast<const std::uint8_t *>(text.data());
    for (;;) {
        std::uint64_t words[EKHURTZA_ROW_WORDS] = {};
        const std::uint64_t refusal = ekhurtza_read_row(bytes, text.size(), rows.size(), words, EKHURTZA_ROW_WORDS);
        if (refusal == EKHURTZA_NOT_THERE) return rows;
        if (refusal != EKHURTZA_ACCEPTED) throw Refused(refusal);
        rows.push_back(row_of(words));
    }
}

} // namespace ekhurtza

#endif

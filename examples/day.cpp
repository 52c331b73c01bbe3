// Document 01's day through the class of gate.hpp: each answer as gateday prints it, then the listing, on standard output. On standard error the
// same day as call lines, then the group's room and the listing read back. The gate is loaded with document 01's own ratios, which changes no answer.
// Build: c++ -std=c++17 -O2 -Iinclude examples/day.cpp target/lib/libekhurtza.a -o day
#include <cstdio>
#include <cstdlib>
#include <iomanip>
#include <iostream>

#include "gate.hpp"

namespace {

struct Call {
    std::uint64_t code, a, b, c, d;
};

const Call day[] = {
    {EKHURTZA_ENROL, 1, EKHURTZA_PROPRIETARY, 0, 0},
    {EKHURTZA_ATTACH, 20001, 0, 0, 0},
    {EKHURTZA_REGULAR, 1, 0, 3, 8},
    {EKHURTZA_CLOSE, 0, 0, 0, 0},
    {EKHURTZA_OWN_QUOTA, 0, 5, 0, 0},
    {EKHURTZA_ORDER, 20001, EKHURTZA_LIMIT_BUY, 12500, 300000},
    {EKHURTZA_ORDER, 20001, EKHURTZA_LIMIT_BUY, 10000, 200000},
    {EKHURTZA_ORDER, 20001, EKHURTZA_LIMIT_BUY, 10000, 200000},
    {EKHURTZA_FILL, 1, 12400, 100000, 0},
    {EKHURTZA_CANCEL, 2, 0, 0, 0},
    {EKHURTZA_FILL, 1, 12600, 1, 0},
};

// A call line read by its columns: 2 of the code, four of 9. The line is one that was written here, so it is well formed.
Call read_line(const std::string &line) {
    const auto column = [&line](std::size_t first, std::size_t width) { return static_cast<std::uint64_t>(std::stoull(line.substr(first, width))); };
    return Call{column(0, 2), column(2, 9), column(11, 9), column(20, 9), column(29, 9)};
}

std::string or_dash(const std::optional<std::uint64_t> &limit) { return limit ? std::to_string(*limit) : "-"; }

} // namespace

int main() {
    ekhurtza::Gate gate(2048);
    if (gate.load(" 1   5   2\n 3   1   1\n 4   1   1\n") != EKHURTZA_ACCEPTED) return EXIT_FAILURE;
    for (const Call &call : day) {
        const std::string line = ekhurtza::call_line(call.code, call.a, call.b, call.c, call.d);
        std::cerr << line;
        const Call read = read_line(line);
        const ekhurtza::Answer answer = gate.call(read.code, read.a, read.b, read.c, read.d);
        std::cout << std::setw(3) << answer.refusal << std::setw(6) << answer.number << '\n';
    }
    const std::string listing = gate.listing();
    std::cout << listing;

    if (const auto room = gate.room(0))
        std::cerr << "group 0: room " << *room << " mils, " << (*room >= 1 ? "may buy" : "hold") << '\n';
    else
        std::cerr << "group 0: no maximum, hold\n";
    for (const ekhurtza::Row &row : ekhurtza::read_listing(listing))
        std::cerr << "row: code " << row.code << ", class " << row.control_class << ", maximum " << or_dash(row.maximum) << ", own quota " << or_dash(row.own)
                  << ", net " << row.net << ", open " << row.open << ", bought " << row.bought << ", sold " << row.sold << '\n';
    return std::cout.flush() ? EXIT_SUCCESS : EXIT_FAILURE;
}

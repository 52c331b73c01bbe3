/* A broker's own ratios through the library (request 2026-01): a table with 101 (refused by 2), one without its last line feed (by 23), the table of
 * examples/house.ratios; then the calls of examples/house.calls; then a load behind them, when groups are enrolled (23). Each answer is printed as gateday
 * prints it, then the listing. Build: cc -O2 -Iinclude examples/ratios.c target/lib/libekhurtza.a -o ratios */
#include <inttypes.h>
#include <stdio.h>

#include "ekhurtza.h"

#define N 2048

static uint32_t reg[EKHURTZA_REGISTER];
static uint64_t book[EKHURTZA_BOOK];
static uint64_t places[EKHURTZA_PLACE * N];
static uint8_t listing[EKHURTZA_ROW_BYTES * EKHURTZA_MOST_GROUPS];

/* columns of 2, 4 and 4 and a line feed, for classes 1, 3 and 4; the string's own end, a byte 0, is no part of the file */
static const char house[] = " 1   7   3\n 3   3   2\n 4   1 100\n";
static const char out_of_range[] = " 1 101   3\n 3   3   2\n 4   1 100\n";

static const uint64_t day[][5] = {
    {EKHURTZA_ENROL, 601, EKHURTZA_PROPRIETARY, 0, 0},
    {EKHURTZA_ENROL, 601, EKHURTZA_ASSET_MANAGEMENT, 0, 0},
    {EKHURTZA_ENROL, 701, EKHURTZA_INSTITUTION, 0, 0},
    {EKHURTZA_REGULAR, 601, 0, 2, 5},  /* 2 * 7 / 3 = 4.67: 5 */
    {EKHURTZA_REGULAR, 501, 1, 3, 4},  /* 3 * 3 / 2 = 4.5, half up: 5, so 4 is refused by 8 */
    {EKHURTZA_REGULAR, 501, 1, 3, 5},
    {EKHURTZA_REGULAR, 801, 2, 49, 0}, /* 49 / 100 = 0.49: a standing figure of 0 */
    {EKHURTZA_ATTACH, 30001, 2, 0, 0},
    {EKHURTZA_CLOSE, 0, 0, 0, 0},
    {EKHURTZA_ORDER, 30001, EKHURTZA_LIMIT_BUY, 10000, 100}, /* the maximum is 0, and net 0 is not below it: 16 */
};

static uint64_t load(const char *text, size_t bytes) {
    return ekhurtza_load(reg, EKHURTZA_REGISTER, book, EKHURTZA_BOOK, places, EKHURTZA_PLACE * N, (const uint8_t *)text, bytes);
}

static void print(uint64_t refusal, uint64_t number) { printf("%3" PRIu64 "%6" PRIu64 "\n", refusal, number); }

int main(void) {
    if (ekhurtza_open(reg, EKHURTZA_REGISTER, book, EKHURTZA_BOOK, places, EKHURTZA_PLACE * N) != EKHURTZA_ACCEPTED) return 1;
    print(load(out_of_range, EKHURTZA_RATIO_BYTES), 0);
    print(load(house, EKHURTZA_RATIO_BYTES - 1), 0);
    print(load(house, EKHURTZA_RATIO_BYTES), 0);
    for (size_t i = 0; i < sizeof day / sizeof day[0]; i++) {
        const uint64_t *call = day[i];
        struct ekhurtza_answer answer = ekhurtza_call(reg, EKHURTZA_REGISTER, book, EKHURTZA_BOOK, places, EKHURTZA_PLACE * N, call[0], call[1], call[2], call[3], call[4]);
        print(answer.refusal, answer.number);
    }
    print(load(house, EKHURTZA_RATIO_BYTES), 0);
    struct ekhurtza_answer listed = ekhurtza_listing(reg, EKHURTZA_REGISTER, book, EKHURTZA_BOOK, places, EKHURTZA_PLACE * N, listing, sizeof listing);
    if (listed.refusal != EKHURTZA_ACCEPTED) return 1;
    return fwrite(listing, 1, listed.number, stdout) == listed.number ? 0 : 1;
}

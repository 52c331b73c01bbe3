/* Document 01's day through the library: a gate of 2,048 places is opened, eleven calls are made, each answer is printed as gateday prints
 * it, then the listing. Build: cc -O2 -Iinclude examples/day.c target/lib/libekhurtza.a -o day */
#include <inttypes.h>
#include <stdio.h>

#include "ekhurtza.h"

#define N 2048

static uint32_t reg[EKHURTZA_REGISTER];
static uint64_t book[EKHURTZA_BOOK];
static uint64_t places[EKHURTZA_PLACE * N];
static uint8_t listing[EKHURTZA_ROW_BYTES * EKHURTZA_MOST_GROUPS];

static const uint64_t day[][5] = {
    {EKHURTZA_ENROL, 1, EKHURTZA_PROPRIETARY, 0, 0},
    {EKHURTZA_ATTACH, 20001, 0, 0, 0},
    {EKHURTZA_REGULAR, 1, 0, 3, 8},
    {EKHURTZA_CLOSE, 0, 0, 0, 0},
    {EKHURTZA_OWN_QUOTA, 0, 5, 0, 0},
    {EKHURTZA_ORDER, 20001, EKHURTZA_LIMIT_BUY, 12500, 300000},
    {EKHURTZA_ORDER, 20001, EKHURTZA_LIMIT_BUY, 10000, 200000},
    {EKHURTZA_ORDER, 20001, EKHURTZA_LIMIT_BUY, 10000, 200000},
    {EKHURTZA_FILL, 1, 12400, 100000, 0},
    {EKHURTZA_CANCEL, 2, 0, 0, 0},
    {EKHURTZA_FILL, 1, 12600, 1, 0},
};

int main(void) {
    if (ekhurtza_open(reg, EKHURTZA_REGISTER, book, EKHURTZA_BOOK, places, EKHURTZA_PLACE * N) != EKHURTZA_ACCEPTED) return 1;
    for (size_t i = 0; i < sizeof day / sizeof day[0]; i++) {
        const uint64_t *call = day[i];
        struct ekhurtza_answer answer = ekhurtza_call(reg, EKHURTZA_REGISTER, book, EKHURTZA_BOOK, places, EKHURTZA_PLACE * N, call[0], call[1], call[2], call[3], call[4]);
        printf("%3" PRIu64 "%6" PRIu64 "\n", answer.refusal, answer.number);
    }
    struct ekhurtza_answer listed = ekhurtza_listing(reg, EKHURTZA_REGISTER, book, EKHURTZA_BOOK, places, EKHURTZA_PLACE * N, listing, sizeof listing);
    if (listed.refusal != EKHURTZA_ACCEPTED) return 1;
    if (fwrite(listing, 1, listed.number, stdout) != listed.number) return 1;

    /* the same row as plain numbers, which a router reads without parsing */
    uint64_t row[EKHURTZA_ROW_WORDS];
    if (ekhurtza_row(reg, EKHURTZA_REGISTER, book, EKHURTZA_BOOK, places, EKHURTZA_PLACE * N, 0, row, EKHURTZA_ROW_WORDS) != EKHURTZA_ACCEPTED) return 1;
    static const uint64_t want[EKHURTZA_ROW_WORDS] = {1, 1, 8, 5, 0, 3740000000, 2500000000, 1240000000, 0};
    for (int i = 0; i < EKHURTZA_ROW_WORDS; i++)
        if (row[i] != want[i]) return 1;
    return 0;
}

/* Ekhurtza: the front-end capital control gate, Shanghai market, for order routers in C and C++ (C99, C++17).
 *
 * Eight functions over memory that the router lends; the library keeps nothing between calls, allocates nothing and writes no file. Each is
 * proved, for memory of any content and any length, to answer and to leave behind exactly what its contract says (crates/router/src/lib.rt,
 * exported by crates/router_c with the same contracts).
 * docs/EMBEDDING.md says who owns which memory and what the caller owes: every pointer is valid for its length, and no two slices overlap.
 * docs/FORMATS.md has the lines and columns, and in tables what each number below means. Names in quotes are sections of document 01.
 *
 * Link libekhurtza.a or libekhurtza.so (x86-64 Linux): `make library`, `make install PREFIX=..`, then `pkg-config --cflags --libs ekhurtza`.
 */
#ifndef EKHURTZA_H
#define EKHURTZA_H

#include <stddef.h>
#include <stdint.h>

#ifdef __cplusplus
extern "C" {
#endif

#define EKHURTZA_VERSION "1.1.0"
#define EKHURTZA_VERSION_MAJOR 1 /* another: what was compiled before no longer links or answers as before */
#define EKHURTZA_VERSION_MINOR 1 /* more functions or numbers, none changed */
#define EKHURTZA_VERSION_PATCH 0 /* neither */

/* How much to lend: the register in words of 32 bits, book and places in words of 64 bits. */
#define EKHURTZA_REGISTER 2000 /* words of 32 bits: groups, quotas, units */
#define EKHURTZA_BOOK 194      /* words of 64 bits: N, orders accepted, each group's money */
#define EKHURTZA_PLACE 4       /* words an order place; N of them, 1 to 65,536 */
#define EKHURTZA_MOST_PLACES 65536
#define EKHURTZA_MOST_GROUPS 64
#define EKHURTZA_ROW_BYTES 108 /* bytes a group in a listing, line feed included */
#define EKHURTZA_ROW_WORDS 9   /* words of a row */
#define EKHURTZA_ROOM_WORDS 2  /* words of a room */
#define EKHURTZA_CALL_BYTES 39 /* bytes of a call line, line feed included */
#define EKHURTZA_RATIO_BYTES 33 /* bytes of a ratio file: three lines of 10 and a line feed */

/* The ranges of fields ("Money and names"): from 0, but price and quantity from 1, order from 1, class from 1. Outside them a call is refused by 2.
 * A mil is 0.001 yuan. Prices and amounts are in mils, quotas and bases in millions of yuan. */
#define EKHURTZA_TOP_PRICE 9999999      /* mils; a market sell's is 0, a repo's EKHURTZA_REPO_PRICE */
#define EKHURTZA_REPO_PRICE 100000      /* mils: 100 yuan ("Orders") */
#define EKHURTZA_TOP_QUANTITY 10000000  /* of an order or a fill */
#define EKHURTZA_TOP_CODE 99999         /* institution code */
#define EKHURTZA_TOP_UNIT 99999         /* trading unit */
#define EKHURTZA_TOP_DECLARER 99999     /* settlement participant */
#define EKHURTZA_TOP_GROUP 63           /* group number */
#define EKHURTZA_TOP_CLASS 4            /* control class */
#define EKHURTZA_TOP_ORDER 65536        /* order number */
#define EKHURTZA_TOP_QUOTA 9999999      /* quota and asset base, millions; of an emergency raise from 1 */
#define EKHURTZA_MOST_UNITS 256         /* attached units */
#define EKHURTZA_MOST_DECLARERS 8       /* declarers of a group with a figure standing ("Quotas") */
#define EKHURTZA_THRESHOLD 100000       /* millions: regular figures give no more; a raise above it bears flag 1 ("Quotas") */
#define EKHURTZA_TOP_RATIO 100          /* numerator and denominator of a ratio, from 1 (request 2026-01) */
#define EKHURTZA_MILS_A_MILLION INT64_C(1000000000) /* mils in a million yuan; 64 bits, since three millions pass an int */
#define EKHURTZA_TOP_MONEY UINT64_C(6553599344640000000) /* L, mils: no group's open + bought + sold passes it; below 2^63 */

/* Control classes ("Money and names"). The quota is base * ratio, rounded half up; ekhurtza_load replaces these ratios. */
#define EKHURTZA_PROPRIETARY 1      /* member proprietary: the firm alone declares; ratio 5/2 */
#define EKHURTZA_BROKERAGE 2        /* member brokerage: not controlled, enrolling it is refused by 3 */
#define EKHURTZA_ASSET_MANAGEMENT 3 /* member asset management: ratio 1/1 */
#define EKHURTZA_INSTITUTION 4      /* institution business: ratio 1/1 */

/* Kinds of orders ("Orders"). 1, 2 and 3 are buys: they need room, and their open quantity counts at the order's price from the start. The others
 * count only when filled. A fill at a price that the kind does not allow is refused by 20. */
#define EKHURTZA_LIMIT_BUY 1      /* price 1 to 9,999,999; filled at or below it */
#define EKHURTZA_MARKET_BUY 2     /* price is the day's upper limit price, 1 to 9,999,999; filled at or below it */
#define EKHURTZA_REPO_LENDING 3   /* price 100,000; filled at 100,000 */
#define EKHURTZA_LIMIT_SELL 4     /* price 1 to 9,999,999; filled at or above it */
#define EKHURTZA_MARKET_SELL 5    /* price 0; filled at any price, 1 to 9,999,999 */
#define EKHURTZA_REPO_BORROWING 6 /* price 100,000; filled at 100,000 */

/* The calls ("The eleven calls"), by code, with their fields in order; fields that a call does not use are ignored. */
#define EKHURTZA_ENROL 1      /* institution code, class (1, 3 or 4): gives the group number, from 0 */
#define EKHURTZA_ATTACH 2     /* unit, group */
#define EKHURTZA_DETACH 3     /* unit */
#define EKHURTZA_REGULAR 4    /* declarer, group, base, quota */
#define EKHURTZA_EMERGENCY 5  /* declarer, group, quota, flag (1 above the threshold of 100,000, else 0) */
#define EKHURTZA_WITHDRAW 6   /* declarer, group */
#define EKHURTZA_OWN_QUOTA 7  /* group, quota */
#define EKHURTZA_ORDER 8      /* unit, kind (1 to 6), price, quantity: gives the order number, from 1 */
#define EKHURTZA_FILL 9       /* order, price, quantity */
#define EKHURTZA_CANCEL 10    /* order */
#define EKHURTZA_CLOSE 11

/* The refusals. Of several that apply the smallest is returned (a load: 1, 2, 23), and all lent memory keeps its contents. */
#define EKHURTZA_ACCEPTED 0
#define EKHURTZA_UNSOUND 1              /* N out of range or other than at opening; a figure of the memory out of its range, or a total that would leave it */
#define EKHURTZA_OUT_OF_RANGE 2         /* a field outside its range or its kind's price rule; a code that is no call's */
#define EKHURTZA_NOT_CONTROLLED 3       /* enrolling class 2 */
#define EKHURTZA_ALREADY_THERE 4        /* group already enrolled, unit already attached */
#define EKHURTZA_NO_ROOM 5              /* 64 groups or 256 units already */
#define EKHURTZA_NOT_THERE 6            /* group not enrolled, unit not attached */
#define EKHURTZA_NOT_THE_FIRM 7         /* class 1 and the declarer isn't the code */
#define EKHURTZA_NOT_FROM_BASE 8        /* quota doesn't follow from base */
#define EKHURTZA_NOTHING_TO_WITHDRAW 9  /* nothing to withdraw, or withdrawal already filed */
#define EKHURTZA_EIGHT_STAND 10         /* new declarer while eight stand */
#define EKHURTZA_HELD_BY_ANOTHER 11     /* emergency held by another declarer with no withdrawal filed */
#define EKHURTZA_NOT_ABOVE_MAXIMUM 12   /* emergency quota not above the maximum in force */
#define EKHURTZA_WRONG_FLAG 13          /* flag disagrees with the threshold */
#define EKHURTZA_ABOVE_MAXIMUM 14       /* own quota above the maximum */
#define EKHURTZA_NO_MAXIMUM 15          /* maximum is none */
#define EKHURTZA_QUOTA_REACHED 16       /* buy with net at or above the own quota */
#define EKHURTZA_NO_PLACE 17            /* N orders accepted since the close */
#define EKHURTZA_NOT_GIVEN 18           /* order number not given since the close */
#define EKHURTZA_ABOVE_OPEN 19          /* quantity above the open quantity; cancel with none open */
#define EKHURTZA_WORSE_FILL 20          /* fill price worse than the order allows */
#define EKHURTZA_MALFORMED 21           /* text not of the stated form: a listing that is read; a call line of gateday */
#define EKHURTZA_SHORT_BUFFER 22        /* buffer of a listing, a row, a room or a call line too short */
#define EKHURTZA_NO_TABLE 23            /* ratio file not of its form, or a group already enrolled: given after 2, by ekhurtza_load alone */

/* What a call answers: the refusal, or 0; and the number given at calls 1 and 8, else 0. Of a listing: the bytes written, 0 where it is refused. */
struct ekhurtza_answer {
    uint64_t refusal;
    uint64_t number;
};

/* A fresh gate in a register and a book of any content; N is places_words / 4. No place is written.
 * 0, or 1 where a slice has another length or N is out of its range; then nothing is written. */
uint64_t ekhurtza_open(uint32_t *reg, size_t reg_words, uint64_t *book, size_t book_words, const uint64_t *places, size_t places_words);

/* A ratio file: from then on quotas follow from bases by its ratios (call 4), over closes too. It comes before the first group is enrolled; of several
 * loads the last accepted one counts, and before any the ratios are 5/2, 1/1, 1/1. Refused in this order by 1; by 2 (a file of its form with a class
 * outside 1 to 4, or a numerator or denominator outside 1 to 100); by 23 (a file that isn't of its form, one with other classes than 1, 3, 4 in that order,
 * or a group already enrolled). Never by 21. Only an accepted load writes the register; book and places are read alone. */
uint64_t ekhurtza_load(uint32_t *reg, size_t reg_words, const uint64_t *book, size_t book_words, const uint64_t *places, size_t places_words, const uint8_t *text, size_t text_bytes);

/* A call by its code and four fields. A code other than 1 to 11 is answered by 2, or by 1 where the memory is not sound. */
struct ekhurtza_answer ekhurtza_call(uint32_t *reg, size_t reg_words, uint64_t *book, size_t book_words, uint64_t *places, size_t places_words, uint64_t code, uint64_t a, uint64_t b, uint64_t c, uint64_t d);

/* The listing, one line of 108 bytes a group in enrolment order; the rest of the buffer keeps its contents.
 * Refused by 1 or 22; then no byte is written. A buffer of 64 * 108 = 6,912 bytes is never too short. */
struct ekhurtza_answer ekhurtza_listing(const uint32_t *reg, size_t reg_words, const uint64_t *book, size_t book_words, const uint64_t *places, size_t places_words, uint8_t *buffer, size_t buffer_bytes);

/* The row of a group into the first 9 words of `out`; the rest keeps its contents.
 * Refused by 1, 2 (group above 63), 6 (not enrolled) or 22 (fewer than 9 words); then no word is written. */
uint64_t ekhurtza_row(const uint32_t *reg, size_t reg_words, const uint64_t *book, size_t book_words, const uint64_t *places, size_t places_words, uint64_t group, uint64_t *out, size_t out_words);

/* The room of a group, own quota - net in mils: a buy passes exactly where it is 1 or more. out[0] is 1 where it is below 0, else 0; out[1] is its
 * size, below 2^63; the rest keeps its contents. Refused by 1, 2, 6 as ekhurtza_row, 15 (the maximum is none) or 22 (fewer than 2 words); then no
 * word is written. */
uint64_t ekhurtza_room(const uint32_t *reg, size_t reg_words, const uint64_t *book, size_t book_words, const uint64_t *places, size_t places_words, uint64_t group, uint64_t *out, size_t out_words);

/* Row k, from 0, of a listing's text into the first 9 words of `out`, as ekhurtza_row hands it out; the rest keeps its contents. The whole text is
 * checked each time. Refused in this order by 21 (the text is no listing), 6 (it has no row k) or 22 (fewer than 9 words); then no word is written. */
uint64_t ekhurtza_read_row(const uint8_t *text, size_t text_bytes, uint64_t k, uint64_t *out, size_t out_words);

/* The call line, 38 bytes and a line feed, of a call by its code and fields; the rest of the buffer keeps its contents. Fields that the call does not
 * use are written 0 and not looked at. Refused by 2 (a code other than 1 to 11, or a used field above 999,999,999, which no column holds) or 22 (fewer
 * than 39 bytes); then no byte is written. What the call answers to a field outside its range is another matter: such a line can be written. */
uint64_t ekhurtza_call_line(uint64_t code, uint64_t a, uint64_t b, uint64_t c, uint64_t d, uint8_t *line, size_t line_bytes);

/* The words of a row, in the order of a listing's columns. Money is in mils. */
#define EKHURTZA_ROW_CODE 0
#define EKHURTZA_ROW_CLASS 1
#define EKHURTZA_ROW_MAXIMUM 2  /* in millions, 0 included, or EKHURTZA_DASH */
#define EKHURTZA_ROW_OWN 3      /* in millions, or EKHURTZA_DASH, which it is just where the maximum is */
#define EKHURTZA_ROW_BELOW 4    /* 1 where net is below 0, else 0 */
#define EKHURTZA_ROW_NET 5      /* the size of net */
#define EKHURTZA_ROW_OPEN 6
#define EKHURTZA_ROW_BOUGHT 7
#define EKHURTZA_ROW_SOLD 8

/* "-": a maximum of none, and then no own quota. */
#define EKHURTZA_DASH UINT64_MAX

/* A refusal in words, those of docs/FORMATS.md, "Refusal numbers". */
static inline const char *ekhurtza_meaning(uint64_t refusal) {
    switch (refusal) {
    case EKHURTZA_ACCEPTED: return "accepted";
    case EKHURTZA_UNSOUND: return "the host's memory: N, a figure out of its range, a total that would leave 0 to L; a row that would break its rules";
    case EKHURTZA_OUT_OF_RANGE: return "a field outside its range or its kind's price rule; emergency quota 0; flag above 1";
    case EKHURTZA_NOT_CONTROLLED: return "enrolling class 2";
    case EKHURTZA_ALREADY_THERE: return "group already enrolled, unit already attached";
    case EKHURTZA_NO_ROOM: return "64 groups or 256 units already";
    case EKHURTZA_NOT_THERE: return "group not enrolled, unit not attached";
    case EKHURTZA_NOT_THE_FIRM: return "class 1 and the declarer isn't the code";
    case EKHURTZA_NOT_FROM_BASE: return "quota doesn't follow from the base";
    case EKHURTZA_NOTHING_TO_WITHDRAW: return "nothing to withdraw, or withdrawal already filed";
    case EKHURTZA_EIGHT_STAND: return "new declarer while eight stand";
    case EKHURTZA_HELD_BY_ANOTHER: return "emergency held by another declarer, no withdrawal filed";
    case EKHURTZA_NOT_ABOVE_MAXIMUM: return "emergency quota not above the maximum in force";
    case EKHURTZA_WRONG_FLAG: return "flag disagrees with the threshold of 100,000 millions";
    case EKHURTZA_ABOVE_MAXIMUM: return "own quota above the maximum";
    case EKHURTZA_NO_MAXIMUM: return "maximum is none";
    case EKHURTZA_QUOTA_REACHED: return "buy with net at or above the own quota";
    case EKHURTZA_NO_PLACE: return "N orders accepted since the close";
    case EKHURTZA_NOT_GIVEN: return "order number not given since the close";
    case EKHURTZA_ABOVE_OPEN: return "quantity above the open quantity; cancel with none open";
    case EKHURTZA_WORSE_FILL: return "fill price worse than the order's";
    case EKHURTZA_MALFORMED: return "text not of the stated form";
    case EKHURTZA_SHORT_BUFFER: return "buffer too short; a listing takes 108 bytes a group";
    case EKHURTZA_NO_TABLE: return "ratio file not of its form, or a group already enrolled";
    default: return "unknown refusal";
    }
}

#ifdef __cplusplus
}
#endif

#endif

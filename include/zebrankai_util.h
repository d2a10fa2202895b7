/*
 * zebrankai_util.h: what most C programs write around the calls of zebrankai.h: lengths, what a record says, boards chosen for a read and a repair,
 * records as bytes, the words of refusals.
 *
 * Nothing in this header is proved: it is plain C, tried against the archive over all 46,376 legal sizes. The archive calls none of it, and checks
 * all that it is lent by itself: a wrong length or list is refused there, and changes nothing.
 *
 * C99 and C++. The functions keep nothing, allocate nothing and call nothing but each other. `record` is always a record of ZBK_RECORD_WORDS words,
 * `repair` one of ZBK_REPAIR_WORDS; no pointer is NULL, and what a function writes does not overlap what it reads. Any words are taken: a function
 * reads and writes only what it is lent, whatever they are. Where a comment says no more, a function does not look whether a call would take them.
 */
#ifndef ZEBRANKAI_UTIL_H
#define ZEBRANKAI_UTIL_H

#include "zebrankai.h"

/* The version of these headers and of the archive that they came with; the archive itself does not say its own. */
#define ZBK_VERSION_MAJOR 0
#define ZBK_VERSION_MINOR 1
#define ZBK_VERSION_PATCH 0
#define ZBK_VERSION "0.1.0"

/* ---- lengths
 *
 * As constants, for arrays, and as functions. All are in bytes but ZBK_STRIPES, and 0 where the sizes are not legal, the capacity is not 1 to 4,096
 * stripes or the file has more than 4,096 stripes: standard C has no array of such a length. ZBK_STRIPES alone counts on. The arguments of the macros
 * are numbers from 0 up, and are worked out more than once. */

/* 1 where the calls take these sizes, else 0. */
#define ZBK_LEGAL(n, k, d, r)                                                                                                                         \
    ((size_t)(n) <= (size_t)ZBK_MAX_BOARDS && (size_t)(d) < (size_t)(n) && (size_t)(r) <= (size_t)(n) - (size_t)(d) && 1 <= (size_t)(r) &&            \
     1 <= (size_t)(k) && (size_t)(k) <= (size_t)(d))

/* A share for each stripe, and what a stripe carries of the file. */
#define ZBK_SHARE_LEN(n, k, d, r) (ZBK_LEGAL(n, k, d, r) ? 2 * (size_t)(d) + (size_t)(r) - 1 : (size_t)0)
#define ZBK_STRIPE_LEN(n, k, d, r) (ZBK_LEGAL(n, k, d, r) ? (size_t)(k) * (2 * (size_t)(d) + (size_t)(r) - (size_t)(k)) : (size_t)0)

/* S, the stripes of a file of `length` bytes: the capacity that it needs. */
#define ZBK_STRIPES(n, k, d, r, length)                                                                                                               \
    (ZBK_LEGAL(n, k, d, r) ? (size_t)(length) / ZBK_DIVISOR(n, k, d, r) + ((size_t)(length) % ZBK_DIVISOR(n, k, d, r) != 0 ? 1 : 0) : (size_t)0)
/* for ZBK_STRIPES alone: never 0, so that sizes that are not legal divide nothing by 0 */
#define ZBK_DIVISOR(n, k, d, r) (ZBK_LEGAL(n, k, d, r) ? ZBK_STRIPE_LEN(n, k, d, r) : (size_t)1)

/* The area of a store, and the longest file that it takes. */
#define ZBK_AREA_LEN(n, k, d, r, capacity) (ZBK_TAKEN(capacity) ? (size_t)(n) * (size_t)(capacity) * ZBK_SHARE_LEN(n, k, d, r) : (size_t)0)
#define ZBK_LONGEST(n, k, d, r, capacity) (ZBK_TAKEN(capacity) ? (size_t)(capacity) * ZBK_STRIPE_LEN(n, k, d, r) : (size_t)0)
/* 1 where a store may have this capacity, else 0 */
#define ZBK_TAKEN(capacity) ((size_t)(capacity) <= (size_t)ZBK_MAX_STRIPES && 1 <= (size_t)(capacity))

/* Room that is always enough for the text of a share of a file of `length` bytes, at any points. */
#define ZBK_TEXT_ROOM(n, k, d, r, length)                                                                                                             \
    (ZBK_LEGAL(n, k, d, r) && ZBK_STRIPES(n, k, d, r, length) <= (size_t)ZBK_MAX_STRIPES                                                              \
         ? 2 * ZBK_STRIPES(n, k, d, r, length) * ZBK_SHARE_LEN(n, k, d, r) + 200                                                                      \
         : (size_t)0)

static inline int zbk_legal(size_t n, size_t k, size_t d, size_t r) { return ZBK_LEGAL(n, k, d, r); }

static inline size_t zbk_share_len(size_t n, size_t k, size_t d, size_t r) { return ZBK_SHARE_LEN(n, k, d, r); }

static inline size_t zbk_stripe_len(size_t n, size_t k, size_t d, size_t r) { return ZBK_STRIPE_LEN(n, k, d, r); }

static inline size_t zbk_stripes(size_t n, size_t k, size_t d, size_t r, size_t length) { return ZBK_STRIPES(n, k, d, r, length); }

static inline size_t zbk_area_len(size_t n, size_t k, size_t d, size_t r, size_t capacity) { return ZBK_AREA_LEN(n, k, d, r, capacity); }

static inline size_t zbk_longest(size_t n, size_t k, size_t d, size_t r, size_t capacity) { return ZBK_LONGEST(n, k, d, r, capacity); }

static inline size_t zbk_text_room(size_t n, size_t k, size_t d, size_t r, size_t length) { return ZBK_TEXT_ROOM(n, k, d, r, length); }

/* What an exchange packet has of a file of `length` bytes, and what a stand-in sends: a byte for each stripe. */
static inline size_t zbk_exchange_packet_len(size_t n, size_t k, size_t d, size_t r, size_t length) {
    const size_t stripes = zbk_stripes(n, k, d, r, length);
    return stripes <= ZBK_MAX_STRIPES ? stripes : 0;
}

/* What a helper packet has: two bytes for each stripe. */
static inline size_t zbk_helper_packet_len(size_t n, size_t k, size_t d, size_t r, size_t length) {
    return 2 * zbk_exchange_packet_len(n, k, d, r, length);
}

/* What a board's whole share has, all stripes: what zbk_share writes. */
static inline size_t zbk_whole_share_len(size_t n, size_t k, size_t d, size_t r, size_t length) {
    return zbk_exchange_packet_len(n, k, d, r, length) * zbk_share_len(n, k, d, r);
}

/* The packet area of a started repair of t fresh boards; 0 also where t is not 1 to r. ZBK_PACKETS_LEN of zebrankai.h is the constant. */
static inline size_t zbk_packets_len(size_t n, size_t k, size_t d, size_t r, size_t length, size_t t) {
    return 1 <= t && t <= r ? t * zbk_whole_share_len(n, k, d, r, length) : 0;
}

/* ---- what a record says */

struct zbk_sizes {
    size_t n, k, d, r;
};

/* The sizes, legal or not. */
static inline struct zbk_sizes zbk_record_sizes(const uint64_t record[ZBK_RECORD_WORDS]) {
    struct zbk_sizes sizes;
    sizes.n = record[ZBK_WORD_N];
    sizes.k = record[ZBK_WORD_K];
    sizes.d = record[ZBK_WORD_D];
    sizes.r = record[ZBK_WORD_R];
    return sizes;
}

/* 1 where a file was written, else 0. A file of no bytes is one. */
static inline int zbk_record_has_file(const uint64_t record[ZBK_RECORD_WORDS]) { return record[ZBK_WORD_WRITTEN] == 1; }

/* The length of the file; 0 where none was written. */
static inline size_t zbk_record_length(const uint64_t record[ZBK_RECORD_WORDS]) { return record[ZBK_WORD_LENGTH]; }

/* The stripes that each board has room for. */
static inline size_t zbk_record_capacity(const uint64_t record[ZBK_RECORD_WORDS]) { return record[ZBK_WORD_CAPACITY]; }

/* The bytes of the area that belongs to the record; 0 where sizes or capacity are not legal. */
static inline size_t zbk_record_area_len(const uint64_t record[ZBK_RECORD_WORDS]) {
    return zbk_area_len(record[ZBK_WORD_N], record[ZBK_WORD_K], record[ZBK_WORD_D], record[ZBK_WORD_R], record[ZBK_WORD_CAPACITY]);
}

/* The point of a board, and what is kept in its place from n up; 0 from 32 up. */
static inline uint8_t zbk_record_point(const uint64_t record[ZBK_RECORD_WORDS], size_t board) {
    return board < ZBK_MAX_BOARDS ? (uint8_t)(record[ZBK_WORD_POINTS + board / 8] >> (8 * (board % 8)) & 255) : (uint8_t)0;
}

/* 1 where a board is in service, else 0. No board from n up is, nor one from 32 up, whatever the marks say. */
static inline int zbk_in_service(const uint64_t record[ZBK_RECORD_WORDS], size_t board) {
    return board < record[ZBK_WORD_N] && board < ZBK_MAX_BOARDS && (record[ZBK_WORD_MARKS] >> board & 1) != 0;
}

/* How many boards are in service. */
static inline size_t zbk_count_in_service(const uint64_t record[ZBK_RECORD_WORDS]) {
    size_t count = 0;
    for (size_t board = 0; board < ZBK_MAX_BOARDS; board++)
        if (zbk_in_service(record, board)) count++;
    return count;
}

/* 1 where a repair is running, else 0. */
static inline int zbk_repair_running(const uint64_t repair[ZBK_REPAIR_WORDS]) { return repair[ZBK_REPAIR_RUNNING] == 1; }

/* t, how many fresh boards the running repair has; 0 where none is running. */
static inline size_t zbk_repair_count(const uint64_t repair[ZBK_REPAIR_WORDS]) {
    return zbk_repair_running(repair) ? (size_t)repair[ZBK_REPAIR_COUNT] : 0;
}

/* An entry of a list of the repair record: `first` is ZBK_REPAIR_FRESH, ZBK_REPAIR_HELPERS or ZBK_REPAIR_STAND_INS. 0 behind the end of the record;
 * where the list ends is not looked at. */
static inline size_t zbk_repair_board(const uint64_t repair[ZBK_REPAIR_WORDS], size_t first, size_t place) {
    const size_t word = first < ZBK_REPAIR_WORDS && place / 8 < ZBK_REPAIR_WORDS ? first + place / 8 : (size_t)ZBK_REPAIR_WORDS;
    return word < ZBK_REPAIR_WORDS ? (size_t)(repair[word] >> (8 * (place % 8)) & 255) : 0;
}

/* All packets of the running repair, t * (d + r - 1); 0 where none is running or the sizes are not legal. */
static inline size_t zbk_repair_packets(const uint64_t record[ZBK_RECORD_WORDS], const uint64_t repair[ZBK_REPAIR_WORDS]) {
    const struct zbk_sizes sizes = zbk_record_sizes(record);
    if (!zbk_legal(sizes.n, sizes.k, sizes.d, sizes.r) || zbk_repair_count(repair) > sizes.r) return 0;
    return zbk_repair_count(repair) * (sizes.d + sizes.r - 1);
}

/* How many of them were carried, and how many are left; 0 where none is running. */
static inline size_t zbk_repair_carried(const uint64_t repair[ZBK_REPAIR_WORDS]) {
    return zbk_repair_running(repair) ? (size_t)repair[ZBK_REPAIR_CARRIED] : 0;
}

static inline size_t zbk_repair_left(const uint64_t record[ZBK_RECORD_WORDS], const uint64_t repair[ZBK_REPAIR_WORDS]) {
    const size_t all = zbk_repair_packets(record, repair), carried = zbk_repair_carried(repair);
    return carried < all ? all - carried : 0;
}

/* The bytes of the packet area of the running repair; 0 where none is running. */
static inline size_t zbk_repair_packets_len(const uint64_t record[ZBK_RECORD_WORDS], const uint64_t repair[ZBK_REPAIR_WORDS]) {
    const struct zbk_sizes sizes = zbk_record_sizes(record);
    return zbk_packets_len(sizes.n, sizes.k, sizes.d, sizes.r, zbk_record_length(record), zbk_repair_count(repair));
}

/* 1 where the calls take the record, else 0, and they refuse it with ZBK_SIZE: legal sizes and capacity, n different points and 00 behind them, a file
 * that fits, marks of boards below n alone, and no mark without a file. It does not show that the record belongs to some area, nor that it is the last
 * one, nor that no word of it was altered to another that a call could hand out. */
static inline int zbk_record_sound(const uint64_t record[ZBK_RECORD_WORDS]) {
    const struct zbk_sizes sizes = zbk_record_sizes(record);
    const size_t length = zbk_record_length(record), capacity = zbk_record_capacity(record);
    if (!zbk_legal(sizes.n, sizes.k, sizes.d, sizes.r) || !ZBK_TAKEN(capacity)) return 0;
    for (size_t i = 0; i < ZBK_MAX_BOARDS; i++) {
        if (i >= sizes.n && zbk_record_point(record, i) != 0) return 0;
        for (size_t j = 0; i < sizes.n && j < i; j++)
            if (zbk_record_point(record, i) == zbk_record_point(record, j)) return 0;
    }
    if (record[ZBK_WORD_MARKS] >> sizes.n != 0) return 0;
    if (record[ZBK_WORD_WRITTEN] == 0) return length == 0 && record[ZBK_WORD_MARKS] == 0;
    return record[ZBK_WORD_WRITTEN] == 1 && length <= zbk_longest(sizes.n, sizes.k, sizes.d, sizes.r, capacity);
}

/* 1 where the calls take the repair record beside this record, else 0, and they refuse the two with ZBK_SIZE: none is running, or a start would take
 * its lists and not all packets are carried. It does not show that it belongs to some packet area, nor that it is the last one. */
static inline int zbk_repair_sound(const uint64_t record[ZBK_RECORD_WORDS], const uint64_t repair[ZBK_REPAIR_WORDS]) {
    const struct zbk_sizes sizes = zbk_record_sizes(record);
    const size_t t = zbk_repair_count(repair);
    uint64_t named = 0;
    if (!zbk_record_sound(record) || repair[ZBK_REPAIR_RUNNING] > 1) return 0;
    if (!zbk_repair_running(repair)) return 1;
    if (t < 1 || t > sizes.r || zbk_repair_left(record, repair) == 0) return 0;
    for (size_t i = 0; i < t; i++) {
        const size_t board = zbk_repair_board(repair, ZBK_REPAIR_FRESH, i);
        if (board >= sizes.n || zbk_in_service(record, board) || (named >> board & 1) != 0) return 0;
        named |= (uint64_t)1 << board;
    }
    for (size_t i = 0; i < t; i++) {
        /* the helpers and the stand-ins of one fresh board; a board in service is not fresh */
        named = 0;
        for (size_t j = 0; j < sizes.d + sizes.r - t; j++) {
            const size_t board = j < sizes.d ? zbk_repair_board(repair, ZBK_REPAIR_HELPERS, i * sizes.d + j)
                                             : zbk_repair_board(repair, ZBK_REPAIR_STAND_INS, i * (sizes.r - t) + (j - sizes.d));
            if (!zbk_in_service(record, board) || (named >> board & 1) != 0) return 0;
            named |= (uint64_t)1 << board;
        }
    }
    return 1;
}

/* ---- boards, chosen by the marks. What boards hold is not looked at: a board in service may be worn. */

/* Writes the first boards in service, at most `most` of them and at most 32; gives how many. */
static inline size_t zbk_boards_in_service(const uint64_t record[ZBK_RECORD_WORDS], size_t *boards, size_t most) {
    size_t count = 0;
    for (size_t board = 0; board < ZBK_MAX_BOARDS && count < most; board++)
        if (zbk_in_service(record, board)) boards[count++] = board;
    return count;
}

/* The boards for zbk_read and zbk_edit: the first k in service. Gives k; 0, and writes nothing, where fewer are in service, and where zbk_record_sound is 0. A
 * call with 0 boards is refused. */
static inline size_t zbk_choose_read(const uint64_t record[ZBK_RECORD_WORDS], size_t boards[ZBK_MAX_BOARDS]) {
    if (!zbk_record_sound(record) || zbk_count_in_service(record) < record[ZBK_WORD_K]) return 0;
    return zbk_boards_in_service(record, boards, record[ZBK_WORD_K]);
}

/* The boards for zbk_read_careful: the first k + 2 in service. Gives k + 2, or 0 as zbk_choose_read does; where k + 2 is above n always 0. */
static inline size_t zbk_choose_careful(const uint64_t record[ZBK_RECORD_WORDS], size_t boards[ZBK_MAX_BOARDS]) {
    if (!zbk_record_sound(record) || zbk_count_in_service(record) < record[ZBK_WORD_K] + 2) return 0;
    return zbk_boards_in_service(record, boards, record[ZBK_WORD_K] + 2);
}

/* The lists of a repair, for zbk_repair and zbk_start. No legal sizes need longer ones: t * d and t * (r - t) are at most 16 * 16. */
enum { ZBK_LIST_ROOM = 256 };

struct zbk_lists {
    size_t fresh[ZBK_MAX_BOARDS], helpers[ZBK_LIST_ROOM], stand_ins[ZBK_LIST_ROOM];
    size_t fresh_count, helpers_count, stand_ins_count;
};

/* The lists for a repair of these fresh boards: for each of them the first d boards in service as helpers, the next r - t as stand-ins. Gives
 * ZBK_ACCEPTED; else why zbk_repair takes these fresh boards with no lists at all, and all counts are then 0: ZBK_SIZE where zbk_record_sound is 0,
 * ZBK_EMPTY, ZBK_COUNT, ZBK_NODE, ZBK_REPEAT, ZBK_SERVING as it says them, and ZBK_DOWN where fewer than d + r - t boards are in service. More fresh
 * boards, up to r, need fewer others. Area and repair record are not looked at: while a repair is running a call is ZBK_BUSY. */
static inline unsigned zbk_choose_repair(const uint64_t record[ZBK_RECORD_WORDS], const size_t *fresh, size_t fresh_count, struct zbk_lists *lists) {
    const struct zbk_sizes sizes = zbk_record_sizes(record);
    size_t on[ZBK_MAX_BOARDS];
    uint64_t named = 0;
    lists->fresh_count = lists->helpers_count = lists->stand_ins_count = 0;
    if (!zbk_record_sound(record)) return ZBK_SIZE;
    if (!zbk_record_has_file(record)) return ZBK_EMPTY;
    if (fresh_count < 1 || fresh_count > sizes.r) return ZBK_COUNT;
    for (size_t i = 0; i < fresh_count; i++)
        if (fresh[i] >= sizes.n) return ZBK_NODE;
    for (size_t i = 0; i < fresh_count; i++) {
        if ((named >> fresh[i] & 1) != 0) return ZBK_REPEAT;
        named |= (uint64_t)1 << fresh[i];
    }
    if ((named & record[ZBK_WORD_MARKS]) != 0) return ZBK_SERVING;
    if (zbk_boards_in_service(record, on, ZBK_MAX_BOARDS) < sizes.d + sizes.r - fresh_count) return ZBK_DOWN;
    for (size_t i = 0; i < fresh_count; i++) {
        lists->fresh[lists->fresh_count++] = fresh[i];
        for (size_t j = 0; j < sizes.d; j++) lists->helpers[lists->helpers_count++] = on[j];
        for (size_t j = 0; j < sizes.r - fresh_count; j++) lists->stand_ins[lists->stand_ins_count++] = on[sizes.d + j];
    }
    return ZBK_ACCEPTED;
}

/* The same for the boards that are out of service, the first r where there are more: the repair that needs the fewest others. ZBK_COUNT where none is
 * out of service. ZBK_DOWN just where fewer than d boards are in service: then no repair is possible, and where k are, the file can be read and
 * written anew. */
static inline unsigned zbk_choose_lost(const uint64_t record[ZBK_RECORD_WORDS], struct zbk_lists *lists) {
    size_t lost[ZBK_MAX_BOARDS] = {0}, count = 0;
    for (size_t board = 0; board < record[ZBK_WORD_N] && board < ZBK_MAX_BOARDS && count < record[ZBK_WORD_R]; board++)
        if (!zbk_in_service(record, board)) lost[count++] = board;
    return zbk_choose_repair(record, lost, count, lists);
}

/* ---- records as bytes: each word as eight bytes, the lowest first (little-endian), on every machine */

enum { ZBK_RECORD_BYTES = 8 * ZBK_RECORD_WORDS, ZBK_REPAIR_BYTES = 8 * ZBK_REPAIR_WORDS };

/* Words as eight bytes each, and back. */
static inline void zbk_words_to_bytes(const uint64_t *words, size_t count, uint8_t *bytes) {
    for (size_t i = 0; i < count; i++)
        for (size_t j = 0; j < 8; j++) bytes[8 * i + j] = (uint8_t)(words[i] >> (8 * j) & 255);
}

static inline void zbk_words_from_bytes(uint64_t *words, size_t count, const uint8_t *bytes) {
    for (size_t i = 0; i < count; i++) {
        words[i] = 0;
        for (size_t j = 0; j < 8; j++) words[i] |= (uint64_t)bytes[8 * i + j] << (8 * j);
    }
}

/* The record as 96 bytes. Keep them together with the area. They have no check of their own: where a medium may alter bytes, keep one beside them. */
static inline void zbk_record_to_bytes(const uint64_t record[ZBK_RECORD_WORDS], uint8_t bytes[ZBK_RECORD_BYTES]) {
    zbk_words_to_bytes(record, ZBK_RECORD_WORDS, bytes);
}

/* The record of 96 bytes. Gives ZBK_ACCEPTED; else ZBK_SIZE, and the record is as it was: their words are none that zbk_record_sound takes, and it says
 * what that does not show. */
static inline unsigned zbk_record_from_bytes(uint64_t record[ZBK_RECORD_WORDS], const uint8_t bytes[ZBK_RECORD_BYTES]) {
    uint64_t words[ZBK_RECORD_WORDS];
    zbk_words_from_bytes(words, ZBK_RECORD_WORDS, bytes);
    if (!zbk_record_sound(words)) return ZBK_SIZE;
    for (size_t i = 0; i < ZBK_RECORD_WORDS; i++) record[i] = words[i];
    return ZBK_ACCEPTED;
}

/* The repair record as 568 bytes, to hand it from one program to the next with the packet area. Never use it behind a power failure: the calls are then
 * given an idle one, 71 words 0. */
static inline void zbk_repair_to_bytes(const uint64_t repair[ZBK_REPAIR_WORDS], uint8_t bytes[ZBK_REPAIR_BYTES]) {
    zbk_words_to_bytes(repair, ZBK_REPAIR_WORDS, bytes);
}

/* The repair record of 568 bytes, beside this record. Gives ZBK_ACCEPTED; else ZBK_SIZE, and the repair record is as it was: their words are none that
 * zbk_repair_sound takes, and it says what that does not show. */
static inline unsigned zbk_repair_from_bytes(const uint64_t record[ZBK_RECORD_WORDS], uint64_t repair[ZBK_REPAIR_WORDS],
                                             const uint8_t bytes[ZBK_REPAIR_BYTES]) {
    uint64_t words[ZBK_REPAIR_WORDS];
    zbk_words_from_bytes(words, ZBK_REPAIR_WORDS, bytes);
    if (!zbk_repair_sound(record, words)) return ZBK_SIZE;
    for (size_t i = 0; i < ZBK_REPAIR_WORDS; i++) repair[i] = words[i];
    return ZBK_ACCEPTED;
}

/* ---- the words of docs/REFUSALS.md, put here by tools/refusals.sh */

/* The name of a number that zbk_refusal gives: "DISAGREE" of 10, "ACCEPTED" of 0; "" of a number that no call answers. */
static inline const char *zbk_refusal_name(unsigned number) {
    switch (number) {
    case ZBK_ACCEPTED:
        return "ACCEPTED";
    case ZBK_SIZE:
        return "SIZE";
    case ZBK_AREA:
        return "AREA";
    case ZBK_LONG:
        return "LONG";
    case ZBK_COUNT:
        return "COUNT";
    case ZBK_NODE:
        return "NODE";
    case ZBK_REPEAT:
        return "REPEAT";
    case ZBK_SHORT:
        return "SHORT";
    case ZBK_EMPTY:
        return "EMPTY";
    case ZBK_DOWN:
        return "DOWN";
    case ZBK_DISAGREE:
        return "DISAGREE";
    case ZBK_TEXT:
        return "TEXT";
    case ZBK_MIXED:
        return "MIXED";
    case ZBK_SERVING:
        return "SERVING";
    case ZBK_RANGE:
        return "RANGE";
    case ZBK_BUSY:
        return "BUSY";
    case ZBK_IDLE:
        return "IDLE";
    default:
        return "";
    }
}

/* What it means, in a sentence; "" of a number that no call answers. */
static inline const char *zbk_refusal_text(unsigned number) {
    switch (number) {
    case ZBK_ACCEPTED:
        return "The call was accepted.";
    case ZBK_SIZE:
        return "The sizes are not legal, the capacity is not 1 to 4,096 stripes, the record is one that no call hands out, the points repeat, "
               "or one from n up is not 00; or a repair is running by a repair record that no call hands out beside this record.";
    case ZBK_AREA:
        return "The area, the packet area of a repair that is running, or a slice of shares or packets, has another length than the sizes "
               "give.";
    case ZBK_LONG:
        return "The file is longer than the store's capacity, or than 4,096 stripes at board level.";
    case ZBK_COUNT:
        return "A list has the wrong number of boards, not k + 2 of them for a careful read, or k + 2 is above n; there are not 1 to r fresh "
               "boards; or the texts to gather are not k.";
    case ZBK_NODE:
        return "A board number is n or more.";
    case ZBK_REPEAT:
        return "A board is named twice where each must be another one, two texts to gather are of one board, or the new point of a move is "
               "some board's.";
    case ZBK_SHORT:
        return "The output is shorter than what is to be written.";
    case ZBK_EMPTY:
        return "A repair, a read, a careful read, an edit, a start, a step or a move before any file was written.";
    case ZBK_DOWN:
        return "A board to read from, a helper or a stand-in is out of service, or any board, for a move.";
    case ZBK_DISAGREE:
        return "No file of this length has these shares; of a careful read, none has all of them but one.";
    case ZBK_TEXT:
        return "The text is none that zbk_share_text writes.";
    case ZBK_MIXED:
        return "The texts differ in sizes, points or length.";
    case ZBK_SERVING:
        return "A fresh board is in service.";
    case ZBK_RANGE:
        return "The edit goes beyond the end of the file.";
    case ZBK_BUSY:
        return "A repair is running.";
    case ZBK_IDLE:
        return "No repair is running.";
    default:
        return "";
    }
}

/* Who acts: "installer", "calling program" or "service staff", and "nobody" of 0; "" of a number that no call answers. */
static inline const char *zbk_refusal_who(unsigned number) {
    switch (number) {
    case ZBK_ACCEPTED:
        return "nobody";
    case ZBK_SIZE:
        return "installer";
    case ZBK_AREA:
        return "installer";
    case ZBK_LONG:
        return "calling program";
    case ZBK_COUNT:
        return "calling program";
    case ZBK_NODE:
        return "calling program";
    case ZBK_REPEAT:
        return "calling program";
    case ZBK_SHORT:
        return "calling program";
    case ZBK_EMPTY:
        return "calling program";
    case ZBK_DOWN:
        return "service staff";
    case ZBK_DISAGREE:
        return "service staff";
    case ZBK_TEXT:
        return "service staff";
    case ZBK_MIXED:
        return "service staff";
    case ZBK_SERVING:
        return "service staff";
    case ZBK_RANGE:
        return "calling program";
    case ZBK_BUSY:
        return "calling program";
    case ZBK_IDLE:
        return "calling program";
    default:
        return "";
    }
}

/* What to do, in a few sentences; "" of a number that no call answers. */
static inline const char *zbk_refusal_remedy(unsigned number) {
    switch (number) {
    case ZBK_ACCEPTED:
        return "Nothing.";
    case ZBK_SIZE:
        return "Check the sizes (1 <= k <= d, r >= 1, d + r <= n <= 32), the capacity and the points (n different bytes, then 00). Where they "
               "are as they were at set-up, the record was altered, or the repair record does not belong beside it: give an idle repair "
               "record, as after every power failure. Where it is SIZE still, go on with the second record and area, if two are kept in turn, "
               "else set the store up and write the file anew. A program lends 12 words for a record, 71 for that of a repair, 6 for a text's "
               "head and 32 points.";
    case ZBK_AREA:
        return "Check whether sizes or capacity were changed since set-up. The area has n x capacity x (2d + r - 1) bytes, the packet area of "
               "a repair stripes x t x (2d + r - 1); a share has 2d + r - 1 bytes for each stripe, a helper packet 2, an exchange packet 1. "
               "Where other sizes or another capacity are wanted, read the file first, then set the store up and write the file anew.";
    case ZBK_LONG:
        return "Write a shorter file, or set up a store of a greater capacity: the longest file has capacity x k(2d + r - k) bytes, and the "
               "capacity is at most 4,096 stripes.";
    case ZBK_COUNT:
        return "Name just k boards for a read or an edit, and just k + 2 for a careful read; where k + 2 is above n no careful read is "
               "possible. For a repair or a start name t fresh boards, 1 to r, and for each of them d helpers and r - t stand-ins; for a move "
               "and at board level d helpers and r - 1 partners. Gather just k texts; zbk gather takes more.";
    case ZBK_NODE:
        return "Name boards 0 to n - 1: the first board is 0, not 1.";
    case ZBK_REPEAT:
        return "Name each board once among those to read, and once among the fresh ones. The helpers and stand-ins of one fresh board are all "
               "different, and no fresh board is a helper or a stand-in of any. At board level all boards named in a call are different, the "
               "one that works and the one that receives among them. Of two texts of one board gather one. Move a board to a point that no "
               "board has; its own is one of them.";
    case ZBK_SHORT:
        return "Lend an output with room for all that the call writes: for a read or a careful read the file's length, for a share 2d + r - 1 "
               "bytes for each stripe, for a helper packet 2, for an exchange packet 1, for a share's text twice as many as the share and 200 "
               "more, for a file from texts half as many as the texts have.";
    case ZBK_EMPTY:
        return "Write a file first. Where one was written, the store was set up anew since then, or this is not the record that was kept with "
               "the area: go on with the one that was.";
    case ZBK_DOWN:
        return "Name boards that are in service: k for a read or an edit, k + 2 for a careful read, d + r - t for a repair of t boards. For a "
               "move all n are: repair those that are not first. Where too few are for a repair, rebuild more boards in one, up to r: it then "
               "needs fewer others. Where fewer than d are, no repair is possible: change the boards, and where k are in service, read the "
               "file from them and write it anew. A board comes into service by a repair or a write alone.";
    case ZBK_DISAGREE:
        return "Order nothing by this file before a read of it is trusted again. Bytes of a board were altered, a write or an edit was cut "
               "off, record and area do not belong together, or at board level the length is another file's. Do a careful read of k + 2 "
               "boards: where just one of them is wrong it gives the file and names that board, which is then taken out of service and "
               "rebuilt. Where that is DISAGREE too, two or more of them are wrong: try others, or write the file anew. That k boards do not "
               "disagree does not show that none is altered. Of texts name k + 2 or more to zbk check, which says which of them are wrong, or "
               "fit each other two by two.";
    case ZBK_TEXT:
        return "Copy the text again, whole and unaltered: small letters, no blanks, no empty line, no line broken in two, each line ended by "
               "one line feed, nothing behind the last. zbk look says up to which line and place it makes sense, and what was expected there; "
               "zbk tidy undoes what mail and editors do to a text, as CR LF, blanks, capitals and broken lines.";
    case ZBK_MIXED:
        return "Sort the texts by robot and by file, and gather only those of one file; zbk look shows sizes, points and length of each, zbk "
               "check which fit each other.";
    case ZBK_SERVING:
        return "See that the board named is the one that was changed. If it is, take it out of service first, and then rebuild it; if not, "
               "name the one that was.";
    case ZBK_RANGE:
        return "Edit bytes of the file alone: offset and number of bytes together are at most its length. An edit keeps the length; a longer "
               "file is written anew.";
    case ZBK_BUSY:
        return "Step the repair to its end, and then write, edit, repair, move or start another. To give it up take one of its fresh boards "
               "out of service, which ends it. Reads, careful reads and losses go on while it runs.";
    case ZBK_IDLE:
        return "Start a repair before it is stepped. Where one was started it has come to its end, or the loss of a board that it names or a "
               "power failure has ended it: where its fresh boards are still out of service, start it anew.";
    default:
        return "";
    }
}

/* ---- end of the words of docs/REFUSALS.md */

#endif

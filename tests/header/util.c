/*
 * util.c: include/zebrankai_util.h held to the archive, in C99, C11 and C++. Every function is tried over all 46,376 legal sizes, or over records made
 * with them: areas, packet areas, shares, packets and texts of the lengths given are taken, and a byte more or less is AREA, SHORT or LONG; boards
 * chosen are taken by reads, careful reads, repairs and starts, with boards lost in many patterns, and where none can be chosen the archive refuses the
 * best lists there are with the same number; records go to bytes and back, and words that no call hands out are told just where the archive refuses
 * them.
 *
 *   util             all sizes
 *   util few         one size in some hundred, as for valgrind
 *   util refusals    prints number, name, meaning, who and what to do of each refusal, with tabs between
 *
 * Built and run by tests/util.sh. Prints the first checks that fail with their line and their sizes, then how many there were; ends with exit code 1
 * where one failed.
 */
#include "zebrankai_util.h"

#include <stdio.h>
#include <string.h>

/* ---- checks */

static unsigned long checks, failed, tried_sizes, tried_repairs, tried_words;
static size_t n, k, d, r;

static void check(int line, int holds, const char *what) {
    checks++;
    if (holds) return;
    if (failed++ < 20) printf("FAIL util.c, line %d: %s; n=%zu k=%zu d=%zu r=%zu\n", line, what, n, k, d, r);
}

static void answers(int line, uint64_t answer, unsigned due) {
    check(line, zbk_refusal(answer) == due, "another answer");
    if (zbk_refusal(answer) != due && failed <= 20)
        printf("  it is %u %s, and %u %s was due\n", zbk_refusal(answer), zbk_refusal_name(zbk_refusal(answer)), due, zbk_refusal_name(due));
}

static void equal(int line, size_t is, size_t due, const char *what) {
    check(line, is == due, what);
    if (is != due && failed <= 20) printf("  it is %zu, and %zu was due\n", is, due);
}

/* a number below `below` */
static uint32_t state = 1;
static size_t drawn(size_t below) {
    uint8_t bytes[4];
    state = zbk_trial_file(state, bytes, 4);
    return (bytes[0] | (size_t)bytes[1] << 8 | (size_t)bytes[2] << 16) % below;
}

/* ---- constants, as a program has them: arrays of constant length, and numbers worked out by hand */

#define IS(name, expression, number) typedef char name##_holds[(expression) == (number) ? 1 : -1]
IS(legal, ZBK_LEGAL(8, 4, 6, 2), 1);
IS(too_many_helpers, ZBK_LEGAL(8, 4, 7, 2), 0);
IS(share_len, ZBK_SHARE_LEN(8, 4, 6, 2), 13);
IS(no_share_len, ZBK_SHARE_LEN(8, 7, 6, 2), 0);
IS(stripe_len, ZBK_STRIPE_LEN(8, 4, 6, 2), 40);
IS(stripes, ZBK_STRIPES(8, 4, 6, 2, 1200), 30);
IS(one_stripe_more, ZBK_STRIPES(8, 4, 6, 2, 1201), 31);
IS(no_stripes, ZBK_STRIPES(33, 4, 6, 2, 1201), 0);
IS(area_len, ZBK_AREA_LEN(8, 4, 6, 2, 30), 8 * 30 * 13);
IS(no_area_len, ZBK_AREA_LEN(8, 4, 6, 2, 4097), 0);
IS(longest, ZBK_LONGEST(8, 4, 6, 2, 4096), 163840);
IS(no_longest, ZBK_LONGEST(8, 4, 6, 2, 0), 0);
IS(text_room, ZBK_TEXT_ROOM(8, 4, 6, 2, 1200), 2 * 30 * 13 + 200);
IS(taken, ZBK_TAKEN(1), 1);
IS(divisor, ZBK_DIVISOR(8, 4, 6, 2), 40);
IS(record_bytes, ZBK_RECORD_BYTES, 96);
IS(repair_bytes, ZBK_REPAIR_BYTES, 568);
IS(list_room, ZBK_LIST_ROOM, 256);
enum { CAPACITY = ZBK_STRIPES(8, 4, 6, 2, 1200), AREA = ZBK_AREA_LEN(8, 4, 6, 2, CAPACITY) };
static uint8_t constant_area[AREA];

/* ---- a store */

enum { MOST_STRIPES = 3, MOST_AREA = 32 * 62 * ZBK_MAX_STRIPES };
#define RECORDS record, ZBK_RECORD_WORDS, repair, ZBK_REPAIR_WORDS
static uint64_t record[ZBK_RECORD_WORDS], repair[ZBK_REPAIR_WORDS];
static uint8_t area[MOST_AREA + 1], packets[32 * 32 * 62 * MOST_STRIPES + 1], points[ZBK_MAX_BOARDS];
static uint8_t file[32 * 62 * MOST_STRIPES + 1], out[32 * 62 * MOST_STRIPES + 1], text[2 * 62 * MOST_STRIPES + 201];

/* ---- lengths */

static void lengths_are(void) {
    const int is_legal = zbk_legal(n, k, d, r);
    const size_t share = zbk_share_len(n, k, d, r), stripe = zbk_stripe_len(n, k, d, r);
    static const size_t counts[] = {0, 1, 2, 3, 39, 40, 41, 4095, 4096, 4097, 163840, 163841, SIZE_MAX / 2, SIZE_MAX - 1, SIZE_MAX};
    check(__LINE__, is_legal == 0 || is_legal == 1, "neither legal nor not");
    zbk_standard_points(points, n);
    answers(__LINE__, zbk_set_up(RECORDS, n, k, d, r, points, ZBK_MAX_BOARDS, 1), is_legal ? ZBK_ACCEPTED : ZBK_SIZE);
    check(__LINE__, (share != 0) == is_legal && (stripe != 0) == is_legal, "a length of sizes that are not legal, or none of legal ones");
    check(__LINE__, ZBK_LEGAL(n, k, d, r) == is_legal && ZBK_SHARE_LEN(n, k, d, r) == share && ZBK_STRIPE_LEN(n, k, d, r) == stripe, "a macro");
    for (size_t i = is_legal ? 0 : drawn(8); i < sizeof counts / sizeof *counts; i += is_legal ? 1 : 8) {
        const size_t count = counts[i], needs = zbk_stripes(n, k, d, r, count), fits = needs <= ZBK_MAX_STRIPES ? needs : 0;
        const size_t capacity = 1 <= count && count <= ZBK_MAX_STRIPES ? count : 0;
        equal(__LINE__, needs, stripe == 0 || count == 0 ? 0 : (count - 1) / stripe + 1, "zbk_stripes");
        equal(__LINE__, zbk_area_len(n, k, d, r, count), is_legal ? n * capacity * share : 0, "zbk_area_len");
        equal(__LINE__, zbk_longest(n, k, d, r, count), capacity * stripe, "zbk_longest");
        equal(__LINE__, zbk_exchange_packet_len(n, k, d, r, count), fits, "zbk_exchange_packet_len");
        equal(__LINE__, zbk_helper_packet_len(n, k, d, r, count), 2 * fits, "zbk_helper_packet_len");
        equal(__LINE__, zbk_whole_share_len(n, k, d, r, count), fits * share, "zbk_whole_share_len");
        equal(__LINE__, zbk_text_room(n, k, d, r, count), is_legal && needs == fits ? 2 * fits * share + 200 : 0, "zbk_text_room");
        equal(__LINE__, zbk_packets_len(n, k, d, r, count, r), fits * r * share, "zbk_packets_len");
        equal(__LINE__, zbk_packets_len(n, k, d, r, count, 0) + zbk_packets_len(n, k, d, r, count, r + 1), 0, "zbk_packets_len of no such count");
        check(__LINE__,
              ZBK_STRIPES(n, k, d, r, count) == needs && ZBK_AREA_LEN(n, k, d, r, count) == zbk_area_len(n, k, d, r, count) &&
                  ZBK_LONGEST(n, k, d, r, count) == zbk_longest(n, k, d, r, count) &&
                  ZBK_TEXT_ROOM(n, k, d, r, count) == zbk_text_room(n, k, d, r, count),
              "a macro is not its function");
    }
}

/* The area of each capacity: a read of a store with no file is EMPTY with it, and AREA with a byte more or less. No byte of the area is looked at. */
static void areas_are_taken(void) {
    static const size_t capacities[] = {1, 2, 7, 4095, 4096};
    const size_t boards[1] = {0};
    for (size_t i = 0; i < sizeof capacities / sizeof *capacities; i++) {
        const size_t len = zbk_area_len(n, k, d, r, capacities[i]);
        answers(__LINE__, zbk_set_up(RECORDS, n, k, d, r, points, ZBK_MAX_BOARDS, capacities[i]), ZBK_ACCEPTED);
        equal(__LINE__, zbk_record_area_len(record), len, "zbk_record_area_len");
        equal(__LINE__, zbk_record_capacity(record), capacities[i], "zbk_record_capacity");
        answers(__LINE__, zbk_read(RECORDS, area, len, boards, 1, out, 0), ZBK_EMPTY);
        answers(__LINE__, zbk_read(RECORDS, area, len - 1, boards, 1, out, 0), ZBK_AREA);
        answers(__LINE__, zbk_read(RECORDS, area, len + 1, boards, 1, out, 0), ZBK_AREA);
    }
}

/* Shares, packets and texts of a file of some stripes: the lengths are what the calls write, and a byte less is SHORT; of what they are lent, a byte more or
 * less is AREA. The longest file of all is not LONG, and one byte more is. */
static void board_level_is_taken(size_t length, int thorough) {
    const size_t share = zbk_whole_share_len(n, k, d, r, length), packet = zbk_helper_packet_len(n, k, d, r, length);
    const size_t exchange = zbk_exchange_packet_len(n, k, d, r, length), room = zbk_text_room(n, k, d, r, length);
    const size_t longest_of_all = zbk_longest(n, k, d, r, ZBK_MAX_STRIPES), most = zbk_whole_share_len(n, k, d, r, longest_of_all);
    size_t helpers[ZBK_MAX_BOARDS];
    uint64_t answer;
    answers(__LINE__, zbk_share(n, k, d, r, points, ZBK_MAX_BOARDS, n - 1, file, length, out, share - 1), ZBK_SHORT);
    if (thorough) {
        answer = zbk_share(n, k, d, r, points, ZBK_MAX_BOARDS, n - 1, file, length, out, share);
        check(__LINE__, answer == (uint64_t)share << 8, "zbk_share does not write zbk_whole_share_len");
    }
    answer = zbk_share_text(n, k, d, r, points, ZBK_MAX_BOARDS, length, n - 1, out, share, text, room);
    check(__LINE__, zbk_refusal(answer) == ZBK_ACCEPTED && zbk_value(answer) > room - 200, "zbk_text_room is not enough, or more than 200 too much");
    if (thorough) {
        answer = zbk_helper_packet(n, k, d, r, points, ZBK_MAX_BOARDS, length, n - 1, 0, out, share, packets, packet);
        check(__LINE__, answer == (uint64_t)packet << 8, "zbk_helper_packet does not write zbk_helper_packet_len");
    }
    answers(__LINE__, zbk_helper_packet(n, k, d, r, points, ZBK_MAX_BOARDS, length, n - 1, 0, out, share, packets, packet - 1), ZBK_SHORT);
    answers(__LINE__, zbk_helper_packet(n, k, d, r, points, ZBK_MAX_BOARDS, length, n - 1, 0, out, share + 1, packets, packet), ZBK_AREA);
    answers(__LINE__, zbk_helper_packet(n, k, d, r, points, ZBK_MAX_BOARDS, length, n - 1, 0, out, share - 1, packets, packet), ZBK_AREA);
    if (d + 2 <= n) {
        for (size_t i = 0; i < d; i++) helpers[i] = i;
        memset(packets, 7, d * packet);
        answer = zbk_exchange_packet(n, k, d, r, points, ZBK_MAX_BOARDS, length, n - 1, helpers, d, packets, d * packet, n - 2, out, exchange - 1);
        answers(__LINE__, answer, ZBK_SHORT);
        answer = thorough ? zbk_exchange_packet(n, k, d, r, points, ZBK_MAX_BOARDS, length, n - 1, helpers, d, packets, d * packet, n - 2, out, exchange)
                          : (uint64_t)exchange << 8;
        check(__LINE__, answer == (uint64_t)exchange << 8, "zbk_exchange_packet does not write zbk_exchange_packet_len");
    }
    answers(__LINE__, zbk_helper_packet(n, k, d, r, points, ZBK_MAX_BOARDS, longest_of_all, n - 1, 0, area, most + 1, packets, 0), ZBK_AREA);
    answers(__LINE__, zbk_helper_packet(n, k, d, r, points, ZBK_MAX_BOARDS, longest_of_all, n - 1, 0, area, most, packets, 0), ZBK_SHORT);
    answers(__LINE__, zbk_helper_packet(n, k, d, r, points, ZBK_MAX_BOARDS, longest_of_all + 1, n - 1, 0, area, most, packets, 0), ZBK_LONG);
}

/* ---- what a record says, beside what was done */

static void record_says(int line, size_t capacity, int written, size_t length, uint64_t marks) {
    const struct zbk_sizes sizes = zbk_record_sizes(record);
    size_t count = 0, some[ZBK_MAX_BOARDS], boards[ZBK_MAX_BOARDS];
    check(line, sizes.n == n && sizes.k == k && sizes.d == d && sizes.r == r, "zbk_record_sizes");
    equal(line, zbk_record_capacity(record), capacity, "zbk_record_capacity");
    equal(line, (size_t)zbk_record_has_file(record), (size_t)written, "zbk_record_has_file");
    equal(line, zbk_record_length(record), length, "zbk_record_length");
    equal(line, zbk_record_area_len(record), zbk_area_len(n, k, d, r, capacity), "zbk_record_area_len");
    for (size_t board = 0; board < 70; board++) {
        const int on = board < 32 && (marks >> board & 1) != 0;
        equal(line, (size_t)zbk_in_service(record, board), (size_t)on, "zbk_in_service");
        equal(line, zbk_record_point(record, board), board < n ? points[board] : 0, "zbk_record_point");
        if (on) boards[count++] = board;
    }
    equal(line, zbk_count_in_service(record), count, "zbk_count_in_service");
    equal(line, zbk_boards_in_service(record, some, ZBK_MAX_BOARDS), count, "zbk_boards_in_service");
    check(line, memcmp(some, boards, count * sizeof *some) == 0, "other boards in service");
    equal(line, zbk_boards_in_service(record, some, count / 2), count / 2, "half of zbk_boards_in_service");
    check(line, zbk_record_sound(record) == 1 && zbk_repair_sound(record, repair) == 1, "records that calls handed out are not sound");
}

/* ---- records as bytes */

/* Each call asks SIZE first, and a loss of no board then NODE: the archive's own word on two records. */
static unsigned size_or_node(const uint64_t words[ZBK_RECORD_WORDS], const uint64_t beside[ZBK_REPAIR_WORDS]) {
    uint64_t lent[ZBK_RECORD_WORDS], lent_beside[ZBK_REPAIR_WORDS];
    memcpy(lent, words, sizeof lent);
    memcpy(lent_beside, beside, sizeof lent_beside);
    return zbk_refusal(zbk_lose(lent, ZBK_RECORD_WORDS, lent_beside, ZBK_REPAIR_WORDS, SIZE_MAX));
}

/* Both records as bytes, which on this machine are those of its words, and back. Words that the archive refuses are not taken, and change nothing. */
static void bytes_and_back(const uint64_t words[ZBK_RECORD_WORDS], const uint64_t beside[ZBK_REPAIR_WORDS]) {
    static const uint64_t idle[ZBK_REPAIR_WORDS] = {0};
    static const uint64_t other = 0x0102030405060708;
    uint8_t bytes[ZBK_RECORD_BYTES + 1], more[ZBK_REPAIR_BYTES + 1];
    uint64_t again[ZBK_RECORD_WORDS + 1], again_beside[ZBK_REPAIR_WORDS + 1];
    const unsigned due = size_or_node(words, idle) == ZBK_SIZE ? ZBK_SIZE : ZBK_ACCEPTED;
    const unsigned due_beside = size_or_node(words, beside) == ZBK_SIZE ? ZBK_SIZE : ZBK_ACCEPTED;
    tried_words++;
    bytes[ZBK_RECORD_BYTES] = more[ZBK_REPAIR_BYTES] = 0xEE;
    zbk_record_to_bytes(words, bytes);
    zbk_repair_to_bytes(beside, more);
    check(__LINE__, memcmp(bytes, words, ZBK_RECORD_BYTES) == 0 && bytes[ZBK_RECORD_BYTES] == 0xEE, "zbk_record_to_bytes");
    check(__LINE__, memcmp(more, beside, ZBK_REPAIR_BYTES) == 0 && more[ZBK_REPAIR_BYTES] == 0xEE, "zbk_repair_to_bytes");
    for (size_t i = 0; i <= ZBK_RECORD_WORDS; i++) again[i] = other;
    for (size_t i = 0; i <= ZBK_REPAIR_WORDS; i++) again_beside[i] = other;
    answers(__LINE__, zbk_record_from_bytes(again, bytes), due);
    answers(__LINE__, zbk_repair_from_bytes(words, again_beside, more), due_beside);
    check(__LINE__, zbk_record_sound(words) == (due == ZBK_ACCEPTED), "zbk_record_sound");
    check(__LINE__, zbk_repair_sound(words, beside) == (due_beside == ZBK_ACCEPTED), "zbk_repair_sound");
    for (size_t i = 0; i <= ZBK_RECORD_WORDS; i++)
        check(__LINE__, again[i] == (due == ZBK_ACCEPTED && i < ZBK_RECORD_WORDS ? words[i] : other), "another record comes back");
    for (size_t i = 0; i <= ZBK_REPAIR_WORDS; i++)
        check(__LINE__, again_beside[i] == (due_beside == ZBK_ACCEPTED && i < ZBK_REPAIR_WORDS ? beside[i] : other), "another repair record comes back");
}

/* The records, and with one word or byte altered: at edges, and anyhow. Functions that read records must take them all. */
static void altered_words(size_t turns) {
    uint64_t words[ZBK_RECORD_WORDS], beside[ZBK_REPAIR_WORDS];
    struct zbk_lists lists;
    size_t boards[ZBK_MAX_BOARDS];
    bytes_and_back(record, repair);
    for (size_t turn = 0; turn < turns; turn++) {
        memcpy(words, record, sizeof words);
        memcpy(beside, repair, sizeof beside);
        const size_t word = drawn(ZBK_RECORD_WORDS), byte = drawn(32), length = zbk_longest(n, k, d, r, words[ZBK_WORD_CAPACITY]);
        const uint64_t edges[] = {0, 1, 2, words[word] - 1, words[word] + 1, 4096, 4097, 32, 33, length, length + 1, UINT64_MAX};
        switch (drawn(8)) {
        case 0:
            words[word] = edges[drawn(12)];
            break;
        case 1:
            words[ZBK_WORD_LENGTH] = length + drawn(2);
            break;
        case 2:
            words[ZBK_WORD_MARKS] ^= (uint64_t)1 << drawn(64);
            break;
        case 3:
            words[ZBK_WORD_POINTS + byte / 8] ^= (uint64_t)(1 + drawn(3)) << (8 * (byte % 8));
            break;
        case 4:
            words[ZBK_WORD_WRITTEN] = drawn(3);
            if (drawn(2)) words[ZBK_WORD_MARKS] = 0;
            if (drawn(2)) words[ZBK_WORD_LENGTH] = 0;
            break;
        case 5:
            beside[drawn(3)] = edges[drawn(12)];
            break;
        case 6: {
            const size_t first[3] = {ZBK_REPAIR_FRESH, ZBK_REPAIR_HELPERS, ZBK_REPAIR_STAND_INS}, place = drawn(40);
            beside[first[drawn(3)] + place / 8] ^= (uint64_t)(1 + drawn(40)) << (8 * (place % 8));
            break;
        }
        default:
            beside[ZBK_REPAIR_CARRIED] = zbk_repair_packets(record, repair) - drawn(2);
        }
        bytes_and_back(words, beside);
        /* no function may go beyond what it is lent, whatever the words say */
        const size_t chosen = zbk_choose_read(words, boards), careful = zbk_choose_careful(words, boards);
        check(__LINE__, chosen <= ZBK_MAX_BOARDS && careful <= ZBK_MAX_BOARDS, "more boards than there are");
        zbk_choose_lost(words, &lists);
        check(__LINE__, lists.fresh_count <= ZBK_MAX_BOARDS && lists.helpers_count <= ZBK_LIST_ROOM && lists.stand_ins_count <= ZBK_LIST_ROOM, "long lists");
        check(__LINE__, zbk_repair_left(words, beside) <= zbk_repair_packets(words, beside), "more packets are left than there are");
        /* and what they cannot say they do not */
        for (size_t board = words[ZBK_WORD_N] < 70 ? words[ZBK_WORD_N] : 70; board < 70; board++)
            check(__LINE__, !zbk_in_service(words, board), "a board from n up is in service");
        check(__LINE__, zbk_record_has_file(words) == (words[ZBK_WORD_WRITTEN] == 1), "zbk_record_has_file of any word");
        check(__LINE__, zbk_repair_running(beside) == (beside[ZBK_REPAIR_RUNNING] == 1), "zbk_repair_running of any word");
        if (!zbk_repair_running(beside)) {
            check(__LINE__, zbk_repair_count(beside) == 0 && zbk_repair_carried(beside) == 0, "boards or packets of no repair");
            check(__LINE__, zbk_repair_packets(words, beside) == 0 && zbk_repair_packets_len(words, beside) == 0, "packets of no repair");
        }
        if (beside[ZBK_REPAIR_COUNT] > words[ZBK_WORD_R] || !zbk_legal(words[ZBK_WORD_N], words[ZBK_WORD_K], words[ZBK_WORD_D], words[ZBK_WORD_R]))
            check(__LINE__, zbk_repair_packets(words, beside) == 0 && zbk_repair_packets_len(words, beside) == 0, "packets of no such repair");
    }
}

/* ---- repairs */

/* What the archive says of these fresh boards with the best lists there are, of boards that are not fresh: those in service first, then the others. */
static unsigned best_answer(const size_t *fresh, size_t count) {
    uint64_t words[ZBK_RECORD_WORDS], beside[ZBK_REPAIR_WORDS];
    size_t helpers[ZBK_LIST_ROOM], stand_ins[ZBK_LIST_ROOM], best[2 * ZBK_MAX_BOARDS], length = 0, helpers_count = 0, stand_ins_count = 0;
    memcpy(words, record, sizeof words);
    memcpy(beside, repair, sizeof beside);
    for (size_t turn = 0; turn < 2; turn++)
        for (size_t board = 0; board < n; board++) {
            size_t i = 0;
            while (i < count && fresh[i] != board) i++;
            if (i == count && (record[ZBK_WORD_MARKS] >> board & 1) == (turn == 0)) best[length++] = board;
        }
    for (size_t i = 0; i < count && 1 <= count && count <= r; i++) {
        for (size_t j = 0; j < d; j++) helpers[helpers_count++] = best[j];
        for (size_t j = d; j < d + r - count; j++) stand_ins[stand_ins_count++] = best[j];
    }
    return zbk_refusal(zbk_start(words, ZBK_RECORD_WORDS, beside, ZBK_REPAIR_WORDS, area, zbk_record_area_len(record), fresh, count, helpers, helpers_count,
                                 stand_ins, stand_ins_count));
}

/* The lists for these fresh boards: a start and a repair take them, or none are there and the best lists are refused with the same number. Gives whether
 * there are lists. A start asks what a repair asks, and does not work: where not `whole`, it is given up, and the boards stay out of service. */
static int rebuilt(const struct zbk_lists *lists, unsigned chosen, const size_t *fresh, size_t count, int whole) {
    const size_t area_len = zbk_record_area_len(record);
    tried_repairs++;
    answers(__LINE__, chosen, best_answer(fresh, count));
    if (chosen != ZBK_ACCEPTED) {
        check(__LINE__, lists->fresh_count == 0 && lists->helpers_count == 0 && lists->stand_ins_count == 0, "lists that are not there have boards");
        return 0;
    }
    equal(__LINE__, lists->fresh_count, count, "another number of fresh boards");
    check(__LINE__, memcmp(lists->fresh, fresh, count * sizeof *fresh) == 0, "other fresh boards");
    answers(__LINE__,
            zbk_start(RECORDS, area, area_len, lists->fresh, lists->fresh_count, lists->helpers, lists->helpers_count, lists->stand_ins,
                      lists->stand_ins_count),
            ZBK_ACCEPTED);

    /* what the repair record says */
    const size_t packets_len = zbk_packets_len(n, k, d, r, zbk_record_length(record), count), all = count * (d + r - 1);
    check(__LINE__, zbk_repair_running(repair) == 1 && zbk_repair_count(repair) == count, "zbk_repair_running, zbk_repair_count");
    for (size_t i = 0; i < count; i++) equal(__LINE__, zbk_repair_board(repair, ZBK_REPAIR_FRESH, i), fresh[i], "a fresh board of zbk_repair_board");
    for (size_t i = 0; i < lists->helpers_count; i++)
        equal(__LINE__, zbk_repair_board(repair, ZBK_REPAIR_HELPERS, i), lists->helpers[i], "a helper of zbk_repair_board");
    for (size_t i = 0; i < lists->stand_ins_count; i++)
        equal(__LINE__, zbk_repair_board(repair, ZBK_REPAIR_STAND_INS, i), lists->stand_ins[i], "a stand-in of zbk_repair_board");
    equal(__LINE__, zbk_repair_board(repair, ZBK_REPAIR_STAND_INS, ZBK_LIST_ROOM), 0, "zbk_repair_board behind the record");
    equal(__LINE__, zbk_repair_board(repair, SIZE_MAX, SIZE_MAX), 0, "zbk_repair_board far behind the record");
    equal(__LINE__, zbk_repair_packets_len(record, repair), packets_len, "zbk_repair_packets_len");
    equal(__LINE__, zbk_repair_packets(record, repair), all, "zbk_repair_packets");
    equal(__LINE__, zbk_repair_carried(repair), 0, "zbk_repair_carried at first");
    answers(__LINE__, zbk_step(RECORDS, area, area_len, packets, packets_len, 0), ZBK_ACCEPTED);
    answers(__LINE__, zbk_step(RECORDS, area, area_len, packets, packets_len - 1, 0), ZBK_AREA);
    answers(__LINE__, zbk_step(RECORDS, area, area_len, packets, packets_len + 1, 0), ZBK_AREA);
    altered_words(1);
    if (!whole) {
        memset(repair, 0, sizeof repair);
        return 1;
    }
    const size_t first = drawn(all);
    equal(__LINE__, zbk_value(zbk_step(RECORDS, area, area_len, packets, packets_len, first)), first, "packets carried");
    equal(__LINE__, zbk_repair_carried(repair), first, "zbk_repair_carried");
    equal(__LINE__, zbk_repair_left(record, repair), all - first, "zbk_repair_left");
    altered_words(4);

    /* a half of them is stepped to the end, the others are started anew as a whole */
    if (drawn(2)) {
        equal(__LINE__, zbk_value(zbk_step(RECORDS, area, area_len, packets, packets_len, SIZE_MAX)), all - first, "packets that were left");
    } else {
        memset(repair, 0, sizeof repair);
        answers(__LINE__,
                zbk_repair(RECORDS, area, area_len, lists->fresh, lists->fresh_count, lists->helpers, lists->helpers_count, lists->stand_ins,
                           lists->stand_ins_count),
                ZBK_ACCEPTED);
    }
    equal(__LINE__, zbk_repair_packets(record, repair) + zbk_repair_carried(repair) + zbk_repair_left(record, repair), 0, "packets of no repair");
    equal(__LINE__, zbk_repair_packets_len(record, repair) + (size_t)zbk_repair_running(repair), 0, "zbk_repair_packets_len of no repair");
    return 1;
}

/* Reads by the boards chosen: they are taken and give the file; where none are, too few are in service. Where not `whole`, the output is a byte too short,
 * which is asked when the boards are taken. */
static void reads(size_t length, int whole) {
    size_t boards[ZBK_MAX_BOARDS] = {0};
    const size_t area_len = zbk_record_area_len(record), on = zbk_count_in_service(record);
    size_t count = zbk_choose_read(record, boards);
    equal(__LINE__, count, on >= k ? k : 0, "zbk_choose_read");
    answers(__LINE__, zbk_read(RECORDS, area, area_len, boards, count, out, length - 1), on >= k ? ZBK_SHORT : ZBK_COUNT);
    if (whole && on >= k) {
        memset(out, 0xEE, length);
        answers(__LINE__, zbk_read(RECORDS, area, area_len, boards, count, out, length), ZBK_ACCEPTED);
        check(__LINE__, memcmp(out, file, length) == 0, "another file");
    }
    count = zbk_choose_careful(record, boards);
    equal(__LINE__, count, on >= k + 2 ? k + 2 : 0, "zbk_choose_careful");
    answers(__LINE__, zbk_read_careful(RECORDS, area, area_len, boards, count, out, length - 1), on >= k + 2 ? ZBK_SHORT : ZBK_COUNT);
    if (whole && on >= k + 2) {
        memset(out, 0xEE, length);
        check(__LINE__, zbk_read_careful(RECORDS, area, area_len, boards, count, out, length) == 0, "a careful read is refused, or a board is odd");
        check(__LINE__, memcmp(out, file, length) == 0, "another file");
    }
}

static uint64_t all_marks(void) { return ((uint64_t)1 << n) - 1; }

/* A store of these sizes: written, boards lost, lists chosen, rebuilt, read. Where `thorough`, of more stripes, and with more of the archive's work. */
static void store(int thorough) {
    struct zbk_lists lists;
    const size_t capacity = 1 + drawn(thorough ? MOST_STRIPES : 1), longest_here = zbk_longest(n, k, d, r, capacity);
    const size_t length = drawn(2) ? longest_here : 1 + drawn(longest_here), area_len = zbk_area_len(n, k, d, r, capacity);
    const size_t one[1] = {0};
    if (drawn(2)) zbk_first_series_points(points, n);
    state = zbk_trial_file(state, file, longest_here + 1);
    memset(repair, 0xEE, sizeof repair);
    answers(__LINE__, zbk_set_up(RECORDS, n, k, d, r, points, ZBK_MAX_BOARDS, capacity), ZBK_ACCEPTED);
    record_says(__LINE__, capacity, 0, 0, 0);
    answers(__LINE__, zbk_choose_repair(record, one, 1, &lists), ZBK_EMPTY);
    answers(__LINE__, zbk_write(RECORDS, area, area_len, file, longest_here + 1), ZBK_LONG);
    answers(__LINE__, zbk_write(RECORDS, area, area_len - 1, file, longest_here), ZBK_AREA);
    answers(__LINE__, zbk_write(RECORDS, area, area_len + 1, file, longest_here), ZBK_AREA);
    answers(__LINE__, zbk_write(RECORDS, area, area_len, file, length), ZBK_ACCEPTED);
    record_says(__LINE__, capacity, 1, length, all_marks());
    answers(__LINE__, zbk_choose_lost(record, &lists), ZBK_COUNT);
    board_level_is_taken(length, thorough);

    for (size_t turn = 0; turn < 3; turn++) {
        /* of each size one pattern is rebuilt, of some all of them */
        const int whole = turn == 0 || thorough;
        uint64_t marks = zbk_count_in_service(record) == n ? all_marks() : record[ZBK_WORD_MARKS];
        size_t fresh[ZBK_MAX_BOARDS + 3], count, lost = 0;
        /* some boards lost: up to r, up to all, more than a repair takes; from anywhere */
        const size_t many = turn % 2 == 0 ? 1 + drawn(r) : drawn(n + 1);
        for (size_t i = 0, board = drawn(n); i < many; i++, board = (board + 1 + drawn(3)) % n) {
            answers(__LINE__, zbk_lose(RECORDS, board), ZBK_ACCEPTED);
            marks &= ~((uint64_t)1 << board);
        }
        if (turn < 2) record_says(__LINE__, capacity, 1, length, marks);
        reads(length, thorough);

        /* fresh boards as a person may name them, right or not */
        for (size_t again = 0; again < 2; again++) {
            count = drawn(8) == 0 ? drawn(r + 3) : 1 + drawn(r);
            for (size_t i = 0, board = 0; i < count; i++) {
                while (board < n && (marks >> board & 1) != 0) board++;
                fresh[i] = drawn(40) == 0 ? drawn(n + 2) : board++ % (n + 1);
            }
            rebuilt(&lists, zbk_choose_repair(record, fresh, count, &lists), fresh, count, 0);
        }

        /* all that are lost, r at a time, while d are in service */
        do {
            lost = 0;
            for (size_t board = 0; board < n && lost < r; board++)
                if (!zbk_in_service(record, board)) fresh[lost++] = board;
            const size_t on = zbk_count_in_service(record);
            const unsigned chosen = zbk_choose_lost(record, &lists);
            equal(__LINE__, chosen, lost == 0 ? ZBK_COUNT : on < d ? ZBK_DOWN : ZBK_ACCEPTED, "zbk_choose_lost");
            if (!rebuilt(&lists, chosen, fresh, lost, whole)) break;
            if (!whole) break;
            equal(__LINE__, zbk_count_in_service(record), on + lost, "boards that came into service");
            if (zbk_count_in_service(record) == on) break;
        } while (thorough);
        if (thorough && zbk_count_in_service(record) == n) {
            record_says(__LINE__, capacity, 1, length, all_marks());
            reads(length, 1);
        } else if (zbk_count_in_service(record) < d) {
            answers(__LINE__, zbk_write(RECORDS, area, area_len, file, length), ZBK_ACCEPTED);
        }
    }
}

/* A store in arrays of constant lengths. */
static void constant_lengths(void) {
    size_t boards[ZBK_MAX_BOARDS] = {0};
    n = 8, k = 4, d = 6, r = 2;
    zbk_standard_points(points, n);
    answers(__LINE__, zbk_set_up(RECORDS, n, k, d, r, points, sizeof points, CAPACITY), ZBK_ACCEPTED);
    answers(__LINE__, zbk_write(RECORDS, constant_area, sizeof constant_area, file, 1200), ZBK_ACCEPTED);
    equal(__LINE__, zbk_choose_read(record, boards), 4, "zbk_choose_read");
    answers(__LINE__, zbk_read(RECORDS, constant_area, sizeof constant_area, boards, 4, out, 1200), ZBK_ACCEPTED);
}

/* ---- words of refusals, and the version */

static void words(void) {
#define NAMED(name) check(__LINE__, strcmp(zbk_refusal_name(ZBK_##name), #name) == 0, "the name of " #name)
    NAMED(ACCEPTED);
    NAMED(SIZE);
    NAMED(AREA);
    NAMED(LONG);
    NAMED(COUNT);
    NAMED(NODE);
    NAMED(REPEAT);
    NAMED(SHORT);
    NAMED(EMPTY);
    NAMED(DOWN);
    NAMED(DISAGREE);
    NAMED(TEXT);
    NAMED(MIXED);
    NAMED(SERVING);
    NAMED(RANGE);
    NAMED(BUSY);
    NAMED(IDLE);
    for (unsigned number = 0; number < 300; number++) {
        const int answered = number <= 17 && number != 11;
        const char *const all[4] = {zbk_refusal_name(number), zbk_refusal_text(number), zbk_refusal_who(number), zbk_refusal_remedy(number)};
        for (size_t i = 0; i < 4; i++) check(__LINE__, (all[i][0] != 0) == answered, "a refusal without words, or words of none");
        if (!answered) continue;
        check(__LINE__, all[1][strlen(all[1]) - 1] == '.' && all[3][strlen(all[3]) - 1] == '.', "no sentence");
        for (unsigned other = 0; other < number; other++)
            check(__LINE__, strcmp(all[0], zbk_refusal_name(other)) != 0 && strcmp(all[1], zbk_refusal_text(other)) != 0, "the words of another");
    }
    char version[40];
    snprintf(version, sizeof version, "%d.%d.%d", ZBK_VERSION_MAJOR, ZBK_VERSION_MINOR, ZBK_VERSION_PATCH);
    check(__LINE__, strcmp(version, ZBK_VERSION) == 0, "ZBK_VERSION");
}

int main(int argc, char **argv) {
    const int few = argc > 1 && strcmp(argv[1], "few") == 0;
    if (argc > 1 && strcmp(argv[1], "refusals") == 0) {
        for (unsigned number = 1; number < 256; number++)
            if (zbk_refusal_name(number)[0] != 0)
                printf("%u\t%s\t%s\t%s\t%s\n", number, zbk_refusal_name(number), zbk_refusal_text(number), zbk_refusal_who(number),
                       zbk_refusal_remedy(number));
        return 0;
    }
    words();
    constant_lengths();
    /* words that no call hands out: noise */
    state = zbk_trial_file(state, (uint8_t *)record, sizeof record);
    state = zbk_trial_file(state, (uint8_t *)repair, sizeof repair);
    altered_words(200);

    /* all numbers up to 34, and some far above: legal or not */
    for (n = 0; n <= 34; n++)
        for (k = 0; k <= 34; k += few ? 3 : 1)
            for (d = 0; d <= 34; d += few ? 5 : 1)
                for (r = 0; r <= 34; r += few ? 4 : 1) lengths_are();
    static const size_t far[] = {1, 6, 33, 256, 257, (size_t)1 << 32, SIZE_MAX / 2 + 1, SIZE_MAX - 1, SIZE_MAX};
    for (size_t i = 0; i < 9 * 9 * 9 * 9; i++) {
        n = far[i % 9], k = far[i / 9 % 9], d = far[i / 81 % 9], r = far[i / 729];
        lengths_are();
    }

    /* all legal sizes */
    for (n = 2; n <= 32; n++)
        for (k = 1; k < n; k++)
            for (d = k; d < n; d++)
                for (r = 1; r <= n - d; r++) {
                    tried_sizes++;
                    if (few && tried_sizes % 331 != 1) continue;
                    zbk_standard_points(points, n);
                    areas_are_taken();
                    store(few || tried_sizes % 32 == 0);
                }
    check(__LINE__, tried_sizes == 46376, "not all sizes");
    printf("util: %lu checks, %lu failed; %lu repairs, %lu records as bytes%s\n", checks, failed, tried_repairs, tried_words,
           few ? "; few sizes" : "; all sizes");
    return failed != 0;
}

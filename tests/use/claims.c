/*
 * claims.c: sentences of docs/USE.md, tried by calls of the archive, in the order of the page. The exit code is 1 where one is not so.
 */
#include "zebrankai_util.h"

#include <stdio.h>
#include <stdlib.h>
#include <string.h>

enum { N = 8, K = 4, D = 6, R = 2, S = 3, KEEPS = 2 * D + R - 1, CARRIES = K * (2 * D + R - K), LENGTH = S * CARRIES - 5, AREA_LEN = N * S * KEEPS };

static uint64_t record[ZBK_RECORD_WORDS], repair[ZBK_REPAIR_WORDS];
#define RECORDS record, ZBK_RECORD_WORDS, repair, ZBK_REPAIR_WORDS
static uint8_t area[AREA_LEN], file[LENGTH], other[LENGTH], out[LENGTH], points[ZBK_MAX_BOARDS];
#define AREA area, sizeof area
static const size_t in_order[N] = {0, 1, 2, 3, 4, 5, 6, 7};
static unsigned claims;

static void so(int holds, const char *what) {
    claims++;
    if (holds) return;
    printf("FAIL not so: %s\n", what);
    exit(1);
}

static uint64_t accepted(uint64_t answer) {
    if (zbk_refusal(answer) != ZBK_ACCEPTED) {
        printf("FAIL refused: %s\n", zbk_refusal_name(zbk_refusal(answer)));
        exit(1);
    }
    return zbk_value(answer);
}

static int is(uint64_t answer, unsigned refusal) { return zbk_refusal(answer) == refusal; }

static void begin(int first_series) {
    zbk_trial_file(1, file, LENGTH);
    zbk_trial_file(2, other, LENGTH);
    if (first_series) zbk_first_series_points(points, N);
    else zbk_standard_points(points, N);
    accepted(zbk_set_up(RECORDS, N, K, D, R, points, sizeof points, S));
    accepted(zbk_write(RECORDS, AREA, file, LENGTH));
}

/* whether a read of these k boards gives this file; and whether boards in service hold its shares */
static int reads(const size_t *boards, const uint8_t *due) {
    return is(zbk_read(RECORDS, AREA, boards, K, out, LENGTH), ZBK_ACCEPTED) && memcmp(out, due, LENGTH) == 0;
}

static int holds(size_t board, const uint8_t *due) {
    static uint8_t share[S * KEEPS];
    accepted(zbk_share(N, K, D, R, points, sizeof points, board, due, LENGTH, share, sizeof share));
    return memcmp(share, area + board * S * KEEPS, sizeof share) == 0;
}

static void spoil(size_t board) { memset(area + board * S * KEEPS, 0xEE, S * KEEPS); }

static uint64_t rebuild_lost(void) {
    struct zbk_lists l;
    const unsigned why = zbk_choose_lost(record, &l);
    if (why != ZBK_ACCEPTED) return why;
    return zbk_repair(RECORDS, AREA, l.fresh, l.fresh_count, l.helpers, l.helpers_count, l.stand_ins, l.stand_ins_count);
}

static void what_to_keep(void) {
    uint64_t before[ZBK_RECORD_WORDS];
    uint8_t bytes[ZBK_RECORD_BYTES];
    begin(0);
    memcpy(before, record, sizeof before);
    accepted(zbk_edit(RECORDS, AREA, 7, other, 4, in_order, K));
    so(memcmp(before, record, sizeof before) == 0, "an edit does not change the record");
    accepted(zbk_write(RECORDS, AREA, other, LENGTH));
    so(memcmp(before, record, sizeof before) == 0, "nor does a write of the same length");
    zbk_record_to_bytes(record, bytes);
    so(sizeof bytes == 96 && bytes[8 * ZBK_WORD_N] == N && bytes[8 * ZBK_WORD_N + 1] == 0, "words have eight bytes, the lowest first");
    accepted(zbk_lose(RECORDS, 3));
    record[ZBK_WORD_MARKS] |= 1u << 3;
    spoil(3);
    so(!is(zbk_read(RECORDS, AREA, in_order, K, out, LENGTH), ZBK_SIZE) && !reads(in_order, other), "one mark more, and a board is read that was lost");
}

static void dead_board(void) {
    uint64_t before[ZBK_RECORD_WORDS];
    begin(0);
    accepted(zbk_lose(RECORDS, 3));
    memcpy(before, record, sizeof before);
    accepted(zbk_write(RECORDS, AREA, other, LENGTH));
    so(zbk_in_service(record, 3), "a write puts a dead board into service");
    for (size_t board = 0; board < N; board++)
        if (!zbk_in_service(before, board)) accepted(zbk_lose(RECORDS, board));
    so(!zbk_in_service(record, 3) && zbk_count_in_service(record) == N - 1, "and it is lost again");
    spoil(3);
    so(is(zbk_read(RECORDS, AREA, in_order, K, out, LENGTH), ZBK_DOWN), "then it is not read");
    accepted(zbk_edit(RECORDS, AREA, 7, file, 4, in_order + 4, K));
    so(!zbk_in_service(record, 3) && area[3 * S * KEEPS] == 0xEE, "an edit leaves it out of service, and its bytes as they are");
    for (size_t board = 0; board < N; board++)
        if (zbk_in_service(record, board)) accepted(zbk_lose(RECORDS, board));
    accepted(zbk_write(RECORDS, AREA, other, LENGTH));
    so(reads(in_order, other), "a write asks for no board in service");
}

/* for sizes up to n = 8, and each number of lost boards: repairs bring all back just where d are in service */
static void many_lost(void) {
    static uint8_t wide[8 * 64], written[64 * 64];
    for (size_t n = 2; n <= 8; n++)
        for (size_t d = 1; d < n; d++)
            for (size_t k = 1; k <= d; k++)
                for (size_t r = 1; r <= n - d; r++)
                    for (size_t lost = 1; lost <= n; lost++) {
                        const size_t len = zbk_area_len(n, k, d, r, 1);
                        uint8_t p[ZBK_MAX_BOARDS];
                        struct zbk_lists l;
                        zbk_standard_points(p, n);
                        accepted(zbk_set_up(RECORDS, n, k, d, r, p, sizeof p, 1));
                        accepted(zbk_write(RECORDS, wide, len, file, 1));
                        memcpy(written, wide, len);
                        for (size_t board = 0; board < lost; board++) accepted(zbk_lose(RECORDS, board));
                        memset(wide, 0xEE, lost * len / n);
                        size_t repairs = 0;
                        while (zbk_count_in_service(record) < n && zbk_choose_lost(record, &l) == ZBK_ACCEPTED) {
                            accepted(zbk_repair(RECORDS, wide, len, l.fresh, l.fresh_count, l.helpers, l.helpers_count, l.stand_ins, l.stand_ins_count));
                            repairs++;
                        }
                        if (n - lost >= d) so(repairs == (lost + r - 1) / r && memcmp(wide, written, len) == 0, "repairs of r boards bring all back");
                        else so(repairs == 0 && zbk_choose_lost(record, &l) == ZBK_DOWN, "with fewer than d no repair is possible");
                        size_t boards[ZBK_MAX_BOARDS];
                        if (repairs == 0) so((zbk_choose_read(record, boards) == k) == (n - lost >= k), "the file can be read while k are in service");
                    }
    begin(0);
    for (size_t board = 0; board < 3; board++) {
        accepted(zbk_lose(RECORDS, board));
        spoil(board);
    }
    so(is(rebuild_lost(), ZBK_DOWN), "three lost of eight are DOWN");
    size_t boards[ZBK_MAX_BOARDS];
    const size_t count = zbk_choose_read(record, boards);
    accepted(zbk_read(RECORDS, AREA, boards, count, out, zbk_record_length(record)));
    accepted(zbk_write(RECORDS, AREA, out, zbk_record_length(record)));
    so(zbk_count_in_service(record) == N && reads(in_order, file), "and the file is read from k and written anew");
}

static void check_before(void) {
    const size_t lost = 7, k_plus_1[2][K] = {{0, 1, 2, 3}, {1, 2, 3, 4}};
    static uint8_t first[LENGTH];
    size_t spread = 0;
    for (size_t place = 0; place < KEEPS; place++) {
        size_t boards[ZBK_MAX_BOARDS];
        begin(0);
        area[place] ^= 0x10;
        accepted(zbk_lose(RECORDS, lost));
        so(zbk_choose_careful(record, boards) == K + 2, "k + 2 boards in service");
        so(accepted(zbk_read_careful(RECORDS, AREA, boards, K + 2, out, LENGTH)) == 1 && memcmp(out, file, LENGTH) == 0, "a careful read names the worn helper");
        const int one = is(zbk_read(RECORDS, AREA, k_plus_1[0], K, first, LENGTH), ZBK_ACCEPTED);
        const int two = is(zbk_read(RECORDS, AREA, k_plus_1[1], K, out, LENGTH), ZBK_ACCEPTED);
        so(!one || !two || memcmp(first, out, LENGTH) != 0, "two reads of k + 1 boards are not both the same file");
        so(is(rebuild_lost(), ZBK_ACCEPTED), "a repair by it is accepted");
        if (!holds(lost, file)) spread++;
    }
    so(spread > 0, "a helper with wrong bytes makes the fresh board wrong");
    begin(0);
    for (size_t board = 0; board < N - K - 1; board++) accepted(zbk_lose(RECORDS, board));
    size_t boards[ZBK_MAX_BOARDS];
    so(zbk_choose_careful(record, boards) == 0, "with k + 1 in service there is no careful read");
}

static void put_back(void) {
    static uint8_t old[S * KEEPS];
    const size_t fresh[1] = {2}, helpers[D] = {0, 1, 3, 4, 5, 6}, stand_ins[1] = {7};
    begin(0);
    memcpy(old, area + 2 * S * KEEPS, sizeof old);
    accepted(zbk_write(RECORDS, AREA, other, LENGTH));
    memcpy(area + 2 * S * KEEPS, old, sizeof old);
    so(!reads(in_order, other), "a board with old bytes in service is not read rightly");
    so(is(zbk_repair(RECORDS, AREA, fresh, 1, helpers, D, stand_ins, 1), ZBK_SERVING), "a repair of a board in service is SERVING");
    accepted(zbk_lose(RECORDS, 2));
    so(is(rebuild_lost(), ZBK_ACCEPTED) && holds(2, other), "lost and rebuilt it holds its share, whatever it held");
    /* boards 2 and 3 in each other's place */
    memcpy(old, area + 2 * S * KEEPS, sizeof old);
    memcpy(area + 2 * S * KEEPS, area + 3 * S * KEEPS, sizeof old);
    memcpy(area + 3 * S * KEEPS, old, sizeof old);
    so(!reads(in_order, other) && !holds(2, other) && !holds(3, other), "two boards in each other's place are wrong");
    accepted(zbk_lose(RECORDS, 2));
    accepted(zbk_lose(RECORDS, 3));
    so(is(rebuild_lost(), ZBK_ACCEPTED) && holds(2, other) && holds(3, other), "and are rebuilt");
}

static void first_series(void) {
    uint64_t before[ZBK_RECORD_WORDS], moved = 0;
    size_t others[D + R - 1], unlike = 0;
    begin(1);
    for (size_t board = 0; board < N; board++) {
        memcpy(before, record, sizeof before);
        for (size_t i = 0; i < D + R - 1; i++) others[i] = (board + i + 1) % N;
        moved += accepted(zbk_move(RECORDS, AREA, board, (uint8_t)board, others, D, others + D, R - 1));
        so(zbk_record_point(record, board) == board && reads(in_order, file), "a move leaves the file, at the new point");
        /* the record from before beside this area */
        uint64_t now[ZBK_RECORD_WORDS];
        memcpy(now, record, sizeof now);
        memcpy(record, before, sizeof before);
        const size_t with[K] = {board, (board + 1) % N, (board + 2) % N, (board + 3) % N};
        if (!reads(with, file)) unlike++;
        memcpy(record, now, sizeof now);
    }
    so(unlike == N, "a record from before a move beside an area from behind it does not give the file");
    so(moved == N * S * KEEPS, "n moves send what n repairs of one board send");
    zbk_standard_points(points, N);
    for (size_t board = 0; board < N; board++) so(holds(board, file), "as written anew at the present points");
}

static void altered(void) {
    static uint8_t shares[K * S * KEEPS], wrong[LENGTH], made[S * KEEPS];
    const size_t careful[K + 2] = {0, 1, 2, 3, 4, 5};
    /* a file of zeros but for what boards 0 to k - 2 do not keep: their shares are 00, and one byte of board k - 1 is not */
    size_t found = 0, two_wrong = 0;
    begin(0);
    for (size_t place = 0; place < KEEPS; place++) {
        memset(shares, 0, sizeof shares);
        shares[(K - 1) * S * KEEPS + place] = 0x10;
        if (!is(zbk_file(N, K, D, R, points, sizeof points, LENGTH, in_order, K, shares, sizeof shares, wrong, sizeof wrong), ZBK_ACCEPTED)) continue;
        found++;
        /* boards k - 1 and k hold shares of the other file, which has the same ones on k - 1 boards; board k + 1 is right */
        begin(0);
        for (size_t i = 0; i < LENGTH; i++) wrong[i] ^= file[i];
        for (size_t board = 0; board < K - 1; board++) so(holds(board, wrong), "another file has the same shares on k - 1 boards");
        for (size_t board = K - 1; board <= K; board++) {
            accepted(zbk_share(N, K, D, R, points, sizeof points, board, wrong, LENGTH, made, sizeof made));
            memcpy(area + board * S * KEEPS, made, sizeof made);
        }
        const uint64_t answer = zbk_read_careful(RECORDS, AREA, careful, K + 2, out, LENGTH);
        if (is(answer, ZBK_ACCEPTED) && zbk_value(answer) == K + 2 && memcmp(out, wrong, LENGTH) == 0 && holds(K + 1, file)) two_wrong++;
    }
    so(found > 0 && two_wrong == found, "two wrong boards fit k - 1 others, and a right one is named");

    /* an edit by a board that is wrong unseen */
    size_t unseen = 0;
    for (size_t place = 0; place < KEEPS; place++) {
        static uint8_t due[LENGTH];
        begin(0);
        area[place] ^= 0x10;
        if (!is(zbk_edit(RECORDS, AREA, 0, other, CARRIES, in_order, K), ZBK_ACCEPTED)) continue;
        unseen++;
        memcpy(due, file, LENGTH);
        memcpy(due, other, CARRIES);
        so(accepted(zbk_read_careful(RECORDS, AREA, in_order + 1, K + 2, out, LENGTH)) == 0, "behind such an edit the other boards agree");
        so(memcmp(out, due, LENGTH) != 0 && memcmp(out, file, LENGTH) != 0, "on a file that nobody wrote");
    }
    so(unseen > 0, "an edit by a board that is wrong unseen is accepted");

    /* k = 1: two boards of an old file */
    static uint8_t small[3 * 2];
    const size_t three[3] = {0, 1, 2};
    uint8_t one = 5;
    zbk_standard_points(points, 3);
    accepted(zbk_set_up(RECORDS, 3, 1, 1, 1, points, sizeof points, 1));
    accepted(zbk_write(RECORDS, small, sizeof small, &one, 1));
    uint8_t before[4];
    memcpy(before, small, 4);
    one = 9;
    accepted(zbk_write(RECORDS, small, sizeof small, &one, 1));
    memcpy(small, before, 4);
    so(accepted(zbk_read_careful(RECORDS, small, sizeof small, three, 3, &one, 1)) == 3 && one == 5, "with k = 1 two boards of an old file do");
}

int main(void) {
    what_to_keep();
    dead_board();
    many_lost();
    check_before();
    put_back();
    first_series();
    altered();
    printf("claims: %u\n", claims);
    return 0;
}

/*
 * shelf.c: a stock file on seven shelf boards, in C, on a present robot and on one of the first series, whose boards have other points. It is
 * written, a single board is lost and rebuilt, then two others are lost and rebuilt together, and it is read back from the three rebuilt boards
 * only; and the share of one of them is printed. Every answer is checked; the program ends with 0 only where the file came back as it was written,
 * on both robots.
 *
 * Three of its shares are also written as texts, as before boards are pulled for the workshop, and loaded again: one for its share, all three for
 * the file. Then two boards are rebuilt while the arm works, three packets at a time with reads in between; power fails in the middle, the file is
 * still there, and the repair is started anew. A worn board answers a wrong byte: a careful read of five boards gives the file all the same and names
 * the board, which is rebuilt. Then a carton is loaded: one pack count, four bytes of the file, is changed by an edit, and read back from other boards.
 *
 * At last the robot of the first series is carried to the present points while it runs: its boards are moved one after another, with a read behind each
 * move; in between the count is changed back, and a board is lost and rebuilt. Its boards then hold what a fresh write puts there, and a text has no line of
 * points.
 *
 * Build, from the top folder:  cc -std=c11 -Iinclude examples/c/shelf.c target/staticlib/libzebrankai.a -o shelf
 */
#include "zebrankai.h"

#include <stdint.h>
#include <stdio.h>
#include <stdlib.h>
#include <string.h>

/* boards, boards that give the file back, helpers of each fresh board, the most boards rebuilt together */
enum { N = 7, K = 3, D = 4, R = 2 };

/* bytes of a share for each stripe, and file bytes that a stripe carries */
enum { SHARE = 2 * D + R - 1, STRIPE = K * (2 * D + R - K) };

/* stripes that each board has room for, and the bytes of all boards */
enum { CAPACITY = 8, AREA = N * CAPACITY * SHARE };

/* both records, as each call of the store takes them: what a robot keeps through a power failure, and what it may lose */
#define RECORDS record, ZBK_RECORD_WORDS, repair, ZBK_REPAIR_WORDS

static const char stock[] = "aspirin 100 mg: 42 boxes\n"
                            "ibuprofen 400 mg: 17 boxes\n"
                            "saline 0.9 %, 500 ml: 120 bags\n";

/* Ends the program where a call was refused; else gives what the call reports. */
static uint64_t accepted(const char *call, uint64_t answer) {
    if (zbk_refusal(answer) != ZBK_ACCEPTED) {
        fprintf(stderr, "%s was refused: number %u\n", call, zbk_refusal(answer));
        exit(EXIT_FAILURE);
    }
    return zbk_value(answer);
}

/* Ends the program where a call was not refused with this number. */
static void refused(const char *call, uint64_t answer, unsigned number) {
    if (zbk_refusal(answer) != number) {
        fprintf(stderr, "%s: refusal %u was due, the answer is %u\n", call, number, zbk_refusal(answer));
        exit(EXIT_FAILURE);
    }
}

/* Fills a lost board's part of the area with other bytes, as a new board would come. */
static void spoil(uint8_t *area, size_t board) { memset(area + board * CAPACITY * SHARE, 0xEE, CAPACITY * SHARE); }

/* Loses one board and rebuilds it alone: of the other boards four help, and one stands in for a second fresh board. Gives the bytes moved. */
static uint64_t swap_one(uint64_t *record, uint64_t *repair, uint8_t *area) {
    const size_t lost[1] = {6}, helpers[D] = {0, 1, 2, 3}, stand_ins[R - 1] = {4};
    refused("a repair of a board in service",
            zbk_repair(RECORDS, area, AREA, lost, 1, helpers, D, stand_ins, R - 1), ZBK_SERVING);
    accepted("lose", zbk_lose(RECORDS, lost[0]));
    spoil(area, lost[0]);
    printf("board %zu lost\n", lost[0]);
    refused("a repair of one board without a stand-in",
            zbk_repair(RECORDS, area, AREA, lost, 1, helpers, D, stand_ins, 0), ZBK_COUNT);
    const uint64_t moved =
        accepted("repair of one board", zbk_repair(RECORDS, area, AREA, lost, 1, helpers, D, stand_ins, R - 1));
    printf("board %zu rebuilt, board %zu standing in, %llu bytes moved\n", lost[0], stand_ins[0], (unsigned long long)moved);
    return moved;
}

/* Begins the share of a board as text: all lines but the last, which is its bytes. Gives whether a line has the points. */
static int print_text(const uint64_t *record, const uint8_t *points, const uint8_t *area, size_t board) {
    const size_t length = record[ZBK_WORD_LENGTH];
    const size_t share_len = (length + STRIPE - 1) / STRIPE * SHARE;
    char text[2 * CAPACITY * SHARE + 200 + 1];
    const uint64_t written = accepted("a share as text", zbk_share_text(N, K, D, R, points, ZBK_MAX_BOARDS, length, board,
                                                                        area + board * CAPACITY * SHARE, share_len, (uint8_t *)text,
                                                                        sizeof text - 1));
    text[written] = 0;
    *strstr(text, "data=") = 0;
    fputs(text, stdout);
    return strstr(text, "points=") != NULL;
}

/* bytes that are enough for the text of a share */
enum { TEXT = 2 * CAPACITY * SHARE + 200 };

/* Loads a text again; gives whether it says what it was written from. */
static int load_share(const uint8_t *text, size_t text_len, const uint8_t *points, const uint8_t *area, size_t board, size_t length) {
    uint64_t head[ZBK_HEAD_WORDS];
    uint8_t said[ZBK_MAX_BOARDS], share[TEXT / 2];
    const uint64_t share_len =
        accepted("a text", zbk_read_text(text, text_len, head, ZBK_HEAD_WORDS, said, sizeof said, share, sizeof share));
    refused("no text", zbk_read_text(text, 0, head, ZBK_HEAD_WORDS, said, sizeof said, share, sizeof share), ZBK_TEXT);
    return head[ZBK_HEAD_N] == N && head[ZBK_HEAD_K] == K && head[ZBK_HEAD_D] == D && head[ZBK_HEAD_R] == R &&
           head[ZBK_HEAD_NODE] == board && head[ZBK_HEAD_LENGTH] == length && memcmp(said, points, sizeof said) == 0 &&
           share_len == (length + STRIPE - 1) / STRIPE * SHARE && memcmp(share, area + board * CAPACITY * SHARE, share_len) == 0;
}

/* Writes the shares of K boards as texts, one after another, and loads them again; gives whether the file came back. */
static int write_and_load(const uint8_t *points, const uint8_t *area, const size_t *boards, uint8_t *out, size_t length) {
    static uint8_t texts[K * TEXT];
    const size_t share_len = (length + STRIPE - 1) / STRIPE * SHARE;
    size_t texts_len = 0, last_len = 0;
    int same = 1;
    for (size_t i = 0; i < K; i++) {
        uint8_t *text = texts + texts_len;
        last_len = accepted("a share as text", zbk_share_text(N, K, D, R, points, ZBK_MAX_BOARDS, length, boards[i],
                                                              area + boards[i] * CAPACITY * SHARE, share_len, text, TEXT));
        same &= load_share(text, last_len, points, area, boards[i], length);
        texts_len += last_len;
    }
    memset(out, 0, length);
    const uint64_t gathered = accepted("gathering", zbk_gather(texts, texts_len, out, length));
    same &= gathered == length && memcmp(out, stock, length) == 0;
    printf("loaded from the texts of boards %zu, %zu and %zu: %s\n", boards[0], boards[1], boards[2],
           same ? "the file as it was written" : "ANOTHER FILE");

    /* a text too few, a text that is cut, and none */
    refused("two texts", zbk_gather(texts, texts_len - last_len, out, length), ZBK_COUNT);
    refused("a text that is cut", zbk_gather(texts, texts_len - 1, out, length), ZBK_TEXT);
    refused("no texts", zbk_gather(texts, 0, out, length), ZBK_COUNT);
    return same;
}

/* The stripes of the file, and the bytes of the packet area of a repair of R boards. */
static size_t stripes_of(size_t length) { return (length + STRIPE - 1) / STRIPE; }
enum { PACKETS = CAPACITY * R * SHARE };

/* Steps of three packets, each with a read from boards in service behind it, until so many packets are carried; gives whether each read gave the file. */
static int work_on(uint64_t *record, uint64_t *repair, uint8_t *area, uint8_t *packets, uint8_t *out, size_t length, uint64_t packets_due) {
    const size_t readers[K] = {0, 3, 6};
    const size_t packets_len = ZBK_PACKETS_LEN(stripes_of(length), R, D, R);
    int same = 1;
    for (uint64_t carried = 0; carried < packets_due;) {
        carried += accepted("step", zbk_step(RECORDS, area, AREA, packets, packets_len, 3));
        memset(out, 0, length);
        accepted("read in between", zbk_read(RECORDS, area, AREA, readers, K, out, length));
        same &= memcmp(out, stock, length) == 0;
        printf("%llu of %d packets carried, then a read: %s\n", (unsigned long long)carried, R * (D + R - 1),
               same ? "the file as it was written" : "ANOTHER FILE");
    }
    return same;
}

/* Loses two boards and rebuilds them while the arm works; power fails after six packets, and the repair is started anew. Gives whether all reads gave the
 * file, and the rebuilt boards do. */
static int swap_while_working(uint64_t *record, uint64_t *repair, uint8_t *area, uint8_t *out, size_t length) {
    static uint8_t packets[PACKETS];
    const size_t lost[R] = {2, 5}, helpers[R * D] = {0, 1, 3, 4, 6, 4, 3, 1}, none[1] = {0}, rebuilt[K] = {5, 2, 0};
    const uint64_t all = R * (D + R - 1);
    for (size_t i = 0; i < R; i++) {
        accepted("lose", zbk_lose(RECORDS, lost[i]));
        spoil(area, lost[i]);
        printf("board %zu lost\n", lost[i]);
    }
    refused("a step with no repair running", zbk_step(RECORDS, area, AREA, packets, 0, 3), ZBK_IDLE);
    accepted("start", zbk_start(RECORDS, area, AREA, lost, R, helpers, R * D, none, 0));
    int same = work_on(record, repair, area, packets, out, length, 6);
    refused("a write meanwhile", zbk_write(RECORDS, area, AREA, (const uint8_t *)stock, length), ZBK_BUSY);

    /* power fails: the repair's record and the packets are gone, the record and the area were kept */
    memset(repair, 0, ZBK_REPAIR_WORDS * sizeof *repair);
    memset(packets, 0xEE, sizeof packets);
    printf("power fails; the repair is started anew\n");
    accepted("start anew", zbk_start(RECORDS, area, AREA, lost, R, helpers, R * D, none, 0));
    same &= work_on(record, repair, area, packets, out, length, all);
    same &= repair[ZBK_REPAIR_RUNNING] == 0;

    memset(out, 0, length);
    accepted("read from rebuilt boards", zbk_read(RECORDS, area, AREA, rebuilt, K, out, length));
    same &= memcmp(out, stock, length) == 0;
    printf("boards 2 and 5 rebuilt by %llu packets, read from boards 5, 2 and 0: %s\n", (unsigned long long)all,
           same ? "the file as it was written" : "ANOTHER FILE");
    return same;
}

/* A careful read of five boards, two more than give the file; gives whether it gave the file and named this board, or none where that is N. */
static int read_carefully(uint64_t *record, uint64_t *repair, const uint8_t *area, uint8_t *out, size_t length, size_t odd) {
    const size_t five[K + 2] = {4, 0, 6, 1, 3};
    memset(out, 0, length);
    const uint64_t reported = accepted("careful read", zbk_read_careful(RECORDS, area, AREA, five, K + 2, out, length));
    /* 0 is none, and 1 board 0 */
    const int same = reported == (odd < N ? odd + 1 : 0) && memcmp(out, stock, length) == 0;
    if (reported > 0) printf("careful read from boards 4, 0, 6, 1 and 3: board %llu is odd; ", (unsigned long long)reported - 1);
    else printf("careful read from boards 4, 0, 6, 1 and 3: none is odd; ");
    printf("%s\n", same ? "the file as it was written" : "ANOTHER FILE, OR ANOTHER BOARD");
    return same;
}

/* Board 0 is worn: a byte of it is another one, and it stays in service. It is named, then lost and rebuilt from others. Gives whether all was right. */
static int swap_worn(uint64_t *record, uint64_t *repair, uint8_t *area, uint8_t *out, size_t length) {
    const size_t worn[1] = {0}, helpers[D] = {1, 2, 3, 4}, stand_ins[R - 1] = {5}, five[K + 2] = {4, 0, 6, 1, 3};
    int same = read_carefully(record, repair, area, out, length, N);
    area[worn[0] * CAPACITY * SHARE + 5] ^= 0x10;
    same &= read_carefully(record, repair, area, out, length, worn[0]);

    /* a second one, in another stripe: no file has the shares of four of the five */
    area[6 * CAPACITY * SHARE + SHARE] ^= 0x10;
    refused("a careful read of two worn boards", zbk_read_careful(RECORDS, area, AREA, five, K + 2, out, length), ZBK_DISAGREE);
    area[6 * CAPACITY * SHARE + SHARE] ^= 0x10;
    refused("a careful read of K boards", zbk_read_careful(RECORDS, area, AREA, five, K, out, length), ZBK_COUNT);

    accepted("lose", zbk_lose(RECORDS, worn[0]));
    accepted("repair of the worn board", zbk_repair(RECORDS, area, AREA, worn, 1, helpers, D, stand_ins, R - 1));
    return same & read_carefully(record, repair, area, out, length, N);
}

/* Loads a carton of 24 bags: four bytes of the file, "120 ", become "144 ", without a rewrite. Three boards tell the old bytes, and three others give
 * the edited file back; gives whether it is that. */
static int load_carton(uint64_t *record, uint64_t *repair, uint8_t *area, uint8_t *out, size_t length) {
    const size_t tellers[K] = {0, 2, 5}, readers[K] = {3, 4, 6};
    const char count[] = "144 ";
    const size_t offset = (size_t)(strstr(stock, "120 ") - stock), count_len = sizeof count - 1;
    refused("an edit beyond the file's end",
            zbk_edit(RECORDS, area, AREA, length - 3, (const uint8_t *)count, count_len, tellers, K), ZBK_RANGE);
    accepted("edit", zbk_edit(RECORDS, area, AREA, offset, (const uint8_t *)count, count_len, tellers, K));
    accepted("read after an edit", zbk_read(RECORDS, area, AREA, readers, K, out, length));
    char due[sizeof stock];
    memcpy(due, stock, sizeof stock);
    memcpy(due + offset, count, count_len);
    const int same = memcmp(out, due, length) == 0;
    printf("a carton loaded: bytes %zu to %zu edited, read from boards 3, 4 and 6: %s\n", offset, offset + count_len - 1,
           same ? "the edited file" : "ANOTHER FILE");
    return same;
}

/* Moves a board to the point of a present robot, its own number: the four boards that follow it help, and the next one is its partner. */
static uint64_t move_board(uint64_t *record, uint64_t *repair, uint8_t *area, size_t board) {
    size_t others[D + R - 1];
    for (size_t t = 0; t < D + R - 1; t++) others[t] = (board + t + 1) % N;
    return zbk_move(RECORDS, area, AREA, board, (uint8_t)board, others, D, others + D, R - 1);
}

/* The points that a record has. */
static void points_of(const uint64_t *record, uint8_t *points) {
    for (size_t i = 0; i < ZBK_MAX_BOARDS; i++) points[i] = (uint8_t)(record[ZBK_WORD_POINTS + i / 8] >> 8 * (i % 8));
}

/* Carries a robot of the first series, with the carton loaded, to the present points. Gives whether every read gave the file, the bytes moved were those
 * of a repair of one board each time, and the boards, the record and a text are at last those of a present robot on which the file was written. */
static int carry_over(uint64_t *record, uint64_t *repair, uint8_t *area, uint8_t *out, size_t length) {
    static uint8_t anew[AREA];
    const size_t tellers[K] = {6, 1, 3}, lost[1] = {4}, helpers[D] = {0, 1, 2, 3}, stand_ins[R - 1] = {5};
    const size_t offset = (size_t)(strstr(stock, "120 ") - stock);
    char file[sizeof stock];
    memcpy(file, stock, sizeof stock);
    memcpy(file + offset, "144 ", 4);
    int same = 1;
    for (size_t board = 0; board < N; board++) {
        if (board == 2) {
            memcpy(file + offset, "120 ", 4);
            accepted("edit between moves", zbk_edit(RECORDS, area, AREA, offset, (const uint8_t *)file + offset, 4, tellers, K));
            printf("the count edited back\n");
        }
        if (board == 4) {
            accepted("lose", zbk_lose(RECORDS, lost[0]));
            spoil(area, lost[0]);
            refused("a move with a board out of service", move_board(record, repair, area, board), ZBK_DOWN);
            accepted("repair between moves", zbk_repair(RECORDS, area, AREA, lost, 1, helpers, D, stand_ins, R - 1));
            printf("board %zu lost and rebuilt\n", lost[0]);
        }
        same &= accepted("move", move_board(record, repair, area, board)) == stripes_of(length) * SHARE;
        refused("a move to its own point", move_board(record, repair, area, board), ZBK_REPEAT);
        const size_t readers[K] = {board, (board + 1) % N, (board + 3) % N};
        memset(out, 0, length);
        accepted("read between moves", zbk_read(RECORDS, area, AREA, readers, K, out, length));
        same &= memcmp(out, file, length) == 0;
        printf("board %zu moved to %zu, read from boards %zu, %zu and %zu: %s\n", board, board, readers[0], readers[1], readers[2],
               same ? "the file as it must be" : "ANOTHER FILE");
    }

    /* as written anew at the present points */
    uint64_t due[ZBK_RECORD_WORDS] = {0}, idle[ZBK_REPAIR_WORDS] = {0};
    uint8_t points[ZBK_MAX_BOARDS];
    zbk_standard_points(points, N);
    accepted("set up", zbk_set_up(due, ZBK_RECORD_WORDS, idle, ZBK_REPAIR_WORDS, N, K, D, R, points, ZBK_MAX_BOARDS, CAPACITY));
    accepted("write", zbk_write(due, ZBK_RECORD_WORDS, idle, ZBK_REPAIR_WORDS, anew, AREA, (const uint8_t *)stock, length));
    same &= memcmp(record, due, sizeof due) == 0;
    for (size_t board = 0; board < N; board++) {
        const size_t start = board * CAPACITY * SHARE;
        same &= memcmp(area + start, anew + start, stripes_of(length) * SHARE) == 0;
    }
    printf("all boards moved: %s\n", same ? "as written anew at the present points" : "NOT AS WRITTEN ANEW");
    points_of(record, points);
    return same & !print_text(record, points, area, 4);
}

/* The stock file on one robot, over an area and an output that are lent; gives whether all was as it must be. */
static int robot(const uint8_t *points, uint8_t *area, uint8_t *out, size_t length) {
    uint64_t record[ZBK_RECORD_WORDS] = {0}, repair[ZBK_REPAIR_WORDS] = {0};
    memset(area, 0xEE, AREA);
    memset(out, 0, length);

    accepted("set up", zbk_set_up(RECORDS, N, K, D, R, points, ZBK_MAX_BOARDS, CAPACITY));
    accepted("write", zbk_write(RECORDS, area, AREA, (const uint8_t *)stock, length));
    printf("%zu bytes written to %d boards with the points %d to %d\n", length, N, points[0], points[N - 1]);

    const uint64_t moved_for_one = swap_one(record, repair, area);

    const size_t lost[R] = {1, 4};
    for (size_t i = 0; i < R; i++) {
        accepted("lose", zbk_lose(RECORDS, lost[i]));
        spoil(area, lost[i]);
        printf("board %zu lost\n", lost[i]);
    }
    const size_t readers[K] = {4, 1, 6};
    refused("a read of lost boards", zbk_read(RECORDS, area, AREA, readers, K, out, length), ZBK_DOWN);

    /* four helpers for board 1, four for board 4, and nobody stands in: the list has no elements, and is no null pointer */
    const size_t helpers[R * D] = {0, 2, 3, 5, 6, 5, 3, 2}, none[1] = {0};
    const uint64_t moved = accepted("repair", zbk_repair(RECORDS, area, AREA, lost, R, helpers, R * D, none, 0));
    printf("boards 1 and 4 rebuilt together, %llu bytes moved\n", (unsigned long long)moved);

    accepted("read", zbk_read(RECORDS, area, AREA, readers, K, out, length));
    const int same = memcmp(out, stock, length) == 0;
    printf("read from boards 4, 1 and 6: %s\n", same ? "the file as it was written" : "ANOTHER FILE");

    if (!write_and_load(points, area, readers, out, length)) return 0;

    /* the text says the points where board i has another one than i */
    const int said = print_text(record, points, area, 4) == (points[0] != 0);
    if (!swap_while_working(record, repair, area, out, length)) return 0;
    if (!swap_worn(record, repair, area, out, length)) return 0;
    if (!load_carton(record, repair, area, out, length)) return 0;
    if (points[0] != 0 && !carry_over(record, repair, area, out, length)) return 0;
    const uint64_t board_moved = stripes_of(length) * (2 * D + R - 1);
    return same && said && moved_for_one == board_moved && moved == R * board_moved;
}

int main(void) {
    const size_t length = sizeof stock - 1;
    uint8_t *area = malloc(AREA);
    uint8_t *out = malloc(length);
    if (area == NULL || out == NULL) {
        fprintf(stderr, "no memory\n");
        return EXIT_FAILURE;
    }
    uint8_t points[ZBK_MAX_BOARDS];

    printf("A present robot:\n");
    zbk_standard_points(points, N);
    const int present = robot(points, area, out, length);

    printf("A robot of the first series:\n");
    zbk_first_series_points(points, N);
    const int first = robot(points, area, out, length);

    /* two boards at one point */
    uint64_t record[ZBK_RECORD_WORDS] = {0}, repair[ZBK_REPAIR_WORDS] = {0};
    points[0] = points[1];
    refused("a set up with a point twice", zbk_set_up(RECORDS, N, K, D, R, points, ZBK_MAX_BOARDS, CAPACITY), ZBK_SIZE);

    free(out);
    free(area);
    return present && first ? EXIT_SUCCESS : EXIT_FAILURE;
}

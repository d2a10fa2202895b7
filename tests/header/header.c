/*
 * header.c: include/zebrankai.h held to the archive, in C11 and in C++11. Each constant is held to its number, written out here; each of the twenty
 * calls is made with arguments that differ, and its whole answer, every word and every byte that it was lent, and those behind, are held to what must
 * stand there; and each refusal is brought about and held to its name.
 *
 * The numbers are those of document 01: its figures M7 to M12 for n = 5, k = 2, d = 3, r = 2, and, for n = 9, k = 2, d = 4, r = 3 with points in no
 * order, figures that were worked out from its formulas apart from this repository's coders. Built and run by tests/header.sh. Prints each check that
 * fails with its line, then how many there were; ends with exit code 1 where one failed.
 */
#include "zebrankai.h"

#include <assert.h>
#include <stdio.h>
#include <string.h>

/* ---- each constant of the header; tests/header.sh sees that none is left out */

#define IS(name, number) static_assert(name == number, #name " is not " #number)

IS(ZBK_MAX_BOARDS, 32);
IS(ZBK_MAX_STRIPES, 4096);
IS(ZBK_RECORD_WORDS, 12);
IS(ZBK_REPAIR_WORDS, 71);
IS(ZBK_HEAD_WORDS, 6);
IS(ZBK_PACKETS_LEN(3, 2, 4, 5), 72);

IS(ZBK_ACCEPTED, 0);
IS(ZBK_SIZE, 1);
IS(ZBK_AREA, 2);
IS(ZBK_LONG, 3);
IS(ZBK_COUNT, 4);
IS(ZBK_NODE, 5);
IS(ZBK_REPEAT, 6);
IS(ZBK_SHORT, 7);
IS(ZBK_EMPTY, 8);
IS(ZBK_DOWN, 9);
IS(ZBK_DISAGREE, 10);
IS(ZBK_TEXT, 12);
IS(ZBK_MIXED, 13);
IS(ZBK_SERVING, 14);
IS(ZBK_RANGE, 15);
IS(ZBK_BUSY, 16);
IS(ZBK_IDLE, 17);

IS(ZBK_WORD_N, 0);
IS(ZBK_WORD_K, 1);
IS(ZBK_WORD_D, 2);
IS(ZBK_WORD_R, 3);
IS(ZBK_WORD_CAPACITY, 4);
IS(ZBK_WORD_WRITTEN, 5);
IS(ZBK_WORD_LENGTH, 6);
IS(ZBK_WORD_MARKS, 7);
IS(ZBK_WORD_POINTS, 8);

IS(ZBK_REPAIR_RUNNING, 0);
IS(ZBK_REPAIR_COUNT, 1);
IS(ZBK_REPAIR_CARRIED, 2);
IS(ZBK_REPAIR_FRESH, 3);
IS(ZBK_REPAIR_HELPERS, 7);
IS(ZBK_REPAIR_STAND_INS, 39);

IS(ZBK_HEAD_N, 0);
IS(ZBK_HEAD_K, 1);
IS(ZBK_HEAD_D, 2);
IS(ZBK_HEAD_R, 3);
IS(ZBK_HEAD_NODE, 4);
IS(ZBK_HEAD_LENGTH, 5);

/* ---- checks */

static unsigned checks, failed;

static void check(int line, int holds, const char *what) {
    checks++;
    if (holds) return;
    failed++;
    printf("FAIL header.c, line %d: %s\n", line, what);
}

/* The answer, as a whole word. */
static void answers(int line, uint64_t answer, uint64_t due) {
    check(line, answer == due, "another answer");
    if (answer != due) printf("  it is %#llx, and %#llx was due\n", (unsigned long long)answer, (unsigned long long)due);
}

/* Bytes against others, and the rest of the buffer against one byte. */
static void bytes_are(int line, const char *what, const uint8_t *got, const uint8_t *due, size_t count, uint8_t rest, size_t all) {
    size_t i = 0;
    while (i < all && got[i] == (i < count ? due[i] : rest)) i++;
    check(line, i == all, what);
    if (i < all) printf("  byte %zu of %zu, the first %zu written, is %02X, and %02X was due\n", i, all, count, got[i], i < count ? due[i] : rest);
}

/* The bytes of hexadecimal pairs; gives how many. */
static size_t from_pairs(const char *pairs, uint8_t *to) {
    static const char digits[] = "0123456789abcdef";
    const size_t count = strlen(pairs) / 2;
    for (size_t i = 0; i < count; i++)
        to[i] = (uint8_t)(16 * (strchr(digits, pairs[2 * i]) - digits) + (strchr(digits, pairs[2 * i + 1]) - digits));
    return count;
}

/* An output: a call is lent the first some bytes of it. BLANK stands where nothing was written. */
enum { ROOM = 512, BLANK = 0xEE };
static uint8_t out[ROOM];

/* The call was accepted and wrote just these bytes to the output; gives the output back blank. */
static void wrote(int line, uint64_t answer, const uint8_t *due, size_t count) {
    answers(line, answer, (uint64_t)count << 8);
    bytes_are(line, "another output", out, due, count, BLANK, ROOM);
    memset(out, BLANK, ROOM);
}

static void wrote_text(int line, uint64_t answer, const char *due) { wrote(line, answer, (const uint8_t *)due, strlen(due)); }

static void wrote_pairs(int line, uint64_t answer, const char *pairs) {
    uint8_t due[ROOM];
    wrote(line, answer, due, from_pairs(pairs, due));
}

/* The call was refused with this number and wrote nothing to the output. */
static void refused(int line, uint64_t answer, uint64_t number) {
    answers(line, answer, number);
    bytes_are(line, "a refusal wrote to the output", out, out, 0, BLANK, ROOM);
    memset(out, BLANK, ROOM);
}

/* ---- the two codes that are tried */

/* F = X^2 Y: n = 5, k = 2, d = 3, r = 2 and the points 0 to 4; a share has 7 bytes for a stripe of 12 */
static const uint8_t square[12] = {0, 0, 0, 0, 0, 0, 0, 0, 0, 0, 0, 1};
/* M7 to M11 */
static const char *const square_shares[5] = {"00000000000000", "01020304000405", "080c1000040a20", "0f1400050a3000", "40001020300004"};
static const char square_text[] = "n=5\nk=2\nd=3\nr=2\nnode=1\nlength=12\ndata=01020304000405\n";
static const char other_square_text[] = "n=5\nk=2\nd=3\nr=2\nnode=4\nlength=12\ndata=40001020300004\n";
/* the same share, of a file that is a byte shorter */
static const char shorter_text[] = "n=5\nk=2\nd=3\nr=2\nnode=4\nlength=11\ndata=40001020300004\n";

/* n = 9, k = 2, d = 4, r = 3 and points in no order; a share has 10 bytes for a stripe of 18, and the file, of 39 bytes, 3 stripes */
static const uint8_t odd[ZBK_MAX_BOARDS] = {0x2A, 0x00, 0xFF, 0x1D, 0x80, 0x07, 0x53, 0xC4, 0x09};
static const char stock[] = "saline 0.9 %: 120 bags\ngauze: 17 boxes\n";
enum { STOCK = sizeof stock - 1, STOCK_SHARE = 30 };
static const char *const stock_shares[9] = {
    "84a88b026b708af0430a24766688305d23750010e37c8c0243381bfab228", "73929d10ac4ab43fde1662dd352abbddcf0d060665951b5a21021a2db70c",
    "fd74a48e246049c848ef20d5056a5646f48e16e6dd5312694a52e147fca3", "f2b5ed927be30aaa0eb5746d26189f9110629f1ec988f3d0c87b28722d1f",
    "e60602218f20166a9b5f08b00d291c6a06de0a8833486b73c0930c6c5ea1", "c798fb8875b7ef69297de736200b0e9de656adad17342c9fcc53a325da7b",
    "db542c0b6ef8b5016b8a29970b01578a1edab823061eadfe61911ff9581b", "3ab8e20b43705ff79cb40870971f1b5088e488cfe152019e6ee0a140031a",
    "71431004ae767db212495e2d7e3e1fc1ad9624f4f3a03fcf41007bb0a9e1"};
static const char stock_text[] = "n=9\nk=2\nd=4\nr=3\nnode=6\nlength=39\npoints=2a00ff1d800753c409\n"
                                 "data=db542c0b6ef8b5016b8a29970b01578a1edab823061eadfe61911ff9581b\n";
static const char other_stock_text[] = "n=9\nk=2\nd=4\nr=3\nnode=3\nlength=39\npoints=2a00ff1d800753c409\n"
                                       "data=f2b5ed927be30aaa0eb5746d26189f9110629f1ec988f3d0c87b28722d1f\n";
/* what the helpers 8, 0, 5 and 6 send to board 3, and what the boards 7 and 1 send it as partners */
static const char to_board_3[] = "aee31f91417b020a881002280eed9f262df3b5921e181fd0";
static const char partners_to_board_3[] = "7b9fc8de06b7";

/* the same file with "98 boxes" in the place of "120 bags", over the end of the first of its stripes; the third has no byte of it */
static const char edited[] = "saline 0.9 %: 98 boxes\ngauze: 17 boxes\n";
enum { EDITED_FROM = 14, EDITED = 8 };
static const char *const edited_shares[9] = {
    "e1ca1c3fa89c68f0a9ef802f20e9754bd28513dae37c8c0243381bfab228", "73929d10ac4ab4269c8d6fcf003bf978b4e3311665951b5a21021a2db70c",
    "0cebfed988238281026cd103f7cb10decba619fadd5312694a52e147fca3", "0ca9efc3f661ef07b1107b465e87de77da4aa48dc988f3d0c87b28722d1f",
    "66081b5fb63e8dc69dc404efb54fdd8716c1bd0c33486b73c0930c6c5ea1", "076b3c79b4e16c0a0c43ab9d55d9f09efab27afd17342c9fcc53a325da7b",
    "c88347540964104015682a4a7157fc3e8dea0fd2061eadfe61911ff9581b", "984599429a80c439e8b4e639f2879cf00c8da7b4e152019e6ee0a140031a",
    "913241c19914435f128290cf613e38c2fd1ef8cbf3a03fcf41007bb0a9e1"};

/* ---- board level */

static void shares_and_files(const uint8_t *points) {
    uint8_t held[ROOM];
    for (size_t board = 0; board < 5; board++)
        wrote_pairs(__LINE__, zbk_share(5, 2, 3, 2, points, 32, board, square, 12, out, 7 + 3), square_shares[board]);
    wrote_pairs(__LINE__, zbk_share(9, 2, 4, 3, odd, 32, 6, (const uint8_t *)stock, STOCK, out, STOCK_SHARE + 11), stock_shares[6]);
    refused(__LINE__, zbk_share(9, 2, 4, 3, odd, 32, 9, (const uint8_t *)stock, STOCK, out, STOCK_SHARE), ZBK_NODE);
    refused(__LINE__, zbk_share(9, 2, 4, 3, odd, 32, 6, (const uint8_t *)stock, STOCK, out, STOCK_SHARE - 1), ZBK_SHORT);
    refused(__LINE__, zbk_share(9, 2, 4, 3, odd, 31, 6, (const uint8_t *)stock, STOCK, out, STOCK_SHARE), ZBK_SIZE);

    const size_t two[2] = {3, 1}, others[2] = {7, 4};
    size_t count = from_pairs(square_shares[3], held);
    count += from_pairs(square_shares[1], held + count);
    wrote(__LINE__, zbk_file(5, 2, 3, 2, points, 32, 12, two, 2, held, count, out, 12 + 5), square, 12);
    refused(__LINE__, zbk_file(5, 2, 3, 2, points, 32, 11, two, 2, held, count, out, 12), ZBK_DISAGREE);
    refused(__LINE__, zbk_file(5, 2, 3, 2, points, 32, 12, two, 1, held, count, out, 12), ZBK_COUNT);
    refused(__LINE__, zbk_file(5, 2, 3, 2, points, 32, 12, two, 2, held, count - 1, out, 12), ZBK_AREA);
    refused(__LINE__, zbk_file(5, 2, 3, 2, points, 32, ZBK_MAX_STRIPES * 12 + 1, two, 2, held, count, out, 12), ZBK_LONG);
    count = from_pairs(stock_shares[7], held);
    count += from_pairs(stock_shares[4], held + count);
    wrote_text(__LINE__, zbk_file(9, 2, 4, 3, odd, 32, STOCK, others, 2, held, count, out, STOCK + 1), stock);
}

static void packets(const uint8_t *points) {
    uint8_t held[ROOM], partners_held[ROOM];
    size_t count, partners_count;

    /* M12: board 1 gets 04 02, 05 03 and 10 04 from its helpers, then 00 from board 0 */
    static const char *const to_board_1[5] = {"", "", "0402", "0503", "1004"};
    for (size_t helper = 2; helper < 5; helper++) {
        count = from_pairs(square_shares[helper], held);
        wrote_pairs(__LINE__, zbk_helper_packet(5, 2, 3, 2, points, 32, 12, helper, 1, held, count, out, 2 + helper), to_board_1[helper]);
    }
    const size_t three[3] = {2, 3, 4}, zero[1] = {0};
    memset(held, 0, 6);
    wrote_pairs(__LINE__, zbk_exchange_packet(5, 2, 3, 2, points, 32, 12, 0, three, 3, held, 6, 1, out, 1 + 4), "00");
    count = from_pairs("040205031004", held);
    wrote_pairs(__LINE__, zbk_exchange_packet(5, 2, 3, 2, points, 32, 12, 1, three, 3, held, count, 0, out, 1 + 4), "00");
    partners_count = from_pairs("00", partners_held);
    wrote_pairs(__LINE__,
                zbk_finished_share(5, 2, 3, 2, points, 32, 12, 1, three, 3, held, count, zero, 1, partners_held, partners_count, out, 7 + 2),
                square_shares[1]);

    /* helper 8 to board 3, board 3 to board 1, and board 3 with its partners 7 and 1; helpers and partners in no order */
    const size_t four[4] = {8, 0, 5, 6}, both[2] = {7, 1};
    count = from_pairs(stock_shares[8], held);
    wrote_pairs(__LINE__, zbk_helper_packet(9, 2, 4, 3, odd, 32, STOCK, 8, 3, held, count, out, 6 + 7), "aee31f91417b");
    refused(__LINE__, zbk_helper_packet(9, 2, 4, 3, odd, 32, STOCK, 8, 8, held, count, out, 6), ZBK_REPEAT);
    count = from_pairs(to_board_3, held);
    wrote_pairs(__LINE__, zbk_exchange_packet(9, 2, 4, 3, odd, 32, STOCK, 3, four, 4, held, count, 1, out, 3 + 1), "9d351b");
    refused(__LINE__, zbk_exchange_packet(9, 2, 4, 3, odd, 32, STOCK, 3, four, 4, held, count, 5, out, 3), ZBK_REPEAT);
    partners_count = from_pairs(partners_to_board_3, partners_held);
    wrote_pairs(__LINE__,
                zbk_finished_share(9, 2, 4, 3, odd, 32, STOCK, 3, four, 4, held, count, both, 2, partners_held, partners_count, out,
                                   STOCK_SHARE + 8),
                stock_shares[3]);
    refused(__LINE__,
            zbk_finished_share(9, 2, 4, 3, odd, 32, STOCK, 3, four, 4, held, count, both, 2, partners_held, partners_count - 1, out, STOCK_SHARE),
            ZBK_AREA);
}

/* The head, each word by its name, and the points; and the two words behind the head and the bytes behind the points as they were. */
static void told(int line, const uint64_t *head, const uint8_t *said, const uint8_t *points, size_t n, size_t k, size_t d, size_t r, size_t node,
                 size_t length) {
    check(line, head[ZBK_HEAD_N] == n, "ZBK_HEAD_N");
    check(line, head[ZBK_HEAD_K] == k, "ZBK_HEAD_K");
    check(line, head[ZBK_HEAD_D] == d, "ZBK_HEAD_D");
    check(line, head[ZBK_HEAD_R] == r, "ZBK_HEAD_R");
    check(line, head[ZBK_HEAD_NODE] == node, "ZBK_HEAD_NODE");
    check(line, head[ZBK_HEAD_LENGTH] == length, "ZBK_HEAD_LENGTH");
    check(line, head[ZBK_HEAD_WORDS] == 77 && head[ZBK_HEAD_WORDS + 1] == 78, "the words behind the head");
    bytes_are(line, "the points that a text says", said, points, 32, BLANK, 40);
}

/* So many bytes of a text make sense, and it is as it was. */
static void reaches(int line, const char *text, size_t text_len, size_t due) {
    uint8_t lent[ROOM], kept[ROOM];
    memset(lent, BLANK, ROOM);
    memcpy(lent, text, text_len);
    memcpy(kept, lent, ROOM);
    answers(line, zbk_text_prefix(lent, text_len), (uint64_t)due << 8);
    check(line, memcmp(lent, kept, ROOM) == 0, "the text was changed");
}

static void says(int line, const char *text, size_t due) { reaches(line, text, strlen(text), due); }

static void texts(const uint8_t *points) {
    const uint8_t *const text = (const uint8_t *)square_text, *const odd_text = (const uint8_t *)stock_text;
    const size_t text_len = strlen(square_text), odd_text_len = strlen(stock_text);
    uint64_t head[ZBK_HEAD_WORDS + 2] = {71, 72, 73, 74, 75, 76, 77, 78};
    uint8_t held[ROOM], said[40];
    memset(said, BLANK, sizeof said);

    size_t count = from_pairs(square_shares[1], held);
    wrote_text(__LINE__, zbk_share_text(5, 2, 3, 2, points, 32, 12, 1, held, count, out, text_len + 6), square_text);
    count = from_pairs(stock_shares[6], held);
    wrote_text(__LINE__, zbk_share_text(9, 2, 4, 3, odd, 32, STOCK, 6, held, count, out, odd_text_len + 9), stock_text);
    refused(__LINE__, zbk_share_text(9, 2, 4, 3, odd, 32, STOCK, 6, held, count, out, odd_text_len - 1), ZBK_SHORT);

    refused(__LINE__, zbk_read_text(text, text_len - 1, head, ZBK_HEAD_WORDS, said, 32, out, 7), ZBK_TEXT);
    refused(__LINE__, zbk_read_text(text, text_len, head, ZBK_HEAD_WORDS - 1, said, 32, out, 7), ZBK_SIZE);
    refused(__LINE__, zbk_read_text(text, text_len, head, ZBK_HEAD_WORDS + 1, said, 32, out, 7), ZBK_SIZE);
    refused(__LINE__, zbk_read_text(text, text_len, head, ZBK_HEAD_WORDS, said, 31, out, 7), ZBK_SIZE);
    refused(__LINE__, zbk_read_text(text, text_len, head, ZBK_HEAD_WORDS, said, 32, out, 6), ZBK_SHORT);
    for (size_t i = 0; i < ZBK_HEAD_WORDS + 2; i++) check(__LINE__, head[i] == 71 + i, "a refusal changed the head");
    bytes_are(__LINE__, "a refusal changed the points", said, said, 0, BLANK, sizeof said);

    wrote_pairs(__LINE__, zbk_read_text(text, text_len, head, ZBK_HEAD_WORDS, said, 32, out, 7 + 4), square_shares[1]);
    told(__LINE__, head, said, points, 5, 2, 3, 2, 1, 12);
    wrote_pairs(__LINE__, zbk_read_text(odd_text, odd_text_len, head, ZBK_HEAD_WORDS, said, 32, out, STOCK_SHARE + 5), stock_shares[6]);
    told(__LINE__, head, said, odd, 9, 2, 4, 3, 6, STOCK);

    char gathered[ROOM];
    strcpy(gathered, other_square_text);
    strcat(gathered, square_text);
    const size_t first_len = strlen(other_square_text), all_len = strlen(gathered);
    wrote(__LINE__, zbk_gather((const uint8_t *)gathered, all_len, out, 12 + 3), square, 12);
    refused(__LINE__, zbk_gather((const uint8_t *)gathered, all_len, out, 11), ZBK_SHORT);
    refused(__LINE__, zbk_gather((const uint8_t *)gathered, first_len, out, 12), ZBK_COUNT);
    refused(__LINE__, zbk_gather((const uint8_t *)gathered, all_len - 1, out, 12), ZBK_TEXT);
    strcpy(gathered, shorter_text);
    strcat(gathered, square_text);
    refused(__LINE__, zbk_gather((const uint8_t *)gathered, strlen(gathered), out, 12), ZBK_MIXED);
    strcpy(gathered, square_text);
    strcat(gathered, square_text);
    refused(__LINE__, zbk_gather((const uint8_t *)gathered, strlen(gathered), out, 12), ZBK_REPEAT);
    strcpy(gathered, stock_text);
    strcat(gathered, other_stock_text);
    wrote_text(__LINE__, zbk_gather((const uint8_t *)gathered, strlen(gathered), out, STOCK + 2), stock);

    /* how far a text makes sense: whole, cut short, with more behind it */
    for (size_t end = 0; end <= text_len; end++) reaches(__LINE__, square_text, end, end);
    for (size_t end = 0; end <= odd_text_len; end++) reaches(__LINE__, stock_text, end, end);
    reaches(__LINE__, gathered, strlen(gathered), odd_text_len);
    /* a number that no text has there; points that repeat or come to 0 to n - 1; a pair, a digit, a name that no text has there */
    says(__LINE__, "n=33", 3);
    says(__LINE__, "n=1\n", 3);
    says(__LINE__, "n=4\nk=3\nd=2", 10);
    says(__LINE__, "n=9\nk=2\nd=4\nr=6", 14);
    says(__LINE__, "n=9\nk=2\nd=4\nr=3\nnode=9", 21);
    says(__LINE__, "n=2\nk=1\nd=1\nr=1\nnode=0\nlength=8193", 33);
    says(__LINE__, "n=2\nk=1\nd=1\nr=1\nnode=0\nlength=1\npoints=0001", 42);
    says(__LINE__, "n=2\nk=1\nd=1\nr=1\nnode=0\nlength=1\npoints=0000", 42);
    says(__LINE__, "n=2\nk=1\nd=1\nr=1\nnode=0\nlength=1\npoints=0002\ndata=05060", 53);
    says(__LINE__, "n=2\nk=1\nd=1\nr=1\nnode=0\nlength=1\ndata=0A", 38);
    says(__LINE__, "n=2\nk=1\nd=1\nr=1\nnode=0\nlength=1\nshare", 32);
}

/* ---- the trial file */

/* The bytes from this state on, in parts of these lengths, and the state after them; a call writes just what it is lent. */
static void drawn(int line, uint32_t seed, size_t first, size_t second, const char *pairs, uint32_t after) {
    uint8_t due[ROOM];
    const size_t count = from_pairs(pairs, due);
    const uint32_t between = zbk_trial_file(seed, out, first);
    bytes_are(line, "another first part of a trial file", out, due, first, BLANK, ROOM);
    check(line, first > 0 || between == seed, "no bytes give another state than the seed");
    const uint32_t state = zbk_trial_file(between, out + first, second);
    check(line, first + second == count && state == after, "another state after a trial file");
    bytes_are(line, "another trial file", out, due, count, BLANK, ROOM);
    memset(out, BLANK, ROOM);
}

static void trial_files(void) {
    for (size_t first = 0; first <= 6; first++) {
        drawn(__LINE__, 0, first, 6 - first, "3c47d1aa629f", 0x9F2EC686);
        drawn(__LINE__, 1, first, 6 - first, "3c5e81b40c5e", 0x5E98C13F);
    }
    drawn(__LINE__, 4294967295, 3, 0, "3c3022", 0x2283EC54);
    drawn(__LINE__, 4294967295, 1, 2, "3c3022", 0x2283EC54);
    drawn(__LINE__, 4294967295, 0, 0, "", 4294967295);
}

/* ---- the store */

/* What a record must say: each word by its name, and the two words behind it as they were. */
struct due {
    uint64_t n, k, d, r, capacity, written, length, marks, points[4];
};

static void record_is(int line, const uint64_t *record, const struct due *due) {
    check(line, record[ZBK_WORD_N] == due->n, "ZBK_WORD_N");
    check(line, record[ZBK_WORD_K] == due->k, "ZBK_WORD_K");
    check(line, record[ZBK_WORD_D] == due->d, "ZBK_WORD_D");
    check(line, record[ZBK_WORD_R] == due->r, "ZBK_WORD_R");
    check(line, record[ZBK_WORD_CAPACITY] == due->capacity, "ZBK_WORD_CAPACITY");
    check(line, record[ZBK_WORD_WRITTEN] == due->written, "ZBK_WORD_WRITTEN");
    check(line, record[ZBK_WORD_LENGTH] == due->length, "ZBK_WORD_LENGTH");
    check(line, record[ZBK_WORD_MARKS] == due->marks, "ZBK_WORD_MARKS");
    for (size_t q = 0; q < 4; q++) check(line, record[ZBK_WORD_POINTS + q] == due->points[q], "ZBK_WORD_POINTS");
    check(line, record[ZBK_RECORD_WORDS] == 88 && record[ZBK_RECORD_WORDS + 1] == 89, "the words behind the record");
}

/* Words that are no records yet, and the two words behind each. */
static void made_up(uint64_t *record, uint64_t *repair) {
    for (size_t i = 0; i < ZBK_RECORD_WORDS + 2; i++) record[i] = i + 88 - ZBK_RECORD_WORDS;
    for (size_t i = 0; i < ZBK_REPAIR_WORDS + 2; i++) repair[i] = i + 1098 - ZBK_REPAIR_WORDS;
}

/* What the record of a started repair must say: each word by its name, 0 in all others, and the two words behind it as they were. */
struct repair_due {
    uint64_t running, count, carried, fresh, helpers, stand_ins;
};

static void repair_is(int line, const uint64_t *repair, const struct repair_due *due) {
    check(line, repair[ZBK_REPAIR_RUNNING] == due->running, "ZBK_REPAIR_RUNNING");
    check(line, repair[ZBK_REPAIR_COUNT] == due->count, "ZBK_REPAIR_COUNT");
    check(line, repair[ZBK_REPAIR_CARRIED] == due->carried, "ZBK_REPAIR_CARRIED");
    check(line, repair[ZBK_REPAIR_FRESH] == due->fresh, "ZBK_REPAIR_FRESH");
    check(line, repair[ZBK_REPAIR_HELPERS] == due->helpers, "ZBK_REPAIR_HELPERS");
    check(line, repair[ZBK_REPAIR_STAND_INS] == due->stand_ins, "ZBK_REPAIR_STAND_INS");
    for (size_t i = 0; i < ZBK_REPAIR_WORDS; i++)
        if (i > ZBK_REPAIR_FRESH && i != ZBK_REPAIR_HELPERS && i != ZBK_REPAIR_STAND_INS) check(line, repair[i] == 0, "a word of the repair that is not used");
    check(line, repair[ZBK_REPAIR_WORDS] == 1098 && repair[ZBK_REPAIR_WORDS + 1] == 1099, "the words behind the repair");
}

/* no repair, as calls leave it */
static const struct repair_due none_running = {0, 0, 0, 0, 0, 0};

/* The area of stock: 9 boards, 5 stripes of 10 bytes each, of which the first 3 hold the file; and bytes behind it. */
enum { CAPACITY = 5, BOARD = CAPACITY * 10, AREA = 9 * BOARD, SPOILT = 0x5A };

/* An edit, with board 4 out of service and a wrong byte on board 8: the value of F at its own point and that of board 3, in the second stripe. */
static void edits(uint64_t *record, uint64_t *repair, uint8_t *area, uint8_t *area_due, const struct due *due) {
    enum { WRONG = 8 * BOARD + 10 + 4 };
    const uint8_t *const bytes = (const uint8_t *)edited + EDITED_FROM;
    const size_t two[2] = {7, 3}, down[2] = {7, 4}, disagree[2] = {8, 3}, beyond[2] = {9, 9}, repeated[2] = {4, 4};
    area[WRONG] ^= 0x99;
    area_due[WRONG] ^= 0x99;

    answers(__LINE__, zbk_edit(record, ZBK_RECORD_WORDS - 1, repair, ZBK_REPAIR_WORDS, area, AREA - 1, STOCK, bytes, EDITED, two, 1), ZBK_SIZE);
    answers(__LINE__, zbk_edit(record, ZBK_RECORD_WORDS, repair, ZBK_REPAIR_WORDS, area, AREA - 1, STOCK, bytes, EDITED, two, 1), ZBK_AREA);
    answers(__LINE__, zbk_edit(record, ZBK_RECORD_WORDS, repair, ZBK_REPAIR_WORDS, area, AREA, STOCK - EDITED + 1, bytes, EDITED, two, 1), ZBK_RANGE);
    answers(__LINE__, zbk_edit(record, ZBK_RECORD_WORDS, repair, ZBK_REPAIR_WORDS, area, AREA, SIZE_MAX - EDITED + 1, bytes, EDITED, two, 2), ZBK_RANGE);
    answers(__LINE__, zbk_edit(record, ZBK_RECORD_WORDS, repair, ZBK_REPAIR_WORDS, area, AREA, STOCK + 1, bytes, 0, two, 2), ZBK_RANGE);
    answers(__LINE__, zbk_edit(record, ZBK_RECORD_WORDS, repair, ZBK_REPAIR_WORDS, area, AREA, EDITED_FROM, bytes, EDITED, beyond, 1), ZBK_COUNT);
    answers(__LINE__, zbk_edit(record, ZBK_RECORD_WORDS, repair, ZBK_REPAIR_WORDS, area, AREA, EDITED_FROM, bytes, EDITED, beyond, 2), ZBK_NODE);
    answers(__LINE__, zbk_edit(record, ZBK_RECORD_WORDS, repair, ZBK_REPAIR_WORDS, area, AREA, EDITED_FROM, bytes, EDITED, repeated, 2), ZBK_REPEAT);
    answers(__LINE__, zbk_edit(record, ZBK_RECORD_WORDS, repair, ZBK_REPAIR_WORDS, area, AREA, EDITED_FROM, bytes, EDITED, down, 2), ZBK_DOWN);
    answers(__LINE__, zbk_edit(record, ZBK_RECORD_WORDS, repair, ZBK_REPAIR_WORDS, area, AREA, EDITED_FROM, bytes, EDITED, disagree, 2), ZBK_DISAGREE);
    /* a stripe that it does not reach, and no bytes at all */
    answers(__LINE__, zbk_edit(record, ZBK_RECORD_WORDS, repair, ZBK_REPAIR_WORDS, area, AREA, 0, bytes, 1, disagree, 2), ZBK_DISAGREE);
    answers(__LINE__, zbk_edit(record, ZBK_RECORD_WORDS, repair, ZBK_REPAIR_WORDS, area, AREA, STOCK, bytes, 0, disagree, 2), ZBK_DISAGREE);
    answers(__LINE__, zbk_edit(record, ZBK_RECORD_WORDS, repair, ZBK_REPAIR_WORDS, area, AREA, STOCK, bytes, 0, two, 2), 0);
    record_is(__LINE__, record, due);
    bytes_are(__LINE__, "a refusal, or an edit of no bytes, changed the area", area, area_due, AREA + 16, 0, AREA + 16);

    answers(__LINE__, zbk_edit(record, ZBK_RECORD_WORDS, repair, ZBK_REPAIR_WORDS, area, AREA, EDITED_FROM, bytes, EDITED, two, 2), 0);
    for (size_t board = 0; board < 9; board++)
        if (board != 4) from_pairs(edited_shares[board], area_due + board * BOARD);
    area_due[WRONG] ^= 0x99;
    record_is(__LINE__, record, due);
    bytes_are(__LINE__, "another area after an edit", area, area_due, AREA + 16, 0, AREA + 16);
    answers(__LINE__, zbk_read(record, ZBK_RECORD_WORDS, repair, ZBK_REPAIR_WORDS, area, AREA, two, 2, out, STOCK), 0);
    bytes_are(__LINE__, "another output of a read after an edit", out, (const uint8_t *)edited, STOCK, BLANK, ROOM);
    memset(out, BLANK, ROOM);
}

static void store(void) {
    uint64_t record[ZBK_RECORD_WORDS + 2], repair[ZBK_REPAIR_WORDS + 2];
    uint8_t area[AREA + 16], area_due[AREA + 16];
    const uint8_t *const file = (const uint8_t *)stock;
    static const uint8_t too_long[CAPACITY * 18 + 1] = {1};
    const size_t none[1] = {0}, two[2] = {7, 3};
    struct due due = {9, 2, 4, 3, CAPACITY, 0, 0, 0, {0xC45307801DFF002A, 0x09, 0, 0}};
    memset(area, BLANK, sizeof area);
    memset(area_due, BLANK, sizeof area_due);
    made_up(record, repair);

    answers(__LINE__, zbk_set_up(record, ZBK_RECORD_WORDS - 1, repair, ZBK_REPAIR_WORDS, 9, 2, 4, 3, odd, 32, CAPACITY), ZBK_SIZE);
    answers(__LINE__, zbk_set_up(record, ZBK_RECORD_WORDS + 1, repair, ZBK_REPAIR_WORDS, 9, 2, 4, 3, odd, 32, CAPACITY), ZBK_SIZE);
    answers(__LINE__, zbk_set_up(record, ZBK_RECORD_WORDS, repair, ZBK_REPAIR_WORDS, 9, 2, 4, 3, odd, 31, CAPACITY), ZBK_SIZE);
    answers(__LINE__, zbk_set_up(record, ZBK_RECORD_WORDS, repair, ZBK_REPAIR_WORDS, 9, 2, 4, 3, odd, 32, 0), ZBK_SIZE);
    for (size_t words = 0; words < ZBK_REPAIR_WORDS + 3; words++)
        if (words != ZBK_REPAIR_WORDS)
            answers(__LINE__, zbk_set_up(record, ZBK_RECORD_WORDS, repair, words, 9, 2, 4, 3, odd, 32, CAPACITY), ZBK_SIZE);
    for (size_t i = 0; i < ZBK_RECORD_WORDS + 2; i++) check(__LINE__, record[i] == i + 88 - ZBK_RECORD_WORDS, "a refusal changed the record");
    for (size_t i = 0; i < ZBK_REPAIR_WORDS + 2; i++) check(__LINE__, repair[i] == i + 1098 - ZBK_REPAIR_WORDS, "a refusal changed the repair");
    answers(__LINE__, zbk_set_up(record, ZBK_RECORD_WORDS, repair, ZBK_REPAIR_WORDS, 9, 2, 4, 3, odd, 32, CAPACITY), 0);
    record_is(__LINE__, record, &due);
    repair_is(__LINE__, repair, &none_running);

    refused(__LINE__, zbk_read(record, ZBK_RECORD_WORDS, repair, ZBK_REPAIR_WORDS, area, AREA, two, 2, out, STOCK), ZBK_EMPTY);
    answers(__LINE__, zbk_edit(record, ZBK_RECORD_WORDS, repair, ZBK_REPAIR_WORDS, area, AREA, 1, file, 1, two, 2), ZBK_EMPTY);
    answers(__LINE__, zbk_write(record, ZBK_RECORD_WORDS, repair, ZBK_REPAIR_WORDS, area, AREA - 1, file, STOCK), ZBK_AREA);
    answers(__LINE__, zbk_write(record, ZBK_RECORD_WORDS, repair, ZBK_REPAIR_WORDS, area, AREA, too_long, sizeof too_long), ZBK_LONG);
    record_is(__LINE__, record, &due);
    bytes_are(__LINE__, "a refusal changed the area", area, area_due, sizeof area, 0, sizeof area);

    answers(__LINE__, zbk_write(record, ZBK_RECORD_WORDS, repair, ZBK_REPAIR_WORDS, area, AREA, file, STOCK), 0);
    for (size_t board = 0; board < 9; board++) from_pairs(stock_shares[board], area_due + board * BOARD);
    bytes_are(__LINE__, "another area after a write", area, area_due, sizeof area, 0, sizeof area);
    due.written = 1;
    due.length = STOCK;
    due.marks = 0x1FF;
    record_is(__LINE__, record, &due);

    /* boards 3 and 7 are lost, and come back with other bytes */
    const size_t fresh[2] = {3, 7}, helpers[8] = {8, 0, 5, 6, 2, 4, 8, 0}, stand_ins[2] = {1, 6};
    answers(__LINE__, zbk_repair(record, ZBK_RECORD_WORDS, repair, ZBK_REPAIR_WORDS, area, AREA, fresh, 2, helpers, 8, stand_ins, 2), ZBK_SERVING);
    answers(__LINE__, zbk_lose(record, ZBK_RECORD_WORDS, repair, ZBK_REPAIR_WORDS, 9), ZBK_NODE);
    record_is(__LINE__, record, &due);
    answers(__LINE__, zbk_lose(record, ZBK_RECORD_WORDS, repair, ZBK_REPAIR_WORDS, 3), 0);
    due.marks = 0x1F7;
    record_is(__LINE__, record, &due);
    answers(__LINE__, zbk_lose(record, ZBK_RECORD_WORDS, repair, ZBK_REPAIR_WORDS, 7), 0);
    due.marks = 0x177;
    record_is(__LINE__, record, &due);
    for (size_t i = 0; i < 2; i++) {
        memset(area + fresh[i] * BOARD, SPOILT, BOARD);
        memset(area_due + fresh[i] * BOARD, SPOILT, BOARD);
    }
    refused(__LINE__, zbk_read(record, ZBK_RECORD_WORDS, repair, ZBK_REPAIR_WORDS, area, AREA, two, 2, out, STOCK), ZBK_DOWN);
    answers(__LINE__, zbk_repair(record, ZBK_RECORD_WORDS, repair, ZBK_REPAIR_WORDS, area, AREA, fresh, 2, helpers, 8, none, 0), ZBK_COUNT);
    record_is(__LINE__, record, &due);
    bytes_are(__LINE__, "a refusal changed the area", area, area_due, sizeof area, 0, sizeof area);

    /* 3 stripes x 2 boards x 10 bytes are moved */
    answers(__LINE__, zbk_repair(record, ZBK_RECORD_WORDS, repair, ZBK_REPAIR_WORDS, area, AREA, fresh, 2, helpers, 8, stand_ins, 2), 60 << 8);
    for (size_t i = 0; i < 2; i++) from_pairs(stock_shares[fresh[i]], area_due + fresh[i] * BOARD);
    bytes_are(__LINE__, "another area after a repair", area, area_due, sizeof area, 0, sizeof area);
    due.marks = 0x1FF;
    record_is(__LINE__, record, &due);

    answers(__LINE__, zbk_lose(record, ZBK_RECORD_WORDS, repair, ZBK_REPAIR_WORDS, 4), 0);
    due.marks = 0x1EF;
    answers(__LINE__, zbk_read(record, ZBK_RECORD_WORDS, repair, ZBK_REPAIR_WORDS, area, AREA, two, 2, out, STOCK + 6), 0);
    bytes_are(__LINE__, "another output of a read", out, file, STOCK, BLANK, ROOM);
    memset(out, BLANK, ROOM);
    const size_t repeated[2] = {7, 7};
    refused(__LINE__, zbk_read(record, ZBK_RECORD_WORDS, repair, ZBK_REPAIR_WORDS, area, AREA, two, 1, out, STOCK), ZBK_COUNT);
    refused(__LINE__, zbk_read(record, ZBK_RECORD_WORDS, repair, ZBK_REPAIR_WORDS, area, AREA, repeated, 2, out, STOCK), ZBK_REPEAT);
    refused(__LINE__, zbk_read(record, ZBK_RECORD_WORDS, repair, ZBK_REPAIR_WORDS, area, AREA, two, 2, out, STOCK - 1), ZBK_SHORT);
    record_is(__LINE__, record, &due);
    bytes_are(__LINE__, "a read changed the area", area, area_due, sizeof area, 0, sizeof area);
    edits(record, repair, area, area_due, &due);
    repair_is(__LINE__, repair, &none_running);
}

/* A careful read that is accepted: what it reports, the file, and nothing else changed. */
static void careful(int line, uint64_t *record, uint64_t *repair, const uint8_t *area, const size_t *boards, uint64_t due) {
    uint64_t words[ZBK_RECORD_WORDS + 2], repair_words[ZBK_REPAIR_WORDS + 2];
    uint8_t kept[AREA + 16];
    memcpy(words, record, sizeof words);
    memcpy(repair_words, repair, sizeof repair_words);
    memcpy(kept, area, sizeof kept);
    answers(line, zbk_read_careful(record, ZBK_RECORD_WORDS, repair, ZBK_REPAIR_WORDS, area, AREA, boards, 4, out, STOCK + 6), due << 8);
    bytes_are(line, "another output of a careful read", out, (const uint8_t *)stock, STOCK, BLANK, ROOM);
    memset(out, BLANK, ROOM);
    check(line, memcmp(words, record, sizeof words) == 0, "a careful read changed the record");
    check(line, memcmp(repair_words, repair, sizeof repair_words) == 0, "a careful read changed the repair");
    check(line, memcmp(kept, area, sizeof kept) == 0, "a careful read changed the area");
}

/* One that is refused: nothing changed. */
static void careful_refused(int line, uint64_t *record, uint64_t *repair, const uint8_t *area, const size_t *boards, size_t count, size_t room,
                            uint64_t number) {
    uint64_t words[ZBK_RECORD_WORDS + 2];
    memcpy(words, record, sizeof words);
    refused(line, zbk_read_careful(record, ZBK_RECORD_WORDS, repair, ZBK_REPAIR_WORDS, area, AREA, boards, count, out, room), number);
    check(line, memcmp(words, record, sizeof words) == 0, "a refusal changed the record");
}

/* Careful reads of stock from the boards 7, 0, 3 and 8: with each byte of each board altered, with two boards wrong, and what is refused of them. */
static void careful_reads(void) {
    uint64_t record[ZBK_RECORD_WORDS + 2], repair[ZBK_REPAIR_WORDS + 2];
    uint8_t area[AREA + 16];
    const size_t four[4] = {7, 0, 3, 8}, five[5] = {9, 9, 4, 3, 8}, twice[4] = {4, 4, 3, 8}, down[4] = {4, 0, 3, 8}, all[4] = {3, 2, 1, 0};
    memset(area, BLANK, sizeof area);
    made_up(record, repair);
    answers(__LINE__, zbk_set_up(record, ZBK_RECORD_WORDS, repair, ZBK_REPAIR_WORDS, 9, 2, 4, 3, odd, 32, CAPACITY), 0);
    careful_refused(__LINE__, record, repair, area, five, 3, 0, ZBK_EMPTY);
    refused(__LINE__, zbk_read_careful(record, ZBK_RECORD_WORDS, repair, ZBK_REPAIR_WORDS, area, AREA - 1, five, 3, out, 0), ZBK_AREA);
    refused(__LINE__, zbk_read_careful(record, ZBK_RECORD_WORDS - 1, repair, ZBK_REPAIR_WORDS, area, AREA - 1, five, 3, out, 0), ZBK_SIZE);
    refused(__LINE__, zbk_read_careful(record, ZBK_RECORD_WORDS, repair, ZBK_REPAIR_WORDS + 1, area, AREA - 1, five, 3, out, 0), ZBK_SIZE);
    answers(__LINE__, zbk_write(record, ZBK_RECORD_WORDS, repair, ZBK_REPAIR_WORDS, area, AREA, (const uint8_t *)stock, STOCK), 0);
    careful(__LINE__, record, repair, area, four, 0);
    for (size_t i = 0; i < AREA; i++) {
        /* of the 50 bytes of a board the first 30 are its share */
        const size_t board = i / BOARD;
        const int counts = i % BOARD < STOCK_SHARE && (board == 7 || board == 0 || board == 3 || board == 8);
        area[i] ^= (uint8_t)(1 + i % 255);
        careful(__LINE__, record, repair, area, four, counts ? board + 1 : 0);
        area[i] ^= (uint8_t)(1 + i % 255);
    }

    answers(__LINE__, zbk_lose(record, ZBK_RECORD_WORDS, repair, ZBK_REPAIR_WORDS, 4), 0);
    area[3 * BOARD + 2] ^= 0x99;
    for (size_t stripe = 0; stripe < 3; stripe++) {
        area[7 * BOARD + 10 * stripe] ^= 0x99;
        careful_refused(__LINE__, record, repair, area, four, 4, STOCK, ZBK_DISAGREE);
        careful_refused(__LINE__, record, repair, area, four, 4, STOCK - 1, ZBK_SHORT);
        area[7 * BOARD + 10 * stripe] ^= 0x99;
    }
    for (size_t count = 0; count <= 5; count++)
        if (count != 4) careful_refused(__LINE__, record, repair, area, five, count, 0, ZBK_COUNT);
    careful_refused(__LINE__, record, repair, area, five, 4, 0, ZBK_NODE);
    careful_refused(__LINE__, record, repair, area, twice, 4, 0, ZBK_REPEAT);
    careful_refused(__LINE__, record, repair, area, down, 4, 0, ZBK_DOWN);
    careful(__LINE__, record, repair, area, four, 4);

    /* four boards of which three are read: k + 2 is above n */
    uint8_t points[ZBK_MAX_BOARDS];
    zbk_standard_points(points, 4);
    answers(__LINE__, zbk_set_up(record, ZBK_RECORD_WORDS, repair, ZBK_REPAIR_WORDS, 4, 3, 3, 1, points, 32, 1), 0);
    answers(__LINE__, zbk_write(record, ZBK_RECORD_WORDS, repair, ZBK_REPAIR_WORDS, area, 24, square, 12), 0);
    for (size_t count = 0; count <= 5; count++)
        refused(__LINE__, zbk_read_careful(record, ZBK_RECORD_WORDS, repair, ZBK_REPAIR_WORDS, area, 24, count < 5 ? all : five, count, out, 12), ZBK_COUNT);
    /* two of them, and a file of no bytes: whatever the boards hold, none is odd */
    answers(__LINE__, zbk_set_up(record, ZBK_RECORD_WORDS, repair, ZBK_REPAIR_WORDS, 4, 2, 3, 1, points, 32, 1), 0);
    answers(__LINE__, zbk_write(record, ZBK_RECORD_WORDS, repair, ZBK_REPAIR_WORDS, area, 24, square, 0), 0);
    answers(__LINE__, zbk_read_careful(record, ZBK_RECORD_WORDS, repair, ZBK_REPAIR_WORDS, area, 24, all, 4, out, 0), 0);
    bytes_are(__LINE__, "a careful read of no bytes wrote some", out, out, 0, BLANK, ROOM);
}

/* What lies in the packet area of the boards 3 and 7 of stock, in the order carried: of the helpers 8, 0, 5, 6 and 2, 4, 8, 0, of the stand-ins 1 and 6,
 * and what the boards send each other. Where each of the twelve packets begins, and where the last one ends. */
static const char lying[] = "aee31f91417b020a881002280eed9f262df3b5921e181fd06043461b526e215f298873a1f7b8e47040529ce288970301de06b701daf97b9fc87050e0";
static const size_t places[13] = {0, 6, 12, 18, 24, 30, 36, 42, 48, 51, 54, 57, 60};

/* The store of stock with the boards 3 and 7 lost, and what must stand in its area. */
static void two_lost(uint64_t *record, uint64_t *repair, uint8_t *area, uint8_t *area_due) {
    memset(area, BLANK, AREA + 16);
    memset(area_due, BLANK, AREA + 16);
    made_up(record, repair);
    answers(__LINE__, zbk_set_up(record, ZBK_RECORD_WORDS, repair, ZBK_REPAIR_WORDS, 9, 2, 4, 3, odd, 32, CAPACITY), 0);
    answers(__LINE__, zbk_write(record, ZBK_RECORD_WORDS, repair, ZBK_REPAIR_WORDS, area, AREA, (const uint8_t *)stock, STOCK), 0);
    for (size_t board = 0; board < 9; board++) from_pairs(stock_shares[board], area_due + board * BOARD);
    for (size_t board = 3; board <= 7; board += 4) {
        answers(__LINE__, zbk_lose(record, ZBK_RECORD_WORDS, repair, ZBK_REPAIR_WORDS, board), 0);
        memset(area + board * BOARD, SPOILT, BOARD);
        memset(area_due + board * BOARD, SPOILT, BOARD);
    }
}

/* The packet area so far: what lies there of so many packets, and BLANK behind it. */
static void packets_are(int line, const uint8_t *packets, size_t carried) {
    uint8_t due[ROOM];
    from_pairs(lying, due);
    bytes_are(line, "another packet area", packets, due, places[carried], BLANK, ROOM);
}

/* The repair's lists, as a start takes them. */
static const size_t fresh_boards[2] = {3, 7}, eight_helpers[8] = {8, 0, 5, 6, 2, 4, 8, 0}, two_stand_ins[2] = {1, 6};

static uint64_t start(uint64_t *record, uint64_t *repair, const uint8_t *area) {
    return zbk_start(record, ZBK_RECORD_WORDS, repair, ZBK_REPAIR_WORDS, area, AREA, fresh_boards, 2, eight_helpers, 8, two_stand_ins, 2);
}

/* What is refused of a start, and of a step with none running; records, area and packets stay. */
static void starts(void) {
    uint64_t record[ZBK_RECORD_WORDS + 2], repair[ZBK_REPAIR_WORDS + 2];
    uint8_t area[AREA + 16], area_due[AREA + 16], packets[ROOM];
    const size_t none[1] = {0}, beyond[2] = {9, 9}, twice[2] = {3, 3}, serving[1] = {8}, lost[2] = {7, 1}, others[2] = {1, 4};
    struct due due = {9, 2, 4, 3, CAPACITY, 0, 0, 0, {0xC45307801DFF002A, 0x09, 0, 0}};
    memset(packets, BLANK, ROOM);
    memset(area, BLANK, sizeof area);
    made_up(record, repair);
    answers(__LINE__, zbk_set_up(record, ZBK_RECORD_WORDS, repair, ZBK_REPAIR_WORDS, 9, 2, 4, 3, odd, 32, CAPACITY), 0);
    answers(__LINE__, zbk_start(record, ZBK_RECORD_WORDS, repair, ZBK_REPAIR_WORDS, area, AREA, beyond, 2, none, 0, none, 0), ZBK_EMPTY);
    answers(__LINE__, zbk_step(record, ZBK_RECORD_WORDS, repair, ZBK_REPAIR_WORDS, area, AREA, packets, 7, 1), ZBK_EMPTY);
    answers(__LINE__, zbk_step(record, ZBK_RECORD_WORDS, repair, ZBK_REPAIR_WORDS, area, AREA - 1, packets, 7, 1), ZBK_AREA);
    record_is(__LINE__, record, &due);

    two_lost(record, repair, area, area_due);
    due.written = 1;
    due.length = STOCK;
    due.marks = 0x177;
    answers(__LINE__, zbk_start(record, ZBK_RECORD_WORDS - 1, repair, ZBK_REPAIR_WORDS, area, AREA - 1, beyond, 2, none, 0, none, 0), ZBK_SIZE);
    answers(__LINE__, zbk_start(record, ZBK_RECORD_WORDS, repair, ZBK_REPAIR_WORDS + 1, area, AREA - 1, beyond, 2, none, 0, none, 0), ZBK_SIZE);
    answers(__LINE__, zbk_start(record, ZBK_RECORD_WORDS, repair, ZBK_REPAIR_WORDS, area, AREA - 1, beyond, 2, none, 0, none, 0), ZBK_AREA);
    answers(__LINE__, zbk_start(record, ZBK_RECORD_WORDS, repair, ZBK_REPAIR_WORDS, area, AREA, beyond, 2, eight_helpers, 8, none, 0), ZBK_COUNT);
    answers(__LINE__, zbk_start(record, ZBK_RECORD_WORDS, repair, ZBK_REPAIR_WORDS, area, AREA, beyond, 2, eight_helpers, 8, two_stand_ins, 2), ZBK_NODE);
    answers(__LINE__, zbk_start(record, ZBK_RECORD_WORDS, repair, ZBK_REPAIR_WORDS, area, AREA, twice, 2, eight_helpers, 8, two_stand_ins, 2), ZBK_REPEAT);
    answers(__LINE__, zbk_start(record, ZBK_RECORD_WORDS, repair, ZBK_REPAIR_WORDS, area, AREA, serving, 1, eight_helpers + 1, 4, others, 2), ZBK_SERVING);
    answers(__LINE__, zbk_start(record, ZBK_RECORD_WORDS, repair, ZBK_REPAIR_WORDS, area, AREA, fresh_boards, 1, eight_helpers + 1, 4, lost, 2), ZBK_DOWN);
    for (size_t length = 0; length < 70; length += 20) {
        answers(__LINE__, zbk_step(record, ZBK_RECORD_WORDS, repair, ZBK_REPAIR_WORDS, area, AREA, packets, length, 0), ZBK_IDLE);
        answers(__LINE__, zbk_step(record, ZBK_RECORD_WORDS, repair, ZBK_REPAIR_WORDS, area, AREA, packets, length, SIZE_MAX), ZBK_IDLE);
    }
    record_is(__LINE__, record, &due);
    repair_is(__LINE__, repair, &none_running);
    packets_are(__LINE__, packets, 0);
    bytes_are(__LINE__, "a refusal changed the area", area, area_due, sizeof area, 0, sizeof area);
}

/* Each call while a repair is running: a read goes on, others are refused, and the loss of a board that is named ends it. */
static void meanwhile(uint64_t *record, uint64_t *repair, uint8_t *area, uint8_t *packets) {
    static const uint8_t too_long[CAPACITY * 18 + 1] = {1};
    const uint8_t *const file = (const uint8_t *)stock;
    const size_t two[2] = {8, 2}, one_fresh[2] = {8, 3}, beyond[1] = {9}, four[4] = {8, 2, 0, 5}, fresh_too[4] = {8, 2, 0, 7};
    answers(__LINE__, zbk_read(record, ZBK_RECORD_WORDS, repair, ZBK_REPAIR_WORDS, area, AREA, two, 2, out, STOCK + 6), 0);
    bytes_are(__LINE__, "another output of a read while a repair is running", out, file, STOCK, BLANK, ROOM);
    memset(out, BLANK, ROOM);
    refused(__LINE__, zbk_read(record, ZBK_RECORD_WORDS, repair, ZBK_REPAIR_WORDS, area, AREA, one_fresh, 2, out, STOCK), ZBK_DOWN);
    careful(__LINE__, record, repair, area, four, 0);
    area[5 * BOARD + 29] ^= 0x99;
    careful(__LINE__, record, repair, area, four, 6);
    area[5 * BOARD + 29] ^= 0x99;
    careful_refused(__LINE__, record, repair, area, fresh_too, 4, STOCK, ZBK_DOWN);
    answers(__LINE__, zbk_write(record, ZBK_RECORD_WORDS, repair, ZBK_REPAIR_WORDS, area, AREA, too_long, sizeof too_long), ZBK_LONG);
    answers(__LINE__, zbk_write(record, ZBK_RECORD_WORDS, repair, ZBK_REPAIR_WORDS, area, AREA, file, STOCK), ZBK_BUSY);
    answers(__LINE__, zbk_edit(record, ZBK_RECORD_WORDS, repair, ZBK_REPAIR_WORDS, area, AREA, 0, file, 1, two, 2), ZBK_BUSY);
    answers(__LINE__, zbk_edit(record, ZBK_RECORD_WORDS, repair, ZBK_REPAIR_WORDS, area, AREA, STOCK, file, 1, beyond, 1), ZBK_BUSY);
    answers(__LINE__, zbk_repair(record, ZBK_RECORD_WORDS, repair, ZBK_REPAIR_WORDS, area, AREA, beyond, 1, beyond, 1, beyond, 1), ZBK_BUSY);
    answers(__LINE__, start(record, repair, area), ZBK_BUSY);
    answers(__LINE__, zbk_move(record, ZBK_RECORD_WORDS, repair, ZBK_REPAIR_WORDS, area, AREA, 2, 0x3F, eight_helpers, 4, two_stand_ins, 2), ZBK_BUSY);
    answers(__LINE__, zbk_move(record, ZBK_RECORD_WORDS, repair, ZBK_REPAIR_WORDS, area, AREA, 9, 0x2A, beyond, 1, beyond, 1), ZBK_BUSY);
    answers(__LINE__, zbk_lose(record, ZBK_RECORD_WORDS, repair, ZBK_REPAIR_WORDS, 9), ZBK_NODE);
    answers(__LINE__, zbk_step(record, ZBK_RECORD_WORDS, repair, ZBK_REPAIR_WORDS, area, AREA, packets, 59, 1), ZBK_AREA);
    answers(__LINE__, zbk_step(record, ZBK_RECORD_WORDS, repair, ZBK_REPAIR_WORDS, area, AREA, packets, 61, 1), ZBK_AREA);
    answers(__LINE__, zbk_step(record, ZBK_RECORD_WORDS, repair, ZBK_REPAIR_WORDS, area, AREA + 1, packets, 60, 1), ZBK_AREA);
    answers(__LINE__, zbk_step(record, ZBK_RECORD_WORDS, repair, ZBK_REPAIR_WORDS - 1, area, AREA, packets, 60, 1), ZBK_SIZE);

    uint64_t other[ZBK_RECORD_WORDS + 2], words[ZBK_REPAIR_WORDS + 2];
    for (size_t board = 0; board < 9; board++) {
        memcpy(other, record, sizeof other);
        memcpy(words, repair, sizeof words);
        answers(__LINE__, zbk_lose(other, ZBK_RECORD_WORDS, words, ZBK_REPAIR_WORDS, board), 0);
        repair_is(__LINE__, words, &none_running);
        check(__LINE__, other[ZBK_WORD_MARKS] == (record[ZBK_WORD_MARKS] & ~((uint64_t)1 << board)), "the marks after a loss");
    }
    /* words of a repair that no call hands out; and, beside a record in which a helper is lost, any of a repair that is running */
    static const size_t which[7] = {ZBK_REPAIR_RUNNING, ZBK_REPAIR_COUNT, ZBK_REPAIR_COUNT, ZBK_REPAIR_CARRIED, ZBK_REPAIR_FRESH, ZBK_REPAIR_HELPERS, ZBK_WORD_MARKS};
    static const uint64_t numbers[7] = {2, 0, 33, 12, 0xFF03, 0x0008040206050808, 0x0077};
    for (size_t i = 0; i < 7; i++) {
        memcpy(other, record, sizeof other);
        memcpy(words, repair, sizeof words);
        *(i < 6 ? &words[which[i]] : &other[which[i]]) = numbers[i];
        answers(__LINE__, zbk_step(other, ZBK_RECORD_WORDS, words, ZBK_REPAIR_WORDS, area, AREA, packets, 60, 1), ZBK_SIZE);
        refused(__LINE__, zbk_read(other, ZBK_RECORD_WORDS, words, ZBK_REPAIR_WORDS, area, AREA, two, 2, out, STOCK), ZBK_SIZE);
        refused(__LINE__, zbk_read_careful(other, ZBK_RECORD_WORDS, words, ZBK_REPAIR_WORDS, area, AREA, four, 4, out, STOCK), ZBK_SIZE);
        answers(__LINE__, zbk_lose(other, ZBK_RECORD_WORDS, words, ZBK_REPAIR_WORDS, 0), ZBK_SIZE);
        answers(__LINE__, zbk_move(other, ZBK_RECORD_WORDS, words, ZBK_REPAIR_WORDS, area, AREA, 2, 0x3F, eight_helpers, 4, two_stand_ins, 2), ZBK_SIZE);
    }
}

/* The boards 3 and 7 by steps of 0, 1, 3, 5, 2 packets and all that are left, with every other call in between. */
static void steps(void) {
    uint64_t record[ZBK_RECORD_WORDS + 2], repair[ZBK_REPAIR_WORDS + 2];
    uint8_t area[AREA + 16], area_due[AREA + 16], packets[ROOM];
    struct due due = {9, 2, 4, 3, CAPACITY, 1, STOCK, 0x177, {0xC45307801DFF002A, 0x09, 0, 0}};
    struct repair_due running = {1, 2, 0, 0x0703, 0x0008040206050008, 0x0601};
    check(__LINE__, ZBK_PACKETS_LEN(3, 2, 4, 3) == 60, "ZBK_PACKETS_LEN");
    memset(packets, BLANK, ROOM);
    two_lost(record, repair, area, area_due);
    answers(__LINE__, start(record, repair, area), 0);

    static const size_t allowances[6] = {0, 1, 3, 5, 2, SIZE_MAX}, carried[6] = {0, 1, 3, 5, 2, 1};
    for (size_t i = 0; i < 6; i++) {
        record_is(__LINE__, record, &due);
        repair_is(__LINE__, repair, &running);
        packets_are(__LINE__, packets, running.carried);
        meanwhile(record, repair, area, packets);
        record_is(__LINE__, record, &due);
        repair_is(__LINE__, repair, &running);
        packets_are(__LINE__, packets, running.carried);
        bytes_are(__LINE__, "the area changed before the last packet", area, area_due, sizeof area, 0, sizeof area);
        answers(__LINE__, zbk_step(record, ZBK_RECORD_WORDS, repair, ZBK_REPAIR_WORDS, area, AREA, packets, 60, allowances[i]), (uint64_t)carried[i] << 8);
        running.carried += carried[i];
    }
    packets_are(__LINE__, packets, 12);
    for (size_t i = 0; i < 2; i++) from_pairs(stock_shares[fresh_boards[i]], area_due + fresh_boards[i] * BOARD);
    bytes_are(__LINE__, "another area after the last step", area, area_due, sizeof area, 0, sizeof area);
    due.marks = 0x1FF;
    record_is(__LINE__, record, &due);
    repair_is(__LINE__, repair, &none_running);
    answers(__LINE__, zbk_step(record, ZBK_RECORD_WORDS, repair, ZBK_REPAIR_WORDS, area, AREA, packets, 60, 1), ZBK_IDLE);
    answers(__LINE__, start(record, repair, area), ZBK_SERVING);
}

/* Power fails where each number of packets was carried: the record and the area are as before the start, and 71 words 0 are enough beside them. */
static void power_fails(void) {
    uint64_t record[ZBK_RECORD_WORDS + 2], repair[ZBK_REPAIR_WORDS + 2];
    uint8_t area[AREA + 16], area_due[AREA + 16], packets[ROOM];
    const size_t two[2] = {5, 0};
    for (size_t count = 0; count < 12; count++) {
        struct due due = {9, 2, 4, 3, CAPACITY, 1, STOCK, 0x177, {0xC45307801DFF002A, 0x09, 0, 0}};
        two_lost(record, repair, area, area_due);
        memset(packets, BLANK, ROOM);
        answers(__LINE__, start(record, repair, area), 0);
        answers(__LINE__, zbk_step(record, ZBK_RECORD_WORDS, repair, ZBK_REPAIR_WORDS, area, AREA, packets, 60, count), (uint64_t)count << 8);
        memset(repair, 0, ZBK_REPAIR_WORDS * sizeof *repair);
        memset(packets, BLANK, ROOM);
        record_is(__LINE__, record, &due);
        bytes_are(__LINE__, "the area changed before the last packet", area, area_due, sizeof area, 0, sizeof area);
        answers(__LINE__, zbk_read(record, ZBK_RECORD_WORDS, repair, ZBK_REPAIR_WORDS, area, AREA, two, 2, out, STOCK), 0);
        bytes_are(__LINE__, "another output of a read after a power failure", out, (const uint8_t *)stock, STOCK, BLANK, ROOM);
        memset(out, BLANK, ROOM);
        answers(__LINE__, start(record, repair, area), 0);
        answers(__LINE__, zbk_step(record, ZBK_RECORD_WORDS, repair, ZBK_REPAIR_WORDS, area, AREA, packets, 60, SIZE_MAX), 12 << 8);
        for (size_t i = 0; i < 2; i++) from_pairs(stock_shares[fresh_boards[i]], area_due + fresh_boards[i] * BOARD);
        bytes_are(__LINE__, "another area after a repair started anew", area, area_due, sizeof area, 0, sizeof area);
        packets_are(__LINE__, packets, 12);
        due.marks = 0x1FF;
        record_is(__LINE__, record, &due);
        repair_is(__LINE__, repair, &none_running);
    }
}

/* M12 in a store with room for one stripe: boards 0 and 1 fresh, helpers 2, 3 and 4, and 14 bytes moved. */
static void both_lost(const uint8_t *points) {
    uint64_t record[ZBK_RECORD_WORDS + 2], repair[ZBK_REPAIR_WORDS + 2];
    uint8_t area[5 * 7 + 1], area_due[5 * 7 + 1];
    const size_t fresh[2] = {0, 1}, helpers[6] = {2, 3, 4, 4, 2, 3}, none[1] = {0};
    const struct due due = {5, 2, 3, 2, 1, 1, 12, 0x1F, {0x0403020100, 0, 0, 0}};
    memset(area, SPOILT, sizeof area);
    memset(area_due, SPOILT, sizeof area_due);
    made_up(record, repair);
    answers(__LINE__, zbk_set_up(record, ZBK_RECORD_WORDS, repair, ZBK_REPAIR_WORDS, 5, 2, 3, 2, points, 32, 1), 0);
    answers(__LINE__, zbk_write(record, ZBK_RECORD_WORDS, repair, ZBK_REPAIR_WORDS, area, 35, square, 12), 0);
    for (size_t i = 0; i < 2; i++) {
        answers(__LINE__, zbk_lose(record, ZBK_RECORD_WORDS, repair, ZBK_REPAIR_WORDS, fresh[i]), 0);
        memset(area + fresh[i] * 7, SPOILT, 7);
    }
    answers(__LINE__, zbk_repair(record, ZBK_RECORD_WORDS, repair, ZBK_REPAIR_WORDS, area, 35, fresh, 2, helpers, 6, none, 0), 14 << 8);
    for (size_t board = 0; board < 5; board++) from_pairs(square_shares[board], area_due + board * 7);
    bytes_are(__LINE__, "another area", area, area_due, sizeof area, 0, sizeof area);
    record_is(__LINE__, record, &due);
}

/* The limits, with a record in which all words differ where they can: n boards have points from F1 down by 7. */
static void limits(void) {
    uint64_t record[ZBK_RECORD_WORDS + 2], repair[ZBK_REPAIR_WORDS + 2];
    uint8_t points[ZBK_MAX_BOARDS];
    const struct due due = {32, 15, 22, 9, 4096, 0, 0, 0, {0xC0C7CED5DCE3EAF1, 0x888F969DA4ABB2B9, 0x50575E656C737A81, 0x181F262D343B4249}};
    for (size_t i = 0; i < ZBK_MAX_BOARDS; i++) points[i] = (uint8_t)(0xF1 - 7 * i);
    made_up(record, repair);
    answers(__LINE__, zbk_set_up(record, ZBK_RECORD_WORDS, repair, ZBK_REPAIR_WORDS, ZBK_MAX_BOARDS + 1, 15, 22, 9, points, ZBK_MAX_BOARDS, ZBK_MAX_STRIPES), ZBK_SIZE);
    answers(__LINE__, zbk_set_up(record, ZBK_RECORD_WORDS, repair, ZBK_REPAIR_WORDS, ZBK_MAX_BOARDS, 15, 22, 9, points, ZBK_MAX_BOARDS, ZBK_MAX_STRIPES + 1), ZBK_SIZE);
    answers(__LINE__, zbk_set_up(record, ZBK_RECORD_WORDS, repair, ZBK_REPAIR_WORDS, ZBK_MAX_BOARDS, 15, 22, 9, points, ZBK_MAX_BOARDS, ZBK_MAX_STRIPES), 0);
    record_is(__LINE__, record, &due);
}

/* ---- moves */

/* stock once board 3 has moved from 1D to 3F */
enum { BYTE_3 = 0x3F };
static const char *const moved_shares[9] = {
    "84a88bf26b708af0437c2476665d305d23750077e37c8c2243381bfab261", "73921610ac4ab43f321662dde92abbddcf0d480665953b5a21021a2dfe0c",
    "fd63a48e2460498848ef20a6056a5646f4f916e6dd7312694a52e10efca3", "914125ba665d7c8a6c5d1c9838d5a09d77dd81f0a0c1ba99813261520d3f",
    "e60602218f20166a9b5f08b00d291c6a06de0a8833486b73c0930c6c5ea1", "c798fb8875b7ef69297de736200b0e9de656adad17342c9fcc53a325da7b",
    "db542c0b6ef85d016b8a29970b01578af0dab823061eadfe61913ff9581b", "3ab8e20b43285ff79cb40870971f1bd388e488cfe152019e6ec0a140031a",
    "714310043e767db212495e2d7e3e60c1ad9624f4f3a03fcf61007bb0a9e1"};
static const char moved_text[] = "n=9\nk=2\nd=4\nr=3\nnode=6\nlength=39\npoints=2a00ff3f800753c409\n"
                                 "data=db542c0b6ef85d016b8a29970b01578af0dab823061eadfe61913ff9581b\n";

/* A move of a store of stock that is refused: nothing changed. */
static void move_refused(int line, uint64_t *record, uint64_t *repair, uint8_t *area, size_t board, uint8_t point, const size_t *helpers, size_t helpers_count,
                         const size_t *partners, size_t partners_count, uint64_t number) {
    uint64_t words[ZBK_RECORD_WORDS + 2], repair_words[ZBK_REPAIR_WORDS + 2];
    uint8_t kept[AREA + 16];
    memcpy(words, record, sizeof words);
    memcpy(repair_words, repair, sizeof repair_words);
    memcpy(kept, area, sizeof kept);
    answers(line, zbk_move(record, ZBK_RECORD_WORDS, repair, ZBK_REPAIR_WORDS, area, AREA, board, point, helpers, helpers_count, partners, partners_count), number);
    check(line, memcmp(words, record, sizeof words) == 0, "a refusal changed the record");
    check(line, memcmp(repair_words, repair, sizeof repair_words) == 0, "a refusal changed the repair");
    check(line, memcmp(kept, area, sizeof kept) == 0, "a refusal changed the area");
}

/* Board 3 of stock to another byte and back, with any bytes on it; what is refused of a move; and texts of both points. */
static void moves(void) {
    uint64_t record[ZBK_RECORD_WORDS + 2], repair[ZBK_REPAIR_WORDS + 2];
    uint8_t area[AREA + 16], area_due[AREA + 16], points[ZBK_MAX_BOARDS], share[STOCK_SHARE];
    const size_t helpers[5] = {8, 0, 5, 6, 2}, partners[3] = {7, 1, 4}, beyond[4] = {8, 0, 9, 8}, itself[4] = {8, 0, 5, 3}, twice[2] = {7, 6}, none[1] = {0};
    struct due due = {9, 2, 4, 3, CAPACITY, 1, STOCK, 0x1FF, {0xC45307801DFF002A, 0x09, 0, 0}};
    memset(area, BLANK, sizeof area);
    memset(area_due, BLANK, sizeof area_due);
    made_up(record, repair);
    answers(__LINE__, zbk_set_up(record, ZBK_RECORD_WORDS, repair, ZBK_REPAIR_WORDS, 9, 2, 4, 3, odd, 32, CAPACITY), 0);
    move_refused(__LINE__, record, repair, area, 9, 0x1D, beyond, 3, none, 0, ZBK_EMPTY);
    answers(__LINE__, zbk_write(record, ZBK_RECORD_WORDS, repair, ZBK_REPAIR_WORDS, area, AREA, (const uint8_t *)stock, STOCK), 0);

    answers(__LINE__, zbk_move(record, ZBK_RECORD_WORDS - 1, repair, ZBK_REPAIR_WORDS, area, AREA - 1, 9, 0x1D, beyond, 3, none, 0), ZBK_SIZE);
    answers(__LINE__, zbk_move(record, ZBK_RECORD_WORDS, repair, ZBK_REPAIR_WORDS + 1, area, AREA - 1, 9, 0x1D, beyond, 3, none, 0), ZBK_SIZE);
    answers(__LINE__, zbk_move(record, ZBK_RECORD_WORDS, repair, ZBK_REPAIR_WORDS, area, AREA - 1, 9, 0x1D, beyond, 3, none, 0), ZBK_AREA);
    move_refused(__LINE__, record, repair, area, 9, 0x1D, beyond, 3, partners, 2, ZBK_COUNT);
    move_refused(__LINE__, record, repair, area, 9, 0x1D, helpers, 5, partners, 2, ZBK_COUNT);
    move_refused(__LINE__, record, repair, area, 9, 0x1D, beyond, 4, partners, 1, ZBK_COUNT);
    move_refused(__LINE__, record, repair, area, 9, 0x1D, beyond, 4, partners, 3, ZBK_COUNT);
    move_refused(__LINE__, record, repair, area, 9, 0x1D, helpers, 4, partners, 2, ZBK_NODE);
    move_refused(__LINE__, record, repair, area, 3, 0x1D, beyond, 4, partners, 2, ZBK_NODE);
    move_refused(__LINE__, record, repair, area, SIZE_MAX, BYTE_3, helpers, 4, partners, 2, ZBK_NODE);
    move_refused(__LINE__, record, repair, area, 3, BYTE_3, itself, 4, partners, 2, ZBK_REPEAT);
    move_refused(__LINE__, record, repair, area, 7, BYTE_3, helpers, 4, partners, 2, ZBK_REPEAT);
    move_refused(__LINE__, record, repair, area, 3, BYTE_3, helpers, 4, twice, 2, ZBK_REPEAT);
    /* each board's byte, its own too: 00 is that of board 1 */
    for (size_t board = 0; board < 9; board++) move_refused(__LINE__, record, repair, area, 3, odd[board], helpers, 4, partners, 2, ZBK_REPEAT);
    /* each board out of service, named or not; a board's byte comes before it */
    for (size_t board = 0; board < 9; board++) {
        record[ZBK_WORD_MARKS] = 0x1FF & ~((uint64_t)1 << board);
        move_refused(__LINE__, record, repair, area, 3, BYTE_3, helpers, 4, partners, 2, ZBK_DOWN);
        move_refused(__LINE__, record, repair, area, 3, 0x09, helpers, 4, partners, 2, ZBK_REPEAT);
    }
    record[ZBK_WORD_MARKS] = 0x1FF;

    /* 3 stripes x 10 bytes are moved, whatever board 3 held */
    memset(area + 3 * BOARD, SPOILT, STOCK_SHARE);
    for (size_t board = 0; board < 9; board++) from_pairs(moved_shares[board], area_due + board * BOARD);
    answers(__LINE__, zbk_move(record, ZBK_RECORD_WORDS, repair, ZBK_REPAIR_WORDS, area, AREA, 3, BYTE_3, helpers, 4, partners, 2), 30 << 8);
    due.points[0] = 0xC45307803FFF002A;
    record_is(__LINE__, record, &due);
    repair_is(__LINE__, repair, &none_running);
    bytes_are(__LINE__, "another area after a move", area, area_due, sizeof area, 0, sizeof area);
    move_refused(__LINE__, record, repair, area, 3, BYTE_3, helpers, 4, partners, 2, ZBK_REPEAT);
    careful(__LINE__, record, repair, area, helpers, 0);
    memcpy(points, odd, sizeof points);
    points[3] = BYTE_3;
    wrote_text(__LINE__, zbk_share_text(9, 2, 4, 3, points, 32, STOCK, 6, area + 6 * BOARD, STOCK_SHARE, out, ROOM), moved_text);
    /* texts of one time are good together, and those of two are not */
    char both[2 * sizeof moved_text];
    const size_t length = strlen(stock_text);
    memcpy(both, other_stock_text, length);
    memcpy(both + length, stock_text, length);
    wrote(__LINE__, zbk_gather((const uint8_t *)both, 2 * length, out, STOCK), (const uint8_t *)stock, STOCK);
    memcpy(both + length, moved_text, length);
    refused(__LINE__, zbk_gather((const uint8_t *)both, 2 * length, out, STOCK), ZBK_MIXED);

    /* back, by other boards */
    const size_t others[4] = {1, 4, 2, 7}, two[2] = {6, 8};
    for (size_t board = 0; board < 9; board++) from_pairs(stock_shares[board], area_due + board * BOARD);
    answers(__LINE__, zbk_move(record, ZBK_RECORD_WORDS, repair, ZBK_REPAIR_WORDS, area, AREA, 3, 0x1D, others, 4, two, 2), 30 << 8);
    due.points[0] = 0xC45307801DFF002A;
    record_is(__LINE__, record, &due);
    bytes_are(__LINE__, "another area after a move back", area, area_due, sizeof area, 0, sizeof area);

    /* a wrong byte on helper 8, the value of its f at board 3's point, and one behind all shares: it makes the moved board wrong, and stays behind the shares */
    from_pairs(stock_shares[8], share);
    area[8 * BOARD + 4] ^= 1;
    area[AREA - 1] = SPOILT;
    answers(__LINE__, zbk_move(record, ZBK_RECORD_WORDS, repair, ZBK_REPAIR_WORDS, area, AREA, 3, BYTE_3, helpers, 4, partners, 2), 30 << 8);
    for (size_t board = 0; board < 8; board++) {
        from_pairs(moved_shares[board], area_due + board * BOARD);
        const int alike = memcmp(area + board * BOARD, area_due + board * BOARD, BOARD) == 0;
        check(__LINE__, alike == (board != 3), "a wrong byte on a helper");
    }
    check(__LINE__, memcmp(area + 8 * BOARD, share, 4) == 0 && memcmp(area + 8 * BOARD + 5, share + 5, STOCK_SHARE - 5) != 0 && area[AREA - 1] == SPOILT,
          "what a helper with a wrong byte keeps");
}

/* A robot of the first series with a square: board 0 to 0, board 1 to 1, up to board 4; the boards then hold M7 to M11, and a text has no line of points. */
static void first_series(void) {
    uint64_t record[ZBK_RECORD_WORDS + 2], repair[ZBK_REPAIR_WORDS + 2];
    uint8_t area[35 + 5], area_due[35 + 5], points[ZBK_MAX_BOARDS], given[ZBK_MAX_BOARDS];
    struct due due = {5, 2, 3, 2, 1, 1, 12, 0x1F, {0x0504030201, 0, 0, 0}};
    memset(area, BLANK, sizeof area);
    memset(area_due, BLANK, sizeof area_due);
    made_up(record, repair);
    zbk_first_series_points(points, 5);
    answers(__LINE__, zbk_set_up(record, ZBK_RECORD_WORDS, repair, ZBK_REPAIR_WORDS, 5, 2, 3, 2, points, 32, 1), 0);
    answers(__LINE__, zbk_write(record, ZBK_RECORD_WORDS, repair, ZBK_REPAIR_WORDS, area, 35, square, 12), 0);
    wrote_text(__LINE__, zbk_share_text(5, 2, 3, 2, points, 32, 12, 1, area + 7, 7, out, ROOM),
               "n=5\nk=2\nd=3\nr=2\nnode=1\nlength=12\npoints=0102030405\ndata=080c1014040a20\n");
    for (size_t board = 0; board < 5; board++) {
        size_t others[4];
        for (size_t t = 0; t < 4; t++) others[t] = (board + t + 1) % 5;
        /* 00, which the numbers from 5 up keep, is no board's when board 0 goes there */
        answers(__LINE__, zbk_move(record, ZBK_RECORD_WORDS, repair, ZBK_REPAIR_WORDS, area, 35, board, (uint8_t)board, others, 3, others + 3, 1), 7 << 8);
        due.points[0] -= (uint64_t)1 << 8 * board;
        record_is(__LINE__, record, &due);
        answers(__LINE__, zbk_read(record, ZBK_RECORD_WORDS, repair, ZBK_REPAIR_WORDS, area, 35, others + 2, 2, out, 12), 0);
        bytes_are(__LINE__, "another output of a read between moves", out, square, 12, BLANK, ROOM);
        memset(out, BLANK, ROOM);
    }
    for (size_t board = 0; board < 5; board++) from_pairs(square_shares[board], area_due + 7 * board);
    bytes_are(__LINE__, "another area after all moves", area, area_due, sizeof area, 0, sizeof area);
    for (size_t i = 0; i < ZBK_MAX_BOARDS; i++) given[i] = (uint8_t)(record[ZBK_WORD_POINTS + i / 8] >> 8 * (i % 8));
    wrote_text(__LINE__, zbk_share_text(5, 2, 3, 2, given, 32, 12, 1, area + 7, 7, out, ROOM), square_text);

    /* a file of no bytes: nothing is put, the point still changes, and 0 is reported */
    const size_t helpers[3] = {4, 0, 3}, partner[1] = {2};
    answers(__LINE__, zbk_write(record, ZBK_RECORD_WORDS, repair, ZBK_REPAIR_WORDS, area, 35, square, 0), 0);
    answers(__LINE__, zbk_move(record, ZBK_RECORD_WORDS, repair, ZBK_REPAIR_WORDS, area, 35, 1, 0xFF, helpers, 3, partner, 1), 0);
    due.length = 0;
    due.points[0] = 0x040302FF00;
    record_is(__LINE__, record, &due);
    bytes_are(__LINE__, "a move of no bytes changed the area", area, area_due, sizeof area, 0, sizeof area);
}

/* ---- what the header has itself: answers taken apart, and points */

static void answers_apart(void) {
    const struct {
        uint64_t answer, value;
        unsigned refusal;
    } made_up_answers[] = {{0, 0, 0},
                           {14, 0, 14},
                           {255, 0, 255},
                           {256, 1, 0},
                           {(uint64_t)14 << 8, 14, 0},
                           {0x0123456789ABCDEF, 0x0123456789ABCD, 0xEF},
                           {(uint64_t)1 << 63 | 3, (uint64_t)1 << 55, 3},
                           {UINT64_MAX, UINT64_MAX >> 8, 255}};
    for (size_t i = 0; i < sizeof made_up_answers / sizeof *made_up_answers; i++) {
        check(__LINE__, zbk_refusal(made_up_answers[i].answer) == made_up_answers[i].refusal, "zbk_refusal of a made-up answer");
        check(__LINE__, zbk_value(made_up_answers[i].answer) == made_up_answers[i].value, "zbk_value of a made-up answer");
    }
}

static void points_of_robots(void) {
    const size_t counts[] = {0, 1, 5, 31, 32, 33, SIZE_MAX};
    uint8_t points[ZBK_MAX_BOARDS + 8], due[ZBK_MAX_BOARDS];
    for (size_t c = 0; c < sizeof counts / sizeof *counts; c++) {
        for (size_t first = 0; first < 2; first++) {
            for (size_t i = 0; i < 32; i++) due[i] = (uint8_t)(i < counts[c] ? i + first : 0);
            memset(points, BLANK, sizeof points);
            if (first) zbk_first_series_points(points, counts[c]);
            else zbk_standard_points(points, counts[c]);
            bytes_are(__LINE__, first ? "zbk_first_series_points" : "zbk_standard_points", points, due, 32, BLANK, sizeof points);
        }
    }
}

int main(void) {
    uint8_t points[ZBK_MAX_BOARDS];
    zbk_standard_points(points, 5);
    memset(out, BLANK, ROOM);
    answers_apart();
    points_of_robots();
    shares_and_files(points);
    packets(points);
    texts(points);
    trial_files();
    store();
    careful_reads();
    starts();
    steps();
    power_fails();
    moves();
    first_series();
    both_lost(points);
    limits();
    printf("header: %u checks, %u failed\n", checks, failed);
    return failed != 0;
}

/*
 * figures.c: figures for docs/USE.md and its two drawings, by calls of the archive: how many bytes a stripe carries is found by writes up to the first that
 * is LONG, what a board keeps is what zbk_share reports, what goes over the bus is what zbk_repair and the packets' calls report. Of Reed-Solomon it is counted
 * here that a board keeps 1/k of the file, that a board is rebuilt from k others, and that one who has the file can send another its share.
 *
 *   figures sizes      rows of docs/USE.md: room, bytes over the bus and longest file for eight choices of sizes
 *   figures cut        rows of docs/USE.md: what a read gives where a write or an edit was cut
 *   figures altered    rows of docs/USE.md: what k, k + 1 and k + 2 boards show of a wrong byte
 *   figures boards     docs/boards.svg
 *   figures bus        docs/bus.svg
 *
 * tools/figures.sh builds it and puts all five where they belong.
 */
#include "zebrankai_util.h"

#include <stdio.h>
#include <stdlib.h>
#include <string.h>

static uint64_t record[ZBK_RECORD_WORDS], repair[ZBK_REPAIR_WORDS];
#define RECORDS record, ZBK_RECORD_WORDS, repair, ZBK_REPAIR_WORDS
static uint8_t *area, *file, *out, points[ZBK_MAX_BOARDS];
enum { MOST_AREA = 32 * 4096 * 63, MOST_FILE = 4096 * 1024 };

static uint64_t accepted(uint64_t answer) {
    if (zbk_refusal(answer) != ZBK_ACCEPTED) {
        fprintf(stderr, "figures: a call was refused: %s\n", zbk_refusal_name(zbk_refusal(answer)));
        exit(1);
    }
    return zbk_value(answer);
}

static void due(int holds, const char *what) {
    if (holds) return;
    fprintf(stderr, "figures: not so: %s\n", what);
    exit(1);
}

/* what the archive says of some sizes, a stripe each: bytes of the file, bytes kept, bytes over the bus for one board and for r together */
struct figures {
    size_t n, k, d, r;
    uint64_t carries, keeps, one, together;
};

static uint64_t rebuild(size_t t, size_t area_len) {
    struct zbk_lists l;
    size_t fresh[ZBK_MAX_BOARDS];
    for (size_t i = 0; i < t; i++) {
        fresh[i] = i;
        accepted(zbk_lose(RECORDS, i));
    }
    accepted(zbk_choose_repair(record, fresh, t, &l));
    return accepted(zbk_repair(RECORDS, area, area_len, l.fresh, l.fresh_count, l.helpers, l.helpers_count, l.stand_ins, l.stand_ins_count));
}

static struct figures of(size_t n, size_t k, size_t d, size_t r) {
    struct figures f = {n, k, d, r, 0, 0, 0, 0};
    const size_t area_len = zbk_area_len(n, k, d, r, 1);
    zbk_standard_points(points, n);
    accepted(zbk_set_up(RECORDS, n, k, d, r, points, sizeof points, 1));
    while (zbk_refusal(zbk_write(RECORDS, area, area_len, file, f.carries + 1)) == ZBK_ACCEPTED) f.carries++;
    f.keeps = accepted(zbk_share(n, k, d, r, points, sizeof points, 0, file, f.carries, out, MOST_FILE));
    f.one = rebuild(1, area_len);
    f.together = rebuild(r, area_len);
    return f;
}

/* the longest file of the greatest store: it is taken, and one byte more is LONG */
static uint64_t longest(const struct figures *f) {
    const size_t area_len = zbk_area_len(f->n, f->k, f->d, f->r, ZBK_MAX_STRIPES);
    const uint64_t length = ZBK_MAX_STRIPES * f->carries;
    zbk_standard_points(points, f->n);
    due(zbk_refusal(zbk_set_up(RECORDS, f->n, f->k, f->d, f->r, points, sizeof points, ZBK_MAX_STRIPES + 1)) == ZBK_SIZE, "4,097 stripes are SIZE");
    accepted(zbk_set_up(RECORDS, f->n, f->k, f->d, f->r, points, sizeof points, ZBK_MAX_STRIPES));
    accepted(zbk_write(RECORDS, area, area_len, file, length));
    due(zbk_refusal(zbk_write(RECORDS, area, area_len, file, length + 1)) == ZBK_LONG, "one byte more is LONG");
    return length;
}

/* a part of a whole in whole percent, and in hundredths, rounded */
static uint64_t percent(uint64_t part, uint64_t whole) { return (200 * part + whole) / (2 * whole); }
static uint64_t hundredths(uint64_t part, uint64_t whole) { return percent(part, whole); }

/* what Reed-Solomon sends, times k: so that it is whole */
static uint64_t each_fetches(const struct figures *f, uint64_t t) { return t * f->carries * f->k; }
static uint64_t sent_on(const struct figures *f, uint64_t t) { return f->carries * f->k + (t - 1) * f->carries; }

static const char *grouped(uint64_t number) {
    static char text[4][32];
    static size_t turn;
    char *to = text[turn++ % 4], plain[24];
    const int digits = sprintf(plain, "%llu", (unsigned long long)number);
    int at = 0;
    for (int i = 0; i < digits; i++) {
        if (i > 0 && (digits - i) % 3 == 0) to[at++] = ',';
        to[at++] = plain[i];
    }
    to[at] = 0;
    return to;
}

static void sizes_table(void) {
    static const size_t sizes[8][4] = {{4, 2, 3, 1}, {5, 2, 3, 2}, {7, 3, 4, 2}, {8, 4, 6, 2}, {8, 6, 6, 2}, {12, 6, 8, 2}, {16, 8, 12, 4}, {32, 16, 24, 8}};
    for (size_t i = 0; i < 8; i++) {
        const struct figures f = of(sizes[i][0], sizes[i][1], sizes[i][2], sizes[i][3]);
        const uint64_t stored = hundredths(f.n * f.keeps, f.carries), plain = hundredths(f.n, f.k);
        printf("| %zu, %zu, %zu, %zu | %zu | %zu | ", f.n, f.k, f.d, f.r, f.n - f.k, f.n - f.d);
        if (f.n >= f.k + 2) printf("%zu", f.n - f.k - 2);
        else printf("none");
        printf(" | %llu.%02llu (%llu.%02llu) | %llu %% | ", (unsigned long long)stored / 100, (unsigned long long)stored % 100,
               (unsigned long long)plain / 100, (unsigned long long)plain % 100, (unsigned long long)percent(f.one * f.k, each_fetches(&f, 1)));
        if (f.r == 1) printf("- | ");
        else printf("%llu %% | ", (unsigned long long)percent(f.together * f.k, sent_on(&f, f.r)));
        printf("%s | %s |\n", grouped(f.carries), grouped(longest(&f)));
    }
}

/* ---- boards in service that are not as they were written */

/* what a read of the first k boards gives: the old file, the new one, DISAGREE, or a file that nobody wrote */
enum { OLD, NEW, DISAGREES, NOBODY, KINDS };
static int given(size_t k, const uint8_t *mixed, size_t area_len, const uint8_t *before, const uint8_t *after, size_t length) {
    size_t first[ZBK_MAX_BOARDS];
    for (size_t i = 0; i < k; i++) first[i] = i;
    const uint64_t answer = zbk_read(RECORDS, mixed, area_len, first, k, out, length);
    if (zbk_refusal(answer) == ZBK_DISAGREE) return DISAGREES;
    accepted(answer);
    return memcmp(out, before, length) == 0 ? OLD : memcmp(out, after, length) == 0 ? NEW : NOBODY;
}

/* A call is cut: of the boards some have what it leaves and others what stood before. Both calls go stripe by stripe, and in
 * a stripe board by board. */
static void cut_table(void) {
    enum { N = 8, K = 4, D = 6, R = 2, S = 30, KEEPS = 2 * D + R - 1, AREA = N * S * KEEPS, LENGTH = S * K * (2 * D + R - K), EDITED = 8 * LENGTH / S - 2 };
    static uint8_t before[AREA], after[AREA], mixed[AREA], old[LENGTH], other[LENGTH];
    for (int writing = 1; writing >= 0; writing--) {
        size_t counts[KINDS] = {0}, first[K] = {0, 1, 2, 3}, places = 0;
        zbk_trial_file(1, old, LENGTH);
        memcpy(other, old, LENGTH);
        if (writing) zbk_trial_file(2, other, LENGTH);
        else memcpy(other + EDITED, "1234", 4);
        zbk_standard_points(points, N);
        accepted(zbk_set_up(RECORDS, N, K, D, R, points, sizeof points, S));
        accepted(zbk_write(RECORDS, before, AREA, old, LENGTH));
        memcpy(after, before, AREA);
        if (writing) accepted(zbk_write(RECORDS, after, AREA, other, LENGTH));
        else accepted(zbk_edit(RECORDS, after, AREA, EDITED, other + EDITED, 4, first, K));
        memcpy(mixed, before, AREA);
        for (size_t at = 0; at <= S * N; at++) {
            if (at > 0) {
                const size_t place = ((at - 1) % N * S + (at - 1) / N) * KEEPS;
                if (memcmp(mixed + place, after + place, KEEPS) == 0) continue;
                memcpy(mixed + place, after + place, KEEPS);
            }
            places++;
            counts[given(K, mixed, AREA, old, other, LENGTH)]++;
        }
        due(memcmp(mixed, after, AREA) == 0, "all boards are changed at last");
        printf("| %s | %zu | %zu | %zu | %zu | **%zu** |\n", writing ? "a write of 1,200 bytes" : "an edit of 4 of them, in two stripes", places, counts[OLD], counts[NEW],
               counts[DISAGREES], counts[NOBODY]);
    }
}

/* One byte of board 0 is wrong, at each place of a stripe's share in turn. */
static void altered_table(void) {
    static const size_t sizes[4][4] = {{5, 2, 3, 2}, {8, 4, 6, 2}, {12, 6, 8, 2}, {32, 16, 24, 8}};
    for (size_t i = 0; i < 4; i++) {
        const struct figures f = of(sizes[i][0], sizes[i][1], sizes[i][2], sizes[i][3]);
        const size_t area_len = zbk_area_len(f.n, f.k, f.d, f.r, 1);
        size_t counts[KINDS] = {0}, shown = 0, named = 0, boards[ZBK_MAX_BOARDS];
        zbk_trial_file(1, file, f.carries);
        zbk_standard_points(points, f.n);
        accepted(zbk_set_up(RECORDS, f.n, f.k, f.d, f.r, points, sizeof points, 1));
        accepted(zbk_write(RECORDS, area, area_len, file, f.carries));
        for (size_t b = 0; b < f.n; b++) boards[b] = b;
        for (size_t at = 0; at < f.keeps; at++) {
            area[at] ^= 0x10;
            const int kind = given(f.k, area, area_len, file, file, f.carries);
            counts[kind]++;
            /* a second read, of boards 1 to k */
            static uint8_t first[1024];
            memcpy(first, out, f.carries);
            const unsigned second = zbk_refusal(zbk_read(RECORDS, area, area_len, boards + 1, f.k, out, f.carries));
            if (kind == DISAGREES || second != ZBK_ACCEPTED || memcmp(first, out, f.carries) != 0) shown++;
            const uint64_t answer = zbk_read_careful(RECORDS, area, area_len, boards, f.k + 2, out, f.carries);
            if (zbk_refusal(answer) == ZBK_ACCEPTED && zbk_value(answer) == 1 && memcmp(out, file, f.carries) == 0) named++;
            area[at] ^= 0x10;
        }
        due(counts[OLD] == 0 && counts[NEW] == 0, "a wrong byte is never without effect");
        printf("| %zu, %zu, %zu, %zu | %llu | %zu | **%zu** | %zu | %zu |\n", f.n, f.k, f.d, f.r, (unsigned long long)f.keeps, counts[DISAGREES], counts[NOBODY],
               shown, named);
    }
}

/* ---- drawings; all places are whole numbers, so that they are the same bytes on every machine */

static void begin(int wide, int high, const char *title, const char *told) {
    printf("<svg xmlns=\"http://www.w3.org/2000/svg\" viewBox=\"0 0 %d %d\" width=\"%d\" height=\"%d\" font-family=\"Helvetica, Arial, sans-serif\" "
           "font-size=\"14\" fill=\"#222\" role=\"img\">\n",
           wide, high, wide, high);
    printf("<title>%s</title>\n<desc>%s Made by tools/figures.sh.</desc>\n<rect width=\"%d\" height=\"%d\" fill=\"#fff\"/>\n", title, told, wide, high);
    printf("<text x=\"20\" y=\"30\" font-size=\"18\" font-weight=\"bold\">%s</text>\n", title);
}

static void box(int x, int y, int wide, int high, const char *fill) {
    printf("<rect x=\"%d\" y=\"%d\" width=\"%d\" height=\"%d\" fill=\"%s\" stroke=\"#555\" stroke-width=\"0.7\"/>\n", x, y, wide, high, fill);
}

static void words(int x, int y, const char *anchor, const char *weight, const char *text) {
    printf("<text x=\"%d\" y=\"%d\" text-anchor=\"%s\" font-weight=\"%s\">%s</text>\n", x, y, anchor, weight, text);
}

static void boards(void) {
    enum { N = 8, K = 4, D = 6, R = 2, LENGTH = 189, LEFT = 110, WIDE = 100, STEP = 108 };
    const size_t lost[R] = {2, 5}, others[D] = {0, 1, 3, 4, 6, 7};
    const struct figures f = of(N, K, D, R);
    const size_t stripes = zbk_stripes(N, K, D, R, LENGTH), area_len = zbk_area_len(N, K, D, R, stripes);
    char text[200];
    zbk_standard_points(points, N);
    zbk_trial_file(1, file, LENGTH);
    accepted(zbk_set_up(RECORDS, N, K, D, R, points, sizeof points, stripes));
    accepted(zbk_write(RECORDS, area, area_len, file, LENGTH));
    /* what each sends, by the calls of the board level */
    const uint64_t share = accepted(zbk_share(N, K, D, R, points, sizeof points, 0, file, LENGTH, out, MOST_FILE));
    const uint64_t helps = accepted(zbk_helper_packet(N, K, D, R, points, sizeof points, LENGTH, 0, 2, area, share, out, MOST_FILE));
    uint8_t *packets = out + MOST_FILE / 2;
    for (size_t i = 0; i < D; i++)
        accepted(zbk_helper_packet(N, K, D, R, points, sizeof points, LENGTH, others[i], lost[0], area + others[i] * share, share, packets + i * helps, helps));
    const uint64_t exchanges =
        accepted(zbk_exchange_packet(N, K, D, R, points, sizeof points, LENGTH, lost[0], others, D, packets, D * helps, lost[1], out, MOST_FILE / 2));
    /* the two are lost and rebuilt, and the file is read from them and two others */
    struct zbk_lists l;
    for (size_t i = 0; i < R; i++) {
        accepted(zbk_lose(RECORDS, lost[i]));
        memset(area + lost[i] * share, 0xEE, share);
    }
    accepted(zbk_choose_lost(record, &l));
    const uint64_t moved = accepted(zbk_repair(RECORDS, area, area_len, l.fresh, l.fresh_count, l.helpers, l.helpers_count, l.stand_ins, l.stand_ins_count));
    const size_t readers[K] = {2, 5, 0, 7};
    accepted(zbk_read(RECORDS, area, area_len, readers, K, out, LENGTH));
    due(memcmp(file, out, LENGTH) == 0, "rebuilt boards give the file");
    due(share == stripes * f.keeps && moved == R * share && D * helps + exchanges == share, "a fresh board gets as many bytes as it keeps");

    sprintf(text, "A file of %d bytes on %d boards (n = %d, k = %d, d = %d, r = %d)", LENGTH, N, N, K, D, R);
    begin(880, 490, text, "A file is cut into stripes; of each stripe every board keeps some bytes; any four boards give the file back, and two lost ones are rebuilt.");
    words(20, 73, "start", "bold", "file");
    for (size_t s = 0; s < stripes; s++) {
        const uint64_t here = s + 1 < stripes ? f.carries : LENGTH - s * f.carries;
        box(LEFT + (int)s * STEP, 48, WIDE, 42, here == f.carries ? "#c6dbef" : "#e3eef8");
        sprintf(text, "stripe %zu", s);
        words(LEFT + (int)s * STEP + WIDE / 2, 66, "middle", "normal", text);
        if (here == f.carries) sprintf(text, "%llu bytes", (unsigned long long)here);
        else sprintf(text, "%llu, and 00s", (unsigned long long)here);
        words(LEFT + (int)s * STEP + WIDE / 2, 83, "middle", "normal", text);
        printf("<path d=\"M %d 94 v 22 m -4 -7 l 4 7 l 4 -7\" fill=\"none\" stroke=\"#555\"/>\n", LEFT + (int)s * STEP + WIDE / 2);
    }
    for (size_t board = 0; board < N; board++) {
        const int y = 122 + (int)board * 32, rebuilt = board == lost[0] || board == lost[1];
        sprintf(text, "board %zu", board);
        words(20, y + 18, "start", "bold", text);
        for (size_t s = 0; s < stripes; s++) {
            box(LEFT + (int)s * STEP, y, WIDE, 26, rebuilt ? "#fdd0a2" : "#c7e9c0");
            sprintf(text, "%llu bytes", (unsigned long long)f.keeps);
            words(LEFT + (int)s * STEP + WIDE / 2, y + 18, "middle", "normal", text);
        }
        sprintf(text, rebuilt ? "%llu bytes, rebuilt" : "%llu bytes", (unsigned long long)share);
        words(LEFT + (int)stripes * STEP + 6, y + 18, "start", "normal", text);
    }
    const uint64_t whole = hundredths(N * f.keeps, f.carries), this_one = hundredths(N * share, LENGTH), plain = hundredths(N, K);
    sprintf(text, "Read: any %d of the %d boards give all %d bytes back.", K, N, LENGTH);
    words(20, 404, "start", "normal", text);
    sprintf(text, "Rebuilt: boards 2 and 5 each hear %d helpers (%llu bytes each) and each other (%llu bytes): %llu bytes in all.", D,
            (unsigned long long)helps, (unsigned long long)exchanges, (unsigned long long)moved);
    words(20, 428, "start", "normal", text);
    sprintf(text, "Kept: %d x %llu = %llu bytes, %llu.%02llu times the file; with full stripes %llu.%02llu times. Reed-Solomon, %d of %d: %llu.%02llu times.", N,
            (unsigned long long)share, (unsigned long long)(N * share), (unsigned long long)this_one / 100, (unsigned long long)this_one % 100,
            (unsigned long long)whole / 100, (unsigned long long)whole % 100, K, N, (unsigned long long)plain / 100, (unsigned long long)plain % 100);
    words(20, 452, "start", "normal", text);
    words(20, 476, "start", "normal", "So the boards keep more than Reed-Solomon's, and the bus carries less: bus.svg.");
    puts("</svg>");
}

static void bar(int y, uint64_t part, uint64_t whole, const char *fill, const char *what) {
    enum { LEFT = 150, WIDE = 360 };
    const int wide = (int)((2 * part * WIDE + whole) / (2 * whole));
    box(LEFT, y, wide, 18, fill);
    words(LEFT + wide + 8, y + 14, "start", "normal", what);
}

static void bus(void) {
    static const size_t sizes[3][4] = {{8, 4, 6, 2}, {12, 6, 8, 2}, {32, 16, 24, 8}};
    static const char *const count[] = {"", "one", "two", "three", "four", "five", "six", "seven", "eight"};
    char text[200];
    int y = 84;
    begin(880, 606, "Bytes over the bus to rebuild boards, for each stripe", "Bars: Reed-Solomon, where each fresh board fetches the file; where one fetches it and sends on; and this code.");
    words(20, 56, "start", "normal", "Each set of bars has its own scale: its longest is Reed-Solomon, each fresh board fetching the file by itself.");
    for (size_t i = 0; i < 3; i++) {
        const struct figures f = of(sizes[i][0], sizes[i][1], sizes[i][2], sizes[i][3]);
        sprintf(text, "n = %zu, k = %zu, d = %zu, r = %zu: a stripe carries %llu bytes of the file", f.n, f.k, f.d, f.r, (unsigned long long)f.carries);
        words(20, y + 6, "start", "bold", text);
        y += 18;
        words(40, y + 14, "start", "normal", "one board");
        sprintf(text, "%llu: Reed-Solomon fetches the file", (unsigned long long)(each_fetches(&f, 1) / f.k));
        bar(y, each_fetches(&f, 1), each_fetches(&f, 1), "#bdbdbd", text);
        sprintf(text, "%llu here: %llu %%", (unsigned long long)f.one, (unsigned long long)percent(f.one * f.k, each_fetches(&f, 1)));
        bar(y + 20, f.one * f.k, each_fetches(&f, 1), "#74c476", text);
        y += 50;
        sprintf(text, "%s together", count[f.r]);
        words(40, y + 14, "start", "normal", text);
        sprintf(text, "%s: Reed-Solomon, each fetches the file", grouped(each_fetches(&f, f.r) / f.k));
        bar(y, each_fetches(&f, f.r), each_fetches(&f, f.r), "#d9d9d9", text);
        sprintf(text, "%llu: Reed-Solomon, one fetches it and sends on", (unsigned long long)(sent_on(&f, f.r) / f.k));
        bar(y + 20, sent_on(&f, f.r), each_fetches(&f, f.r), "#bdbdbd", text);
        sprintf(text, "%llu here: %llu %% of the first, %llu %% of the second", (unsigned long long)f.together,
                (unsigned long long)percent(f.together * f.k, each_fetches(&f, f.r)), (unsigned long long)percent(f.together * f.k, sent_on(&f, f.r)));
        bar(y + 40, f.together * f.k, each_fetches(&f, f.r), "#74c476", text);
        y += 92;
    }
    words(20, y + 2, "start", "normal", "Sent on: the board that has fetched the file works out the others' shares, and sends each its share, 1/k of the file.");
    words(20, y + 24, "start", "normal", "The price is room: boards keep more here than with Reed-Solomon. docs/USE.md has both, for eight choices of sizes.");
    puts("</svg>");
}

int main(int argc, char **argv) {
    area = calloc(1, MOST_AREA);
    file = calloc(1, MOST_FILE);
    out = calloc(1, MOST_FILE);
    if (area == NULL || file == NULL || out == NULL) return 1;
    int known = 1;
    if (argc == 2 && strcmp(argv[1], "sizes") == 0) sizes_table();
    else if (argc == 2 && strcmp(argv[1], "cut") == 0) cut_table();
    else if (argc == 2 && strcmp(argv[1], "altered") == 0) altered_table();
    else if (argc == 2 && strcmp(argv[1], "boards") == 0) boards();
    else if (argc == 2 && strcmp(argv[1], "bus") == 0) bus();
    else known = 0;
    if (!known) fputs("usage: figures sizes | cut | altered | boards | bus\n", stderr);
    free(out);
    free(file);
    free(area);
    return known ? (fflush(stdout) == 0 ? 0 : 1) : 2;
}

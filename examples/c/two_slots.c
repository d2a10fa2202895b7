/*
 * two_slots.c: a stock file that is kept through power failures. A program to take and to alter: sizes and capacity stand at the top.
 *
 * A write, an edit or a move changes boards in service one after another; where power cuts one, a read may give a file that nobody wrote. So the store
 * has two slots, each with a record and an area, and a turn that says which is the newer. A change is made in memory and goes to the slot that is not
 * current: first its boards, and when these are on the medium, its head with the record and the turn. Until the head is whole the other slot is
 * current, and it was not touched. So whenever power fails, the store has the file from before the change or the one from behind it.
 *
 * The head has a check of itself, since a head may be cut too, and a check of each board in service. A board whose bytes are not those that were kept,
 * or that cannot be read, is taken out of service when the store is loaded, and said. The boards have no part in the head's own check: else one worn byte
 * would make the slot void, and an old file would be read in the place of the last one.
 *
 * The medium here is one file. On a robot each board keeps its part of both areas, and the heads stand where the robot keeps its record. It is asked of
 * the medium that what is written before an fsync is there when that has come back, and that a write alters no block of 4,096 bytes but those written to.
 * Where an fsync fails, copy the file away and use another medium: the system may show bytes that are not on this one.
 *
 * Nothing of this program is proved. tests/two_slots.sh cuts it, with room for four stripes, at every byte that it writes, and after each cut reads the
 * file.
 *
 *   two_slots STORE new FILE [first]     a new store with this file; 'first': at the points of the first series
 *   two_slots STORE read                 the file, on standard output
 *   two_slots STORE write FILE           another file
 *   two_slots STORE edit OFFSET TEXT     these bytes in the place of those from the offset on
 *   two_slots STORE lose BOARD           takes a board out of service
 *   two_slots STORE repair               rebuilds the boards that are out of service, at most R of them
 *   two_slots STORE anew                 writes the file anew to all boards: where lost ones were changed and too few are left for a repair
 *   two_slots STORE check                a careful read: names a board in service that is wrong
 *   two_slots STORE carry                carries a robot of the first series to the present points; after a power failure, again
 *
 * The exit code is 0, 1 (refused, or something cannot be read or written) or 2 (the command line makes no sense).
 *
 * Build, from the top folder:  cc -std=c99 -O2 -Iinclude examples/c/two_slots.c target/staticlib/libzebrankai.a -o two_slots
 */
#define _POSIX_C_SOURCE 200809L
#include "zebrankai_util.h"

#include <errno.h>
#include <fcntl.h>
#include <stdio.h>
#include <stdlib.h>
#include <string.h>
#include <unistd.h>

/* boards, boards that give the file back, helpers of each fresh board, the most boards rebuilt together; stripes that each board has room for */
enum { N = 8, K = 4, D = 6, R = 2, CAPACITY = 64 };

/* the bytes of all boards and of one, and of the longest file */
enum { AREA = ZBK_AREA_LEN(N, K, D, R, CAPACITY), BOARD = AREA / N, LONGEST = ZBK_LONGEST(N, K, D, R, CAPACITY) };

/* A slot: a block with the head, then the area. No two parts share a block, so that a block that is torn tears no other part. */
enum { SLOTS = 2, BLOCK = 4096, SLOT = BLOCK + (AREA + BLOCK - 1) / BLOCK * BLOCK };

/* The head, by place: eight letters, the turn, the record, a check of each board, and a check of all that. Numbers have the lowest byte first. */
enum { AT_TURN = 8, AT_RECORD = 16, AT_BOARDS = AT_RECORD + ZBK_RECORD_BYTES, AT_CHECK = AT_BOARDS + 8 * ZBK_MAX_BOARDS, HEAD = AT_CHECK + 8 };
static const char letters[] = "zbk slot";

/* The store in memory, as the current slot has it. No repair runs from one command to the next: the repair record is idle, as after a power failure. */
struct store {
    int fd;
    uint64_t turn, record[ZBK_RECORD_WORDS], repair[ZBK_REPAIR_WORDS];
    uint8_t area[AREA];
};
#define RECORDS(s) (s)->record, ZBK_RECORD_WORDS, (s)->repair, ZBK_REPAIR_WORDS

static int said(const char *what, const char *why) {
    fprintf(stderr, "two_slots: %s: %s\n", what, why);
    return 0;
}

/* 1 where a call was accepted; else says why it was not. */
static int accepted(const char *call, uint64_t answer) {
    const unsigned number = zbk_refusal(answer);
    if (number == ZBK_ACCEPTED) return 1;
    fprintf(stderr, "two_slots: %s: refused, %s (%u). %s\n", call, zbk_refusal_name(number), number, zbk_refusal_text(number));
    return 0;
}

/* ---- the medium */

/* All bytes, at this place; 1 where they were read or written. */
static int get(int fd, uint8_t *bytes, size_t count, size_t place) {
    while (count > 0) {
        const ssize_t done = pread(fd, bytes, count, (off_t)place);
        if (done < 0 && errno == EINTR) continue;
        if (done <= 0) return 0;
        bytes += done, count -= (size_t)done, place += (size_t)done;
    }
    return 1;
}

static int put(int fd, const uint8_t *bytes, size_t count, size_t place) {
    while (count > 0) {
        const ssize_t done = pwrite(fd, bytes, count, (off_t)place);
        if (done < 0 && errno == EINTR) continue;
        if (done <= 0) return 0;
        bytes += done, count -= (size_t)done, place += (size_t)done;
    }
    return 1;
}

/* A check of 64 bits (CRC-64, the polynomial of ECMA-182): a part that was cut or altered passes once in 2^64 cases. */
static uint64_t check(const uint8_t *bytes, size_t count) {
    uint64_t c = ~(uint64_t)0;
    for (size_t i = 0; i < count; i++) {
        c ^= (uint64_t)bytes[i] << 56;
        for (int bit = 0; bit < 8; bit++) c = (c << 1) ^ ((c >> 63) * 0x42F0E1EBA9EA3693u);
    }
    return c;
}

static uint64_t number_at(const uint8_t *bytes) {
    uint64_t number;
    zbk_words_from_bytes(&number, 1, bytes);
    return number;
}

/* The turn of a head; 0 where it is not whole. */
static uint64_t turn_of(const uint8_t head[HEAD]) {
    uint64_t record[ZBK_RECORD_WORDS];
    if (memcmp(head, letters, 8) != 0 || check(head, AT_CHECK) != number_at(head + AT_CHECK)) return 0;
    /* a head of another program, with other sizes */
    if (zbk_record_from_bytes(record, head + AT_RECORD) != ZBK_ACCEPTED || zbk_record_area_len(record) != AREA || record[ZBK_WORD_N] != N) return 0;
    return number_at(head + AT_TURN);
}

/* Takes the current slot into memory: that of the highest turn whose head is whole. */
static int load(struct store *s) {
    uint8_t heads[SLOTS][HEAD];
    size_t current = 0;
    /* A program that was stopped may have left a turn that is not on the medium yet. It is there before anyone goes by it. */
    if (fsync(s->fd) != 0) return said("the store cannot be synced", strerror(errno));
    s->turn = 0;
    for (size_t slot = 0; slot < SLOTS; slot++) {
        /* a head that cannot be read may be the newer one: an old file is not taken for the last */
        if (!get(s->fd, heads[slot], HEAD, slot * SLOT)) return said("the store", "a head cannot be read");
        const uint64_t turn = turn_of(heads[slot]);
        if (turn == 0 && number_at(heads[slot]) != 0) said("a head is not whole", "the last change was cut off, or the head was altered since");
        if (turn > s->turn) s->turn = turn, current = slot;
    }
    if (s->turn == 0) return said("no slot has a head that is whole", "this is no store of these sizes, or it was altered");
    memset(s->repair, 0, sizeof s->repair);
    zbk_record_from_bytes(s->record, heads[current] + AT_RECORD);
    for (size_t board = 0; board < N; board++) {
        uint8_t *bytes = s->area + board * BOARD;
        const int there = get(s->fd, bytes, BOARD, current * SLOT + BLOCK + board * BOARD);
        if (!zbk_in_service(s->record, board)) continue;
        if (there && check(bytes, BOARD) == number_at(heads[current] + AT_BOARDS + 8 * board)) continue;
        fprintf(stderr, "two_slots: board %zu %s; it is taken out of service: repair\n", board, there ? "is not as it was kept" : "cannot be read");
        if (!accepted("lose", zbk_lose(RECORDS(s), board))) return 0;
    }
    return 1;
}

/* Keeps what is in memory: the other slot's boards, and when they are on the medium its head. Where it gives 0 before the head is written, the store has
 * what it had; where the head may have been written and is not known to be on the medium, it has that or this, and the next load says which. */
static int save(struct store *s) {
    const uint64_t turn = s->turn + 1;
    const size_t place = turn % SLOTS * SLOT;
    uint8_t head[HEAD] = {0};
    memcpy(head, letters, 8);
    zbk_words_to_bytes(&turn, 1, head + AT_TURN);
    zbk_record_to_bytes(s->record, head + AT_RECORD);
    for (size_t board = 0; board < N; board++) {
        uint8_t *bytes = s->area + board * BOARD;
        const uint64_t sum = check(bytes, BOARD);
        if (!zbk_in_service(s->record, board)) continue;
        zbk_words_to_bytes(&sum, 1, head + AT_BOARDS + 8 * board);
        if (!put(s->fd, bytes, BOARD, place + BLOCK + board * BOARD)) return said("a board cannot be written", strerror(errno));
    }
    const uint64_t sum = check(head, AT_CHECK);
    zbk_words_to_bytes(&sum, 1, head + AT_CHECK);
    if (fsync(s->fd) != 0) return said("the boards cannot be synced", strerror(errno));
    if (!put(s->fd, head, HEAD, place)) return said("the head cannot be written", strerror(errno));
    if (fsync(s->fd) != 0) return said("the head cannot be synced", strerror(errno));
    s->turn = turn;
    return 1;
}

/* One program at a time: waits for the others. The lock goes when the file is closed, also by a program that was stopped. */
static int lock(int fd) {
    struct flock whole = {0};
    whole.l_type = F_WRLCK;
    whole.l_whence = SEEK_SET;
    while (fcntl(fd, F_SETLKW, &whole) != 0)
        if (errno != EINTR) return said("the store cannot be locked", strerror(errno));
    return 1;
}

/* ---- the commands: each changes the store in memory, and keeps it */

/* A new store is made under another name, and has its own name when all of it is on the medium. */
static int make(struct store *s, const char *name, const uint8_t *file, size_t length, int first) {
    static const uint8_t zeros[SLOTS * SLOT];
    uint8_t points[ZBK_MAX_BOARDS];
    char other[1024], folder[1024];
    if (strlen(name) + 5 > sizeof other) return said(name, "the name is too long");
    sprintf(other, "%s.new", name);
    strcpy(folder, name);
    if (strrchr(folder, '/') != NULL) strrchr(folder, '/')[1] = 0;
    else strcpy(folder, ".");

    if (first) zbk_first_series_points(points, N);
    else zbk_standard_points(points, N);
    memset(s, 0, sizeof *s);
    if (!accepted("set up", zbk_set_up(RECORDS(s), N, K, D, R, points, sizeof points, CAPACITY))) return 0;
    if (!accepted("write", zbk_write(RECORDS(s), s->area, AREA, file, length))) return 0;

    if (access(name, F_OK) == 0) return said(name, "it is there already");
    s->fd = open(other, O_RDWR | O_CREAT | O_TRUNC, 0644);
    if (s->fd < 0) return said(other, strerror(errno));
    /* all bytes are written once, so that no later save lacks room */
    int kept = put(s->fd, zeros, sizeof zeros, 0) || said(other, strerror(errno));
    kept = kept && save(s);
    kept = close(s->fd) == 0 && kept;
    if (!kept) return 0;
    if (rename(other, name) != 0) return said(name, strerror(errno));
    const int above = open(folder, O_RDONLY);
    if (above < 0 || fsync(above) != 0) kept = said(folder, strerror(errno));
    if (above >= 0) close(above);
    return kept;
}

static int read_file(struct store *s, uint8_t *out) {
    size_t boards[ZBK_MAX_BOARDS];
    const size_t count = zbk_choose_read(s->record, boards);
    if (count == 0) return said("read", "fewer than k boards are in service");
    return accepted("read", zbk_read(RECORDS(s), s->area, AREA, boards, count, out, zbk_record_length(s->record)));
}

/* A write puts all n boards into service, those too that cannot keep their bytes: these are lost again before the record is kept. */
static int write_file(struct store *s, const uint8_t *file, size_t length) {
    uint64_t before[ZBK_RECORD_WORDS];
    memcpy(before, s->record, sizeof before);
    if (!accepted("write", zbk_write(RECORDS(s), s->area, AREA, file, length))) return 0;
    for (size_t board = 0; board < N; board++)
        if (!zbk_in_service(before, board) && !accepted("lose", zbk_lose(RECORDS(s), board))) return 0;
    return save(s);
}

static int edit(struct store *s, size_t offset, const uint8_t *bytes, size_t count) {
    size_t boards[ZBK_MAX_BOARDS];
    const size_t named = zbk_choose_read(s->record, boards);
    if (named == 0) return said("edit", "fewer than k boards are in service");
    return accepted("edit", zbk_edit(RECORDS(s), s->area, AREA, offset, bytes, count, boards, named)) && save(s);
}

static int lose(struct store *s, size_t board) { return accepted("lose", zbk_lose(RECORDS(s), board)) && save(s); }

static int repair(struct store *s) {
    struct zbk_lists lists;
    if (zbk_count_in_service(s->record) == N) return 1;
    return accepted("repair", zbk_choose_lost(s->record, &lists)) &&
           accepted("repair", zbk_repair(RECORDS(s), s->area, AREA, lists.fresh, lists.fresh_count, lists.helpers, lists.helpers_count,
                                         lists.stand_ins, lists.stand_ins_count)) &&
           save(s);
}

/* All boards are there again, and the file is written anew to all of them. */
static int anew(struct store *s, uint8_t *out) {
    return read_file(s, out) && accepted("write", zbk_write(RECORDS(s), s->area, AREA, out, zbk_record_length(s->record))) && save(s);
}

/* Gives whether all is well; a board that is odd is said, and not lost: that is for whoever can look at it. */
static int check_boards(struct store *s, uint8_t *out) {
    size_t boards[ZBK_MAX_BOARDS];
    const size_t count = zbk_choose_careful(s->record, boards);
    if (count == 0) return said("check", "fewer than k + 2 boards are in service");
    const uint64_t answer = zbk_read_careful(RECORDS(s), s->area, AREA, boards, count, out, zbk_record_length(s->record));
    if (!accepted("check", answer)) return 0;
    if (zbk_value(answer) == 0) return 1;
    fprintf(stderr, "two_slots: board %u is odd: lose it, and repair\n", (unsigned)zbk_value(answer) - 1);
    return 0;
}

/* Each move is kept before the next: whenever power fails, the record has the points at which the boards stand, and the next time it goes on there. */
static int carry(struct store *s) {
    for (size_t board = 0; board < N; board++) {
        size_t others[D + R - 1];
        if (zbk_record_point(s->record, board) == board) continue;
        for (size_t i = 0; i < D + R - 1; i++) others[i] = (board + i + 1) % N;
        if (!accepted("move", zbk_move(RECORDS(s), s->area, AREA, board, (uint8_t)board, others, D, others + D, R - 1))) return 0;
        if (!save(s)) return 0;
    }
    return 1;
}

/* ---- the command line */

/* A file for new and write; gives its length, or LONGEST + 1 where it cannot be read or is too long, which is said. */
static size_t take(const char *name, uint8_t file[LONGEST + 1]) {
    FILE *from = fopen(name, "rb");
    if (from == NULL) return said(name, strerror(errno)), LONGEST + 1;
    const size_t length = fread(file, 1, LONGEST + 1, from);
    const int bad = ferror(from);
    fclose(from);
    if (bad) return said(name, "it cannot be read"), LONGEST + 1;
    if (length > LONGEST) said(name, "it is longer than the store takes");
    return length;
}

/* A number from 0 up in decimal digits; 0 and nothing else where it is none. */
static int number(const char *word, size_t *value) {
    char *end;
    errno = 0;
    *value = strtoul(word, &end, 10);
    return word[0] >= '0' && word[0] <= '9' && *end == 0 && errno == 0;
}

int main(int argc, char **argv) {
    static struct store s;
    static uint8_t file[LONGEST + 1];
    const char *name = argc > 1 ? argv[1] : "", *command = argc > 2 ? argv[2] : "";
    const int words = argc - 3;
    size_t value = 0, length = 0;
    int done = 0;

    const int making = strcmp(command, "new") == 0 && (words == 1 || (words == 2 && strcmp(argv[4], "first") == 0));
    const int writing = strcmp(command, "write") == 0 && words == 1;
    const int editing = strcmp(command, "edit") == 0 && words == 2 && number(argv[3], &value);
    const int losing = strcmp(command, "lose") == 0 && words == 1 && number(argv[3], &value);
    const int bare = words == 0 && (strcmp(command, "read") == 0 || strcmp(command, "repair") == 0 || strcmp(command, "anew") == 0 ||
                                    strcmp(command, "check") == 0 || strcmp(command, "carry") == 0);
    if (!making && !writing && !editing && !losing && !bare) {
        fputs("usage: two_slots STORE new FILE [first] | read | write FILE | edit OFFSET TEXT\n"
              "                       | lose BOARD | repair | anew | check | carry\n",
              stderr);
        return 2;
    }
    if ((making || writing) && (length = take(argv[3], file)) > LONGEST) return 1;
    if (making) return make(&s, name, file, length, words == 2) ? 0 : 1;

    s.fd = open(name, O_RDWR);
    if (s.fd < 0) return said(name, strerror(errno)), 1;
    if (lock(s.fd) && load(&s)) {
        if (writing) done = write_file(&s, file, length);
        else if (editing) done = edit(&s, value, (const uint8_t *)argv[4], strlen(argv[4]));
        else if (losing) done = lose(&s, value);
        else if (strcmp(command, "repair") == 0) done = repair(&s);
        else if (strcmp(command, "anew") == 0) done = anew(&s, file);
        else if (strcmp(command, "check") == 0) done = check_boards(&s, file);
        else if (strcmp(command, "carry") == 0) done = carry(&s);
        else if (read_file(&s, file)) {
            length = zbk_record_length(s.record);
            done = (fwrite(file, 1, length, stdout) == length && fflush(stdout) == 0) || said("standard output", strerror(errno));
        }
    }
    close(s.fd);
    return done ? 0 : 1;
}

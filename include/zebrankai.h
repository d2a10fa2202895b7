/*
 * zebrankai.h: the calls of the archive libzebrankai.a for C and C++.
 *
 * A stock store for picking robots: a file is spread over n shelf boards so that any k of them give it back, and up to r fresh boards are rebuilt
 * together, each from d helpers, the other fresh boards, and stand-ins for as many as there are less than r (arXiv 1207.0879, section IV).
 *
 * Sizes:   n boards, numbered 0 to n - 1; k read; d helpers; at most r fresh boards. Legal: 1 <= k <= d, r >= 1, d + r <= n <= 32.
 * Points:  a byte for each board, at which its share is worked out. A list of points has 32 bytes: the first n are the boards', all different,
 *          the rest 00. Board i has the point i on present robots (zbk_standard_points), i + 1 on robots of the first series
 *          (zbk_first_series_points). All boards of a file have shares at the same points. A store's points change by zbk_move alone; a
 *          board-level call on bytes of a store is given the points that its record has at the time (from ZBK_WORD_POINTS on).
 * Share:   2d + r - 1 bytes for each stripe.          Stripe: carries k(2d + r - k) bytes of the file.
 * Stripes: S, the least number of stripes that hold the file's length.
 *
 * What every call keeps to:
 * - It ends on all input, made-up records and lists included, with its result or with one refusal.
 * - It answers one number. zbk_refusal(answer) is 0 where the call was accepted, else the refusal's number. zbk_value(answer) is what an
 *   accepted call reports: the bytes written by a board-level call, the bytes of a text that make sense by zbk_text_prefix, the bytes moved by a
 *   repair or a move, the packets carried by a step, the odd board's number plus 1 by a careful read, else 0.
 *   zbk_trial_file alone answers no such number: it refuses nothing, and gives a state.
 * - After a refusal no word of a record and no byte of any buffer has changed.
 * - It keeps nothing between calls and allocates nothing.
 *
 * What the caller owes: a pointer is followed by the number of its elements, and points to that many, aligned as their type asks; it is not
 * NULL, also where that number is 0; and what a call may change (record, repair, area, packets, out; head and points of zbk_read_text) does not
 * overlap anything else that the call is lent, and no other thread uses it meanwhile. Both records must be writable in every call that takes them, a
 * read and a refusal included: such a call may write words again as they are. A call takes less than 64 kB of stack, but zbk_read_careful
 * less than 84 kB, as measured; where the C library's functions are bound late, the dynamic linker takes 3 kB more in the first call. size_t has
 * 64 bits.
 *
 * Lists of shares and packets are one buffer each, the pieces one after another in the order of their list of boards.
 */
#ifndef ZEBRANKAI_H
#define ZEBRANKAI_H

#include <stddef.h>
#include <stdint.h>

#if SIZE_MAX != UINT64_MAX
#error "the archive is for machines where size_t has 64 bits"
#endif

#ifdef __cplusplus
extern "C" {
#endif

/* Limits of the sizes, and the words of a record, of the record of a started repair and of a text's head. */
enum {
    ZBK_MAX_BOARDS = 32,
    ZBK_MAX_STRIPES = 4096,
    ZBK_RECORD_WORDS = 12,
    ZBK_REPAIR_WORDS = 71,
    ZBK_HEAD_WORDS = 6
};

/* The bytes of the packet area of a started repair of t fresh boards, of a file of so many stripes. */
#define ZBK_PACKETS_LEN(stripes, t, d, r) ((size_t)(stripes) * (size_t)(t) * (2 * (size_t)(d) + (size_t)(r) - 1))

/* Why a call was refused, a line for each refusal: its number, its name, and what it means. Where several hold, the first is given: of the store in
 * the order 1, 2, 3, 8, 16, 17, 15, 4, 5, 6, 14, 9, 7, 10, at board level in the order 12, 1, 3, 13, 4, 5, 6, 2, 7, 10. 11 is not used: no call
 * answers it. The constants ZBK_SIZE to ZBK_IDLE are made of this list, and a program can make a table of its own of it: ZBK_REFUSALS(LINE), where
 * LINE(number, name, sentence) is defined as {number, #name, sentence}, with a comma behind it. */
#define ZBK_REFUSALS(X)                                                                                                                 \
    /* A record of another number of words than 12, a repair record of another than 71, a text's head of another than 6 and a list of   \
       points of another length than 32 are refused with it before all else, and so is, but in zbk_set_up, a repair record with a first \
       word above 1. */                                                                                                                 \
    X(1, SIZE, "The sizes are not legal, the capacity is not 1 to 4,096 stripes, the record is one that no call hands out, the points " \
               "repeat, or one from n up is not 00; or a repair is running by a repair record that no call hands out beside this "      \
               "record.")                                                                                                               \
    X(2, AREA, "The area, the packet area of a repair that is running, or a slice of shares or packets, has another length than the "   \
               "sizes give.")                                                                                                           \
    X(3, LONG, "The file is longer than the store's capacity, or than 4,096 stripes at board level.")                                   \
    X(4, COUNT, "A list has the wrong number of boards, not k + 2 of them for a careful read, or k + 2 is above n; there are not 1 to " \
                "r fresh boards; or the texts to gather are not k.")                                                                    \
    X(5, NODE, "A board number is n or more.")                                                                                          \
    X(6, REPEAT, "A board is named twice where each must be another one, two texts to gather are of one board, or the new point of a "  \
                 "move is some board's.")                                                                                               \
    X(7, SHORT, "The output is shorter than what is to be written.")                                                                    \
    X(8, EMPTY, "A repair, a read, a careful read, an edit, a start, a step or a move before any file was written.")                    \
    X(9, DOWN, "A board to read from, a helper or a stand-in is out of service, or any board, for a move.")                             \
    /* No guard against altered bytes: k boards show that they fit together, not that none is altered, and often another file has them  \
       (zbk_read says what k, k + 1 and k + 2 boards show). */                                                                          \
    X(10, DISAGREE, "No file of this length has these shares; of a careful read, none has all of them but one.")                        \
    X(12, TEXT, "The text is none that zbk_share_text writes.")                                                                         \
    X(13, MIXED, "The texts differ in sizes, points or length.")                                                                        \
    X(14, SERVING, "A fresh board is in service.")                                                                                      \
    X(15, RANGE, "The edit goes beyond the end of the file.")                                                                           \
    X(16, BUSY, "A repair is running.")                                                                                                 \
    X(17, IDLE, "No repair is running.")
enum zbk_refusal_number {
#define ZBK_REFUSAL_NUMBER(number, name, sentence) ZBK_##name = number,
    ZBK_REFUSALS(ZBK_REFUSAL_NUMBER)
#undef ZBK_REFUSAL_NUMBER
    /* The call was accepted. */
    ZBK_ACCEPTED = 0
};

/* The words of a record, by place. Keep them together with the area; change them only by the calls. A record of eight words, as calls without
 * points handed it out, is refused with ZBK_SIZE; with the words of the standard points behind it, it goes on: in word 8 + q, byte m, the lowest
 * being byte 0, is 8q + m where that is below n, else 00. */
enum zbk_record_word {
    ZBK_WORD_N = 0,
    ZBK_WORD_K = 1,
    ZBK_WORD_D = 2,
    ZBK_WORD_R = 3,
    /* stripes that each board has room for */
    ZBK_WORD_CAPACITY = 4,
    /* 1 where a file was written, else 0 */
    ZBK_WORD_WRITTEN = 5,
    /* the length of that file */
    ZBK_WORD_LENGTH = 6,
    /* bit i is set where board i is in service */
    ZBK_WORD_MARKS = 7,
    /* four words, 8 to 11: word 8 + q has the points of boards 8q to 8q + 7, the lowest byte first */
    ZBK_WORD_POINTS = 8
};

/* The words of the record of a started repair, by place. Where the first is 0 no repair is running, and what the others are does not matter: such a
 * record goes through every call as it came, but a set-up and a start that are accepted. The lists are bytes, a board number each, eight in a word, the lowest first; a start
 * writes 00 behind them. A set-up that is accepted, the last step and the loss of a board that the repair names write 71 words 0. */
enum zbk_repair_word {
    /* 1 where a repair is running, else 0 */
    ZBK_REPAIR_RUNNING = 0,
    /* t, how many boards are fresh */
    ZBK_REPAIR_COUNT = 1,
    /* the packets carried so far, 0 to t * (d + r - 1) - 1 */
    ZBK_REPAIR_CARRIED = 2,
    /* four words, 3 to 6: the t fresh boards */
    ZBK_REPAIR_FRESH = 3,
    /* 32 words, 7 to 38: their t * d helpers */
    ZBK_REPAIR_HELPERS = 7,
    /* 32 words, 39 to 70: their t * (r - t) stand-ins */
    ZBK_REPAIR_STAND_INS = 39
};

/* The words of a text's head, by place: its sizes, its board, and the length of the file. */
enum zbk_head_word {
    ZBK_HEAD_N = 0,
    ZBK_HEAD_K = 1,
    ZBK_HEAD_D = 2,
    ZBK_HEAD_R = 3,
    ZBK_HEAD_NODE = 4,
    ZBK_HEAD_LENGTH = 5
};

/* The refusal's number in an answer: 0 where the call was accepted. */
static inline unsigned zbk_refusal(uint64_t answer) { return (unsigned)(answer & 255); }

/* What an accepted call reports. */
static inline uint64_t zbk_value(uint64_t answer) { return answer >> 8; }

/* The points of present robots: i for board i, 00 from n up. An n above 32 is taken as 32. */
static inline void zbk_standard_points(uint8_t points[ZBK_MAX_BOARDS], size_t n) {
    for (size_t i = 0; i < ZBK_MAX_BOARDS; i++) points[i] = (uint8_t)(i < n ? i : 0);
}

/* The points of robots of the first series: i + 1 for board i, 00 from n up. An n above 32 is taken as 32. */
static inline void zbk_first_series_points(uint8_t points[ZBK_MAX_BOARDS], size_t n) {
    for (size_t i = 0; i < ZBK_MAX_BOARDS; i++) points[i] = (uint8_t)(i < n ? i + 1 : 0);
}

/* Board level: these calls keep no record, and are given the points with the sizes, or a text that says them. `length` is the file's length. Each
 * but zbk_text_prefix, which writes nothing, writes to the first bytes of out and reports how many; the rest of out stays. */

/* The share of board `node` of a file: S(2d + r - 1) bytes. */
uint64_t zbk_share(size_t n, size_t k, size_t d, size_t r, const uint8_t *points, size_t points_len, size_t node, const uint8_t *file,
                   size_t file_len, uint8_t *out, size_t out_len);

/* The file of `length` bytes that k boards' shares give; refused where no file of that length has them. */
uint64_t zbk_file(size_t n, size_t k, size_t d, size_t r, const uint8_t *points, size_t points_len, size_t length, const size_t *boards,
                  size_t boards_count, const uint8_t *shares, size_t shares_len, uint8_t *out, size_t out_len);

/* What `helper` sends to the fresh board `receiver`, from its own share: 2S bytes. */
uint64_t zbk_helper_packet(size_t n, size_t k, size_t d, size_t r, const uint8_t *points, size_t points_len, size_t length, size_t helper,
                           size_t receiver, const uint8_t *share, size_t share_len, uint8_t *out, size_t out_len);

/* What the fresh board `board` sends to the fresh board `receiver`, from the packets of its d helpers: S bytes. */
uint64_t zbk_exchange_packet(size_t n, size_t k, size_t d, size_t r, const uint8_t *points, size_t points_len, size_t length, size_t board,
                             const size_t *helpers, size_t helpers_count, const uint8_t *packets, size_t packets_len, size_t receiver,
                             uint8_t *out, size_t out_len);

/* The share of the fresh board `board`, from the packets of its d helpers and of its r - 1 partners: S(2d + r - 1) bytes. A partner is another
 * fresh board, which sends its exchange packet, or a stand-in, which sends the second byte of each pair of its helper packet: S bytes both. */
uint64_t zbk_finished_share(size_t n, size_t k, size_t d, size_t r, const uint8_t *points, size_t points_len, size_t length, size_t board,
                            const size_t *helpers, size_t helpers_count, const uint8_t *packets, size_t packets_len,
                            const size_t *partners, size_t partners_count, const uint8_t *partner_packets, size_t partner_packets_len,
                            uint8_t *out, size_t out_len);

/* A share as text: seven lines, the sizes, the board, the length and the share in hexadecimal, and before the share a line with the points of
 * the n boards where they are not 0 to n - 1 in order: two bytes for each byte of the share and at most 200 more. Of a board in a store give the points
 * that the record has at the time: a move changes them. */
uint64_t zbk_share_text(size_t n, size_t k, size_t d, size_t r, const uint8_t *points, size_t points_len, size_t length, size_t node,
                        const uint8_t *share, size_t share_len, uint8_t *out, size_t out_len);

/* Reads one text of zbk_share_text: the six words of its head, its 32 points, whether a line has them or not, and its share, S(2d + r - 1) bytes, to
 * the first bytes of out; half as many bytes as the text are always enough. Only the bytes that zbk_share_text can write are a text, all of them
 * and nothing behind. Refused with ZBK_SIZE where the head has not 6 words or the points not 32 bytes, then with ZBK_TEXT, then with ZBK_SHORT;
 * head, points and out are then as they were. */
uint64_t zbk_read_text(const uint8_t *text, size_t text_len, uint64_t *head, size_t head_words, uint8_t *points, size_t points_len,
                       uint8_t *out, size_t out_len);

/* The file of k texts that stand one after another in one buffer, in any order, with nothing between or behind them, to the first bytes of out;
 * reports its length. Half as many bytes as the texts are always enough. Refused in the order 12, 13, 4, 6, 7, 10: ZBK_TEXT is asked of all bytes
 * before ZBK_MIXED of any text, and that before ZBK_COUNT; no text at all is ZBK_COUNT. */
uint64_t zbk_gather(const uint8_t *text, size_t text_len, uint8_t *out, size_t out_len);

/* How far a text makes sense: reports the length of its longest beginning that also begins some text of zbk_share_text, with a line of points or
 * without. The byte behind that beginning, if there is one, is the first that no such text has there. Refuses nothing: a text that zbk_read_text takes reports its
 * whole length, and so does one that is merely cut short; no bytes report 0. */
uint64_t zbk_text_prefix(const uint8_t *text, size_t text_len);

/* The store: a record of twelve words, beside it the record of a started repair, of 71, and an area of n * capacity * (2d + r - 1) bytes that
 * holds the boards one after another. Each call is given both records and the area as the last call left them.
 *
 * Power. What a robot keeps through a power failure is the record and the area; the repair's record and the packet area are what it may lose. Behind a
 * failure the calls are given the record and the area as they stand, and an idle repair record: any 71 words of which the first is 0. This is a must:
 * no call can tell that packets in the packet area were lost or altered, or that a running record is an old one whose boards happen to fit; the last
 * step would then put wrong shares into service.
 * - Between two packets, and inside a step that has not carried the last packet of all, the record is that before the start but for the boards lost
 *   since, boards in service hold what they held, and any k of them give the file. The repair is started anew, from its first packet.
 * - Inside the step that carries the last packet, and inside zbk_repair, only bytes of fresh boards change in the area, and these are out of service by
 *   the record that was kept before the call (what a call does before it comes back is how it is made, and not among what is proved). So lend the
 *   calls a copy of the record, and keep the new one once the call has come back; a set-up, too.
 * - A write, an edit or a move changes boards in service. Where power cuts one, some boards are changed and others not, and no call is promised anything of such
 *   an area: a read may give a file that nobody wrote. Keep a second record and area, and use the two in turn. */

/* A new store with no file: where it is accepted all twelve words and all 71 are written, and what they were before does not matter. The record keeps
 * the points; the other calls take them from it, and zbk_move alone changes one. No repair is running then. */
uint64_t zbk_set_up(uint64_t *record, size_t record_words, uint64_t *repair, size_t repair_words, size_t n, size_t k, size_t d, size_t r,
                    const uint8_t *points, size_t points_len, size_t capacity);

/* Writes a file: every board gets its share and comes into service. */
uint64_t zbk_write(uint64_t *record, size_t record_words, uint64_t *repair, size_t repair_words, uint8_t *area, size_t area_len,
                   const uint8_t *file, size_t file_len);

/* Takes a board out of service. Where a repair is running that names the board, fresh, helper or stand-in, that repair has ended, and its fresh boards
 * stay out of service; the loss of another board does not touch it. */
uint64_t zbk_lose(uint64_t *record, size_t record_words, uint64_t *repair, size_t repair_words, size_t board);

/* Rebuilds t fresh boards together, 1 to r of them, each out of service; t is fresh_count. `helpers` has t * d numbers: the d helpers of the first
 * fresh board, then those of the second, and so on. `stand_ins` has t * (r - t), in the same order: r - t for each fresh board, none where t is r.
 * A stand-in sends half of what a helper sends. The helpers and stand-ins of one fresh board are all different, and no fresh board is among those
 * of any; a helper of one may stand in for another. All fresh boards come into service; reports the bytes moved between boards,
 * S * t * (2d + r - 1). */
uint64_t zbk_repair(uint64_t *record, size_t record_words, uint64_t *repair, size_t repair_words, uint8_t *area, size_t area_len,
                    const size_t *fresh, size_t fresh_count, const size_t *helpers, size_t helpers_count, const size_t *stand_ins,
                    size_t stand_ins_count);

/* Reads the file from k boards into the first bytes of out; the rest of out stays. What records and area say does not change.
 *
 * What boards show of altered bytes in service. k boards show that they fit together, not that none is altered: only the values that two of them share are
 * compared, and a wrong byte on one of them often gives another file, accepted. Among k + 1 boards one that is wrong always shows: no file has the
 * shares of them all, so that two reads of k of them that leave out different boards do not both give the same file. Among k + 2 it is named, and the file is given all the same:
 * zbk_read_careful. */
uint64_t zbk_read(uint64_t *record, size_t record_words, uint64_t *repair, size_t repair_words, const uint8_t *area, size_t area_len,
                  const size_t *boards, size_t boards_count, uint8_t *out, size_t out_len);

/* Reads the file from k + 2 boards of which one may answer wrong bytes, as a worn board does that is still in service: the file of which at least k + 1
 * of them hold their shares goes to the first bytes of out; the rest of out stays. Reports 0 where all of them hold theirs; else the number of the odd
 * board, the one that does not, plus 1, so that 1 is board 0. ZBK_DISAGREE just where there is no such file; there are never two. Shares count whole, all
 * stripes and the padding of the last, so that two boards that are wrong in different stripes are not mended stripe by stripe. Which board
 * is odd is told for certain where one alone is wrong: two that are wrong may fit k - 1 others, and then another file is given, and a right board named.
 * ZBK_COUNT also where k + 2 is above n, whatever the list. What records and area say does not change: the odd board keeps its bytes and stays in service; lose it, and rebuild it. */
uint64_t zbk_read_careful(uint64_t *record, size_t record_words, uint64_t *repair, size_t repair_words, const uint8_t *area, size_t area_len,
                          const size_t *boards, size_t boards_count, uint8_t *out, size_t out_len);

/* Puts `bytes` in the place of as many bytes of the file, from byte `offset` on: the file that reads give is from then on the edited one. Its length
 * stays; ZBK_RANGE where offset and bytes_len together are more than that. The old bytes are those that the k boards in service in `boards` hold, of
 * which all stripes are looked at, as by a read. Every board in service, whether it was read or not, is changed by its share of the difference of old
 * and new bytes, and only in stripes that the edit reaches. Where the k boards in `boards` hold their shares of the file, a board that held its
 * share holds that of the edited file, and one that held wrong bytes stays wrong. Where one of the k is wrong and it does not show (see zbk_read), every
 * board is changed by a wrong difference, and no later read shows it, careful or not: read carefully first, and edit by boards that agreed. Boards out of
 * service keep their bytes. No bytes at all, at an offset up to the file's length, are accepted and change nothing, where
 * the boards pass the same checks. What the records say does not change. */
uint64_t zbk_edit(uint64_t *record, size_t record_words, uint64_t *repair, size_t repair_words, uint8_t *area, size_t area_len, size_t offset,
                  const uint8_t *bytes, size_t bytes_len, const size_t *boards, size_t boards_count);

/* Repair a packet at a time, while the bus is shared. A start takes the lists of zbk_repair, refuses what that refuses, and carries nothing; steps
 * carry the packets, t * (d + r - 1) in all, as many in each as the caller allows. Until the last one the fresh boards are out of service and no step
 * changes the record or the area. Reads go on meanwhile, careful ones too, and losses; a write, an edit, a repair, a start and a move are ZBK_BUSY.
 * Stepped to its end, with no bytes altered of boards in service and of packets carried, it leaves what zbk_repair would leave in the place of its last step. */

/* Starts a repair: writes the repair record. The area is asked for its length alone. */
uint64_t zbk_start(uint64_t *record, size_t record_words, uint64_t *repair, size_t repair_words, const uint8_t *area, size_t area_len,
                   const size_t *fresh, size_t fresh_count, const size_t *helpers, size_t helpers_count, const size_t *stand_ins,
                   size_t stand_ins_count);

/* Carries the next packets of the repair that is running, at most `allowance`, fewer only where fewer are left, and reports how many; 0 is taken, and
 * moves nothing. `packets` is the packet area, of ZBK_PACKETS_LEN(S, t, d, r) bytes, the same in each step of a repair; what it holds at first does
 * not matter. In it the packets lie one after another: those of helpers, 2S bytes each, then those of stand-ins, then the exchanges, S bytes each;
 * in each of these by receiver, in the order of `fresh`, and then by its list of senders, which for exchanges is `fresh` without the receiver. Each packet
 * is written at its place when it is carried, and all other bytes there stay: a helper's and a stand-in's by what the board holds then, an exchange by
 * its sender's helper packets as they lie there. With the last packet each fresh board gets the share that the packets lying there make, all come
 * into service, and the repair has ended. ZBK_IDLE where none is running; the length of `packets` is not looked at then. */
uint64_t zbk_step(uint64_t *record, size_t record_words, uint64_t *repair, size_t repair_words, uint8_t *area, size_t area_len,
                  uint8_t *packets, size_t packets_len, size_t allowance);

/* Moves a board to a new point, with the robot running: reads, edits, losses and repairs go on between moves as ever. All n boards are in service and
 * stay so. The board is rebuilt at its new point as in a repair of it alone, from its d helpers and r - 1 partners, which send what stand-ins send; no
 * byte that it held is read. Every other board works out afresh, from what it holds and without the bus, the values that it keeps at the moved board's
 * point. A board that held its share of the file holds that at the new points; one that held wrong bytes, not the moved one, stays wrong, and as a helper or
 * partner it may make the moved one wrong too, as in a repair: move after careful reads that together take in every board and find none odd. A wrong board
 * that is moved by right helpers and partners is right. Only the first S stripes change. The record has the new point from then on; nothing else changes
 * in it. Reports the bytes moved between boards, S * (2d + r - 1).
 *
 * The lists are those of a repair of one board: `helpers` has d numbers, `partners` r - 1, none where r is 1; all are different, and none is the board.
 * ZBK_REPEAT also where the new point is some board's, its own included; the 00 that a record keeps from n up is no board's. ZBK_DOWN where any board is
 * out of service, named or not: after a loss, repair first. ZBK_BUSY while a repair is running.
 *
 * From the first series to the present one: moved in turn, board 0 to 0, board 1 to 1, up to board n - 1, each new point is free when its turn comes,
 * and behind the last move, if each board held its share before it, the first S stripes of the boards are what a fresh write of the file at 0 to n - 1
 * puts there. Nothing is open between two moves: behind a power failure there the points in the record tell how far the turn is. Record and area belong
 * together: a record from before a move with the area behind it is no store. Texts of shares follow the record's points: behind
 * the last move they have no line of points. A text that was printed before a move stays good with its own line of points, together with texts of the
 * same points: print all that are to be gathered between the same two moves, else they are ZBK_MIXED. */
uint64_t zbk_move(uint64_t *record, size_t record_words, uint64_t *repair, size_t repair_words, uint8_t *area, size_t area_len, size_t board,
                  uint8_t point, const size_t *helpers, size_t helpers_count, const size_t *partners, size_t partners_count);

/* The trial file: bytes to try things with. The same seed gives the same bytes on every machine, and whoever sees some of them can tell the rest. */

/* Fills all of out with the bytes that a generator emits with `seed` as its starting state, and gives the state after them. Each step replaces the
 * state by state * 1664525 + 1013904223, modulo 2^32, and emits the top eight bits of the new one. The state that it gives goes on as the seed of
 * the next call: the parts of a longer file, of any lengths, are the whole one after another. Refuses nothing, so zbk_refusal and zbk_value are not
 * for what it gives; where out has no bytes it gives the seed. */
uint32_t zbk_trial_file(uint32_t seed, uint8_t *out, size_t out_len);

#ifdef __cplusplus
}
#endif

#endif

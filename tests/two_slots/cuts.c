/*
 * cuts.c: power failures for examples/c/two_slots.c, which is part of this program, over a medium in memory.
 *
 * What two_slots.c writes goes to the system's memory; an fsync puts it on the medium. When power fails, of the bytes written since the last fsync any may
 * be on the medium and any not. Tried are, for each command and each fsync of it: the bytes up to every one, in the order in which they were written;
 * the bytes from every one on; every one alone; all but every one; blocks of 512 drawn at random; bytes drawn at random; bytes drawn at random of which
 * some are altered to others; and all bytes altered of the blocks of 4,096 that were written to. After each failure the program itself loads the store and
 * reads the file: it must be the one from before the command or the one from behind it, and behind a command that said it was done it must be the latter;
 * and the record must be one that the command kept, so that no board is out of service that was not lost. Then histories: the program is stopped or power fails,
 * drawn at random, at any byte, again and again, and each time goes on with what it found. Then reads and writes that fail, and boards that are altered.
 *
 * The exit code is 1 where a failure left anything else; the first three of them are said, and no more are tried.
 */
#define main two_slots_main
#include TWO_SLOTS
#undef main

#include <stdarg.h>

/* ---- the medium: one file, which has one of two names */

enum { FILE_LEN = 2 * SLOT, MOST = 4096 };
enum kind { WRITE, SYNC, CREATE, RENAME, SYNC_NAMES };
enum { STORE_NAME = 1, NEW_NAME = 2 };

struct event {
    enum kind kind;
    size_t place, count;
    uint8_t *bytes;
};

/* what a medium has: bytes, how many of them, and names */
struct image {
    uint8_t bytes[FILE_LEN];
    size_t length;
    int names;
};

/* what the system shows, what is on the medium, and what was done since some time */
static struct image shown, kept;
static struct event events[MOST];
static size_t event_count;
static int recording;
/* the calls left until one fails, or -1 for none */
static long until_failure = -1;
/* bytes left until the program is stopped; -1 for never */
static long until_stop = -1;
static int stopped;

static void note(enum kind kind, size_t place, size_t count, const uint8_t *bytes) {
    if (!recording) return;
    if (event_count == MOST) abort();
    struct event *e = &events[event_count++];
    e->kind = kind, e->place = place, e->count = count, e->bytes = NULL;
    if (count > 0) {
        e->bytes = malloc(count);
        if (e->bytes == NULL) abort();
        memcpy(e->bytes, bytes, count);
    }
}

static void forget(void) {
    for (size_t i = 0; i < event_count; i++) free(events[i].bytes);
    event_count = 0;
}

/* whether this call fails; a program that was stopped does nothing more */
static int fails(void) {
    if (stopped) return errno = EIO, 1;
    if (until_failure < 0) return 0;
    if (until_failure-- > 0) return 0;
    return errno = EIO, 1;
}

static int is_new(const char *name) { return strlen(name) > 4 && strcmp(name + strlen(name) - 4, ".new") == 0; }
enum { FILE_FD = 1000, FOLDER_FD = 1001 };

int __wrap_open(const char *name, int flags, ...);
int __wrap_close(int fd);
int __wrap_access(const char *name, int mode);
int __wrap_rename(const char *from, const char *to);
int __wrap_fsync(int fd);
int __wrap_fcntl(int fd, int command, ...);
ssize_t __wrap_pread(int fd, void *bytes, size_t count, off_t place);
ssize_t __wrap_pwrite(int fd, const void *bytes, size_t count, off_t place);

int __wrap_open(const char *name, int flags, ...) {
    if (fails()) return -1;
    if (strcmp(name, ".") == 0) return FOLDER_FD;
    if (is_new(name) && (flags & O_CREAT)) {
        shown.names = NEW_NAME, shown.length = 0;
        note(CREATE, 0, 0, NULL);
        return FILE_FD;
    }
    if (is_new(name) || !(shown.names & STORE_NAME)) return errno = ENOENT, -1;
    return FILE_FD;
}

int __wrap_close(int fd) { return fd == FILE_FD || fd == FOLDER_FD ? 0 : -1; }

int __wrap_access(const char *name, int mode) {
    (void)mode;
    if (!is_new(name) && (shown.names & STORE_NAME)) return 0;
    return errno = ENOENT, -1;
}

int __wrap_rename(const char *from, const char *to) {
    if (!is_new(from) || is_new(to) || shown.names != NEW_NAME) abort();
    if (fails()) return -1;
    shown.names = STORE_NAME;
    note(RENAME, 0, 0, NULL);
    return 0;
}

int __wrap_fsync(int fd) {
    if (until_stop == 0) stopped = 1;
    if (fails()) return -1;
    if (fd == FOLDER_FD) {
        kept.names = shown.names;
        note(SYNC_NAMES, 0, 0, NULL);
    } else {
        memcpy(kept.bytes, shown.bytes, sizeof kept.bytes);
        kept.length = shown.length;
        note(SYNC, 0, 0, NULL);
    }
    return 0;
}

int __wrap_fcntl(int fd, int command, ...) { return fd == FILE_FD && command == F_SETLKW ? 0 : -1; }

ssize_t __wrap_pread(int fd, void *bytes, size_t count, off_t place) {
    if (fd != FILE_FD || fails()) return -1;
    const size_t from = (size_t)place;
    if (from >= shown.length) return 0;
    if (count > shown.length - from) count = shown.length - from;
    memcpy(bytes, shown.bytes + from, count);
    return (ssize_t)count;
}

ssize_t __wrap_pwrite(int fd, const void *bytes, size_t count, off_t place) {
    const size_t from = (size_t)place;
    if (fd != FILE_FD || fails()) return -1;
    if (from + count > FILE_LEN) abort();
    /* a part of them, as a system may do; and none behind a stop */
    if (count > 300) count = 300;
    if (until_stop >= 0) {
        if ((size_t)until_stop < count) count = (size_t)until_stop, stopped = 1;
        until_stop -= (long)count;
        if (count == 0) return errno = EIO, -1;
    }
    memcpy(shown.bytes + from, bytes, count);
    if (from + count > shown.length) shown.length = from + count;
    note(WRITE, from, count, bytes);
    return (ssize_t)count;
}

/* ---- what must come of it */

/* the same numbers on every machine */
static uint32_t drawn = 1;
static uint32_t draw(uint32_t below) {
    drawn ^= drawn << 13, drawn ^= drawn >> 17, drawn ^= drawn << 5;
    return drawn % below;
}

struct text {
    uint8_t bytes[LONGEST];
    size_t length;
    int there;
};

static unsigned long failures, wrong, olds, news;
static FILE *report;
static const char *doing = "";

static void complain(const char *what, const char *how) {
    fprintf(report, "WRONG %s, %s: %s\n", doing, how, what);
    if (++wrong < 3) return;
    fprintf(report, "cuts: after %lu failures\n", failures);
    fflush(report);
    _Exit(1);
}

static int same(const struct text *a, const struct text *b) { return a->there == b->there && a->length == b->length && memcmp(a->bytes, b->bytes, a->length) == 0; }

/* What the program finds: the store loaded and the file read. Gives whether it could; a store that is not there is a text that is not. */
static uint64_t found_record[ZBK_RECORD_WORDS];
static int find(struct text *found) {
    static struct store s;
    found->there = 0, found->length = 0;
    memset(found_record, 0, sizeof found_record);
    s.fd = open("store", O_RDWR);
    if (s.fd < 0) return 1;
    const int loaded = load(&s);
    memcpy(found_record, s.record, sizeof found_record);
    if (!loaded || zbk_record_length(s.record) > LONGEST || !read_file(&s, found->bytes)) return 0;
    found->there = 1;
    found->length = zbk_record_length(s.record);
    return 1;
}

/* The records that a command keeps, one after another, with the one from before it; none are asked for where there are none. */
static uint64_t records[64][ZBK_RECORD_WORDS];
static size_t records_count;

static void keep_record(void) {
    if (records_count > 0 && memcmp(records[records_count - 1], found_record, sizeof found_record) == 0) return;
    if (records_count == 64) abort();
    memcpy(records[records_count++], found_record, sizeof found_record);
}

static int known_record(void) {
    for (size_t i = 0; i < records_count; i++)
        if (memcmp(records[i], found_record, sizeof found_record) == 0) return 1;
    return records_count == 0;
}

/* Power has failed, and the medium has what `shown` has: the file is the old one or the new one, and the record one that was kept. */
static void look(const struct text *before, const struct text *after, const char *how) {
    static struct text found;
    failures++;
    if (!find(&found)) complain("no file can be read", how);
    else if (!known_record()) complain("a record that was not kept", how);
    else if (before != NULL && same(&found, before)) olds++;
    else if (same(&found, after)) news++;
    else if (before == NULL) complain("the command was done, and the file is not the one from behind it", how);
    else complain("a file that nobody wrote", how);
}

/* ---- all failures inside a command, by what it did */

/* the writes since the last sync, in order, one byte after another */
static size_t loose_place[FILE_LEN * 4];
static uint8_t loose_byte[FILE_LEN * 4];
static size_t loose_count;

static void loosen(const struct event *e) {
    for (size_t i = 0; i < e->count; i++) {
        if (loose_count == sizeof loose_byte) abort();
        loose_place[loose_count] = e->place + i;
        loose_byte[loose_count++] = e->bytes[i];
    }
}

static void set(struct image *image, size_t which, uint8_t byte) {
    image->bytes[loose_place[which]] = byte;
    if (loose_place[which] >= image->length) image->length = loose_place[which] + 1;
}

/* from the medium, with names as they may be */
static void with(const struct image *base, int names, const struct text *before, const struct text *after, const char *how, const struct image *bytes) {
    memcpy(shown.bytes, bytes->bytes, sizeof shown.bytes);
    shown.length = bytes->length;
    shown.names = base->names;
    look(before, after, how);
    if (names != base->names) {
        memcpy(shown.bytes, bytes->bytes, sizeof shown.bytes);
        shown.length = bytes->length;
        shown.names = names;
        look(before, after, how);
    }
}

/* every choice that is tried of the loose bytes: which of them are on the medium, beside what `base` has */
static void choices(const struct image *base, int names, const struct text *before, const struct text *after) {
    static struct image now;
    /* up to every one; behind the last one nothing is missing */
    now = *base;
    for (size_t i = 0; i <= loose_count; i++) {
        with(base, names, before, after, "the bytes up to one", &now);
        if (i < loose_count) set(&now, i, loose_byte[i]);
    }
    for (size_t i = loose_count; i > 0; i--) {
        if (i == loose_count) now = *base;
        set(&now, i - 1, loose_byte[i - 1]);
        with(base, names, before, after, "the bytes from one on", &now);
    }
    for (size_t i = 0; i < loose_count; i++) {
        now = *base;
        set(&now, i, loose_byte[i]);
        with(base, names, before, after, "one byte alone", &now);
        now = *base;
        for (size_t j = 0; j < loose_count; j++)
            if (j != i) set(&now, j, loose_byte[j]);
        with(base, names, before, after, "all bytes but one", &now);
    }
    for (size_t turn = 0; turn < 300; turn++) {
        const uint32_t share = 1 + draw(99), seed = draw(1u << 30);
        now = *base;
        for (size_t j = 0; j < loose_count; j++)
            if (((loose_place[j] / 512 + 1) * 2654435761u ^ seed) % 101 < share) set(&now, j, loose_byte[j]);
        with(base, names, before, after, "some blocks", &now);
        now = *base;
        for (size_t j = 0; j < loose_count; j++)
            if (draw(100) < share) set(&now, j, loose_byte[j]);
        with(base, names, before, after, "some bytes", &now);
        now = *base;
        for (size_t j = 0; j < loose_count; j++)
            if (draw(100) < share) set(&now, j, draw(2) ? loose_byte[j] : (uint8_t)draw(256));
        with(base, names, before, after, "some bytes, and some altered", &now);
        if (turn % 10 != 0) continue;
        static uint8_t written[FILE_LEN / 4096 + 1];
        now = *base;
        memset(written, 0, sizeof written);
        for (size_t j = 0; j < loose_count; j++) written[loose_place[j] / 4096] = 1;
        for (size_t at = 0; at < now.length; at++)
            if (written[at / 4096]) now.bytes[at] = (uint8_t)draw(256);
        with(base, names, before, after, "whole blocks altered", &now);
    }
}

/* The records that stand on the medium when the command has synced, whatever it synced. */
static void learn(const struct image *start) {
    static struct image base;
    static struct text found;
    shown = *start;
    records_count = 0;
    find(&found);
    keep_record();
    base = *start;
    for (size_t e = 0; e < event_count; e++) {
        if (events[e].kind == CREATE) base.names = NEW_NAME, base.length = 0;
        if (events[e].kind == RENAME) base.names = STORE_NAME;
        if (events[e].kind == WRITE) {
            memcpy(base.bytes + events[e].place, events[e].bytes, events[e].count);
            if (events[e].place + events[e].count > base.length) base.length = events[e].place + events[e].count;
        }
        if (events[e].kind != SYNC && events[e].kind != SYNC_NAMES) continue;
        shown = base;
        find(&found);
        keep_record();
    }
}

/* Goes through what the command did, from the medium that stood before it. */
static void cut(const struct image *start, const struct text *before, const struct text *after) {
    static struct image base;
    base = *start;
    int names = base.names;
    loose_count = 0;
    for (size_t e = 0; e < event_count; e++) {
        switch (events[e].kind) {
        case WRITE: loosen(&events[e]); break;
        case CREATE: names = base.names = NEW_NAME, base.length = 0; break;
        case RENAME: names = STORE_NAME; break;
        case SYNC:
        case SYNC_NAMES:
            choices(&base, names, before, after);
            if (events[e].kind == SYNC_NAMES) {
                base.names = names;
            } else {
                for (size_t i = 0; i < loose_count; i++) set(&base, i, loose_byte[i]);
                loose_count = 0;
            }
            break;
        }
    }
    /* it has said that it is done: what it did must be there */
    choices(&base, names, NULL, after);
}

/* ---- the commands */

struct command {
    const char *words[5];
    /* the file behind it: a new one, or bytes at a place, or as before */
    int file;
    size_t offset;
    const char *text;
};

static struct text texts[3];

/* A command as a person gives it; files 1 and 2 are texts[1] and texts[2]. */
static int run(const struct command *c) {
    static struct store s;
    if (c->file > 0 && strcmp(c->words[0], "new") == 0) return make(&s, "store", texts[c->file].bytes, texts[c->file].length, c->words[1] != NULL);
    if (c->file > 0) {
        s.fd = open("store", O_RDWR);
        return s.fd >= 0 && lock(s.fd) && load(&s) && write_file(&s, texts[c->file].bytes, texts[c->file].length);
    }
    char words[5][32] = {"two_slots", "store"};
    char *argv[6] = {words[0], words[1]};
    int argc = 2;
    for (size_t i = 0; i < 5 && c->words[i] != NULL; i++) {
        snprintf(words[2 + i < 5 ? 2 + i : 4], 32, "%s", c->words[i]);
        argv[argc] = words[argc < 5 ? argc : 4];
        argc++;
    }
    argv[argc] = NULL;
    return two_slots_main(argc, argv) == 0;
}

static void behind(const struct command *c, const struct text *before, struct text *after) {
    *after = *before;
    if (c->file > 0) *after = texts[c->file];
    if (c->text != NULL) memcpy(after->bytes + c->offset, c->text, strlen(c->text));
}

static const struct command session[] = {
    {{"new", "first"}, 1, 0, NULL},      {{"edit", "5", "four"}, 0, 5, "four"}, {{"lose", "3"}, 0, 0, NULL},
    {{"edit", "70", "x"}, 0, 70, "x"},   {{"write"}, 2, 0, NULL},               {{"lose", "6"}, 0, 0, NULL},
    {{"repair"}, 0, 0, NULL},            {{"carry"}, 0, 0, NULL},               {{"edit", "0", "again"}, 0, 0, "again"},
    {{"lose", "1"}, 0, 0, NULL},         {{"anew"}, 0, 0, NULL},                {{"write"}, 1, 0, NULL},
};
enum { COMMANDS = sizeof session / sizeof session[0] };

/* Each command once, with every failure inside it. */
static void every_cut(void) {
    static struct text before, after;
    static struct image start, end;
    memset(&shown, 0, sizeof shown);
    memset(&kept, 0, sizeof kept);
    memset(&before, 0, sizeof before);
    for (size_t i = 0; i < COMMANDS; i++) {
        doing = session[i].words[0];
        behind(&session[i], &before, &after);
        start = kept;
        shown = kept;
        forget();
        recording = 1;
        const int done = run(&session[i]);
        recording = 0;
        end = shown;
        if (!done) complain("it was refused", "with no failure");
        learn(&start);
        /* all records are known by what is kept: a carry keeps one for each board, a command else one at most */
        if (records_count > (strcmp(doing, "carry") == 0 ? N + 1 : 2)) complain("more records than it should keep", "with no failure");
        cut(&start, &before, &after);
        records_count = 0;
        shown = kept = end;
        before = after;
    }
}

/* Power fails: of the loose bytes of `kept` against `shown` some are there, drawn at random. */
static void fail_power(void) {
    const uint32_t share = draw(4) == 0 ? 100 : draw(101);
    for (size_t i = 0; i < FILE_LEN; i++)
        if (kept.bytes[i] != shown.bytes[i] && draw(100) < share) kept.bytes[i] = shown.bytes[i];
    if (kept.names != shown.names && draw(2)) kept.names = shown.names;
    kept.length = FILE_LEN;
    shown = kept;
}

/* Histories: commands that are stopped at any byte, by a stop of the program, which leaves the system's memory, or by power. */
static void histories(size_t count) {
    static struct text before, after, found;
    static const struct command changes[] = {
        {{"edit", "7", "seven"}, 0, 7, "seven"}, {{"write"}, 1, 0, NULL}, {{"edit", "40", "y"}, 0, 40, "y"}, {{"write"}, 2, 0, NULL},
        {{"repair"}, 0, 0, NULL},                {{"lose", "3"}, 0, 0, NULL}, {{"lose", "6"}, 0, 0, NULL},
    };
    doing = "a history";
    memset(&shown, 0, sizeof shown);
    memset(&kept, 0, sizeof kept);
    if (!run(&session[0])) complain("it was refused", "new");
    before = texts[1];
    for (size_t i = 0; i < count; i++) {
        const struct command *c = &changes[draw(7)];
        behind(c, &before, &after);
        stopped = 0;
        /* never, at any byte, or near the end of the head */
        until_stop = draw(5) == 0 ? -1 : draw(3) == 0 ? AREA + HEAD - (long)draw(3) : (long)draw(AREA + HEAD);
        const int done = run(c);
        stopped = 0, until_stop = -1;
        failures++;
        if (draw(2)) fail_power();
        /* the next program finds it; what it found is there from then on, whatever comes */
        if (!find(&found)) complain("no file can be read", "stopped or cut");
        else if (done && !same(&found, &after)) complain("the command was done, and the file is not the one from behind it", "stopped or cut");
        else if (!same(&found, &before) && !same(&found, &after)) complain("a file that nobody wrote", "stopped or cut");
        else if (same(&found, &after)) news++;
        else olds++;
        before = found;
        if (draw(2)) {
            static struct text again;
            fail_power();
            if (!find(&again) || !same(&again, &found)) complain("a file that was read is gone", "stopped, read, then cut");
        }
    }
}

/* Each read, write and sync of a command fails in turn: it is refused, and the file is the old one or the new one. */
static void every_error(void) {
    static struct image start;
    static struct text before, after;
    memset(&shown, 0, sizeof shown);
    memset(&kept, 0, sizeof kept);
    memset(&before, 0, sizeof before);
    for (size_t i = 0; i < COMMANDS; i++) {
        doing = session[i].words[0];
        behind(&session[i], &before, &after);
        start = shown;
        for (long call = 0;; call++) {
            shown = kept = start;
            until_failure = call;
            const int done = run(&session[i]);
            const int met = until_failure < 0;
            until_failure = -1;
            if (!met) break;
            if (done) look(NULL, &after, "a call that failed, and it was done");
            else look(&before, &after, "a call that failed");
        }
        before = after;
    }
}

/* Bytes of boards in the current slot are altered: up to N - K boards, and the file is read all the same; and no older one in its place. */
static void every_worn_board(void) {
    static struct image start;
    static struct text file;
    doing = "worn boards";
    memset(&shown, 0, sizeof shown);
    memset(&kept, 0, sizeof kept);
    run(&session[0]);
    run(&session[1]);
    start = shown;
    behind(&session[1], &texts[1], &file);
    /* the turns were 1 and 2 */
    const size_t area = 2 % SLOTS * SLOT + BLOCK;
    for (size_t i = 0; i < AREA; i++) {
        shown = start;
        shown.bytes[area + i] ^= (uint8_t)(1 + draw(255));
        look(NULL, &file, "one byte of a board");
    }
    for (size_t i = 0; i < 2000; i++) {
        shown = start;
        size_t first = draw(N), count = 1 + draw(N - K);
        for (size_t j = 0; j < count; j++)
            for (size_t b = 0; b < BOARD; b++) shown.bytes[area + (first + j) % N * BOARD + b] = (uint8_t)draw(256);
        look(NULL, &file, "boards altered");
    }
}

int main(void) {
    report = stdout;
    /* what the program says of each of these stores is not for reading */
    if (freopen("/dev/null", "w", stderr) == NULL) return 2;
    for (size_t t = 1; t < 3; t++) {
        texts[t].there = 1;
        texts[t].length = t == 1 ? LONGEST - 1 : LONGEST / 2 + 3;
        for (size_t i = 0; i < texts[t].length; i++) texts[t].bytes[i] = (uint8_t)draw(256);
    }
    every_cut();
    const unsigned long cuts = failures;
    histories(20000);
    every_error();
    every_worn_board();
    forget();
    if (wrong > 0) return 1;
    fprintf(report, "cuts: %lu power failures inside commands, %lu others; the file from before %lu times, from behind %lu times, and nothing else\n", cuts,
            failures - cuts, olds, news);
    return 0;
}

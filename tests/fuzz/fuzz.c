/*
 * Two targets over the archive's entries: 'passage' takes a session's input (N less one, T, then frames after their lengths) and checks after each
 * frame all that the state memory tells by docs/STATE.md, without a reference; 'foreign' makes state memory that no sequence of calls left. In both
 * each frame is asked as a search, too, and in 'passage' the last one that could be is asked again after every frame. How close messages are to queries
 * is asked in 'foreign' after every frame, and in 'passage' after every frame that is accepted. So is a screen, of as many lines as the frame's bytes
 * say.
 *
 * The archive isn't instrumented. So each lent slice stands against a page that can't be touched, first with its end and in a second run with its
 * start (or up to three bytes on, for an odd address), and guard bytes are on its other side.
 */
#define _DEFAULT_SOURCE
#include "fuzz.h"

#include "fennelrake.h"

#include <stdio.h>
#include <stdlib.h>
#include <string.h>
#include <sys/mman.h>

/* ---- what is told where something is wrong */

static unsigned long ordinal;

static void fail(const char *what, int line)
{
    fprintf(stderr, "fuzz.c:%d: frame %lu: %s\n", line, ordinal, what);
    abort();
}

#define HOLD(condition)                            \
    do {                                           \
        if (!(condition))                          \
            fail("not so: " #condition, __LINE__); \
    } while (0)

/* ---- lent memory */

enum { PAGE = 4096, GUARD = 64 };

/* Pages between two that can't be touched, and the slice of them that is lent. */
struct lent {
    size_t pages;
    uint8_t *base;
    uint8_t *bytes;
    size_t length;
};

static struct lent state = {FENNELRAKE_STATE_SIZE / PAGE + 1, NULL, NULL, 0};
static struct lent frame = {1, NULL, NULL, 0};
static struct lent answer = {2, NULL, NULL, 0};
static struct lent terms = {1, NULL, NULL, 0};
static struct lent amounts = {1, NULL, NULL, 0};

/* Whether slices start at the start of their pages, and how many bytes on. */
static int at_start;
static size_t moved;

static const uint8_t guards[GUARD] = "what stands on either side of lent bytes is nobody's but a host";

/* How many bytes are free on either side of the slice, as far as they are guards. */
static size_t before(const struct lent *l)
{
    size_t n = (size_t)(l->bytes - l->base);
    return n < GUARD ? n : GUARD;
}

static size_t after(const struct lent *l)
{
    size_t n = l->pages * PAGE - (size_t)(l->bytes - l->base) - l->length;
    return n < GUARD ? n : GUARD;
}

/* Lends so many bytes, all of one value. */
static void lend(struct lent *l, size_t length, int value)
{
    size_t size = l->pages * PAGE;
    if (l->base == NULL) {
        uint8_t *all = mmap(NULL, size + 2 * PAGE, PROT_NONE, MAP_PRIVATE | MAP_ANONYMOUS, -1, 0);
        if (all == MAP_FAILED || mprotect(all + PAGE, size, PROT_READ | PROT_WRITE) != 0) {
            perror("fuzz");
            exit(2);
        }
        l->base = all + PAGE;
    }
    l->length = length;
    l->bytes = at_start ? l->base + moved : l->base + size - length;
    memset(l->bytes, value, length);
    memcpy(l->bytes - before(l), guards, before(l));
    memcpy(l->bytes + length, guards, after(l));
}

static void guarded(const struct lent *l)
{
    HOLD(memcmp(l->bytes - before(l), guards, before(l)) == 0);
    HOLD(memcmp(l->bytes + l->length, guards, after(l)) == 0);
}

static int all_of(const uint8_t *bytes, size_t length, int value)
{
    size_t i;
    for (i = 0; i < length; i++)
        if (bytes[i] != value)
            return 0;
    return 1;
}

/* ---- the calls, with nothing written but what was lent */

enum { FRESH = 0xa5 };

static uint32_t hand(const uint8_t *bytes, size_t length, size_t room)
{
    uint32_t number;
    lend(&frame, length, 0);
    if (length > 0)
        memcpy(frame.bytes, bytes, length);
    lend(&answer, room, FRESH);
    number = fennelrake_frame(state.bytes, state.length, frame.bytes, length, answer.bytes, room);
    guarded(&state);
    guarded(&frame);
    guarded(&answer);
    HOLD(length == 0 || memcmp(frame.bytes, bytes, length) == 0);
    return number;
}

/* Notes the state memory, and later on holds that it is as it was noted. */
static uint8_t noted[FENNELRAKE_STATE_SIZE];

static void note(void)
{
    memcpy(noted, state.bytes, state.length);
}

static void unchanged(void)
{
    HOLD(memcmp(noted, state.bytes, state.length) == 0);
}

static uint32_t list(uint32_t number, size_t room)
{
    uint32_t r;
    note();
    lend(&answer, room, FRESH);
    r = fennelrake_list(state.bytes, state.length, number, answer.bytes, room);
    guarded(&state);
    guarded(&answer);
    unchanged();
    return r;
}

/* The output has room for as many postings as are returned, whatever memory is given. */
static uint64_t postings(uint32_t term, size_t room)
{
    uint64_t r;
    note();
    lend(&answer, room, FRESH);
    r = fennelrake_postings(state.bytes, state.length, term, answer.bytes, room);
    guarded(&state);
    guarded(&answer);
    unchanged();
    HOLD((size_t)fennelrake_size(r) * FENNELRAKE_POSTING_SIZE <= room);
    return r;
}

/* A search writes the answer alone, whatever memory it is given. */
static uint32_t search(const uint8_t *bytes, size_t length, size_t room)
{
    uint32_t number;
    note();
    lend(&frame, length, 0);
    if (length > 0)
        memcpy(frame.bytes, bytes, length);
    lend(&answer, room, FRESH);
    number = fennelrake_search(state.bytes, state.length, frame.bytes, length, answer.bytes, room);
    guarded(&state);
    guarded(&frame);
    guarded(&answer);
    unchanged();
    HOLD(length == 0 || memcmp(frame.bytes, bytes, length) == 0);
    HOLD(number <= FENNELRAKE_REFUSED_ORDER || number == FENNELRAKE_REFUSED_MEMORY);
    HOLD(number == 0 || all_of(answer.bytes, room, FRESH));
    return number;
}

/* A closeness is never above the top, whatever memory it is given, and writes eight bytes or none. */
static uint32_t closeness(uint32_t serial, uint32_t number, size_t room)
{
    uint32_t r;
    lend(&answer, room, FRESH);
    r = fennelrake_closeness(state.bytes, state.length, serial, number, answer.bytes, room);
    guarded(&state);
    guarded(&answer);
    if (r == 0) {
        HOLD(fennelrake_closeness_quotient(answer.bytes) <= FENNELRAKE_TOP_CLOSENESS);
        HOLD(all_of(answer.bytes + FENNELRAKE_CLOSENESS_ANSWER_SIZE, room - FENNELRAKE_CLOSENESS_ANSWER_SIZE, FRESH));
    } else {
        HOLD(r == FENNELRAKE_REFUSED_MEMORY || r == FENNELRAKE_REFUSED_NOT_IN_FORCE || r == FENNELRAKE_REFUSED_NOT_IN_USE);
        HOLD(all_of(answer.bytes, room, FRESH));
    }
    return r;
}

/* The number of a screen, which lengths and lines alone tell, whatever memory it is given. */
static uint32_t screen_number(size_t length, uint32_t lines, size_t room)
{
    if (length != FENNELRAKE_STATE_SIZE)
        return FENNELRAKE_REFUSED_MEMORY;
    if (lines > FENNELRAKE_MOST_SCREEN_LINES)
        return FENNELRAKE_REFUSED_VALUE;
    return room < FENNELRAKE_SCREEN_LINE_SIZE * lines ? FENNELRAKE_REFUSED_MEMORY : 0;
}

/* A screen writes its lines alone, and no more than were asked for. */
static uint32_t screen_in(size_t length, uint32_t lines, size_t room)
{
    uint32_t number = screen_number(length, lines, room), placed;
    uint64_t r;
    lend(&answer, room, FRESH);
    r = fennelrake_screen(state.bytes, length, lines, answer.bytes, room);
    guarded(&state);
    guarded(&answer);
    placed = fennelrake_size(r);
    HOLD(fennelrake_number(r) == number && placed <= (number == 0 ? lines : 0));
    HOLD(all_of(answer.bytes + FENNELRAKE_SCREEN_LINE_SIZE * placed, room - FENNELRAKE_SCREEN_LINE_SIZE * placed, FRESH));
    return placed;
}

/* Asks for a screen: first with a state of another length, with no output and with a byte too few. Returns how many lines the answer has. */
static uint32_t screen(uint32_t lines)
{
    size_t room = FENNELRAKE_SCREEN_LINE_SIZE * (size_t)(lines <= FENNELRAKE_MOST_SCREEN_LINES ? lines : FENNELRAKE_MOST_SCREEN_LINES + 1);
    screen_in(at_start ? state.length + 1 : state.length - 1, lines, ordinal % 2 == 0 ? room : 0);
    screen_in(state.length, lines, 0);
    screen_in(state.length, lines, room > 0 ? room - 1 : 0);
    return screen_in(state.length, lines, room + ordinal % 4);
}

/* ---- what the state memory keeps (docs/STATE.md) */

enum { CLOCK = 2, OLDEST = 3, COUNT = 4, HEADER = 5, SLOTS = FENNELRAKE_MOST_MESSAGES + 1 };
enum { TIME = 0, SERIAL = 1, CELLS = 2, CELL = 3, SLOT = CELL + FENNELRAKE_MOST_PAIRS };
enum { RECORDS = HEADER + SLOTS * SLOT, RECORD = 60 };
enum { K = 0, N = 1, TERM = 2, ENTRIES = 10, THRESHOLD = 11, LISTED = 19, KEY = 35, CANDIDATES = 51 };

static uint8_t old[FENNELRAKE_STATE_SIZE]; /* the state before the frame */

static uint32_t word(const uint8_t *bytes, size_t i)
{
    const uint8_t *b = bytes + 4 * i;
    return b[0] | (uint32_t)b[1] << 8 | (uint32_t)b[2] << 16 | (uint32_t)b[3] << 24;
}

/* Where word i of a slot stands: each of those before the cells in a column of its own, and then the cells of every slot. */
static uint32_t slot_at(uint32_t j, uint32_t i)
{
    return i < CELL ? HEADER + SLOTS * i + j : HEADER + SLOTS * CELL + (SLOT - CELL) * j + i - CELL;
}

/* A message by the slot that it stands in. */
struct message {
    const uint8_t *state;
    uint32_t slot;
};

static uint32_t part(struct message m, uint32_t i)
{
    return word(m.state, slot_at(m.slot, i));
}

/* Message i of those that fill a place, the oldest being message 0. */
static struct message message(const uint8_t *s, uint32_t i)
{
    struct message m = {s, (word(s, OLDEST) + i) % SLOTS};
    return m;
}

/* A message's number of cells, and its urgency, which stands above it. */
static uint32_t cells(struct message m)
{
    return part(m, CELLS) % 64;
}

static uint32_t grade(struct message m)
{
    return part(m, CELLS) / 64;
}

/* A cancelled message has no cells, and a serial that no frame can say. */
static int cancelled(struct message m)
{
    return cells(m) == 0 && part(m, SERIAL) >= FENNELRAKE_SERIALS;
}

static const uint8_t *record(const uint8_t *s, uint32_t q)
{
    return s + 4 * (RECORDS + RECORD * q);
}

/* Term, count and impact of a cell. */
static uint32_t term_in(struct message m, uint32_t i)
{
    return part(m, CELL + i) >> 22;
}

static uint32_t count_in(struct message m, uint32_t i)
{
    return part(m, CELL + i) >> 14 & 255;
}

static uint32_t impact_in(struct message m, uint32_t i)
{
    return part(m, CELL + i) & 16383;
}

/* Which cell of a message has a term; how many there are in all where none has. */
static uint32_t cell_of(struct message m, uint32_t term)
{
    uint32_t i = 0;
    while (i < cells(m) && term_in(m, i) != term)
        i++;
    return i;
}

static uint32_t impact(struct message m, uint32_t term)
{
    uint32_t i = cell_of(m, term);
    return i < cells(m) ? impact_in(m, i) : 0;
}

static uint32_t score(struct message m, const uint8_t *r)
{
    uint32_t i, sum = 0;
    for (i = 0; i < word(r, N); i++)
        sum += word(r, TERM + i) % 16 * impact(m, word(r, TERM + i) / 16);
    return sum;
}

/* What a list is ordered by, before the order of acceptance: the score, and among equal ones the urgency. A record keeps it of each entry. */
static uint32_t key(struct message m, const uint8_t *r)
{
    return 4 * score(m, r) + grade(m);
}

static int exceeds(struct message m, const uint8_t *r)
{
    uint32_t i;
    for (i = 0; i < word(r, N); i++)
        if (impact(m, word(r, TERM + i) / 16) > word(r, THRESHOLD + i))
            return 1;
    return 0;
}

/* ---- what holds after an accepted frame */

static uint32_t bits(const uint8_t *bytes, size_t at, size_t width)
{
    uint32_t v = 0;
    size_t i;
    for (i = at; i < at + width; i++)
        v = v << 1 | (bytes[i / 8] >> (7 - i % 8) & 1);
    return v;
}

/* The kinds of message that say an urgency, and all kinds of message; where the number of pairs stands in their bits, and where the pairs do. */
static int is_graded(uint32_t kind)
{
    return kind == FENNELRAKE_URGENT_MESSAGE || kind == FENNELRAKE_LONG_MESSAGE;
}

static int is_message(uint32_t kind)
{
    return kind == FENNELRAKE_MESSAGE || is_graded(kind);
}

static uint32_t size_at(uint32_t kind)
{
    return is_graded(kind) ? 58 : 56;
}

static uint32_t pairs_at(uint32_t kind)
{
    return size_at(kind) + (kind == FENNELRAKE_LONG_MESSAGE ? 5 : 4);
}

/* The most pairs of a kind, 0 where it has none. */
static uint32_t most_pairs(uint32_t kind)
{
    if (kind == FENNELRAKE_REGISTER)
        return FENNELRAKE_MOST_QUERY_TERMS;
    return kind == FENNELRAKE_LONG_MESSAGE ? FENNELRAKE_MOST_PAIRS : is_message(kind) ? FENNELRAKE_MOST_SHORT_PAIRS : 0;
}

/* How many pairs a message has by its bits. */
static uint32_t pairs_of(const uint8_t *f)
{
    uint32_t at = size_at(f[0] >> 4);
    return bits(f, at, pairs_at(f[0] >> 4) - at) + 1;
}

/* How many of the messages before the frame are past at its time: they are the oldest. */
static uint32_t past(const uint8_t *f)
{
    uint32_t n = 0;
    while (n < word(old, COUNT) && bits(f, 4, 32) - part(message(old, n), TIME) > word(old, 1))
        n++;
    return n;
}

/* Which message before the frame has the serial in its bits and is in force at its time; how many there are in all where there is none. */
static uint32_t holder(const uint8_t *f)
{
    uint32_t i = past(f);
    while (i < word(old, COUNT) && part(message(old, i), SERIAL) != bits(f, 36, 20))
        i++;
    return i;
}

/* The messages that fill a place: the same as before, less those that left, one that arrived, and one cancelled. Returns how many left. */
static uint32_t check_window(const uint8_t *s, const uint8_t *f, uint32_t departures)
{
    uint32_t kind = f[0] >> 4, time = bits(f, 4, 32), count = word(s, COUNT), held = word(old, COUNT), arrived = is_message(kind);
    uint32_t i, j, left, in_force = 0, off = held;

    HOLD(word(s, 0) == word(old, 0) && word(s, 1) == word(old, 1));
    HOLD(time >= word(old, CLOCK) && word(s, CLOCK) == time);
    HOLD(word(s, OLDEST) < SLOTS && count <= word(s, 0));
    left = past(f);
    left += arrived && held - left == word(s, 0);
    HOLD(count == held - left + arrived);
    if (kind == FENNELRAKE_CANCEL) {
        off = holder(f);
        HOLD(off < held);
    }
    for (i = 0; i < left; i++)
        in_force += !cancelled(message(old, i));
    HOLD(departures == in_force + (off < held));
    for (i = left; i < held; i++) {
        struct message m = message(s, i - left), was = message(old, i);
        if (i == off) {
            HOLD(part(m, SERIAL) == part(was, SERIAL) + FENNELRAKE_SERIALS * cells(was));
            HOLD(cancelled(m) && grade(m) == grade(was));
        }
        for (j = 0; j < SLOT; j++)
            HOLD(part(m, j) == part(was, j) || (i == off && (j == SERIAL || j == CELLS)));
    }
    for (i = 0; i < count; i++)
        for (j = 0; j < i; j++)
            HOLD(cancelled(message(s, i)) || part(message(s, i), SERIAL) != part(message(s, j), SERIAL));
    if (arrived) {
        struct message m = message(s, count - 1);
        uint32_t first = pairs_at(kind);
        uint64_t n = 0, top, w;
        HOLD(part(m, TIME) == time && part(m, SERIAL) == bits(f, 36, 20) && cells(m) == pairs_of(f) && grade(m) == bits(f, 56, size_at(kind) - 56));
        for (i = 0; i < cells(m); i++)
            n += (uint64_t)bits(f, first + 18 * i + 10, 8) * bits(f, first + 18 * i + 10, 8);
        for (i = 0; i < cells(m); i++) {
            HOLD(part(m, CELL + i) >> 14 == bits(f, first + 18 * i, 18));
            w = impact_in(m, i);
            top = (uint64_t)FENNELRAKE_TOP_IMPACT * bits(f, first + 18 * i + 10, 8);
            HOLD(w > 0 && w * w * n <= top * top && (w + 1) * (w + 1) * n > top * top);
        }
    }
    return left;
}

/* A query's mark, and what its record has of the frame's own fields. A message cancelled earlier exceeds nothing, so it leaves unmarked. */
static void check_mark(const uint8_t *s, const uint8_t *f, uint32_t left, uint32_t q, int marked)
{
    uint32_t kind = f[0] >> 4, i;
    const uint8_t *r = record(s, q), *was = record(old, q);
    int named = (kind == FENNELRAKE_REGISTER || kind == FENNELRAKE_DROP) && bits(f, 36, 5) == q, reached = 0;

    for (i = 0; i < left; i++)
        reached |= exceeds(message(old, i), was);
    if (kind == FENNELRAKE_CANCEL)
        reached |= exceeds(message(old, holder(f)), was);
    if (is_message(kind))
        reached |= exceeds(message(s, word(s, COUNT) - 1), was);
    HOLD(marked == (named || reached));
    HOLD(marked || memcmp(r, was, 4 * RECORD) == 0);
    if (!named) {
        HOLD(memcmp(r, was, 4 * ENTRIES) == 0);
    } else if (kind == FENNELRAKE_DROP) {
        HOLD(word(was, K) != 0 && word(r, K) == 0);
    } else {
        HOLD(word(was, K) == 0 && word(r, K) == bits(f, 41, 4) + 1 && word(r, N) == bits(f, 45, 3) + 1);
        for (i = 0; i < word(r, N); i++)
            HOLD(word(r, TERM + i) == bits(f, 48 + 14 * i, 14));
    }
}

/* The list in the answer is the ranking of the messages in force, for k, terms and weights as a record has them. Returns its number of entries. */
static uint32_t check_ranking(const uint8_t *s, const uint8_t *r)
{
    uint32_t count = word(s, COUNT), entries = fennelrake_list_count(answer.bytes), positive = 0, i, j, last = 0, last_at = 0;

    HOLD(entries <= word(r, K) && word(r, K) <= FENNELRAKE_LIST_PLACES);
    for (i = 0; i < FENNELRAKE_LIST_PLACES; i++) {
        uint32_t serial = fennelrake_list_serial(answer.bytes, i), value;
        if (i >= entries) {
            HOLD(serial == 0 && fennelrake_list_score(answer.bytes, i) == 0);
            continue;
        }
        for (j = 0; j < count && part(message(s, j), SERIAL) != serial;)
            j++;
        HOLD(j < count && score(message(s, j), r) > 0 && fennelrake_list_score(answer.bytes, i) == score(message(s, j), r));
        value = key(message(s, j), r);
        HOLD(i == 0 || value < last || (value == last && j < last_at));
        last = value;
        last_at = j;
    }
    /* what isn't listed stands behind the last entry */
    for (j = 0; j < count; j++) {
        uint32_t scores = score(message(s, j), r) > 0, value = key(message(s, j), r), behind = value < last || (value == last && j < last_at);
        positive += scores;
        for (i = 0; i < entries && part(message(s, j), SERIAL) != fennelrake_list_serial(answer.bytes, i);)
            i++;
        HOLD(!scores || i < entries || (entries == word(r, K) && behind));
    }
    HOLD(entries == (positive < word(r, K) ? positive : word(r, K)));
    return entries;
}

/* A query's list, as its record keeps it and a reading returns it. */
static void check_list(const uint8_t *s, uint32_t q)
{
    const uint8_t *r = record(s, q);
    uint32_t i, j;

    if (word(r, K) == 0) {
        HOLD(all_of(r, 4 * RECORD, 0));
        HOLD(list(q, FENNELRAKE_LIST_ANSWER_SIZE) == FENNELRAKE_REFUSED_NOT_IN_USE);
        HOLD(all_of(answer.bytes, answer.length, FRESH));
        return;
    }
    HOLD(list(q, FENNELRAKE_LIST_ANSWER_SIZE) == FENNELRAKE_ACCEPTED);
    HOLD(check_ranking(s, r) == word(r, ENTRIES));
    for (i = 0; i < FENNELRAKE_LIST_PLACES; i++) {
        HOLD(fennelrake_list_serial(answer.bytes, i) == word(r, LISTED + i) && fennelrake_list_score(answer.bytes, i) == word(r, KEY + i) / 4);
        for (j = 0; j < word(s, COUNT) && part(message(s, j), SERIAL) != word(r, LISTED + i);)
            j++;
        HOLD(word(r, KEY + i) == (i < word(r, ENTRIES) ? key(message(s, j), r) : 0));
    }
}

/* The thresholds are as high as they may be, and the candidates are the messages above one. */
static void check_thresholds(const uint8_t *s, uint32_t q)
{
    const uint8_t *r = record(s, q);
    uint32_t n = word(r, N), entries = word(r, ENTRIES), sum = 0, i, j;

    if (word(r, K) == 0)
        return;
    for (i = 0; i < n; i++)
        sum += word(r, TERM + i) % 16 * word(r, THRESHOLD + i);
    for (i = 0; i < FENNELRAKE_MOST_QUERY_TERMS; i++) {
        uint32_t h = word(r, THRESHOLD + i), last = entries > 0 ? word(r, KEY + entries - 1) / 4 : 0;
        if (i >= n || entries < word(r, K)) {
            HOLD(h == 0);
        } else {
            HOLD(h <= FENNELRAKE_TOP_IMPACT && sum < last);
            HOLD(h == FENNELRAKE_TOP_IMPACT || sum + word(r, TERM + i) % 16 >= last);
        }
    }
    for (j = 0; j < 32 * (RECORD - CANDIDATES); j++) {
        uint32_t set = word(r, CANDIDATES + j / 32) >> (31 - j % 32) & 1;
        i = (j + SLOTS - word(s, OLDEST)) % SLOTS;
        HOLD(set == (uint32_t)(j < SLOTS && i < word(s, COUNT) && exceeds(message(s, i), r)));
    }
}

/* The postings of a term, into exactly as many bytes as they take. */
static void check_postings(const uint8_t *s, uint32_t term)
{
    uint32_t count = word(s, COUNT), there = 0, i, j, last = 0, last_at = 0;

    for (j = 0; j < count; j++)
        there += impact(message(s, j), term) > 0;
    HOLD(postings(term, FENNELRAKE_POSTING_SIZE * there) == there);
    for (i = 0; i < there; i++) {
        uint32_t value = fennelrake_posting_impact(answer.bytes, i);
        for (j = 0; j < count && part(message(s, j), SERIAL) != fennelrake_posting_serial(answer.bytes, i);)
            j++;
        HOLD(j < count && value > 0 && value == impact(message(s, j), term));
        HOLD(i == 0 || value < last || (value == last && j < last_at));
        last = value;
        last_at = j;
    }
    if (there > 0) {
        HOLD(postings(term, FENNELRAKE_POSTING_SIZE * there - 1) == (uint64_t)FENNELRAKE_REFUSED_MEMORY << 32);
        HOLD(all_of(answer.bytes, answer.length, FRESH));
    }
}

/* The number that refuses bytes as a search; `whole` is what refuses them as a frame, or more than 6. */
static uint32_t search_number(const uint8_t *f, size_t length, uint32_t whole)
{
    if (length < 5)
        return FENNELRAKE_REFUSED_SHORT;
    if (f[0] >> 4 != FENNELRAKE_REGISTER)
        return FENNELRAKE_REFUSED_KIND;
    return whole <= FENNELRAKE_REFUSED_ORDER ? whole : 0;
}

static void put_word(uint8_t *bytes, size_t i, uint32_t value)
{
    size_t j;
    for (j = 0; j < 4; j++)
        bytes[4 * i + j] = (uint8_t)(value >> 8 * j);
}

/* How many postings a search reads for k, terms and weights as a record has them: the rule step by step. */
static uint32_t steps(const uint8_t *s, const uint8_t *r)
{
    static uint32_t left[FENNELRAKE_MOST_QUERY_TERMS][FENNELRAKE_MOST_POSTINGS]; /* the messages of each term's postings */
    uint32_t size[FENNELRAKE_MOST_QUERY_TERMS] = {0}, next[FENNELRAKE_MOST_QUERY_TERMS] = {0}, taken = 0, i, j, at;
    uint8_t was_seen[FENNELRAKE_MOST_MESSAGES] = {0};

    for (i = 0; i < word(r, N); i++) {
        uint32_t term = word(r, TERM + i) / 16;
        /* from the oldest on, each before all of no higher impact */
        for (j = 0; j < word(s, COUNT); j++) {
            uint32_t w = impact(message(s, j), term);
            if (w == 0)
                continue;
            for (at = size[i]++; at > 0 && impact(message(s, left[i][at - 1]), term) <= w; at--)
                left[i][at] = left[i][at - 1];
            left[i][at] = j;
        }
    }
    for (;;) {
        uint32_t sum = 0, highest = 0, of = 0, above = 0;
        for (i = 0; i < word(r, N); i++) {
            uint32_t w = next[i] < size[i] ? word(r, TERM + i) % 16 * impact(message(s, left[i][next[i]]), word(r, TERM + i) / 16) : 0;
            sum += w;
            if (w > highest) {
                highest = w;
                of = i;
            }
        }
        /* the k-th best score is above the sum where k of the messages seen have such a one */
        for (j = 0; j < word(s, COUNT); j++)
            above += was_seen[j] && score(message(s, j), r) > sum;
        if (above >= word(r, K) || highest == 0)
            return taken;
        was_seen[left[of][next[of]++]] = 1;
        taken++;
    }
}

/* A search by a frame that is a registration and that 1 to 6 let pass. */
static void check_search(const uint8_t *s, const uint8_t *f, size_t length)
{
    uint8_t r[4 * RECORD] = {0};
    uint32_t i, all = 0, taken, entries;

    put_word(r, K, bits(f, 41, 4) + 1);
    put_word(r, N, bits(f, 45, 3) + 1);
    for (i = 0; i < word(r, N); i++)
        put_word(r, TERM + i, bits(f, 48 + 14 * i, 14));
    HOLD(search(f, length, FENNELRAKE_SEARCH_ANSWER_SIZE) == FENNELRAKE_ACCEPTED);
    entries = check_ranking(s, r);
    taken = fennelrake_search_read(answer.bytes);
    HOLD(taken == steps(s, r));
    for (i = 0; i < word(r, N) * word(s, COUNT); i++)
        all += impact(message(s, i / word(r, N)), word(r, TERM + i % word(r, N)) / 16) > 0;
    seen(10, taken);
    seen(11, all - taken);
    seen(12, entries * 16 + word(r, K) - 1);
}

/* The last frame of the run that could be asked as a search. */
static uint8_t question[256];
static size_t question_length;

/* A frame as a search: one that can't be is refused as it should be. Then the last one that could be is asked. */
static void check_searches(const uint8_t *s, const uint8_t *f, size_t length, uint32_t whole)
{
    uint32_t number = search(f, length, FENNELRAKE_SEARCH_ANSWER_SIZE + 3);

    HOLD(number == search_number(f, length, whole));
    HOLD(all_of(answer.bytes + FENNELRAKE_SEARCH_ANSWER_SIZE, 3, FRESH));
    HOLD(search(f, length, FENNELRAKE_SEARCH_ANSWER_SIZE - 1) == FENNELRAKE_REFUSED_MEMORY);
    seen(13, number);
    if (number == 0) {
        memcpy(question, f, length);
        question_length = length;
    }
    if (question_length > 0)
        check_search(s, question, question_length);
}

/* Whether counts and weights are in proportion, and neither side has a term that the other lacks. */
static int in_proportion(struct message m, const uint8_t *r)
{
    uint32_t i;
    if (cells(m) != word(r, N))
        return 0;
    for (i = 0; i < cells(m); i++)
        if (term_in(m, i) != word(r, TERM + i) / 16 || count_in(m, i) * (word(r, TERM) % 16) != count_in(m, 0) * (word(r, TERM + i) % 16))
            return 0;
    return 1;
}

/* A closeness, whatever serial and number: refused as it should be, or what the division of the sums gives. */
static void check_closeness(const uint8_t *s, uint32_t serial, uint32_t number)
{
    const uint8_t *r = record(s, number % FENNELRAKE_QUERIES);
    uint32_t found = closeness(serial, number, FENNELRAKE_CLOSENESS_ANSWER_SIZE + ordinal % 4), i, j = 0;
    uint64_t quotient, remainder, sum = 0, a = 0, b = 0;
    struct message m;

    while (j < word(s, COUNT) && (cancelled(message(s, j)) || part(message(s, j), SERIAL) != serial))
        j++;
    HOLD((found == FENNELRAKE_REFUSED_NOT_IN_FORCE) == (j == word(s, COUNT)));
    if (j == word(s, COUNT))
        return;
    HOLD(found == (number < FENNELRAKE_QUERIES && word(r, K) != 0 ? FENNELRAKE_ACCEPTED : FENNELRAKE_REFUSED_NOT_IN_USE));
    if (found != 0)
        return;
    m = message(s, j);
    for (i = 0; i < cells(m); i++)
        a += count_in(m, i) * count_in(m, i);
    for (i = 0; i < word(r, N); i++) {
        uint32_t weight = word(r, TERM + i) % 16, at = cell_of(m, word(r, TERM + i) / 16);
        b += weight * weight;
        sum += at < cells(m) ? weight * count_in(m, at) : 0;
    }
    quotient = fennelrake_closeness_quotient(answer.bytes);
    remainder = fennelrake_closeness_remainder(answer.bytes);
    HOLD((quotient == FENNELRAKE_TOP_CLOSENESS && remainder == 0) == in_proportion(m, r));
    HOLD(quotient * (a * b) + remainder == 1000 * sum * sum && remainder < a * b);
    seen(16, (uint32_t)quotient / 50 * 2 + (remainder == 0));
}

/*
 * The closeness of each message that fills a place, and of the slots on either side of them, to one query after the other; of one message to every
 * number; and of serials that are near one of these. The numbers in use are mostly low.
 */
static void check_closenesses(const uint8_t *s)
{
    uint32_t turn = (uint32_t)ordinal, low = turn % 6, count = word(s, COUNT), serial = part(message(s, count > 0 ? turn % count : 0), SERIAL), i;

    for (i = 0; i < count + 2; i++)
        check_closeness(s, part(message(s, SLOTS - 1 + i), SERIAL), (turn + i) % 6);
    for (i = 0; i < FENNELRAKE_QUERIES + 2; i++)
        check_closeness(s, serial, i);
    check_closeness(s, serial, FENNELRAKE_QUERIES * turn + low);
    check_closeness(s, serial % FENNELRAKE_SERIALS, low);
    check_closeness(s, serial % FENNELRAKE_SERIALS + FENNELRAKE_SERIALS * (turn % (FENNELRAKE_MOST_PAIRS + 2)), low);
    check_closeness(s, turn % 64, UINT32_MAX);
    HOLD(closeness(serial, turn, turn % FENNELRAKE_CLOSENESS_ANSWER_SIZE) == FENNELRAKE_REFUSED_MEMORY);
    lend(&answer, FENNELRAKE_CLOSENESS_ANSWER_SIZE, FRESH);
    HOLD(fennelrake_closeness(state.bytes, state.length - 1, serial, low, answer.bytes, answer.length) == FENNELRAKE_REFUSED_MEMORY);
    HOLD(all_of(answer.bytes, answer.length, FRESH));
}

/* The lists of all queries, as they are read: empty where none is registered. */
static uint8_t lists[FENNELRAKE_QUERIES][FENNELRAKE_LIST_ANSWER_SIZE];

static uint32_t lesser(uint32_t a, uint32_t b)
{
    return a < b ? a : b;
}

/* A screen of so many lines against the lists, round by round, and then what each of the registered queries gets of it. */
static void check_screen(uint32_t lines, uint32_t registered, uint32_t all)
{
    uint32_t placed = screen(lines), given[FENNELRAKE_QUERIES] = {0}, at = 0, i, q;

    if (lines > FENNELRAKE_MOST_SCREEN_LINES)
        return;
    HOLD(placed == lesser(lines, all));
    for (i = 0; i < FENNELRAKE_LIST_PLACES; i++)
        for (q = 0; q < FENNELRAKE_QUERIES && at < placed; q++) {
            if (i >= fennelrake_list_count(lists[q]))
                continue;
            HOLD(fennelrake_screen_query(answer.bytes, at) == q);
            HOLD(fennelrake_screen_serial(answer.bytes, at) == fennelrake_list_serial(lists[q], i));
            HOLD(fennelrake_screen_score(answer.bytes, at) == fennelrake_list_score(lists[q], i));
            given[q]++;
            at++;
        }
    for (q = 0; q < FENNELRAKE_QUERIES && registered > 0; q++)
        HOLD(given[q] >= lesser(fennelrake_list_count(lists[q]), lines / registered));
    seen(18, placed);
    seen(19, 2 * registered + (lines < all));
}

/* A screen of so many lines, and one of about as many as there are entries. */
static void check_screens(uint32_t lines)
{
    uint32_t registered = 0, all = 0, q;

    memset(lists, 0, sizeof lists);
    for (q = 0; q < FENNELRAKE_QUERIES; q++)
        if (list(q, FENNELRAKE_LIST_ANSWER_SIZE) == 0) {
            memcpy(lists[q], answer.bytes, FENNELRAKE_LIST_ANSWER_SIZE);
            registered++;
            all += fennelrake_list_count(lists[q]);
        }
    check_screen(lines, registered, all);
    check_screen(all + 1 - lesser(all + 1, (uint32_t)ordinal % 3), registered, all);
}

/* The writer makes the same bytes of the frame's fields, into exactly as many, whatever they held. */
static void check_writer(const uint8_t *f, size_t length)
{
    uint32_t kind = f[0] >> 4, time = bits(f, 4, 32), pairs = 0, width = 8, first = pairs_at(kind), i, k = 0, number = 0, serial = 0, urgency = 0;
    uint64_t r;

    if (is_message(kind) || kind == FENNELRAKE_CANCEL)
        serial = bits(f, 36, 20);
    if (is_graded(kind))
        urgency = bits(f, 56, 2);
    if (is_message(kind)) {
        pairs = pairs_of(f);
    } else if (kind == FENNELRAKE_REGISTER) {
        k = bits(f, 41, 4) + 1;
        pairs = bits(f, 45, 3) + 1;
        width = 4;
        first = 48;
    }
    if (kind == FENNELRAKE_REGISTER || kind == FENNELRAKE_DROP)
        number = bits(f, 36, 5);
    lend(&terms, 2 * pairs, 0);
    lend(&amounts, pairs, 0);
    for (i = 0; i < pairs; i++) {
        fennelrake_put_term(terms.bytes, i, (uint16_t)bits(f, first + (10 + width) * i, 10));
        amounts.bytes[i] = (uint8_t)bits(f, first + (10 + width) * i + 10, width);
    }
    lend(&answer, length, FRESH);
    r = fennelrake_write(kind, time, serial, urgency, number, k, pairs, terms.bytes, 2 * pairs, amounts.bytes, pairs, answer.bytes, length);
    HOLD(r == length && memcmp(answer.bytes, f, length) == 0);
    lend(&answer, length - 1, FRESH);
    r = fennelrake_write(kind, time, serial, urgency, number, k, pairs, terms.bytes, 2 * pairs, amounts.bytes, pairs, answer.bytes, length - 1);
    HOLD(r == (uint64_t)FENNELRAKE_REFUSED_MEMORY << 32 && all_of(answer.bytes, length - 1, FRESH));
    guarded(&answer);
    guarded(&terms);
    guarded(&amounts);
}

/* The writer, given any fields: what it refuses it leaves, and what it writes has just these fields. */
static void check_any_fields(const uint8_t *f, size_t length)
{
    size_t n = length < 12 ? 0 : (length - 12) / 3, room, i;
    uint32_t kind, time, serial, urgency, number, k, pairs, found, size;
    uint64_t r;

    if (n == 0)
        return;
    kind = f[0] % 9;
    time = fennelrake_word(f + 4);
    serial = fennelrake_word(f) >> (f[8] % 32);
    urgency = f[8] / 40;
    number = f[8] % 40;
    k = f[9] % 20;
    pairs = f[10] % 36;
    room = f[11] % 84;
    lend(&terms, 2 * n, 0);
    lend(&amounts, n, 0);
    memcpy(terms.bytes, f + 12, 2 * n);
    memcpy(amounts.bytes, f + 12 + 2 * n, n);
    for (i = 0; i < n; i++)
        terms.bytes[2 * i] %= 5;
    lend(&answer, room, FRESH);
    r = fennelrake_write(kind, time, serial, urgency, number, k, pairs, terms.bytes, 2 * n, amounts.bytes, n, answer.bytes, room);
    guarded(&answer);
    guarded(&terms);
    guarded(&amounts);
    found = fennelrake_number(r);
    size = fennelrake_size(r);
    seen(8, found * 9 + kind);
    HOLD(found == 0 || ((found == 2 || found == 14 || found == 5 || found == 6 || found == 12) && size == 0));
    HOLD((found == FENNELRAKE_REFUSED_KIND) == (kind < FENNELRAKE_MESSAGE || kind > FENNELRAKE_LONG_MESSAGE));
    HOLD((found == FENNELRAKE_REFUSED_URGENCY) == (is_graded(kind) && urgency > FENNELRAKE_VITAL));
    if (found != FENNELRAKE_REFUSED_URGENCY && most_pairs(kind) > 0 && (pairs == 0 || pairs > most_pairs(kind) || pairs > n))
        HOLD(found == FENNELRAKE_REFUSED_VALUE);
    HOLD(size <= room && all_of(answer.bytes + size, room - size, FRESH));
    if (found != 0)
        return;
    HOLD(bits(answer.bytes, 0, 4) == kind && bits(answer.bytes, 4, 32) == time);
    if (is_message(kind) || kind == FENNELRAKE_CANCEL)
        HOLD(bits(answer.bytes, 36, 20) == serial);
    if (is_graded(kind))
        HOLD(bits(answer.bytes, 56, 2) == urgency);
    if (is_message(kind))
        HOLD(pairs_of(answer.bytes) == pairs);
    if (kind == FENNELRAKE_REGISTER)
        HOLD(bits(answer.bytes, 41, 4) + 1 == k && bits(answer.bytes, 45, 3) + 1 == pairs);
    if (kind == FENNELRAKE_REGISTER || kind == FENNELRAKE_DROP)
        HOLD(bits(answer.bytes, 36, 5) == number);
    for (i = 0; i < pairs && most_pairs(kind) > 0; i++) {
        size_t at = is_message(kind) ? pairs_at(kind) + 18 * i : 48 + 14 * i;
        HOLD(bits(answer.bytes, at, 10) == terms.bytes[2 * i] * 256u + terms.bytes[2 * i + 1]);
        HOLD(bits(answer.bytes, at + 10, is_message(kind) ? 8 : 4) == amounts.bytes[i]);
    }
}

/* ---- the target 'passage' */

static uint32_t digest(uint32_t d, uint32_t value)
{
    return (d ^ value) * UINT32_C(16777619);
}

/* How many lines to ask for by a frame's bytes: mostly few, at times about as many as can be, or any number. */
static uint32_t lines_by(const uint8_t *f, size_t length)
{
    uint32_t d = (uint32_t)length;
    size_t i;
    for (i = 0; i < length; i++)
        d = digest(d, f[i]);
    return d % 8 == 0 ? d : d % 8 == 1 ? FENNELRAKE_MOST_SCREEN_LINES - 8 + d / 8 % 16 : d / 8 % 64;
}

/* Hands a frame over, checks everything, and answers a digest of the reply. */
static uint32_t checked_frame(const uint8_t *f, size_t length)
{
    static uint8_t now[FENNELRAKE_STATE_SIZE];
    uint32_t number, marks, departures, left, off = 0, q, i, kind = length > 0 ? f[0] >> 4 : 0, beyond = (uint32_t)(ordinal % 40);

    memcpy(old, state.bytes, state.length);
    HOLD(hand(f, length, FENNELRAKE_FRAME_ANSWER_SIZE - 1) == FENNELRAKE_REFUSED_MEMORY);
    HOLD(all_of(answer.bytes, answer.length, FRESH) && memcmp(old, state.bytes, state.length) == 0);

    number = hand(f, length, FENNELRAKE_FRAME_ANSWER_SIZE);
    HOLD(number <= FENNELRAKE_REFUSED_NOT_IN_USE || number == FENNELRAKE_REFUSED_NOT_IN_FORCE || number == FENNELRAKE_REFUSED_URGENCY);
    HOLD((number == FENNELRAKE_REFUSED_SHORT) == (length < 5));
    HOLD(length < 5 || (number == FENNELRAKE_REFUSED_KIND) == (kind < FENNELRAKE_MESSAGE || kind > FENNELRAKE_LONG_MESSAGE));
    /* a frame that 1 to 4 let pass is whole: its urgency is one of the three, or is what refuses it */
    if (number == 0 || number > FENNELRAKE_REFUSED_FILL)
        HOLD((number == FENNELRAKE_REFUSED_URGENCY) == (is_graded(kind) && bits(f, 56, 2) > FENNELRAKE_VITAL));
    if (number == FENNELRAKE_REFUSED_SERIAL)
        HOLD(is_message(kind) && bits(f, 4, 32) >= word(old, CLOCK) && holder(f) < word(old, COUNT));
    if (number == FENNELRAKE_REFUSED_NOT_IN_FORCE)
        HOLD(kind == FENNELRAKE_CANCEL && length == 7 && bits(f, 4, 32) >= word(old, CLOCK) && holder(f) == word(old, COUNT));
    seen(0, number * 16 + kind);
    if (number != 0) {
        HOLD(all_of(answer.bytes, answer.length, FRESH) && memcmp(old, state.bytes, state.length) == 0);
        check_searches(old, f, length, number);
        check_any_fields(f, length);
        return digest(number, 0);
    }
    marks = fennelrake_marks(answer.bytes);
    departures = fennelrake_departures(answer.bytes);
    memcpy(now, state.bytes, state.length);
    left = check_window(now, f, departures);
    for (q = 0; q < FENNELRAKE_QUERIES; q++) {
        check_mark(now, f, left, q, marks >> q & 1);
        check_list(now, q);
        check_thresholds(now, q);
        if (word(record(now, q), K) != 0)
            seen(1, word(record(now, q), ENTRIES) * 32 + (marks >> q & 1) * 16 + word(record(now, q), K) - 1);
    }
    check_postings(now, word(now, COUNT) > 0 ? term_in(message(now, (uint32_t)ordinal % word(now, COUNT)), 0) : (uint32_t)ordinal % 1024);
    check_searches(now, f, length, UINT32_MAX);
    check_closenesses(now);
    check_screens(lines_by(f, length));
    check_writer(f, length);
    HOLD(list(beyond, FENNELRAKE_LIST_ANSWER_SIZE - 1) == FENNELRAKE_REFUSED_MEMORY && all_of(answer.bytes, answer.length, FRESH));
    HOLD(postings(FENNELRAKE_TERMS + (uint32_t)ordinal, 0) == (uint64_t)FENNELRAKE_REFUSED_VALUE << 32);
    HOLD(memcmp(now, state.bytes, state.length) == 0);
    seen(2, departures);
    seen(3, word(now, COUNT));
    for (i = 0; i < word(now, COUNT); i++)
        off += cancelled(message(now, i));
    seen(9, off);
    return digest(digest(marks, departures), 1);
}

/* One run over the input: a digest of the replies. */
static uint32_t run(const uint8_t *data, size_t size)
{
    uint32_t d = 0, capacity, life, number;

    ordinal = 0;
    question_length = 0;
    lend(&state, FENNELRAKE_STATE_SIZE, 0x5a);
    if (size < 3)
        return 0;
    capacity = data[0] + 1u;
    life = data[1] * 256u + data[2];
    number = fennelrake_start(state.bytes, state.length, capacity, life);
    guarded(&state);
    HOLD(number == (life == 0 ? FENNELRAKE_REFUSED_START : FENNELRAKE_ACCEPTED));
    if (number != 0) {
        HOLD(all_of(state.bytes, state.length, 0x5a));
        return 0;
    }
    data += 3;
    size -= 3;
    while (size > 0) {
        size_t length = *data++;
        size--;
        if (length > size)
            length = size;
        ordinal++;
        d = digest(d, checked_frame(data, length));
        data += length;
        size -= length;
    }
    return d;
}

void passage(const uint8_t *data, size_t size)
{
    static uint8_t end[FENNELRAKE_STATE_SIZE];
    uint32_t d;

    at_start = 0;
    d = run(data, size);
    memcpy(end, state.bytes, state.length);
    at_start = 1;
    moved = size % 4;
    HOLD(run(data, size) == d);
    HOLD(memcmp(end, state.bytes, state.length) == 0);
}

/* ---- the target 'foreign' */

/* The next number in use from one on, around; the one before it where there is none. */
static uint32_t in_use(uint32_t from)
{
    uint32_t i = 0;
    while (i < FENNELRAKE_QUERIES - 1 && word(record(state.bytes, (from + i) % FENNELRAKE_QUERIES), K) == 0)
        i++;
    return (from + i) % FENNELRAKE_QUERIES;
}

/*
 * Puts a value into a word of the state memory. The words that steer a loop are few: those at the start, and the first of a slot and a record. Some
 * values are about the serial words of cancelled messages, and some about sizes with an urgency above them. One is what the word before has, so that a
 * query in use can have a term twice.
 */
static void damage(int steering, const uint8_t *how)
{
    static const uint32_t values[] = {0, 1, 8, 9, 15, 16, 17, 32, 33, 64, 96, 161, 192, 225, 255, 256, 257, FENNELRAKE_TOP_IMPACT, 65535, 0xfffff,
                                      0x100000, 0x2000000, 0x2100000, 0x7fffffff, 0x80000000, 0xfffffffe, 0xffffffff};
    uint32_t i = (how[0] * 256u + how[1]) % (FENNELRAKE_STATE_SIZE / 4), value = values[how[2] % (sizeof values / sizeof values[0])];
    int again = how[2] == 255;

    if (steering && how[0] < 64)
        i = how[0] % HEADER;
    else if (steering && how[0] < 160)
        i = slot_at(how[1], how[0] % (CELL + 1u));
    else if (steering)
        i = RECORDS + RECORD * (again ? in_use(how[1]) : how[1] % 32u) + how[0] % 20u;
    put_word(state.bytes, i, again && i > 0 ? word(state.bytes, i - 1) : value);
}

/* A search for the term of the oldest slot's first cell and the one after it, so that there are postings. */
static uint32_t search_there(uint32_t k)
{
    static const uint8_t weights[] = {3, 1};
    uint8_t both[4] = {0}, bytes[FENNELRAKE_LONGEST_FRAME] = {0};
    uint32_t term = term_in(message(state.bytes, 0), 0), pairs = term < FENNELRAKE_TERMS - 1 ? 2 : 1, entries;
    uint64_t written;

    fennelrake_put_term(both, 0, (uint16_t)term);
    fennelrake_put_term(both, 1, (uint16_t)(term + 1));
    written = fennelrake_write(FENNELRAKE_REGISTER, 0, 0, 0, 0, k, pairs, both, sizeof both, weights, sizeof weights, bytes, sizeof bytes);
    HOLD(search(bytes, fennelrake_size(written), FENNELRAKE_SEARCH_ANSWER_SIZE) == FENNELRAKE_ACCEPTED);
    entries = fennelrake_list_count(answer.bytes);
    HOLD(entries <= k);
    return entries;
}

/* The closeness of some messages to a query. Returns how many are accepted. */
static uint32_t closeness_there(uint32_t number)
{
    uint32_t i, accepted = 0;

    note();
    for (i = 0; i < 16; i++)
        accepted += closeness(part(message(state.bytes, i), SERIAL), number, FENNELRAKE_CLOSENESS_ANSWER_SIZE) == 0;
    unchanged();
    return accepted;
}

/* A screen of so many lines. Returns how many are placed. */
static uint32_t screen_there(uint32_t lines)
{
    uint32_t placed;

    note();
    placed = screen(lines);
    unchanged();
    return placed;
}

/*
 * The first byte says how many bytes after it are laid over the state memory, again and again; with 0 it is a fresh engine's. Then steps: a byte
 * below 192 is a frame's length; another has three more bytes, which say what word is damaged and what is put there.
 */
static void foreign_run(const uint8_t *data, size_t size)
{
    size_t tile, i;

    ordinal = 0;
    lend(&state, FENNELRAKE_STATE_SIZE, 0);
    if (size == 0)
        return;
    tile = data[0] < size - 1 ? data[0] : size - 1;
    if (tile == 0)
        HOLD(fennelrake_start(state.bytes, state.length, 256, 1000) == FENNELRAKE_ACCEPTED);
    for (i = 0; tile > 0 && i < state.length; i++)
        state.bytes[i] = data[1 + i % tile];
    data += 1 + tile;
    size -= 1 + tile;
    while (size > 0) {
        size_t length = *data++;
        size--;
        ordinal++;
        if (length >= 192) {
            if (size < 3)
                return;
            damage(length % 2 == 0, data);
            data += 3;
            size -= 3;
            continue;
        }
        if (length > size)
            length = size;
        seen(4, hand(data, length, FENNELRAKE_FRAME_ANSWER_SIZE));
        seen(5, list((uint32_t)ordinal % 33, FENNELRAKE_LIST_ANSWER_SIZE));
        seen(6, (uint32_t)(postings(term_in(message(state.bytes, 0), 0), FENNELRAKE_POSTINGS_SIZE) >> 32));
        seen(7, (uint32_t)(postings((uint32_t)ordinal, ordinal % 64) >> 32));
        seen(14, search(data, length, FENNELRAKE_SEARCH_ANSWER_SIZE));
        seen(15, search_there(1 + (uint32_t)ordinal % FENNELRAKE_LIST_PLACES));
        seen(17, closeness_there(in_use((uint32_t)ordinal)));
        seen(20, screen_there(lines_by(data, length)));
        data += length;
        size -= length;
    }
}

void foreign(const uint8_t *data, size_t size)
{
    at_start = 0;
    foreign_run(data, size);
    at_start = 1;
    moved = size % 4;
    foreign_run(data, size);
}

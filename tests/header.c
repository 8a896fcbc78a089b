/*
 * The names of include/fennelrake.h against the archive: every size and range at its edge, every number by the call that earns it, every reader.
 * Written in what C99 and C++11 share, so that it's built as both. Lent memory is from the heap and no longer than it says, for valgrind.
 */
#include <fennelrake.h>

#include <stdio.h>
#include <stdlib.h>
#include <string.h>

static unsigned failures;

#define EXPECT(got, want) expect(#got, (got), (want), __LINE__)

static void expect(const char *what, unsigned long got, unsigned long want, int line)
{
    if (got != want) {
        printf("line %d: %s is %lu, and must be %lu\n", line, what, got, want);
        failures++;
    }
}

static uint8_t *lent(size_t length)
{
    uint8_t *bytes = (uint8_t *)malloc(length);

    if (bytes == NULL)
        exit(2);
    memset(bytes, 0xa5, length);
    return bytes;
}

static int untouched(const uint8_t *bytes, size_t length)
{
    size_t i;

    for (i = 0; i < length; i++)
        if (bytes[i] != 0xa5)
            return 0;
    return 1;
}

/* Terms 0, 1, 2 .. and amounts of 1, more than any frame has; and an urgency, which only urgent and long messages have. */
enum { PLENTY = 40 };
static uint8_t terms[2 * PLENTY], amounts[PLENTY];
static uint32_t urgency = UINT32_MAX;

static uint8_t *state, *before, *frame, *reply, *list, *postings, *found, *closeness;
static size_t frame_length;

/* The output of a screen, for a line more than there can be, and what stands on either side of it. */
enum { LINE = FENNELRAKE_SCREEN_LINE_SIZE, SCREEN = LINE * (FENNELRAKE_MOST_SCREEN_LINES + 1), ASIDE = 16, AROUND = ASIDE + SCREEN + ASIDE };
static uint8_t *around, *screen;

/* Makes the terms those from one on, with a first amount and others of one value. */
static void lay(uint16_t from, uint8_t first, uint8_t other)
{
    unsigned i;

    for (i = 0; i < PLENTY; i++)
        fennelrake_put_term(terms, i, (uint16_t)(from + i));
    memset(amounts, other, sizeof amounts);
    amounts[0] = first;
}

/* Writes a frame with the terms, amounts and urgency above. Returns the writer's number. */
static uint32_t written(uint32_t kind, uint32_t time, uint32_t serial, uint32_t number, uint32_t k, uint32_t pairs)
{
    uint64_t r = fennelrake_write(kind, time, serial, urgency, number, k, pairs, terms, sizeof terms, amounts, sizeof amounts, frame,
                                  FENNELRAKE_LONGEST_FRAME);

    frame_length = fennelrake_size(r);
    return fennelrake_number(r);
}

/* Before a call: notes the state, and makes the answer one that nothing was written to. */
static void ready(uint8_t *answer, size_t length)
{
    memcpy(before, state, FENNELRAKE_STATE_SIZE);
    memset(answer, 0xa5, length);
}

/* After it: a refusal must leave state and answer alone, and a call that only reads the state in any case. Returns the call's number. */
static uint32_t judged(uint32_t number, int reads, const uint8_t *answer, size_t length)
{
    if (reads || number != FENNELRAKE_ACCEPTED)
        EXPECT(memcmp(before, state, FENNELRAKE_STATE_SIZE) == 0, 1);
    if (number != FENNELRAKE_ACCEPTED)
        EXPECT(untouched(answer, length), 1);
    return number;
}

/* Hands over the frame written last. */
static uint32_t handed(void)
{
    ready(reply, FENNELRAKE_FRAME_ANSWER_SIZE);
    return judged(fennelrake_frame(state, FENNELRAKE_STATE_SIZE, frame, frame_length, reply, FENNELRAKE_FRAME_ANSWER_SIZE), 0, reply,
                  FENNELRAKE_FRAME_ANSWER_SIZE);
}

/* Writes a frame and hands it over. */
static uint32_t fed(uint32_t kind, uint32_t time, uint32_t serial, uint32_t number, uint32_t k, uint32_t pairs)
{
    EXPECT(written(kind, time, serial, number, k, pairs), FENNELRAKE_ACCEPTED);
    return handed();
}

/* Searches with the frame written last. */
static uint32_t searched(void)
{
    ready(found, FENNELRAKE_SEARCH_ANSWER_SIZE);
    return judged(fennelrake_search(state, FENNELRAKE_STATE_SIZE, frame, frame_length, found, FENNELRAKE_SEARCH_ANSWER_SIZE), 1, found,
                  FENNELRAKE_SEARCH_ANSWER_SIZE);
}

/* Reads a closeness. */
static uint32_t compared(uint32_t serial, uint32_t number)
{
    ready(closeness, FENNELRAKE_CLOSENESS_ANSWER_SIZE);
    return judged(fennelrake_closeness(state, FENNELRAKE_STATE_SIZE, serial, number, closeness, FENNELRAKE_CLOSENESS_ANSWER_SIZE), 1, closeness,
                  FENNELRAKE_CLOSENESS_ANSWER_SIZE);
}

/* What a call returns that refuses and tells a size. */
static uint64_t refusal(uint32_t number)
{
    return (uint64_t)number << 32;
}

/* Asks for a screen in so many bytes, where only the lines placed may be written. Returns what the call does. */
static uint64_t shown(uint32_t lines, size_t room)
{
    uint64_t r;
    size_t length;

    ready(around, AROUND);
    r = fennelrake_screen(state, FENNELRAKE_STATE_SIZE, lines, screen, room);
    length = judged(fennelrake_number(r), 1, around, AROUND) == FENNELRAKE_ACCEPTED ? LINE * (size_t)fennelrake_size(r) : 0;
    EXPECT(length <= room, 1);
    if (length <= room)
        EXPECT(untouched(around, ASIDE) && untouched(screen + length, SCREEN - length + ASIDE), 1);
    return r;
}

static void words(void)
{
    static const uint8_t bytes[] = {0xf1, 0x02, 0x03, 0x04};

    EXPECT(fennelrake_word(bytes), UINT32_C(0xf1020304));
    EXPECT(fennelrake_number(UINT64_C(0xf0000003f0000004)), UINT32_C(0xf0000003));
    EXPECT(fennelrake_size(UINT64_C(0xf0000003f0000004)), UINT32_C(0xf0000004));
}

static void starting(void)
{
    EXPECT(fennelrake_start(state, FENNELRAKE_STATE_SIZE, 0, 1), FENNELRAKE_REFUSED_START);
    EXPECT(fennelrake_start(state, FENNELRAKE_STATE_SIZE, FENNELRAKE_MOST_MESSAGES + 1, 1), FENNELRAKE_REFUSED_START);
    EXPECT(fennelrake_start(state, FENNELRAKE_STATE_SIZE, 1, 0), FENNELRAKE_REFUSED_START);
    EXPECT(fennelrake_start(state, FENNELRAKE_STATE_SIZE - 1, 1, FENNELRAKE_LONGEST_LIFE + 1), FENNELRAKE_REFUSED_START);
    EXPECT(fennelrake_start(state, FENNELRAKE_STATE_SIZE - 1, 1, 1), FENNELRAKE_REFUSED_MEMORY);
    EXPECT(fennelrake_start(NULL, 0, 1, 1), FENNELRAKE_REFUSED_MEMORY);
    EXPECT(untouched(state, FENNELRAKE_STATE_SIZE), 1);
    EXPECT(fennelrake_start(state, FENNELRAKE_STATE_SIZE, FENNELRAKE_MOST_MESSAGES, FENNELRAKE_LONGEST_LIFE), FENNELRAKE_ACCEPTED);
}

static void lengths(void)
{
    EXPECT(written(FENNELRAKE_TICK, 0, 0, 0, 0, 0), FENNELRAKE_ACCEPTED);
    EXPECT(fennelrake_frame(state, FENNELRAKE_STATE_SIZE - 1, frame, 0, reply, FENNELRAKE_FRAME_ANSWER_SIZE), FENNELRAKE_REFUSED_MEMORY);
    EXPECT(fennelrake_frame(state, FENNELRAKE_STATE_SIZE, frame, 0, reply, FENNELRAKE_FRAME_ANSWER_SIZE - 1), FENNELRAKE_REFUSED_MEMORY);
    EXPECT(fennelrake_frame(state, FENNELRAKE_STATE_SIZE, NULL, 0, NULL, 0), FENNELRAKE_REFUSED_MEMORY);
    EXPECT(fennelrake_frame(state, FENNELRAKE_STATE_SIZE, NULL, 0, reply, FENNELRAKE_FRAME_ANSWER_SIZE), FENNELRAKE_REFUSED_SHORT);
    EXPECT(handed(), FENNELRAKE_ACCEPTED);
    EXPECT(fennelrake_list(state, FENNELRAKE_STATE_SIZE, FENNELRAKE_QUERIES, list, FENNELRAKE_LIST_ANSWER_SIZE - 1), FENNELRAKE_REFUSED_MEMORY);
    EXPECT(fennelrake_list(state, FENNELRAKE_STATE_SIZE - 1, 0, list, FENNELRAKE_LIST_ANSWER_SIZE), FENNELRAKE_REFUSED_MEMORY);
    EXPECT(fennelrake_list(state, FENNELRAKE_STATE_SIZE, 0, list, FENNELRAKE_LIST_ANSWER_SIZE), FENNELRAKE_REFUSED_NOT_IN_USE);
    EXPECT(fennelrake_list(state, FENNELRAKE_STATE_SIZE, FENNELRAKE_QUERIES, list, FENNELRAKE_LIST_ANSWER_SIZE), FENNELRAKE_REFUSED_NOT_IN_USE);
    EXPECT(untouched(list, FENNELRAKE_LIST_ANSWER_SIZE), 1);
    EXPECT(fennelrake_number(fennelrake_postings(state, 0, FENNELRAKE_TERMS, postings, 0)), FENNELRAKE_REFUSED_MEMORY);
    EXPECT(fennelrake_number(fennelrake_postings(state, FENNELRAKE_STATE_SIZE, FENNELRAKE_TERMS, NULL, 0)), FENNELRAKE_REFUSED_VALUE);
    EXPECT(fennelrake_postings(state, FENNELRAKE_STATE_SIZE, FENNELRAKE_TERMS - 1, NULL, 0), FENNELRAKE_ACCEPTED);
}

static void frames(void)
{
    /* a tick at 120 */
    static const uint8_t tick[] = {0x20, 0x00, 0x00, 0x07, 0x80};
    uint32_t kind;

    EXPECT(written(FENNELRAKE_TICK, 120, 0, 0, 0, 0), FENNELRAKE_ACCEPTED);
    EXPECT(frame_length == sizeof tick && memcmp(frame, tick, sizeof tick) == 0, 1);
    frame_length = sizeof tick - 1;
    EXPECT(handed(), FENNELRAKE_REFUSED_SHORT);
    frame_length = sizeof tick + 1;
    EXPECT(handed(), FENNELRAKE_REFUSED_LENGTH);
    frame_length = sizeof tick;
    frame[4] = 0x81;
    EXPECT(handed(), FENNELRAKE_REFUSED_FILL);
    for (kind = 0; kind < 16; kind++) {
        frame[0] = (uint8_t)(kind << 4);
        EXPECT(handed(), kind < FENNELRAKE_MESSAGE || kind > FENNELRAKE_LONG_MESSAGE ? FENNELRAKE_REFUSED_KIND
                         : kind == FENNELRAKE_TICK                                   ? FENNELRAKE_REFUSED_FILL
                                                                                     : FENNELRAKE_REFUSED_LENGTH);
    }
}

/* Turns a bit of the frame round. */
static void turn(size_t bit)
{
    frame[bit / 8] = (uint8_t)(frame[bit / 8] ^ 0x80 >> bit % 8);
}

/* A message of three pairs, which begin with bit `first`, and fault after fault in it: each is judged before those that it has already. */
static void faults(uint32_t kind, size_t first)
{
    EXPECT(fennelrake_start(state, FENNELRAKE_STATE_SIZE, 3, 1000), FENNELRAKE_ACCEPTED);
    urgency = FENNELRAKE_VITAL;
    EXPECT(fed(kind, 1, 0, 0, 0, 3), FENNELRAKE_ACCEPTED);
    EXPECT(frame[0] >> 4, kind);
    EXPECT(handed(), FENNELRAKE_REFUSED_SERIAL);
    /* the last bit of the time, of the second term and of the first count, each of which is 1 */
    turn(35);
    EXPECT(handed(), FENNELRAKE_REFUSED_TIME);
    turn(first + 27);
    EXPECT(handed(), FENNELRAKE_REFUSED_ORDER);
    turn(first + 17);
    EXPECT(handed(), FENNELRAKE_REFUSED_VALUE);
    if (kind != FENNELRAKE_MESSAGE) {
        EXPECT(frame[7] >> 6, FENNELRAKE_VITAL);
        turn(57);
        EXPECT(handed(), FENNELRAKE_REFUSED_URGENCY);
    }
    /* the first bit after the pairs; a byte less; and the first bit of the kind, which makes it 9, 14 or 15 */
    turn(first + 54);
    EXPECT(handed(), FENNELRAKE_REFUSED_FILL);
    frame_length--;
    EXPECT(handed(), FENNELRAKE_REFUSED_LENGTH);
    turn(0);
    EXPECT(handed(), FENNELRAKE_REFUSED_KIND);
    frame_length = 4;
    EXPECT(handed(), FENNELRAKE_REFUSED_SHORT);
}

/* The writer on a kind of message, which has up to `most` pairs and is then of `longest` bytes. */
static void message_fields(uint32_t kind, uint32_t most, size_t longest)
{
    EXPECT(written(kind, 0, FENNELRAKE_SERIALS, 0, 0, 1), FENNELRAKE_REFUSED_VALUE);
    EXPECT(written(kind, 0, 0, 0, 0, 0), FENNELRAKE_REFUSED_VALUE);
    EXPECT(written(kind, 0, 0, 0, 0, most + 1), FENNELRAKE_REFUSED_VALUE);
    EXPECT(written(kind, UINT32_MAX, FENNELRAKE_SERIALS - 1, 0, 0, most), FENNELRAKE_ACCEPTED);
    EXPECT(frame_length, longest);
}

static void writing(void)
{
    uint64_t r;

    EXPECT(written(0, 0, 0, 0, 0, 0), FENNELRAKE_REFUSED_KIND);
    urgency = FENNELRAKE_VITAL + 1;
    EXPECT(written(FENNELRAKE_LONG_MESSAGE + 1, 0, FENNELRAKE_SERIALS, 0, 0, 0), FENNELRAKE_REFUSED_KIND);
    EXPECT(written(FENNELRAKE_LONG_MESSAGE, 0, FENNELRAKE_SERIALS, 0, 0, 0), FENNELRAKE_REFUSED_URGENCY);
    EXPECT(written(FENNELRAKE_URGENT_MESSAGE, 0, FENNELRAKE_SERIALS, 0, 0, 0), FENNELRAKE_REFUSED_URGENCY);
    urgency = FENNELRAKE_VITAL;
    message_fields(FENNELRAKE_LONG_MESSAGE, FENNELRAKE_MOST_PAIRS, FENNELRAKE_LONGEST_FRAME);
    message_fields(FENNELRAKE_URGENT_MESSAGE, FENNELRAKE_MOST_SHORT_PAIRS, 44);
    urgency = UINT32_MAX;
    message_fields(FENNELRAKE_MESSAGE, FENNELRAKE_MOST_SHORT_PAIRS, 44);
    EXPECT(written(FENNELRAKE_REGISTER, 0, 0, FENNELRAKE_QUERIES, 1, 1), FENNELRAKE_REFUSED_VALUE);
    EXPECT(written(FENNELRAKE_REGISTER, 0, 0, 0, 0, 1), FENNELRAKE_REFUSED_VALUE);
    EXPECT(written(FENNELRAKE_REGISTER, 0, 0, 0, FENNELRAKE_LIST_PLACES + 1, 1), FENNELRAKE_REFUSED_VALUE);
    EXPECT(written(FENNELRAKE_REGISTER, 0, 0, 0, 1, FENNELRAKE_MOST_QUERY_TERMS + 1), FENNELRAKE_REFUSED_VALUE);
    EXPECT(written(FENNELRAKE_REGISTER, 0, 0, FENNELRAKE_QUERIES - 1, FENNELRAKE_LIST_PLACES, FENNELRAKE_MOST_QUERY_TERMS), FENNELRAKE_ACCEPTED);
    EXPECT(written(FENNELRAKE_DROP, 0, 0, FENNELRAKE_QUERIES, 0, 0), FENNELRAKE_REFUSED_VALUE);
    EXPECT(written(FENNELRAKE_DROP, 0, 0, FENNELRAKE_QUERIES - 1, 0, 0), FENNELRAKE_ACCEPTED);
    EXPECT(written(FENNELRAKE_CANCEL, 0, FENNELRAKE_SERIALS, 0, 0, 0), FENNELRAKE_REFUSED_VALUE);
    EXPECT(written(FENNELRAKE_CANCEL, UINT32_MAX, FENNELRAKE_SERIALS - 1, FENNELRAKE_QUERIES, 0, 0), FENNELRAKE_ACCEPTED);
    EXPECT(frame_length, 7);

    /* terms and amounts: the range of a term, of a weight and of a count; 5 in a later pair comes before 6 in an earlier one */
    fennelrake_put_term(terms, 1, FENNELRAKE_TERMS);
    EXPECT(written(FENNELRAKE_MESSAGE, 0, 0, 0, 0, 2), FENNELRAKE_REFUSED_VALUE);
    fennelrake_put_term(terms, 1, FENNELRAKE_TERMS - 1);
    EXPECT(written(FENNELRAKE_MESSAGE, 0, 0, 0, 0, 2), FENNELRAKE_ACCEPTED);
    EXPECT(written(FENNELRAKE_MESSAGE, 0, 0, 0, 0, 3), FENNELRAKE_REFUSED_ORDER);
    amounts[2] = 0;
    EXPECT(written(FENNELRAKE_MESSAGE, 0, 0, 0, 0, 3), FENNELRAKE_REFUSED_VALUE);
    amounts[2] = 1;
    fennelrake_put_term(terms, 1, 0);
    EXPECT(written(FENNELRAKE_REGISTER, 0, 0, 0, 1, 2), FENNELRAKE_REFUSED_ORDER);
    fennelrake_put_term(terms, 1, 1);
    amounts[1] = FENNELRAKE_MOST_WEIGHT;
    EXPECT(written(FENNELRAKE_REGISTER, 0, 0, 0, 1, 2), FENNELRAKE_ACCEPTED);
    amounts[1] = FENNELRAKE_MOST_WEIGHT + 1;
    EXPECT(written(FENNELRAKE_REGISTER, 0, 0, 0, 1, 2), FENNELRAKE_REFUSED_VALUE);
    /* a count is one byte, and may be any but 0 */
    EXPECT(FENNELRAKE_MOST_COUNT, UINT8_MAX);
    amounts[1] = FENNELRAKE_MOST_COUNT;
    EXPECT(written(FENNELRAKE_MESSAGE, 0, 0, 0, 0, 2), FENNELRAKE_ACCEPTED);
    amounts[1] = 1;

    /* lengths lent: two bytes for each term, an odd one being no term; one for each amount; as many for the frame as it takes */
    EXPECT(fennelrake_number(fennelrake_write(FENNELRAKE_MESSAGE, 0, 0, 0, 0, 0, 2, terms, 3, amounts, 2, frame, FENNELRAKE_LONGEST_FRAME)),
           FENNELRAKE_REFUSED_VALUE);
    EXPECT(fennelrake_number(fennelrake_write(FENNELRAKE_MESSAGE, 0, 0, 0, 0, 0, 2, terms, 4, amounts, 1, frame, FENNELRAKE_LONGEST_FRAME)),
           FENNELRAKE_REFUSED_VALUE);
    r = fennelrake_write(FENNELRAKE_MESSAGE, 0, 0, 0, 0, 0, 2, terms, 4, amounts, 2, frame, FENNELRAKE_LONGEST_FRAME);
    EXPECT(r, 12);
    memset(frame, 0xa5, FENNELRAKE_LONGEST_FRAME);
    r = fennelrake_write(FENNELRAKE_MESSAGE, 0, 0, 0, 0, 0, 2, terms, 4, amounts, 2, frame, 11);
    EXPECT(fennelrake_number(r), FENNELRAKE_REFUSED_MEMORY);
    EXPECT(fennelrake_size(r), 0);
    EXPECT(untouched(frame, FENNELRAKE_LONGEST_FRAME), 1);
    r = fennelrake_write(FENNELRAKE_TICK, 0, FENNELRAKE_SERIALS, UINT32_MAX, FENNELRAKE_QUERIES, 0, 0, NULL, 0, NULL, 0, frame,
                         FENNELRAKE_LONGEST_FRAME);
    EXPECT(r, 5);
    EXPECT(untouched(frame + 5, FENNELRAKE_LONGEST_FRAME - 5), 1);
}

/* Messages alone in force: the impact of the first term and of every other, by their counts. */
static void impacts(void)
{
    static const struct {
        uint32_t kind, pairs;
        uint8_t first, other;
        uint32_t of_first, of_other;
    } rows[] = {
        {FENNELRAKE_MESSAGE, 2, 3, 4, 1200, 1600},
        {FENNELRAKE_MESSAGE, 2, 1, 1, 1414, 1414},
        {FENNELRAKE_MESSAGE, 2, 1, 2, 894, 1788},
        {FENNELRAKE_LONG_MESSAGE, 1, FENNELRAKE_MOST_COUNT, 0, FENNELRAKE_TOP_IMPACT, 0},
        {FENNELRAKE_URGENT_MESSAGE, FENNELRAKE_MOST_SHORT_PAIRS, 1, FENNELRAKE_MOST_COUNT, 2, 516},
        {FENNELRAKE_LONG_MESSAGE, FENNELRAKE_MOST_SHORT_PAIRS + 1, 1, 1, 485, 485},
        {FENNELRAKE_LONG_MESSAGE, FENNELRAKE_MOST_PAIRS, FENNELRAKE_MOST_COUNT, FENNELRAKE_MOST_COUNT, 353, 353},
        {FENNELRAKE_LONG_MESSAGE, FENNELRAKE_MOST_PAIRS, 1, FENNELRAKE_MOST_COUNT, 1, 359},
    };
    uint32_t i, term;

    EXPECT(fennelrake_start(state, FENNELRAKE_STATE_SIZE, 1, 1000), FENNELRAKE_ACCEPTED);
    urgency = FENNELRAKE_ROUTINE;
    for (i = 0; i < sizeof rows / sizeof rows[0]; i++) {
        lay(0, rows[i].first, rows[i].other);
        EXPECT(fed(rows[i].kind, 0, i, 0, 0, rows[i].pairs), FENNELRAKE_ACCEPTED);
        for (term = 0; term < rows[i].pairs; term++) {
            EXPECT(fennelrake_postings(state, FENNELRAKE_STATE_SIZE, term, postings, FENNELRAKE_POSTING_SIZE), 1);
            EXPECT(fennelrake_posting_serial(postings, 0), i);
            EXPECT(fennelrake_posting_impact(postings, 0), term == 0 ? rows[i].of_first : rows[i].of_other);
        }
        EXPECT(fennelrake_postings(state, FENNELRAKE_STATE_SIZE, term, NULL, 0), 0);
    }
    lay(0, 1, 1);
}

/* As many messages as can be in force, each with a term of two bytes of its own value; a query with the longest list. */
static void passage(void)
{
    const uint16_t term = 0x0102;
    uint32_t i;
    uint64_t found;

    EXPECT(fennelrake_start(state, FENNELRAKE_STATE_SIZE, FENNELRAKE_MOST_MESSAGES, 1000), FENNELRAKE_ACCEPTED);
    fennelrake_put_term(terms, 0, term);
    amounts[0] = 3;
    EXPECT(fed(FENNELRAKE_REGISTER, 1, 0, FENNELRAKE_QUERIES - 1, FENNELRAKE_LIST_PLACES, 1), FENNELRAKE_ACCEPTED);
    EXPECT(fennelrake_marks(reply), UINT32_C(0x80000000));
    EXPECT(fed(FENNELRAKE_REGISTER, 1, 0, FENNELRAKE_QUERIES - 1, 1, 1), FENNELRAKE_REFUSED_IN_USE);
    EXPECT(fed(FENNELRAKE_REGISTER, 0, 0, FENNELRAKE_QUERIES - 1, 1, 1), FENNELRAKE_REFUSED_TIME);
    EXPECT(fed(FENNELRAKE_DROP, 1, 0, 0, 0, 0), FENNELRAKE_REFUSED_NOT_IN_USE);
    for (i = 0; i < FENNELRAKE_MOST_MESSAGES; i++)
        EXPECT(fed(FENNELRAKE_MESSAGE, 2, 1000 + i, 0, 0, 1), FENNELRAKE_ACCEPTED);
    EXPECT(fed(FENNELRAKE_MESSAGE, 2, 1000, 0, 0, 1), FENNELRAKE_REFUSED_SERIAL);

    memset(postings, 0xa5, FENNELRAKE_POSTINGS_SIZE);
    found = fennelrake_postings(state, FENNELRAKE_STATE_SIZE, term, postings, FENNELRAKE_POSTINGS_SIZE - 1);
    EXPECT(fennelrake_number(found), FENNELRAKE_REFUSED_MEMORY);
    EXPECT(fennelrake_size(found), 0);
    EXPECT(untouched(postings, FENNELRAKE_POSTINGS_SIZE), 1);
    found = fennelrake_postings(state, FENNELRAKE_STATE_SIZE, term, postings, FENNELRAKE_POSTINGS_SIZE);
    EXPECT(fennelrake_number(found), FENNELRAKE_ACCEPTED);
    EXPECT(fennelrake_size(found), FENNELRAKE_MOST_POSTINGS);
    for (i = 0; i < FENNELRAKE_MOST_POSTINGS; i++) {
        EXPECT(fennelrake_posting_serial(postings, i), 1000 + FENNELRAKE_MOST_MESSAGES - 1 - i);
        EXPECT(fennelrake_posting_impact(postings, i), FENNELRAKE_TOP_IMPACT);
    }

    /* the newest first, each with a weight of 3 times the top of the scale */
    EXPECT(fennelrake_list(state, FENNELRAKE_STATE_SIZE, FENNELRAKE_QUERIES - 1, list, FENNELRAKE_LIST_ANSWER_SIZE), FENNELRAKE_ACCEPTED);
    EXPECT(fennelrake_list_count(list), FENNELRAKE_LIST_PLACES);
    for (i = 0; i < FENNELRAKE_LIST_PLACES; i++) {
        EXPECT(fennelrake_list_serial(list, i), 1000 + FENNELRAKE_MOST_MESSAGES - 1 - i);
        EXPECT(fennelrake_list_score(list, i), 3 * FENNELRAKE_TOP_IMPACT);
    }

    /* the newest is cancelled: the list and the postings begin with the one before it, and its serial is free */
    EXPECT(fed(FENNELRAKE_CANCEL, 2, 1000 + FENNELRAKE_MOST_MESSAGES - 1, 0, 0, 0), FENNELRAKE_ACCEPTED);
    EXPECT(fennelrake_marks(reply), UINT32_C(0x80000000));
    EXPECT(fennelrake_departures(reply), 1);
    EXPECT(fed(FENNELRAKE_CANCEL, 2, 1000 + FENNELRAKE_MOST_MESSAGES - 1, 0, 0, 0), FENNELRAKE_REFUSED_NOT_IN_FORCE);
    EXPECT(fennelrake_list(state, FENNELRAKE_STATE_SIZE, FENNELRAKE_QUERIES - 1, list, FENNELRAKE_LIST_ANSWER_SIZE), FENNELRAKE_ACCEPTED);
    EXPECT(fennelrake_list_serial(list, 0), 1000 + FENNELRAKE_MOST_MESSAGES - 2);
    EXPECT(fennelrake_postings(state, FENNELRAKE_STATE_SIZE, term, postings, FENNELRAKE_POSTINGS_SIZE), FENNELRAKE_MOST_POSTINGS - 1);
    EXPECT(fennelrake_posting_serial(postings, 0), 1000 + FENNELRAKE_MOST_MESSAGES - 2);
    EXPECT(fed(FENNELRAKE_MESSAGE, 2, 1000 + FENNELRAKE_MOST_MESSAGES - 1, 0, 0, 1), FENNELRAKE_ACCEPTED);
    EXPECT(fennelrake_departures(reply), 1);

    /* all leave with one tick, which empties the list; the cancelled one has departed already */
    EXPECT(fed(FENNELRAKE_TICK, 2000, 0, 0, 0, 0), FENNELRAKE_ACCEPTED);
    EXPECT(fennelrake_departures(reply), FENNELRAKE_MOST_MESSAGES - 1);
    for (i = 0; i < 40; i++)
        EXPECT(fennelrake_marked(reply, i), i == FENNELRAKE_QUERIES - 1);
    EXPECT(fennelrake_marked(reply, UINT32_MAX), 0);
    EXPECT(fennelrake_list(state, FENNELRAKE_STATE_SIZE, FENNELRAKE_QUERIES - 1, list, FENNELRAKE_LIST_ANSWER_SIZE), FENNELRAKE_ACCEPTED);
    for (i = 0; i < FENNELRAKE_LIST_ANSWER_SIZE; i++)
        EXPECT(list[i], 0);
    EXPECT(fed(FENNELRAKE_DROP, 2000, 0, FENNELRAKE_QUERIES - 1, 0, 0), FENNELRAKE_ACCEPTED);
    EXPECT(fennelrake_marks(reply), UINT32_C(0x80000000));
    EXPECT(fennelrake_departures(reply), 0);
}

/* A message of each urgency, the most urgent first, and all of one score: the list keeps that order, and the postings turn it round. */
static void urgencies(uint32_t kind)
{
    static const uint32_t grades[] = {FENNELRAKE_VITAL, FENNELRAKE_IMPORTANT, FENNELRAKE_ROUTINE};
    const uint16_t term = 7;
    uint32_t i;

    fennelrake_put_term(terms, 0, term);
    EXPECT(fennelrake_start(state, FENNELRAKE_STATE_SIZE, 3, 1000), FENNELRAKE_ACCEPTED);
    EXPECT(fed(FENNELRAKE_REGISTER, 0, 0, 0, 3, 1), FENNELRAKE_ACCEPTED);
    for (i = 0; i < 3; i++) {
        urgency = grades[i];
        EXPECT(fed(kind, 0, i, 0, 0, 1), FENNELRAKE_ACCEPTED);
    }
    EXPECT(fed(kind, 0, 0, 0, 0, 1), FENNELRAKE_REFUSED_SERIAL);
    EXPECT(fennelrake_list(state, FENNELRAKE_STATE_SIZE, 0, list, FENNELRAKE_LIST_ANSWER_SIZE), FENNELRAKE_ACCEPTED);
    EXPECT(fennelrake_list_count(list), 3);
    EXPECT(fennelrake_postings(state, FENNELRAKE_STATE_SIZE, term, postings, FENNELRAKE_POSTINGS_SIZE), 3);
    for (i = 0; i < 3; i++) {
        EXPECT(fennelrake_list_serial(list, i), i);
        EXPECT(fennelrake_posting_serial(postings, i), 2 - i);
    }
}

/* A message with terms 7 and 8, then three with term 7 alone, and searches for both terms; then every refusal of a search. */
static void searches(void)
{
    uint32_t i, kind;

    EXPECT(fennelrake_start(state, FENNELRAKE_STATE_SIZE, 4, 1000), FENNELRAKE_ACCEPTED);
    fennelrake_put_term(terms, 0, 7);
    fennelrake_put_term(terms, 1, 8);
    amounts[0] = 1;
    amounts[1] = 1;
    for (i = 0; i < 4; i++)
        EXPECT(fed(FENNELRAKE_MESSAGE, 100, FENNELRAKE_SERIALS - 1 - i, 0, 0, i == 0 ? 2 : 1), FENNELRAKE_ACCEPTED);
    EXPECT(fed(FENNELRAKE_REGISTER, 100, 0, FENNELRAKE_QUERIES - 1, 1, 1), FENNELRAKE_ACCEPTED);

    /* a time below the clock, and a number in use; term 8, of two times 1414, is read first, and no message can do better than 3 times 1414 */
    amounts[1] = 2;
    EXPECT(written(FENNELRAKE_REGISTER, 0, 0, FENNELRAKE_QUERIES - 1, 1, 2), FENNELRAKE_ACCEPTED);
    EXPECT(searched(), FENNELRAKE_ACCEPTED);
    EXPECT(fennelrake_list_count(found), 1);
    EXPECT(fennelrake_list_serial(found, 0), FENNELRAKE_SERIALS - 1);
    EXPECT(fennelrake_list_score(found, 0), 3 * 1414);
    for (i = 1; i < FENNELRAKE_LIST_PLACES; i++) {
        EXPECT(fennelrake_list_serial(found, i), 0);
        EXPECT(fennelrake_list_score(found, i), 0);
    }
    EXPECT(fennelrake_search_read(found), 1);

    /* all that there are: a posting for each message, and one more for the first */
    EXPECT(written(FENNELRAKE_REGISTER, UINT32_MAX, 0, 0, FENNELRAKE_LIST_PLACES, 2), FENNELRAKE_ACCEPTED);
    EXPECT(searched(), FENNELRAKE_ACCEPTED);
    EXPECT(fennelrake_list_count(found), 4);
    for (i = 1; i < 4; i++) {
        EXPECT(fennelrake_list_serial(found, i), FENNELRAKE_SERIALS - 1 - (4 - i));
        EXPECT(fennelrake_list_score(found, i), FENNELRAKE_TOP_IMPACT);
    }
    EXPECT(fennelrake_search_read(found), 5);

    memset(found, 0xa5, FENNELRAKE_SEARCH_ANSWER_SIZE);
    EXPECT(fennelrake_search(state, FENNELRAKE_STATE_SIZE - 1, NULL, 0, found, FENNELRAKE_SEARCH_ANSWER_SIZE), FENNELRAKE_REFUSED_MEMORY);
    EXPECT(fennelrake_search(state, FENNELRAKE_STATE_SIZE, NULL, 0, found, FENNELRAKE_SEARCH_ANSWER_SIZE - 1), FENNELRAKE_REFUSED_MEMORY);
    EXPECT(fennelrake_search(NULL, 0, NULL, 0, NULL, 0), FENNELRAKE_REFUSED_MEMORY);
    EXPECT(fennelrake_search(state, FENNELRAKE_STATE_SIZE, NULL, 0, found, FENNELRAKE_SEARCH_ANSWER_SIZE), FENNELRAKE_REFUSED_SHORT);
    EXPECT(untouched(found, FENNELRAKE_SEARCH_ANSWER_SIZE), 1);
    /* 76 bits: four fill the last byte, the second weight before them, and the first one ends with bit 61 */
    EXPECT(frame_length, 10);
    frame[9] |= 0x01;
    EXPECT(searched(), FENNELRAKE_REFUSED_FILL);
    frame_length = 9;
    EXPECT(searched(), FENNELRAKE_REFUSED_LENGTH);
    for (kind = 0; kind < 16; kind++) {
        frame[0] = (uint8_t)(kind << 4);
        EXPECT(searched(), kind == FENNELRAKE_REGISTER ? FENNELRAKE_REFUSED_LENGTH : FENNELRAKE_REFUSED_KIND);
    }
    fennelrake_put_term(terms, 1, 9);
    for (kind = FENNELRAKE_MESSAGE; kind <= FENNELRAKE_LONG_MESSAGE; kind++) {
        EXPECT(written(kind, 100, 1, 1, 1, 2), FENNELRAKE_ACCEPTED);
        EXPECT(searched(), kind == FENNELRAKE_REGISTER ? FENNELRAKE_ACCEPTED : FENNELRAKE_REFUSED_KIND);
    }
    EXPECT(written(FENNELRAKE_REGISTER, 100, 0, 1, 1, 2), FENNELRAKE_ACCEPTED);
    frame[9] = 0;
    EXPECT(searched(), FENNELRAKE_REFUSED_VALUE);
    frame[9] = 0x10;
    frame[8] = 0;
    frame[7] = (uint8_t)(frame[7] & ~0x03);
    EXPECT(searched(), FENNELRAKE_REFUSED_ORDER);
    amounts[1] = 1;
}

/* Expects a closeness that is accepted, of these numbers. */
static void closeness_is(uint32_t serial, uint32_t number, uint32_t quotient, uint32_t remainder)
{
    EXPECT(compared(serial, number), FENNELRAKE_ACCEPTED);
    EXPECT(fennelrake_closeness_quotient(closeness), quotient);
    EXPECT(fennelrake_closeness_remainder(closeness), remainder);
}

/* A message whose terms are those from 0 on, and a query whose terms are those from one on: of both how many, the first amount and every other. */
static void closeness_values(void)
{
    static const struct {
        uint32_t pairs;
        uint8_t count, counts;
        uint16_t from;
        uint32_t asked;
        uint8_t weight, weights;
        uint32_t quotient, remainder;
    } rows[] = {
        {2, 3, 4, 0, 2, 1, 2, 968, 0},
        {2, 2, 1, 0, 2, 1, 2, 640, 0},
        /* in proportion */
        {1, 255, 0, 0, 1, 15, 0, FENNELRAKE_TOP_CLOSENESS, 0},
        {2, 255, 17, 0, 2, 15, 1, FENNELRAKE_TOP_CLOSENESS, 0},
        {8, 17, 255, 0, 8, 1, 15, FENNELRAKE_TOP_CLOSENESS, 0},
        /* nearly so, which is cut; and in proportion but for a term that one side lacks */
        {8, 255, 254, 0, 8, 15, 15, FENNELRAKE_TOP_CLOSENESS - 1, 928371600},
        {2, 1, 1, 0, 1, 1, 0, 500, 0},
        {1, 1, 0, 0, 2, 1, 1, 500, 0},
        /* the last term of one is the first of the other, in a long message and in none; hardly anything shared */
        {17, 1, 1, 16, 8, 1, 1, 7, 48},
        {16, 1, 1, 16, 8, 1, 1, 0, 0},
        {32, 1, 255, 0, 1, 1, 0, 0, 1000},
        /* the greatest divisor, and a remainder that takes all four bytes */
        {32, 255, 255, 0, 8, 15, 15, 250, 0},
        {32, 254, 255, 0, 8, 15, 15, 249, UINT32_C(3055798800)},
    };
    uint32_t i;

    urgency = FENNELRAKE_VITAL;
    for (i = 0; i < sizeof rows / sizeof rows[0]; i++) {
        EXPECT(fennelrake_start(state, FENNELRAKE_STATE_SIZE, 1, 1000), FENNELRAKE_ACCEPTED);
        lay(rows[i].from, rows[i].weight, rows[i].weights);
        EXPECT(fed(FENNELRAKE_REGISTER, 0, 0, FENNELRAKE_QUERIES - 1, 1, rows[i].asked), FENNELRAKE_ACCEPTED);
        lay(0, rows[i].count, rows[i].counts);
        EXPECT(fed(FENNELRAKE_LONG_MESSAGE, 0, FENNELRAKE_SERIALS - 1, 0, 0, rows[i].pairs), FENNELRAKE_ACCEPTED);
        closeness_is(FENNELRAKE_SERIALS - 1, FENNELRAKE_QUERIES - 1, rows[i].quotient, rows[i].remainder);
    }
}

/* Messages come and go beside query 5, which has terms 0 and 1; message i has terms 0 to i - 1 and comes at 10 times i, with four in force at most. */
static void closeness_refusals(void)
{
    static const uint32_t unused[] = {0, 4, FENNELRAKE_QUERIES - 1, FENNELRAKE_QUERIES, FENNELRAKE_QUERIES + 5, UINT32_MAX};
    static const uint32_t unknown[] = {0, 1, 6, FENNELRAKE_SERIALS, FENNELRAKE_SERIALS + 4, 4 * FENNELRAKE_SERIALS + 4, UINT32_MAX};
    uint32_t i;

    EXPECT(fennelrake_start(state, FENNELRAKE_STATE_SIZE, 4, 100), FENNELRAKE_ACCEPTED);
    lay(0, 1, 1);
    EXPECT(fed(FENNELRAKE_REGISTER, 0, 0, 5, 1, 2), FENNELRAKE_ACCEPTED);
    EXPECT(compared(0, 5), FENNELRAKE_REFUSED_NOT_IN_FORCE);
    for (i = 1; i < 6; i++)
        EXPECT(fed(FENNELRAKE_MESSAGE, 10 * i, i, 0, 0, i), FENNELRAKE_ACCEPTED);
    closeness_is(2, 5, FENNELRAKE_TOP_CLOSENESS, 0);
    closeness_is(3, 5, 666, 4);
    closeness_is(4, 5, 500, 0);
    for (i = 0; i < sizeof unused / sizeof unused[0]; i++) {
        EXPECT(compared(4, unused[i]), FENNELRAKE_REFUSED_NOT_IN_USE);
        EXPECT(compared(6, unused[i]), FENNELRAKE_REFUSED_NOT_IN_FORCE);
    }
    /* message 1 has left for the four; of message 4 the slot will say the last serial but one, once it's cancelled */
    for (i = 0; i < sizeof unknown / sizeof unknown[0]; i++)
        EXPECT(compared(unknown[i], 5), FENNELRAKE_REFUSED_NOT_IN_FORCE);
    EXPECT(fed(FENNELRAKE_CANCEL, 50, 4, 0, 0, 0), FENNELRAKE_ACCEPTED);
    EXPECT(compared(4, 5), FENNELRAKE_REFUSED_NOT_IN_FORCE);
    for (i = 0; i < sizeof unknown / sizeof unknown[0]; i++)
        EXPECT(compared(unknown[i], 5), FENNELRAKE_REFUSED_NOT_IN_FORCE);
    /* its serial once more, for which message 2 leaves */
    EXPECT(fed(FENNELRAKE_MESSAGE, 60, 4, 0, 0, 3), FENNELRAKE_ACCEPTED);
    closeness_is(4, 5, 666, 4);
    EXPECT(compared(2, 5), FENNELRAKE_REFUSED_NOT_IN_FORCE);
    /* message 3, of time 30, in its last second and after it */
    EXPECT(fed(FENNELRAKE_TICK, 130, 0, 0, 0, 0), FENNELRAKE_ACCEPTED);
    closeness_is(3, 5, 666, 4);
    EXPECT(fed(FENNELRAKE_TICK, 131, 0, 0, 0, 0), FENNELRAKE_ACCEPTED);
    EXPECT(compared(3, 5), FENNELRAKE_REFUSED_NOT_IN_FORCE);

    /* lengths come before both; a longer answer keeps its other bytes */
    ready(closeness, FENNELRAKE_CLOSENESS_ANSWER_SIZE);
    EXPECT(fennelrake_closeness(state, FENNELRAKE_STATE_SIZE - 1, 6, 6, closeness, FENNELRAKE_CLOSENESS_ANSWER_SIZE), FENNELRAKE_REFUSED_MEMORY);
    EXPECT(fennelrake_closeness(state, FENNELRAKE_STATE_SIZE - 1, 4, 5, closeness, FENNELRAKE_CLOSENESS_ANSWER_SIZE), FENNELRAKE_REFUSED_MEMORY);
    EXPECT(fennelrake_closeness(state, FENNELRAKE_STATE_SIZE, 6, 6, closeness, FENNELRAKE_CLOSENESS_ANSWER_SIZE - 1), FENNELRAKE_REFUSED_MEMORY);
    EXPECT(fennelrake_closeness(state, FENNELRAKE_STATE_SIZE, 4, 5, closeness, FENNELRAKE_CLOSENESS_ANSWER_SIZE - 1), FENNELRAKE_REFUSED_MEMORY);
    EXPECT(fennelrake_closeness(NULL, 0, 4, 5, NULL, 0), FENNELRAKE_REFUSED_MEMORY);
    EXPECT(untouched(closeness, FENNELRAKE_CLOSENESS_ANSWER_SIZE), 1);
    closeness_is(4, 5, 666, 4);
    ready(found, FENNELRAKE_SEARCH_ANSWER_SIZE);
    EXPECT(fennelrake_closeness(state, FENNELRAKE_STATE_SIZE, 4, 5, found, FENNELRAKE_SEARCH_ANSWER_SIZE), FENNELRAKE_ACCEPTED);
    EXPECT(memcmp(found, closeness, FENNELRAKE_CLOSENESS_ANSWER_SIZE) == 0, 1);
    EXPECT(untouched(found + FENNELRAKE_CLOSENESS_ANSWER_SIZE, FENNELRAKE_SEARCH_ANSWER_SIZE - FENNELRAKE_CLOSENESS_ANSWER_SIZE), 1);

    EXPECT(fed(FENNELRAKE_DROP, 131, 0, 5, 0, 0), FENNELRAKE_ACCEPTED);
    EXPECT(compared(4, 5), FENNELRAKE_REFUSED_NOT_IN_USE);
}

/* Expects a line of the screen. */
static void line_is(uint32_t i, uint32_t query, uint32_t serial, uint32_t score)
{
    EXPECT(fennelrake_screen_query(screen, i), query);
    EXPECT(fennelrake_screen_serial(screen, i), serial);
    EXPECT(fennelrake_screen_score(screen, i), score);
}

/* Expects that nothing is placed, however many lines there are. */
static void nothing_shown(void)
{
    uint32_t lines;

    for (lines = 0; lines <= FENNELRAKE_MOST_SCREEN_LINES; lines += lines > 0 ? lines : 1)
        EXPECT(shown(lines, LINE * lines), 0);
}

/* Nothing, then queries 3, 7, 12 and 31 alone; and four messages, of which they have three entries, none, one and four. */
static void screens(void)
{
    static const uint32_t serials[] = {FENNELRAKE_SERIALS - 1, 0x10203, 7, 0x40506};
    static const uint32_t asked[] = {0, 1, 2, 3, 4, 5, 6, 7, 8, 9, 33, FENNELRAKE_MOST_SCREEN_LINES};
    /* every line, in order: a query, which message, its score */
    static const struct {
        uint32_t query, message, score;
    } rows[] = {
        {3, 2, 84840}, {12, 1, 1600}, {31, 3, 5656}, {3, 3, 42420}, {31, 1, 4400}, {3, 1, 42000}, {31, 2, 3535}, {31, 0, 2000},
    };
    const uint32_t all = sizeof rows / sizeof rows[0];
    uint32_t i, j, count;

    EXPECT(fennelrake_start(state, FENNELRAKE_STATE_SIZE, 4, 1000), FENNELRAKE_ACCEPTED);
    nothing_shown();
    lay(0, 1, 2);
    EXPECT(fed(FENNELRAKE_REGISTER, 0, 0, 31, FENNELRAKE_LIST_PLACES, 3), FENNELRAKE_ACCEPTED);
    lay(1, 1, 1);
    EXPECT(fed(FENNELRAKE_REGISTER, 0, 0, 12, 1, 1), FENNELRAKE_ACCEPTED);
    lay(0, FENNELRAKE_MOST_WEIGHT, FENNELRAKE_MOST_WEIGHT);
    EXPECT(fed(FENNELRAKE_REGISTER, 0, 0, 3, 3, FENNELRAKE_MOST_QUERY_TERMS), FENNELRAKE_ACCEPTED);
    lay(500, 1, 1);
    EXPECT(fed(FENNELRAKE_REGISTER, 0, 0, 7, FENNELRAKE_LIST_PLACES, 1), FENNELRAKE_ACCEPTED);
    nothing_shown();
    lay(0, 1, 1);
    EXPECT(fed(FENNELRAKE_MESSAGE, 1, serials[0], 0, 0, 1), FENNELRAKE_ACCEPTED);
    lay(0, 3, 4);
    EXPECT(fed(FENNELRAKE_MESSAGE, 1, serials[1], 0, 0, 2), FENNELRAKE_ACCEPTED);
    lay(0, 1, 1);
    EXPECT(fed(FENNELRAKE_MESSAGE, 1, serials[2], 0, 0, 8), FENNELRAKE_ACCEPTED);
    lay(1, 1, 1);
    EXPECT(fed(FENNELRAKE_MESSAGE, 1, serials[3], 0, 0, 2), FENNELRAKE_ACCEPTED);
    for (i = 0; i < sizeof asked / sizeof asked[0]; i++) {
        count = asked[i] < all ? asked[i] : all;
        EXPECT(shown(asked[i], LINE * asked[i]), count);
        for (j = 0; j < count; j++)
            line_is(j, rows[j].query, serials[rows[j].message], rows[j].score);
        EXPECT(shown(asked[i], SCREEN), count);
        /* as many bytes as the lines asked for, be fewer placed */
        if (asked[i] > 0)
            EXPECT(shown(asked[i], LINE * asked[i] - 1), refusal(FENNELRAKE_REFUSED_MEMORY));
    }
    /* without query 3 */
    EXPECT(fed(FENNELRAKE_DROP, 1, 0, 3, 0, 0), FENNELRAKE_ACCEPTED);
    EXPECT(shown(4, SCREEN), 4);
    for (i = j = 0; i < 4; j++)
        if (rows[j].query != 3)
            line_is(i++, rows[j].query, serials[rows[j].message], rows[j].score);
}

/* As many queries and entries as can be: a message more than a list has places, and each of another score. */
static void full_screen(void)
{
    static const uint32_t asked[] = {1, FENNELRAKE_QUERIES - 1, FENNELRAKE_QUERIES, FENNELRAKE_QUERIES + 1, FENNELRAKE_MOST_SCREEN_LINES - 1,
                                     FENNELRAKE_MOST_SCREEN_LINES};
    uint8_t *exact;
    uint32_t i, j, query;

    EXPECT(FENNELRAKE_QUERIES * FENNELRAKE_LIST_PLACES, FENNELRAKE_MOST_SCREEN_LINES);
    EXPECT(fennelrake_start(state, FENNELRAKE_STATE_SIZE, FENNELRAKE_MOST_MESSAGES, 1000), FENNELRAKE_ACCEPTED);
    for (i = 0; i < FENNELRAKE_QUERIES; i++) {
        lay(7, (uint8_t)(1 + i % FENNELRAKE_MOST_WEIGHT), 1);
        EXPECT(fed(FENNELRAKE_REGISTER, 0, 0, FENNELRAKE_QUERIES - 1 - i, FENNELRAKE_LIST_PLACES, 1), FENNELRAKE_ACCEPTED);
    }
    for (i = 0; i <= FENNELRAKE_LIST_PLACES; i++) {
        lay(7, (uint8_t)(1 + i), 10);
        EXPECT(fed(FENNELRAKE_MESSAGE, 0, 1000 * i, 0, 0, 2), FENNELRAKE_ACCEPTED);
    }
    for (i = 0; i < sizeof asked / sizeof asked[0]; i++) {
        EXPECT(shown(asked[i], LINE * asked[i]), asked[i]);
        for (j = 0; j < asked[i]; j++) {
            query = j % FENNELRAKE_QUERIES;
            EXPECT(fennelrake_list(state, FENNELRAKE_STATE_SIZE, query, list, FENNELRAKE_LIST_ANSWER_SIZE), FENNELRAKE_ACCEPTED);
            line_is(j, query, fennelrake_list_serial(list, j / FENNELRAKE_QUERIES), fennelrake_list_score(list, j / FENNELRAKE_QUERIES));
        }
        /* the same in memory of its own */
        exact = lent(LINE * asked[i]);
        EXPECT(fennelrake_screen(state, FENNELRAKE_STATE_SIZE, asked[i], exact, LINE * asked[i]), asked[i]);
        EXPECT(memcmp(exact, screen, LINE * asked[i]) == 0, 1);
        free(exact);
    }
}

/* Of a screen that has as many lines as can be: the state's length comes first, then the lines asked for, then the output's length. */
static void screen_refusals(void)
{
    /* 9 times the third is 5 in 32 bits */
    static const uint32_t above[] = {FENNELRAKE_MOST_SCREEN_LINES + 1, 65536, 477218589, UINT32_C(0x80000000), UINT32_MAX};
    uint8_t *longer = lent(FENNELRAKE_STATE_SIZE + 1);
    uint32_t i;

    for (i = 0; i < sizeof above / sizeof above[0]; i++) {
        EXPECT(shown(above[i], 0), refusal(FENNELRAKE_REFUSED_VALUE));
        EXPECT(shown(above[i], SCREEN), refusal(FENNELRAKE_REFUSED_VALUE));
        EXPECT(fennelrake_screen(state, FENNELRAKE_STATE_SIZE, above[i], NULL, 0), refusal(FENNELRAKE_REFUSED_VALUE));
    }
    EXPECT(shown(FENNELRAKE_MOST_SCREEN_LINES, LINE * FENNELRAKE_MOST_SCREEN_LINES - 1), refusal(FENNELRAKE_REFUSED_MEMORY));
    EXPECT(shown(1, 0), refusal(FENNELRAKE_REFUSED_MEMORY));
    EXPECT(fennelrake_screen(state, FENNELRAKE_STATE_SIZE, 1, NULL, 0), refusal(FENNELRAKE_REFUSED_MEMORY));
    EXPECT(fennelrake_screen(state, FENNELRAKE_STATE_SIZE, 0, NULL, 0), 0);

    memcpy(longer, state, FENNELRAKE_STATE_SIZE);
    ready(around, AROUND);
    for (i = 0; i < FENNELRAKE_MOST_SCREEN_LINES + 2; i++) {
        EXPECT(fennelrake_screen(state, FENNELRAKE_STATE_SIZE - 1, i, screen, SCREEN), refusal(FENNELRAKE_REFUSED_MEMORY));
        EXPECT(fennelrake_screen(longer, FENNELRAKE_STATE_SIZE + 1, i, screen, SCREEN), refusal(FENNELRAKE_REFUSED_MEMORY));
    }
    EXPECT(fennelrake_screen(NULL, 0, UINT32_MAX, NULL, 0), refusal(FENNELRAKE_REFUSED_MEMORY));
    EXPECT(fennelrake_screen(NULL, 0, 0, NULL, 0), refusal(FENNELRAKE_REFUSED_MEMORY));
    EXPECT(untouched(around, AROUND), 1);
    EXPECT(memcmp(before, state, FENNELRAKE_STATE_SIZE) == 0 && memcmp(before, longer, FENNELRAKE_STATE_SIZE) == 0, 1);
    free(longer);
}

int main(void)
{
    lay(0, 1, 1);
    state = lent(FENNELRAKE_STATE_SIZE);
    before = lent(FENNELRAKE_STATE_SIZE);
    frame = lent(FENNELRAKE_LONGEST_FRAME);
    reply = lent(FENNELRAKE_FRAME_ANSWER_SIZE);
    list = lent(FENNELRAKE_LIST_ANSWER_SIZE);
    postings = lent(FENNELRAKE_POSTINGS_SIZE);
    found = lent(FENNELRAKE_SEARCH_ANSWER_SIZE);
    closeness = lent(FENNELRAKE_CLOSENESS_ANSWER_SIZE);
    around = lent(AROUND);
    screen = around + ASIDE;
    words();
    starting();
    lengths();
    frames();
    faults(FENNELRAKE_MESSAGE, 60);
    faults(FENNELRAKE_URGENT_MESSAGE, 62);
    faults(FENNELRAKE_LONG_MESSAGE, 63);
    writing();
    impacts();
    passage();
    urgencies(FENNELRAKE_URGENT_MESSAGE);
    urgencies(FENNELRAKE_LONG_MESSAGE);
    searches();
    closeness_values();
    closeness_refusals();
    screens();
    full_screen();
    screen_refusals();
    free(state);
    free(before);
    free(frame);
    free(reply);
    free(list);
    free(postings);
    free(found);
    free(closeness);
    free(around);
    return failures == 0 ? 0 : 1;
}

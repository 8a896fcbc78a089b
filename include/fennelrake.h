/*
 * Fennelrake: the message ranker of a ship's docking display, for hosts written in C.
 *
 * The host lends memory. An engine in it takes frames (messages, cancellations of messages, clock ticks, registrations and drops of queries) and
 * keeps, for each registered query, the ranked list of the best messages in force; a query that isn't worth registering is asked once, as a search.
 * How close a message in force is to a registered query is told for print, in tenths of a percent. All registered queries share one screen, whose
 * lines go to their entries in rounds. Nothing is allocated, no file is read or written, and the archive keeps no memory of its own between calls: one
 * memory is one engine. Forty boards are forty memories, and calls on different memories may run at the same time.
 *
 * In every call a slice is a pointer to bytes and their number. It may stand at any address. Where the number is 0 the pointer may be null.
 * In what a call writes into lent output, a number takes four bytes, the most significant first, but for the query of a screen's line, which takes
 * one; the readers at the end of this file take them out.
 *
 * A call is accepted, and returns 0, or is refused under the first number that applies, in the order given with each call. A refusal changes
 * nothing: not the state, not a byte of the output. Bytes past what a call writes are never changed either.
 *
 * What a host must not do:
 *   - lend a slice that a call writes and that overlaps another slice of the same call;
 *   - make two calls at once on one memory;
 *   - write the state memory between calls, but by a new start. (It may be copied or moved as a whole: it holds no address.)
 *   - lend a null pointer with a number of bytes other than 0, or more bytes than there are;
 *   - lend bytes that were never given a value: static memory, calloc or '= {0}' will do. The writer puts single bits into its output, and a
 *     checker of memory reports such bytes.
 * Everything else is judged by the calls themselves; no argument needs a check before.
 *
 * State memory of the right length that no sequence of calls left there (a start never made, a damaged copy) is foreign. Calls on it are safe: they
 * end, and write nothing outside it and the lent output. Nothing more is fixed: not what they return, and not what they write there.
 */
#ifndef FENNELRAKE_H
#define FENNELRAKE_H

#include <stddef.h>
#include <stdint.h>

#ifdef __cplusplus
extern "C" {
#endif

/* ---- sizes in bytes */

#define FENNELRAKE_STATE_SIZE 43680        /* the state memory: exactly so long */
#define FENNELRAKE_FRAME_ANSWER_SIZE 8     /* what fennelrake_frame writes */
#define FENNELRAKE_LIST_ANSWER_SIZE 132    /* what fennelrake_list writes */
#define FENNELRAKE_SEARCH_ANSWER_SIZE 136  /* what fennelrake_search writes */
#define FENNELRAKE_CLOSENESS_ANSWER_SIZE 8 /* what fennelrake_closeness writes */
#define FENNELRAKE_POSTING_SIZE 8          /* what fennelrake_postings writes for each posting */
#define FENNELRAKE_MOST_POSTINGS 256       /* no term has more postings */
#define FENNELRAKE_POSTINGS_SIZE 2048      /* enough for the postings of any term */
#define FENNELRAKE_SCREEN_LINE_SIZE 9      /* what fennelrake_screen writes for each line */
#define FENNELRAKE_LONGEST_FRAME 80        /* enough for fennelrake_write, whatever the frame */

/* ---- ranges */

#define FENNELRAKE_MOST_MESSAGES 256      /* N, the messages in force, is 1 to this */
#define FENNELRAKE_LONGEST_LIFE 65535     /* T, the greatest age in seconds of a message in force, is 1 to this */
#define FENNELRAKE_SERIALS 1048576        /* serials are below this */
#define FENNELRAKE_QUERIES 32             /* query numbers are below this */
#define FENNELRAKE_LIST_PLACES 16         /* k, the length of a list, is 1 to this */
#define FENNELRAKE_TERMS 1024             /* terms are below this */
#define FENNELRAKE_MOST_PAIRS 32          /* a long message has 1 to this many pairs of term and count */
#define FENNELRAKE_MOST_SHORT_PAIRS 16    /* a message of another kind has 1 to this many */
#define FENNELRAKE_MOST_COUNT 255         /* counts are 1 to this */
#define FENNELRAKE_MOST_QUERY_TERMS 8     /* a query has 1 to this many pairs of term and weight */
#define FENNELRAKE_MOST_WEIGHT 15         /* weights are 1 to this */
#define FENNELRAKE_TOP_IMPACT 2000        /* impacts are 0 to this */
#define FENNELRAKE_TOP_CLOSENESS 1000     /* closeness, in tenths of a percent, is 0 to this */
#define FENNELRAKE_MOST_SCREEN_LINES 512  /* a screen has 0 to this many lines */

/* ---- kinds of frame */

enum {
    FENNELRAKE_MESSAGE = 1,
    FENNELRAKE_TICK = 2,
    FENNELRAKE_REGISTER = 3,
    FENNELRAKE_DROP = 4,
    FENNELRAKE_CANCEL = 5,
    FENNELRAKE_URGENT_MESSAGE = 6,        /* a message that says its urgency; FENNELRAKE_MESSAGE means a routine one */
    FENNELRAKE_LONG_MESSAGE = 7           /* the same with up to FENNELRAKE_MOST_PAIRS pairs */
};

/* ---- urgencies of a message: among equal scores the more urgent one stands first */

enum {
    FENNELRAKE_ROUTINE = 0,
    FENNELRAKE_IMPORTANT = 1,
    FENNELRAKE_VITAL = 2
};

/* ---- what a call returns */

enum {
    FENNELRAKE_ACCEPTED = 0,
    FENNELRAKE_REFUSED_SHORT = 1,         /* a frame of fewer than 5 bytes */
    FENNELRAKE_REFUSED_KIND = 2,          /* the kind is none of the seven; in a search any but FENNELRAKE_REGISTER */
    FENNELRAKE_REFUSED_LENGTH = 3,        /* a frame longer or shorter than its fields need */
    FENNELRAKE_REFUSED_FILL = 4,          /* a bit after the frame's last field is one */
    FENNELRAKE_REFUSED_VALUE = 5,         /* a count or weight of 0; in writer and readings a value outside its range */
    FENNELRAKE_REFUSED_ORDER = 6,         /* terms that don't rise from pair to pair */
    FENNELRAKE_REFUSED_TIME = 7,          /* a time below the clock */
    FENNELRAKE_REFUSED_SERIAL = 8,        /* a message with the serial of one in force */
    FENNELRAKE_REFUSED_IN_USE = 9,        /* a registration under a number in use */
    FENNELRAKE_REFUSED_NOT_IN_USE = 10,   /* a drop, a list or a closeness of a number not in use, numbers above 31 included */
    FENNELRAKE_REFUSED_START = 11,        /* N or T outside its range */
    FENNELRAKE_REFUSED_MEMORY = 12,       /* state memory not of its length, or output shorter than needed */
    FENNELRAKE_REFUSED_NOT_IN_FORCE = 13, /* a cancellation or a closeness with a serial that no message in force has */
    FENNELRAKE_REFUSED_URGENCY = 14       /* an urgency of 3; in the writer any above 2 */
};

/* ---- the calls */

/*
 * Makes the state memory a fresh engine: no message, no query, clock 0. In force are those of the last `capacity` accepted messages (N) whose age
 * (clock less arrival time) is at most `life` seconds (T) and that aren't cancelled. What the memory held before doesn't matter. Writes the whole
 * state memory.
 *
 * Refusals, in this order:
 *   11  capacity not 1 to 256, or life not 1 to 65535
 *   12  state_length is not FENNELRAKE_STATE_SIZE
 */
uint32_t fennelrake_start(uint8_t *state, size_t state_length, uint32_t capacity, uint32_t life);

/*
 * Hands a frame to the engine. Accepted, its time becomes the clock, and messages older than T seconds leave: one of age T is still in force.
 * Then a message joins (the oldest leaving where there are N), one is cancelled, a query is registered, or one is dropped; a tick does no more. Every
 * list is up to date when the call returns.
 *
 * A cancelled message isn't in force any more, and its serial may be used again at once. It goes on filling its place among the N until it would have
 * left: so N messages are in force only where none of the last N accepted was cancelled.
 *
 * Writes FENNELRAKE_FRAME_ANSWER_SIZE bytes: the marks and the departures. Bit q of the marks (worth 2 to the q) is set exactly where the frame
 * registers or drops query q, or a message that arrives or leaves has, in one of the query's terms, an impact above the threshold that the engine
 * kept for it. The list of a query that isn't marked is as it was; that of a marked one may have changed. Departures are how many messages were in
 * force before the frame and aren't after it: by their age, for N or cancelled. A message leaves once: one that was cancelled marks nothing and is no
 * departure when its place is taken or its age is past T.
 *
 * Refusals, in this order; a refused frame doesn't move the clock:
 *   12  state_length is not FENNELRAKE_STATE_SIZE, or answer_length is below FENNELRAKE_FRAME_ANSWER_SIZE
 *    1  fewer than 5 bytes
 *    2  a kind other than the seven
 *    3  not as many bytes as the fields need, or too few to tell
 *    4  a bit after the last field is one
 *   14  in an urgent or a long message, the urgency is 3
 *    5  a count or a weight, of any pair, is 0
 *    6  terms don't rise
 *    7  the time is below the clock
 *    8  in a message of any kind, the serial is that of one in force at the frame's time, even of one that would leave for N
 *   13  in a cancellation, the serial is that of none in force at the frame's time
 *    9  the number to register is in use
 *   10  the number to drop isn't in use
 *
 * A frame's bits, the most significant of each byte first; zero bits fill up the last byte. fennelrake_write makes them from the fields.
 *   message   4 kind (1), 32 time, 20 serial, 4 pairs less one, then for each pair 10 term, 8 count
 *   tick      4 kind (2), 32 time
 *   register  4 kind (3), 32 time, 5 number, 4 k less one, 3 pairs less one, then for each pair 10 term, 4 weight
 *   drop      4 kind (4), 32 time, 5 number
 *   cancel    4 kind (5), 32 time, 20 serial
 *   urgent    4 kind (6), 32 time, 20 serial, 2 urgency, 4 pairs less one, then for each pair 10 term, 8 count
 *   long      4 kind (7), 32 time, 20 serial, 2 urgency, 5 pairs less one, then for each pair 10 term, 8 count
 */
uint32_t fennelrake_frame(uint8_t *state, size_t state_length, const uint8_t *bytes, size_t bytes_length, uint8_t *answer, size_t answer_length);

/*
 * Reads the list of query `number`: the k best messages in force of positive score, or all where fewer have one; higher scores first, among equal
 * ones the more urgent message, and among equally urgent ones the later. The score is the sum, over the query's terms, of weight times the term's
 * impact in the message; the urgency is no part of it, nor of the answer.
 *
 * Writes FENNELRAKE_LIST_ANSWER_SIZE bytes: how many entries there are, 16 serials, 16 scores. Places past the entries are 0. The state isn't
 * written.
 *
 * Refusals, in this order:
 *   12  state_length is not FENNELRAKE_STATE_SIZE, or answer_length is below FENNELRAKE_LIST_ANSWER_SIZE
 *   10  no query is registered under this number, or it is above 31
 */
uint32_t fennelrake_list(const uint8_t *state, size_t state_length, uint32_t number, uint8_t *answer, size_t answer_length);

/*
 * Reads the postings of a term: the messages in force that have it, higher impacts first, and among equal ones the later message, however urgent
 * they are. The impact of a term with count f in a message whose counts squared sum to n is the greatest whole w with w * w * n at most the square
 * of FENNELRAKE_TOP_IMPACT * f.
 *
 * Writes FENNELRAKE_POSTING_SIZE bytes for each posting: serial and impact. The state isn't written. FENNELRAKE_POSTINGS_SIZE bytes are always
 * enough; with fewer, it depends on how many postings there are.
 *
 * Returns number times 2 to the 32, plus how many postings there are (0 with a refusal): see fennelrake_number and fennelrake_size.
 *
 * Refusals, in this order:
 *   12  state_length is not FENNELRAKE_STATE_SIZE
 *    5  a term above 1023
 *   12  out_length is below FENNELRAKE_POSTING_SIZE times the number of postings
 */
uint64_t fennelrake_postings(const uint8_t *state, size_t state_length, uint32_t term, uint8_t *out, size_t out_length);

/*
 * Finds the list of a query that isn't registered: the one that registering it now would give. The query is that of a registration frame, whose time
 * and number aren't looked at: the messages are those in force at the engine's clock, and a number in use is as good as any.
 *
 * Beside the list it tells how many postings are read for it, by this rule. The postings of the query's terms (as fennelrake_postings has them) are
 * read one by one: always the next one with the highest weight times impact, and among equal ones that of the lower term. A message is seen once a
 * posting of it is read. Before each posting the search ends if k messages have been seen and the k-th best score among them is strictly above the
 * sum of weight times impact of the next postings, a term without any left giving 0. It ends too when no term has any left.
 *
 * Writes FENNELRAKE_SEARCH_ANSWER_SIZE bytes: what fennelrake_list writes, and then how many postings were read. The state isn't written.
 *
 * Refusals, in this order:
 *   12  state_length is not FENNELRAKE_STATE_SIZE, or answer_length is below FENNELRAKE_SEARCH_ANSWER_SIZE
 *    1  fewer than 5 bytes
 *    2  a kind other than FENNELRAKE_REGISTER, whatever else is wrong with the frame
 *    3  not as many bytes as the fields need, or too few to tell
 *    4  a bit after the last field is one
 *    5  a weight, of any pair, is 0
 *    6  terms don't rise
 */
uint32_t fennelrake_search(const uint8_t *state, size_t state_length, const uint8_t *frame, size_t frame_length,
                           uint8_t *answer, size_t answer_length);

/*
 * Reads how close the message `serial` is to query `number`: their squared cosine in tenths of a percent. The message is one in force at the engine's
 * clock. With s the sum of weight times count over the terms that both have, a the sum of the message's counts squared, and b that of the query's
 * weights squared, it is 1000 * s * s divided by a * b: the quotient, which is cut and never rounded up, and the exact remainder.
 *
 * The quotient is at most FENNELRAKE_TOP_CLOSENESS. It is that, with remainder 0, exactly where counts and weights are in proportion and neither side
 * has a term that the other lacks. Both are 0 exactly where no term is shared. The remainder is below a * b, which is at most 3745440000.
 *
 * Writes FENNELRAKE_CLOSENESS_ANSWER_SIZE bytes: quotient and remainder. The state isn't written.
 *
 * Refusals, in this order:
 *   12  state_length is not FENNELRAKE_STATE_SIZE, or answer_length is below FENNELRAKE_CLOSENESS_ANSWER_SIZE
 *   13  no message in force has this serial: it has aged, left for N, is cancelled, never came, or is above 1048575
 *   10  no query is registered under this number, or it is above 31
 */
uint32_t fennelrake_closeness(const uint8_t *state, size_t state_length, uint32_t serial, uint32_t number, uint8_t *answer, size_t answer_length);

/*
 * Places the entries of all registered queries on one screen; `lines` is how many lines it has. A query's entries are those of its list, as
 * fennelrake_list reads it. Lines go out in rounds: in each, every query with an unplaced entry gets a line for the highest such entry, in rising
 * query number, until lines or entries end.
 *
 * So each registered query gets at least the lesser of its entries and `lines` divided by the number of registered queries (rounded down), and never
 * more lines than entries; its own lines stand in its list's order. The lines placed are the lesser of `lines` and all entries: none where no query
 * is registered.
 *
 * Writes FENNELRAKE_SCREEN_LINE_SIZE bytes for each line placed, in order: the query (one byte), serial and score. The output must have room for all
 * of `lines`, FENNELRAKE_SCREEN_LINE_SIZE bytes each, however few are placed. The state isn't written.
 *
 * Returns number times 2 to the 32, plus how many lines are placed (0 with a refusal): see fennelrake_number and fennelrake_size.
 *
 * Refusals, in this order:
 *   12  state_length is not FENNELRAKE_STATE_SIZE
 *    5  lines above 512
 *   12  out_length is below FENNELRAKE_SCREEN_LINE_SIZE times lines
 */
uint64_t fennelrake_screen(const uint8_t *state, size_t state_length, uint32_t lines, uint8_t *out, size_t out_length);

/*
 * Writes the frame with these fields into out. Only the fields of the kind are looked at:
 *   FENNELRAKE_MESSAGE         time, serial, pairs, terms, amounts (counts)
 *   FENNELRAKE_TICK            time
 *   FENNELRAKE_REGISTER        time, number, k, pairs, terms, amounts (weights)
 *   FENNELRAKE_DROP            time, number
 *   FENNELRAKE_CANCEL          time, serial
 *   FENNELRAKE_URGENT_MESSAGE  time, serial, urgency, pairs, terms, amounts (counts)
 *   FENNELRAKE_LONG_MESSAGE    time, serial, urgency, pairs, terms, amounts (counts)
 * The others may be anything; slices that aren't looked at may be null with length 0.
 *
 * Terms are two bytes each, the higher byte first (fennelrake_put_term puts one); amounts are one byte each. The first `pairs` of both are the
 * frame's pairs, and what follows them isn't looked at. terms_length is a number of bytes: at least two times `pairs`.
 *
 * Returns number times 2 to the 32, plus the frame's length in bytes (0 with a refusal): see fennelrake_number and fennelrake_size. Writes as many
 * bytes. No engine is asked: whether time, serial and number suit one is judged when the frame is handed to it.
 *
 * Refusals, in this order:
 *    2  a kind other than the seven
 *   14  an urgency above 2
 *    5  a value outside its range: serial above 1048575; number above 31; k not 1 to 16; pairs not 1 to 32 in a long message, 1 to 16 in another
 *       or 1 to 8 in a registration, or more than the terms or the amounts lent (a last odd byte of terms is no term); and in any pair a term above
 *       1023, a count of 0, a weight not 1 to 15. A time may be any number.
 *    6  terms don't rise
 *   12  out_length is below the frame's length; FENNELRAKE_LONGEST_FRAME bytes are always enough
 */
uint64_t fennelrake_write(uint32_t kind, uint32_t time, uint32_t serial, uint32_t urgency, uint32_t number, uint32_t k, uint32_t pairs,
                          const uint8_t *terms, size_t terms_length, const uint8_t *amounts, size_t amounts_length,
                          uint8_t *out, size_t out_length);

/* ---- readers of what a call returned or wrote; of lent bytes only where the call was accepted */

/* The number from fennelrake_postings, fennelrake_screen and fennelrake_write: 0, or the refusal. */
static inline uint32_t fennelrake_number(uint64_t returned)
{
    return (uint32_t)(returned >> 32);
}

/* How many postings there are; how many lines are placed; the length of the frame written. */
static inline uint32_t fennelrake_size(uint64_t returned)
{
    return (uint32_t)(returned & UINT32_MAX);
}

/* The four bytes at `bytes` as a number. */
static inline uint32_t fennelrake_word(const uint8_t *bytes)
{
    return bytes[0] * UINT32_C(16777216) + bytes[1] * UINT32_C(65536) + bytes[2] * UINT32_C(256) + bytes[3];
}

/* The answer of fennelrake_frame: all marks; whether query q is marked (1 or 0); the departures. */
static inline uint32_t fennelrake_marks(const uint8_t *answer)
{
    return fennelrake_word(answer);
}

static inline int fennelrake_marked(const uint8_t *answer, uint32_t q)
{
    return q < FENNELRAKE_QUERIES && (fennelrake_marks(answer) >> q & 1) == 1;
}

static inline uint32_t fennelrake_departures(const uint8_t *answer)
{
    return fennelrake_word(answer + 4);
}

/* The answer of fennelrake_list or of fennelrake_search: how many entries there are; serial and score of entry i, the best being entry 0, for i
   below 16. */
static inline uint32_t fennelrake_list_count(const uint8_t *answer)
{
    return fennelrake_word(answer);
}

static inline uint32_t fennelrake_list_serial(const uint8_t *answer, size_t i)
{
    return fennelrake_word(answer + 4 + 4 * i);
}

static inline uint32_t fennelrake_list_score(const uint8_t *answer, size_t i)
{
    return fennelrake_word(answer + 4 + 4 * FENNELRAKE_LIST_PLACES + 4 * i);
}

/* The answer of fennelrake_search: how many postings were read. */
static inline uint32_t fennelrake_search_read(const uint8_t *answer)
{
    return fennelrake_word(answer + FENNELRAKE_LIST_ANSWER_SIZE);
}

/* The answer of fennelrake_closeness: the closeness in tenths of a percent, and what the division left. */
static inline uint32_t fennelrake_closeness_quotient(const uint8_t *answer)
{
    return fennelrake_word(answer);
}

static inline uint32_t fennelrake_closeness_remainder(const uint8_t *answer)
{
    return fennelrake_word(answer + 4);
}

/* The output of fennelrake_postings: serial and impact of posting i, the first being posting 0, for i below their number. */
static inline uint32_t fennelrake_posting_serial(const uint8_t *out, size_t i)
{
    return fennelrake_word(out + FENNELRAKE_POSTING_SIZE * i);
}

static inline uint32_t fennelrake_posting_impact(const uint8_t *out, size_t i)
{
    return fennelrake_word(out + FENNELRAKE_POSTING_SIZE * i + 4);
}

/* The output of fennelrake_screen: query, serial and score of line i, the first being line 0, for i below the number placed. */
static inline uint32_t fennelrake_screen_query(const uint8_t *out, size_t i)
{
    return out[FENNELRAKE_SCREEN_LINE_SIZE * i];
}

static inline uint32_t fennelrake_screen_serial(const uint8_t *out, size_t i)
{
    return fennelrake_word(out + FENNELRAKE_SCREEN_LINE_SIZE * i + 1);
}

static inline uint32_t fennelrake_screen_score(const uint8_t *out, size_t i)
{
    return fennelrake_word(out + FENNELRAKE_SCREEN_LINE_SIZE * i + 5);
}

/* Puts a term in place i of the terms for fennelrake_write. */
static inline void fennelrake_put_term(uint8_t *terms, size_t i, uint16_t term)
{
    terms[2 * i] = (uint8_t)(term >> 8);
    terms[2 * i + 1] = (uint8_t)(term & 255);
}

#ifdef __cplusplus
}
#endif

#endif

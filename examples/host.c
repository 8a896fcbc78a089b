/*
 * A host: it lends an engine its memory, writes the frames of a passage, hands them over, and prints what it hears.
 *
 *   cc -std=c99 host.c $(pkg-config --cflags --libs fennelrake) -o host && ./host
 *
 * The passage is C10 of the document that describes the ranker: at most 3 messages in force, each up to the age of 100 seconds. Then a message is
 * cancelled and sent again, mended; of messages with equal scores a vital one stands first; a long message has more terms than another could; the
 * last message is as close to the query as can be; and two more queries share the screen. The lines printed are the document's:
 *
 *   ordinal, number, marks, departures      for each frame
 *   Q, query, entries, serial and score ..  after it, for each marked query that is still registered
 *
 * and more after each frame, of what a training board shows beside the lists:
 *
 *   P, term, postings, serial and impact ..         for term 5
 *   S, postings read, entries, serial and score ..  for a query that isn't registered, of terms 5 and 40
 *   C, query, serial, closeness in percent          for each message in the list of query 0
 *   L, query, serial, score                         for each line of a screen of four, which all queries share
 */
#include <fennelrake.h>

#include <stdio.h>
#include <stdlib.h>

/* The fields of a frame; those that its kind doesn't have are 0. */
struct fields {
    uint32_t kind, time, serial, urgency, number, k, pairs;
    uint16_t terms[FENNELRAKE_MOST_PAIRS];
    uint8_t amounts[FENNELRAKE_MOST_PAIRS]; /* the counts of a message, the weights of a query */
};

static const struct fields passage[] = {
    /* query 0, the best 2 messages: term 5 with weight 1, term 9 with weight 2 */
    {FENNELRAKE_REGISTER, 0, 0, 0, 0, 2, 2, {5, 9}, {1, 2}},
    /* serial 1 has term 5 three times and term 9 four times; and so on */
    {FENNELRAKE_MESSAGE, 10, 1, 0, 0, 0, 2, {5, 9}, {3, 4}},
    {FENNELRAKE_MESSAGE, 20, 2, 0, 0, 0, 1, {5}, {1}},
    {FENNELRAKE_MESSAGE, 30, 3, 0, 0, 0, 2, {9, 40}, {1, 1}},
    /* the fourth message is one more than can be in force: serial 1 leaves */
    {FENNELRAKE_MESSAGE, 40, 4, 0, 0, 0, 2, {5, 6}, {1, 2}},
    /* the clock moves on to 120: serial 2, of time 20, is 100 seconds old and in its last second */
    {FENNELRAKE_TICK, 120, 0, 0, 0, 0, 0, {0}, {0}},
    /* a time before the clock: refused as 7, and nothing changes */
    {FENNELRAKE_MESSAGE, 119, 9, 0, 0, 0, 1, {5}, {1}},
    /* the port cancels serial 2: it departs, off the list and the postings at once */
    {FENNELRAKE_CANCEL, 120, 2, 0, 0, 0, 0, {0}, {0}},
    /* and sends it again under the same serial; that the cancelled one has come of age by now is no departure */
    {FENNELRAKE_MESSAGE, 121, 2, 0, 0, 0, 2, {5, 9}, {1, 1}},
    /* a vital message of the same score, and then a routine one, which is the latest: the vital one stays first, but in the postings the latest is */
    {FENNELRAKE_URGENT_MESSAGE, 122, 5, FENNELRAKE_VITAL, 0, 0, 2, {5, 9}, {1, 1}},
    {FENNELRAKE_MESSAGE, 123, 6, 0, 0, 0, 2, {5, 9}, {1, 1}},
    /* a dredging notice of 17 terms, most of all about the query's: it comes first by its score, and the vital message after it */
    {FENNELRAKE_LONG_MESSAGE, 124, 7, FENNELRAKE_ROUTINE, 0, 0, 17,
     {5, 9, 60, 61, 62, 63, 64, 65, 66, 67, 68, 69, 70, 71, 72, 73, 74},
     {8, 16, 1, 1, 1, 1, 1, 1, 1, 1, 1, 1, 1, 1, 1, 1, 1}},
    /* the query's terms and no others, with counts in proportion to its weights */
    {FENNELRAKE_MESSAGE, 125, 8, 0, 0, 0, 2, {5, 9}, {3, 6}},
    /* query 1 by term 9 alone: the four lines go to the first and the second entry of both queries */
    {FENNELRAKE_REGISTER, 126, 0, 0, 1, 3, 1, {9}, {1}},
    /* query 2 by term 5 alone: each query has a line before query 0 has its second */
    {FENNELRAKE_REGISTER, 127, 0, 0, 2, 3, 1, {5}, {1}},
};

/* What a pilot asks for once, the best 2 messages: term 5 with weight 1, term 40 with weight 2. Time and number aren't looked at. */
static const struct fields question = {FENNELRAKE_REGISTER, 0, 0, 0, 0, 2, 2, {5, 40}, {1, 2}};

/* Writes a frame into out. Returns its length, or ends the program: fields that can't be written are a mistake in the table above. */
static size_t write_frame(const struct fields *f, uint8_t *out, size_t out_length)
{
    uint8_t terms[2 * FENNELRAKE_MOST_PAIRS] = {0};
    uint64_t written;
    size_t i;

    for (i = 0; i < FENNELRAKE_MOST_PAIRS; i++)
        fennelrake_put_term(terms, i, f->terms[i]);
    written = fennelrake_write(f->kind, f->time, f->serial, f->urgency, f->number, f->k, f->pairs, terms, sizeof terms, f->amounts,
                               sizeof f->amounts, out, out_length);
    if (fennelrake_number(written) != FENNELRAKE_ACCEPTED) {
        fprintf(stderr, "host: the writer refuses a frame as %u\n", fennelrake_number(written));
        exit(1);
    }
    return fennelrake_size(written);
}

/* The rest of a line: the entries of a list, which a reading and a search lay out alike. */
static void print_entries(const uint8_t *list)
{
    size_t i;

    printf(" %u", fennelrake_list_count(list));
    for (i = 0; i < fennelrake_list_count(list); i++)
        printf(" %u %u", fennelrake_list_serial(list, i), fennelrake_list_score(list, i));
    printf("\n");
}

static void print_list(const uint8_t *state, uint32_t query)
{
    uint8_t list[FENNELRAKE_LIST_ANSWER_SIZE] = {0};

    /* a dropped query is marked too, and has no list: reading it is refused as 10 */
    if (fennelrake_list(state, FENNELRAKE_STATE_SIZE, query, list, sizeof list) != FENNELRAKE_ACCEPTED)
        return;
    printf("Q %u", query);
    print_entries(list);
}

static void print_postings(const uint8_t *state, uint32_t term)
{
    uint8_t out[FENNELRAKE_POSTINGS_SIZE] = {0};
    uint64_t found = fennelrake_postings(state, FENNELRAKE_STATE_SIZE, term, out, sizeof out);
    size_t i;

    /* a refusal finds none */
    printf("P %u %u", term, fennelrake_size(found));
    for (i = 0; i < fennelrake_size(found); i++)
        printf(" %u %u", fennelrake_posting_serial(out, i), fennelrake_posting_impact(out, i));
    printf("\n");
}

static void print_search(const uint8_t *state, const struct fields *query)
{
    uint8_t frame[FENNELRAKE_LONGEST_FRAME] = {0};
    uint8_t found[FENNELRAKE_SEARCH_ANSWER_SIZE] = {0};
    size_t length = write_frame(query, frame, sizeof frame);

    /* a refusal finds nothing, by the first value of the answer */
    fennelrake_search(state, FENNELRAKE_STATE_SIZE, frame, length, found, sizeof found);
    printf("S %u", fennelrake_search_read(found));
    print_entries(found);
}

enum { PERCENT_SIZE = 16 }; /* enough for any number of tenths */

/* The printed form of a closeness, which is in tenths of a percent: 968 is "96.8 %". As it's cut, only a message in proportion to the query is
   "100.0 %". */
static void put_percent(uint32_t closeness, char out[PERCENT_SIZE])
{
    snprintf(out, PERCENT_SIZE, "%u.%u %%", closeness / 10, closeness % 10);
}

static void print_closeness(const uint8_t *state, uint32_t query)
{
    uint8_t list[FENNELRAKE_LIST_ANSWER_SIZE] = {0};
    size_t i;

    /* a refusal lists nothing, by the first value of the answer; and what is listed is in force, so that its closeness isn't refused */
    fennelrake_list(state, FENNELRAKE_STATE_SIZE, query, list, sizeof list);
    for (i = 0; i < fennelrake_list_count(list); i++) {
        uint8_t answer[FENNELRAKE_CLOSENESS_ANSWER_SIZE] = {0};
        uint32_t serial = fennelrake_list_serial(list, i);
        char percent[PERCENT_SIZE];

        fennelrake_closeness(state, FENNELRAKE_STATE_SIZE, serial, query, answer, sizeof answer);
        put_percent(fennelrake_closeness_quotient(answer), percent);
        printf("C %u %u %s\n", query, serial, percent);
    }
}

enum { SCREEN_LINES = 4 };

static void print_screen(const uint8_t *state)
{
    /* room for every line, even where fewer are placed */
    uint8_t out[FENNELRAKE_SCREEN_LINE_SIZE * SCREEN_LINES] = {0};
    uint64_t placed = fennelrake_screen(state, FENNELRAKE_STATE_SIZE, SCREEN_LINES, out, sizeof out);
    size_t i;

    /* a refusal places none */
    for (i = 0; i < fennelrake_size(placed); i++)
        printf("L %u %u %u\n", fennelrake_screen_query(out, i), fennelrake_screen_serial(out, i), fennelrake_screen_score(out, i));
}

int main(void)
{
    /* One memory is one engine. It belongs to the engine until the host frees it: read it by the calls alone, and don't write it. */
    uint8_t *state = calloc(1, FENNELRAKE_STATE_SIZE);
    uint32_t number;
    size_t i;

    if (state == NULL) {
        fprintf(stderr, "host: no memory\n");
        return 1;
    }
    number = fennelrake_start(state, FENNELRAKE_STATE_SIZE, 3, 100);
    if (number != FENNELRAKE_ACCEPTED) {
        fprintf(stderr, "host: the start is refused as %u\n", number);
        free(state);
        return 1;
    }
    for (i = 0; i < sizeof passage / sizeof passage[0]; i++) {
        uint8_t frame[FENNELRAKE_LONGEST_FRAME] = {0};
        uint8_t answer[FENNELRAKE_FRAME_ANSWER_SIZE] = {0};
        size_t length = write_frame(&passage[i], frame, sizeof frame);
        uint32_t q;

        /* a refusal leaves the answer as it was: no marks and no departures, by its first value */
        number = fennelrake_frame(state, FENNELRAKE_STATE_SIZE, frame, length, answer, sizeof answer);
        printf("%u %u %08x %u\n", (unsigned)i + 1, number, fennelrake_marks(answer), fennelrake_departures(answer));
        for (q = 0; q < FENNELRAKE_QUERIES; q++)
            if (fennelrake_marked(answer, q))
                print_list(state, q);
        print_postings(state, 5);
        print_search(state, &question);
        print_closeness(state, 0);
        print_screen(state);
    }
    free(state);
    return 0;
}

/*
 * The targets without a fuzzer:
 *   replay passage|foreign FILE..        runs each file as an input of that target
 *   replay random SEED COUNT             runs so many inputs of both, made from the seed
 *   replay make TARGET SEED DIR COUNT    writes shorter ones into a folder, for a fuzzer to start from
 */
#include "fuzz.h"

#include "fennelrake.h"

#include <stdio.h>
#include <stdlib.h>
#include <string.h>

/* ---- numbers from a seed */

static uint64_t drawn;

static uint32_t below(uint32_t n)
{
    drawn ^= drawn << 13;
    drawn ^= drawn >> 7;
    drawn ^= drawn << 17;
    return (uint32_t)((drawn * UINT64_C(0x2545f4914f6cdd1d) >> 32) % n);
}

/* ---- inputs */

static uint8_t made[1 << 16]; /* far more than an input of either target takes */
static size_t size;

static void put(uint32_t byte)
{
    made[size++] = (uint8_t)byte;
}

static uint32_t sent[8]; /* serials of the messages put last */
static size_t messages;
static int alike; /* whether messages and queries have one and the same term, so that scores are equal */
static int once;  /* whether all counts and weights are 1, so that terms of a search have equal postings to read next */
static int crowd; /* whether most frames register a query of a long list or send a message, so that a screen has many lines */

/*
 * What is no frame at all still serves as fields for the writer. Half of them are in range, with more terms and amounts than any kind takes, but for
 * the kind in byte 0 and the number of pairs in byte 10; byte 8 shifts the serial into its range.
 */
static void put_fields(void)
{
    uint32_t any = below(2) == 0, length = any ? 12 + below(40) : 120, i;

    put(length);
    for (i = 0; i < length; i++) {
        if (any)
            put(below(3) == 0 ? below(256) : i < 8 ? below(4) : i % 3);
        else
            put(i == 0 || i == 10 ? below(256) : i == 8 ? 12 : 1 + below(3));
    }
}

/* Makes some bits of a frame 0. */
static void clear(uint8_t *frame, uint32_t at, uint32_t width)
{
    for (; width > 0; at++, width--)
        frame[at / 8] &= (uint8_t)~(0x80 >> at % 8);
}

/*
 * A frame after its length: few terms, serials and queries, so that much is shared; one in eight is damaged. As many cancel a message as send one,
 * mostly one of the last; some send one of these serials again. Two in three messages say an urgency, and a few of them one that there isn't, be the
 * first count 0 or not. A third of the messages and of the queries have terms side by side, half of these as many as their kind can; in a fourth most
 * counts or weights are as high as can be. A few registrations have a weight of 0, be there a bit in the fill or terms that don't rise or not.
 */
static void put_frame(uint32_t *clock, uint32_t life)
{
    static const uint32_t kinds[] = {FENNELRAKE_MESSAGE, FENNELRAKE_URGENT_MESSAGE, FENNELRAKE_LONG_MESSAGE};
    uint8_t terms[2 * FENNELRAKE_MOST_PAIRS], amounts[FENNELRAKE_MOST_PAIRS], frame[FENNELRAKE_LONGEST_FRAME + 1] = {0};
    uint32_t kind = crowd && below(4) > 0 ? 1 + 2 * below(2) : below(13), apart = below(4) == 0 ? 120 : 6, reach = 3 * apart;
    uint32_t most = FENNELRAKE_MOST_QUERY_TERMS, pairs = 0, term, length, i, time, serial, number, k, top;
    int is_message = kind > 2 && kind < 8, high = below(4) == 0;

    kind = kind > 7 ? FENNELRAKE_CANCEL : is_message ? kinds[below(3)] : kind + 2;
    if (is_message)
        most = kind == FENNELRAKE_LONG_MESSAGE ? FENNELRAKE_MOST_PAIRS : FENNELRAKE_MOST_SHORT_PAIRS;
    top = is_message ? FENNELRAKE_MOST_COUNT : FENNELRAKE_MOST_WEIGHT;
    if (below(3) == 0) {
        most -= below(2) * below(most);
        reach = most;
        apart = 1;
    }
    for (term = below(apart); pairs < most && term < reach; term += 1 + below(apart)) {
        fennelrake_put_term(terms, pairs, (uint16_t)(term < reach - 1 ? term : FENNELRAKE_TERMS - 1));
        amounts[pairs++] = (uint8_t)(once ? 1 : high && below(8) > 0 ? top : 1 + below(below(16) == 0 ? top : 4));
    }
    if (alike) {
        fennelrake_put_term(terms, 0, 0);
        pairs = 1;
    }
    *clock += below(crowd ? 96 : 24) == 0 ? life + below(2) : below(3);
    time = *clock - (below(32) == 0);
    serial = below(below(8) == 0 ? FENNELRAKE_SERIALS : 64);
    if (below(8) < (kind == FENNELRAKE_CANCEL ? 7 : 2))
        serial = sent[below(8)];
    if (is_message)
        sent[messages++ % 8] = serial;
    number = below(crowd || below(3) == 0 ? FENNELRAKE_QUERIES : 6);
    k = crowd ? FENNELRAKE_LIST_PLACES : 1 + below(below(3) == 0 ? FENNELRAKE_LIST_PLACES : 3);
    length = fennelrake_size(
        fennelrake_write(kind, time, serial, below(3), number, k, pairs, terms, 2 * pairs, amounts, pairs, frame, FENNELRAKE_LONGEST_FRAME));
    if ((kind == FENNELRAKE_URGENT_MESSAGE || kind == FENNELRAKE_LONG_MESSAGE) && below(16) == 0) {
        frame[7] |= 0xc0;
        clear(frame, kind == FENNELRAKE_LONG_MESSAGE ? 73 : 72, 8 * below(2)); /* the first count */
    }
    /* the first pair of a registration: its term's bits begin with byte 6 */
    if (kind == FENNELRAKE_REGISTER && below(8) == 0) {
        clear(frame, 58, 4);
        frame[6] |= (uint8_t)(below(2) * 0xff);
        frame[length - 1] |= (uint8_t)below(2);
    }
    if (below(16) == 0) {
        i = below(8 * length);
        frame[i / 8] ^= (uint8_t)(1 << i % 8);
    } else if (below(16) == 0) {
        length = below(length + 2);
    }
    put(length);
    for (i = 0; i < length; i++)
        put(frame[i]);
    if (below(16) == 0)
        put_fields();
}

static void make_passage(uint32_t most)
{
    uint32_t frames = below(most), clock = below(8) == 0 ? UINT32_MAX - 300 : 0, life = 1 + below(below(3) == 0 ? FENNELRAKE_LONGEST_LIFE : 120);

    if (below(30) == 0)
        life = 0;
    size = 0;
    put(crowd || below(4) == 0 ? below(256) : below(12));
    put(life >> 8);
    put(life & 255);
    while (frames-- > 0)
        put_frame(&clock, life);
    if (below(8) == 0)
        size -= below(4) % (size + 1);
}

/* A damage: to any word; or, of words 3 to 5 of a record in use, the pair before it once more. */
static void put_damage(void)
{
    int twice = below(2) == 0;

    put(twice ? 192 : 192 + below(64));
    put(twice ? 163 + below(3) : below(256));
    put(below(256));
    put(twice ? 255 : below(256));
}

static void make_foreign(uint32_t most)
{
    uint32_t steps = below(most), tile = below(2) == 0 ? below(40) : 0, clock = below(3) == 0 ? UINT32_MAX - 300 : 0, i;

    size = 0;
    put(tile);
    for (i = 0; i < tile; i++)
        put(below(3) == 0 ? below(256) : 0);
    while (steps-- > 0) {
        if (below(6) > 0)
            put_frame(&clock, 1000);
        else
            put_damage();
    }
}

/* Makes an input of a target, of fewer than so many frames. */
static void make(int of_passage, uint32_t most, uint32_t seed, uint32_t i)
{
    drawn = (seed * UINT64_C(1000003) + i) * UINT64_C(0x9e3779b97f4a7c15) | 1;
    below(2);
    memset(sent, 0, sizeof sent);
    messages = 0;
    alike = below(4) == 0;
    once = below(4) == 0;
    crowd = below(16) == 0;
    (of_passage ? make_passage : make_foreign)(most);
}

static void run_file(const char *name, int of_passage)
{
    FILE *file = fopen(name, "rb");
    if (file == NULL) {
        perror(name);
        exit(2);
    }
    size = fread(made, 1, sizeof made, file);
    fclose(file);
    (of_passage ? passage : foreign)(made, size);
}

static void write_file(const char *folder, uint32_t i)
{
    char name[4096];
    FILE *file;
    snprintf(name, sizeof name, "%s/made-%lu", folder, (unsigned long)i);
    file = fopen(name, "wb");
    if (file == NULL || fwrite(made, 1, size, file) != size || fclose(file) != 0) {
        perror(name);
        exit(2);
    }
}

int main(int argc, char **argv)
{
    uint32_t i;

    watch_blocks();
    if (argc == 4 && strcmp(argv[1], "random") == 0) {
        for (i = 0; i < strtoul(argv[3], NULL, 10); i++) {
            make(1, 160, (uint32_t)strtoul(argv[2], NULL, 10), i);
            passage(made, size);
            make(0, 80, (uint32_t)strtoul(argv[2], NULL, 10), i);
            foreign(made, size);
        }
    } else if (argc == 6 && strcmp(argv[1], "make") == 0) {
        for (i = 0; i < strtoul(argv[5], NULL, 10); i++) {
            /* short ones: a search that starts from them tries more */
            make(strcmp(argv[2], "passage") == 0, 24, (uint32_t)strtoul(argv[3], NULL, 10), i);
            write_file(argv[4], i);
        }
    } else if (argc > 2 && (strcmp(argv[1], "passage") == 0 || strcmp(argv[1], "foreign") == 0)) {
        for (i = 2; i < (uint32_t)argc; i++)
            run_file(argv[i], strcmp(argv[1], "passage") == 0);
    } else {
        fprintf(stderr, "usage: replay passage|foreign FILE.., replay random SEED COUNT, or replay make TARGET SEED DIR COUNT\n");
        return 2;
    }
    /* inputs that leave a tenth of the archive out would mean little */
    return tell_blocks() < 90 && strcmp(argv[1], "random") == 0;
}

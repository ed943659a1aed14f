/*
 * A host in C over the recorded frames: it reads a recorded stream on standard input (the one that the program `replay` reads), drives the
 * library through star_search.h, and writes a line for each answer. What it writes must be crates/replay/stdout, byte for byte.
 * The stream's numbers are little-endian, as the host's are.
 */
#include <inttypes.h>
#include <stdio.h>
#include <stdlib.h>
#include <string.h>

#include "star_search.h"

/* Room for what a stream may lend. */
enum { WORDS = 2560, BYTES = 1500000, STARS = 200000, COORDS = 640, PLACES = 320, TRIPLES = 900, FIELDS = 1024 };

/* The table, the frame, the settings and the state that the records so far have set. At the start all are empty, the state fresh. */
static struct {
    uint32_t slots;
    size_t words, packed, stars, coords, places, triples;
    StarSettings settings;
    StarState state;
} now;

static uint64_t words[WORDS];
static uint8_t packed[BYTES];
static float stars[STARS];
static float coords[COORDS];
static uint32_t places[PLACES];
static float triples[TRIPLES];

/* Reads n bytes; 0 where the stream is cut short. */
static int take(void *to, size_t n)
{
    return n == 0 || fread(to, 1, n, stdin) == n;
}

/* Passes over n bytes. */
static int pass_over(uint64_t n)
{
    for (; n > 0; n--)
        if (getchar() == EOF)
            return 0;
    return 1;
}

static float float_of(uint32_t bits)
{
    float x;
    memcpy(&x, &bits, sizeof x);
    return x;
}

static uint32_t bits_of(float x)
{
    uint32_t bits;
    memcpy(&bits, &x, sizeof bits);
    return bits;
}

static uint64_t long_of(uint32_t low, uint32_t high)
{
    return (uint64_t)high << 32 | low;
}

/* Record 1. */
static int table_record(uint64_t length)
{
    uint32_t w[4];
    if (length < sizeof w || !take(w, sizeof w))
        return 0;
    uint64_t padding = (4 - w[2] % 4) % 4;
    uint64_t size = sizeof w + (uint64_t)w[1] * 8 + w[2] + padding + (uint64_t)w[3] * 4;
    if (length < size || w[1] > WORDS || w[2] > BYTES || w[3] > STARS)
        return 0;
    now.slots = w[0];
    now.words = w[1];
    now.packed = w[2];
    now.stars = w[3];
    return take(words, now.words * sizeof *words) && take(packed, now.packed) && pass_over(padding)
        && take(stars, now.stars * sizeof *stars) && pass_over(length - size);
}

/* Record 2. */
static int frame_record(uint64_t length)
{
    uint32_t w[3];
    if (length < sizeof w || !take(w, sizeof w))
        return 0;
    uint64_t size = sizeof w + ((uint64_t)w[0] + w[1] + w[2]) * 4;
    if (length < size || w[0] > COORDS || w[1] > PLACES || w[2] > TRIPLES)
        return 0;
    now.coords = w[0];
    now.places = w[1];
    now.triples = w[2];
    return take(coords, now.coords * sizeof *coords) && take(places, now.places * sizeof *places)
        && take(triples, now.triples * sizeof *triples) && pass_over(length - size);
}

/* Record 3. */
static void settings_record(const uint32_t *w)
{
    now.settings = (StarSettings){
        .bins = w[0],
        .checking = w[1],
        .error = float_of(w[2]),
        .radius = float_of(w[3]),
        .matching_given = w[4] != 0,
        .matching = float_of(w[5]),
        .fov_given = w[6] != 0,
        .fov = float_of(w[7]),
        .cap_given = w[8] != 0,
        .cap = long_of(w[9], w[10]),
        .patterns = long_of(w[11], w[12]),
    };
}

/* Record 5. The stream numbers the phases otherwise: 1 ended, 2 at its next read. */
static int state_record(const uint32_t *w)
{
    static const uint32_t phases[3] = {STAR_FRESH, STAR_OVER, STAR_AT};
    if (w[0] > 2 || (w[0] == 1 && w[1] > STAR_TIMEOUT))
        return 0;
    now.state = (StarState){
        .phase = phases[w[0]],
        .status = w[1],
        .pass = w[2],
        .four = {w[3], w[4], w[5], w[6]},
        .key = w[7],
        .probe = w[8],
        .patterns = long_of(w[9], w[10]),
        .reads = long_of(w[11], w[12]),
    };
    return 1;
}

static void candidate_line(const StarCandidate *c)
{
    printf("candidate %" PRIu32 " %" PRIu32 " %" PRIu32 " %" PRIu32 " %" PRIu32, c->pass, c->place[0], c->place[1], c->place[2], c->place[3]);
    printf(" slot %" PRIu64 " stars %" PRIu32 " %" PRIu32 " %" PRIu32 " %" PRIu32, c->slot, c->star[0], c->star[1], c->star[2], c->star[3]);
    printf(" field %08" PRIx32 " mark %" PRIu32, bits_of(c->field), c->rebuild);
}

/* One call and its line; whether a run goes on after it. */
static int call(uint64_t allowance)
{
    static const char *const statuses[3] = {"toofew", "nomatch", "timeout"};
    StarAnswer a = star_search(coords, now.coords, places, now.places, now.settings, triples, now.triples,
                               now.slots, words, now.words, packed, now.packed, stars, now.stars, now.state, allowance);
    now.state = a.state;
    switch (a.answer) {
    case STAR_CANDIDATE:
        candidate_line(&a.candidate);
        break;
    case STAR_USED:
        printf("used");
        break;
    case STAR_ENDED:
        printf("ended %s", statuses[a.number]);
        break;
    default:
        printf("refused %" PRIu32, a.number);
        break;
    }
    printf(" patterns %" PRIu64 " reads %" PRIu64 "\n", a.state.patterns, a.state.reads);
    return a.answer == STAR_CANDIDATE || a.answer == STAR_USED;
}

/* Record 8. */
static void open_record(void)
{
    uint32_t n = star_open(now.slots, words, now.words, packed, now.packed, stars, now.stars);
    if (n == 0)
        printf("open passed\n");
    else
        printf("refused %" PRIu32 "\n", n);
}

/* Record 9. */
static void slot_record(uint64_t slot)
{
    StarSlot held = star_slot(now.slots, words, now.words, packed, now.packed, slot);
    StarPart part = star_entry(now.slots, words, now.words, packed, now.packed, slot);
    if (held.answer == STAR_SLOT_FILLED) {
        printf("filled ");
        for (uint64_t i = 0; i < part.length; i++)
            printf("%02x", packed[part.offset + i]);
        printf("\n");
    } else if (held.answer == STAR_SLOT_EMPTY) {
        printf("empty\n");
    } else {
        printf("refused %" PRIu32 "\n", held.number);
    }
}

/* Record 10. */
static int sweep_record(const uint32_t *w)
{
    static float out[FIELDS];
    if (w[4] > FIELDS)
        return 0;
    StarSwept s = star_sweep(float_of(w[0]), w[1] != 0, float_of(w[2]), float_of(w[3]), out, w[4]);
    if (s.answer == STAR_DONE) {
        printf("sweep %" PRIu64, s.count);
        for (uint64_t i = 0; i < s.count; i++)
            printf(" %08" PRIx32, bits_of(out[i]));
        printf("\n");
    } else {
        printf("refused %" PRIu32 "\n", s.number);
    }
    return 1;
}

static void vectors(const StarVector *v)
{
    for (int i = 0; i < 4; i++)
        printf(" %08" PRIx32 " %08" PRIx32 " %08" PRIx32, bits_of(v[i].x), bits_of(v[i].y), bits_of(v[i].z));
}

/* Record 11. */
static void complete_record(const uint32_t *w)
{
    StarCandidate c = {
        .pass = w[0],
        .place = {w[1], w[2], w[3], w[4]},
        .star = {w[5], w[6], w[7], w[8]},
        .field = float_of(w[9]),
        .rebuild = w[10],
    };
    StarCompleted done = star_complete(coords, now.coords, places, now.places, triples, now.triples, stars, now.stars, c, float_of(w[11]));
    if (done.answer == STAR_DONE) {
        printf("complete");
        vectors(done.image);
        vectors(done.star);
        printf("\n");
    } else {
        printf("refused %" PRIu32 "\n", done.number);
    }
}

/* Records 3 to 11, by their payload. */
static int small_record(uint32_t kind, uint64_t length)
{
    /* how many words the payload of each kind has */
    static const size_t sizes[12] = {0, 0, 0, 13, 0, 13, 2, 2, 0, 2, 5, 12};
    uint32_t w[13] = {0};
    if (kind < 3 || kind > 11 || length < sizes[kind] * 4 || !take(w, sizes[kind] * 4) || !pass_over(length - sizes[kind] * 4))
        return 0;
    switch (kind) {
    case 3:
        settings_record(w);
        return 1;
    case 4:
        now.state = (StarState){0};
        return 1;
    case 5:
        return state_record(w);
    case 6:
        call(long_of(w[0], w[1]));
        return 1;
    case 7:
        while (call(long_of(w[0], w[1])))
            ;
        return 1;
    case 8:
        open_record();
        return 1;
    case 9:
        slot_record(long_of(w[0], w[1]));
        return 1;
    case 10:
        return sweep_record(w);
    default:
        complete_record(w);
        return 1;
    }
}

int main(void)
{
    if (star_search_version() != STAR_SEARCH_VERSION) {
        fprintf(stderr, "the archive has version %" PRIu32 ", the header %u\n", star_search_version(), STAR_SEARCH_VERSION);
        return EXIT_FAILURE;
    }
    for (uint64_t n = 0;; n++) {
        uint32_t head[2];
        size_t got = fread(head, 1, sizeof head, stdin);
        if (got == 0)
            return EXIT_SUCCESS;
        int ok = got == sizeof head
            && (head[0] == 1 ? table_record(head[1]) : head[0] == 2 ? frame_record(head[1]) : small_record(head[0], head[1]));
        if (!ok) {
            printf("stream %" PRIu64 "\n", n);
            return EXIT_SUCCESS;
        }
    }
}

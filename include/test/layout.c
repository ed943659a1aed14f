/*
 * Holds the header to the archive: each field of each struct is moved alone, and the answer must move as the header says. A wrong size or
 * offset, a struct passed or returned otherwise than the archive expects, or a wrong number shows. It writes "ok" and how many facts it checked.
 */
#define _POSIX_C_SOURCE 200809L /* pthread_attr_setstack */
#include <math.h>
#include <pthread.h>
#include <stdio.h>
#include <stdlib.h>
#include <string.h>

#include "star_search.h"

static unsigned checked, wrong;

static void expect(int fact, const char *text, int line)
{
    checked++;
    if (!fact) {
        wrong++;
        printf("layout.c:%d: not so: %s\n", line, text);
    }
}
#define EXPECT(fact) expect((fact) ? 1 : 0, #fact, __LINE__)

/* ---- the version: a number that the preprocessor and a constant can use, and the archive's own */
#if STAR_SEARCH_VERSION < 1
#error "the header's version is below the first"
#endif
enum { VERSION = STAR_SEARCH_VERSION };

static void version(void)
{
    EXPECT(star_search_version() == STAR_SEARCH_VERSION);
    EXPECT(star_search_version() == (uint32_t)VERSION);
}

/* ---- a frame of 12 spots, three passes, and a table of 448 slots with one entry, in slot 5 */
enum { SPOTS = 12, PASSES = 3, SLOTS = 448, STARS = 6 };

static float centroids[2 * SPOTS] = {
    -400, -310, 120, 350, 380, -260, -150, 90, 260, 180, -330, 240, 40, -120, 190, -390, -60, 300, -240, -180, 420, 60, 10, 20,
};
static uint32_t order[SPOTS] = {4, 1, 7, 0, 2, 3, 11, 5, 6, 10, 9, 8};
static float passes[3 * PASSES] = {
    0.20f, 0.00020f, 0.9999999f, 0.25f, 0.00025f, 0.9999999f, 0.30f, 0.00030f, 0.9999999f,
};
static uint64_t words[8] = {0, 1u << 5, 0, 0, 0, 0, 0, 0};
static uint8_t packed[22] = {
    1, 0, 0, 0, 2, 0, 0, 0, 4, 0, 0, 0, 5, 0, 0, 0, 0xcd, 0xcc, 0x4c, 0x3e, 0x34, 0x12,
};
static float stars[3 * STARS] = {
    1, 0, 0, 0, 1, 0, 0, 0, 1, 0.6f, 0.8f, 0, 0, 0.6f, 0.8f, 0.8f, 0, 0.6f,
};

static StarSettings settings(void)
{
    StarSettings s = {.bins = 25, .checking = 12, .error = 0.02f, .radius = 0.01f, .patterns = 1};
    return s;
}

static StarAnswer search_with(StarSettings s, StarState st, uint64_t allowance)
{
    return star_search(centroids, 2 * SPOTS, order, SPOTS, s, passes, 3 * PASSES, SLOTS, words, 8, packed, 22, stars, 3 * STARS, st, allowance);
}

static StarAnswer search(StarState st, uint64_t allowance)
{
    return search_with(settings(), st, allowance);
}

static int same_state(StarState a, StarState b)
{
    return memcmp(&a, &b, sizeof a) == 0;
}

static int zero_candidate(StarCandidate c)
{
    StarCandidate z = {0};
    return memcmp(&c, &z, sizeof c) == 0;
}

static int refused(StarAnswer a, uint32_t number, StarState as)
{
    return a.answer == STAR_REFUSED && a.number == number && zero_candidate(a.candidate) && same_state(a.state, as);
}

/* ---- the state: what a refusal gives back is what it received, bit for bit */
static void states_as_received(void)
{
    StarState st;
    unsigned char *at = (unsigned char *)&st;
    for (size_t bit = 0; bit < 8 * sizeof st; bit++) {
        memset(&st, 0, sizeof st);
        at[bit / 8] = (unsigned char)(1u << bit % 8);
        StarAnswer a = star_search(centroids, 1, order, SPOTS, settings(), passes, 3 * PASSES, SLOTS, words, 8, packed, 22, stars, 3 * STARS, st, 9);
        EXPECT(refused(a, 1, st));
    }
    for (size_t i = 0; i < sizeof st; i++)
        at[i] = (unsigned char)(i + 1);
    EXPECT(refused(search(st, 9), 8, st));
    memset(&st, 0xff, sizeof st);
    EXPECT(refused(search(st, 9), 8, st));
}

/* each field where the archive looks for it */
static void state_fields(void)
{
    StarState zero = {0};
    EXPECT(search(zero, 0).answer == STAR_USED && same_state(search(zero, 0).state, zero));

    /* a fresh state uses no other field, and counts nothing */
    StarState fresh = {.status = 9, .pass = 9, .four = {9, 9, 9, 9}, .key = 9, .probe = 9, .reserved = 9};
    EXPECT(search(fresh, 1).answer == STAR_USED && same_state(search(fresh, 1).state, search(zero, 1).state));
    fresh.patterns = 1;
    EXPECT(refused(search(fresh, 0), 8, fresh));
    fresh.patterns = 0;
    fresh.reads = 1;
    EXPECT(refused(search(fresh, 0), 8, fresh));

    /* an ended state ends again alike */
    for (uint32_t status = STAR_TOO_FEW; status <= STAR_TIMEOUT; status++) {
        StarState over = {.phase = STAR_OVER, .status = status, .pass = 7, .four = {7, 7, 7, 7}, .key = 7, .probe = 7, .reserved = 7, .patterns = 5, .reads = 6};
        StarState plain = {.phase = STAR_OVER, .status = status, .patterns = 5, .reads = 6};
        StarAnswer a = search(over, 3);
        EXPECT(a.answer == STAR_ENDED && a.number == status && zero_candidate(a.candidate) && same_state(a.state, plain));
    }
    StarState odd = {.phase = STAR_OVER, .status = 3, .patterns = 5, .reads = 6};
    EXPECT(refused(search(odd, 3), 8, odd));
    StarState limit = {.phase = STAR_OVER, .patterns = 162656256, .reads = (uint64_t)1 << 62};
    EXPECT(search(limit, 3).answer == STAR_ENDED);
    limit.patterns++;
    EXPECT(refused(search(limit, 3), 8, limit));
    limit.patterns--;
    limit.reads++;
    EXPECT(refused(search(limit, 3), 8, limit));

    /* a state at its next read uses neither status nor reserved */
    StarState at = {.phase = STAR_AT, .pass = 2, .four = {1, 4, 6, 9}, .key = 1, .probe = 3, .patterns = 1000, .reads = 2000};
    StarState with = at;
    with.status = 77;
    with.reserved = 78;
    EXPECT(search(with, 1).answer == STAR_USED && same_state(search(with, 1).state, search(at, 1).state));
    /* probe 3 of a chain in an empty part of the table ends the chain: the next key, the same combination */
    StarAnswer a = search(at, 1);
    EXPECT(a.answer == STAR_USED && a.state.phase == STAR_AT && a.state.pass == 2 && a.state.key == 2 && a.state.probe == 0);
    EXPECT(a.state.four[0] == 1 && a.state.four[1] == 4 && a.state.four[2] == 6 && a.state.four[3] == 9);
    EXPECT(a.state.patterns == 1000 && a.state.reads == 2001);
    StarState moved[9] = {at, at, at, at, at, at, at, at, at};
    moved[0].phase = 3;
    moved[1].pass = PASSES;
    moved[2].four[0] = 4;
    moved[3].four[1] = 6;
    moved[4].four[2] = 9;
    moved[5].four[3] = SPOTS;
    moved[6].key = 1024;
    moved[7].probe = SLOTS;
    moved[8].patterns = 162656257;
    for (int i = 0; i < 9; i++)
        EXPECT(refused(search(moved[i], 1), 8, moved[i]));
}

/* ---- allowance 0: where a read is left the state comes back as received, bit for bit; else the call is ended */
static int unchanged(StarState st)
{
    StarAnswer a = search(st, 0);
    return a.answer == STAR_USED && a.number == 0 && zero_candidate(a.candidate) && same_state(a.state, st);
}

/* each bit of the unused bytes from `low` to `high` alone, then all of them */
static void unused_bytes(StarState st, size_t low, size_t high)
{
    unsigned char *at = (unsigned char *)&st;
    for (size_t bit = 8 * low; bit < 8 * high; bit++) {
        at[bit / 8] = (unsigned char)(1u << bit % 8);
        EXPECT(unchanged(st));
        at[bit / 8] = 0;
    }
    for (size_t i = low; i < high; i++)
        at[i] = (unsigned char)(i + 1);
    EXPECT(unchanged(st));
    StarAnswer a = search(st, 1);
    EXPECT(a.answer == STAR_USED && a.state.phase == STAR_AT && a.state.reads == st.reads + 1);
    EXPECT(a.state.status == 0 && a.state.reserved == 0);
}

static void allowance_zero(void)
{
    StarState fresh = {0}, at = {.phase = STAR_AT, .pass = 2, .four = {1, 4, 6, 9}, .key = 1, .probe = 3, .patterns = 1000, .reads = 2000};
    unused_bytes(fresh, offsetof(StarState, status), offsetof(StarState, patterns));
    unused_bytes(at, offsetof(StarState, status), offsetof(StarState, pass));
    unused_bytes(at, offsetof(StarState, reserved), offsetof(StarState, patterns));

    /* no read is left: ended, and the state is made anew */
    StarState junk = {.status = 9, .pass = 8, .four = {7, 6, 5, 4}, .key = 3, .probe = 2, .reserved = 1};
    StarState few = {.phase = STAR_OVER, .status = STAR_TOO_FEW};
    StarSettings s = settings();
    s.checking = 3;
    StarAnswer a = search_with(s, junk, 0);
    EXPECT(a.answer == STAR_ENDED && a.number == STAR_TOO_FEW && same_state(a.state, few));
    junk.phase = STAR_OVER, junk.status = STAR_TOO_FEW;
    a = search(junk, 0);
    EXPECT(a.answer == STAR_ENDED && a.number == STAR_TOO_FEW && same_state(a.state, few));

    /* refused */
    junk.status = 3;
    EXPECT(refused(search(junk, 0), 8, junk));
}

/* ---- the settings */
static uint32_t asked(StarSettings s)
{
    StarState fresh = {0};
    StarAnswer a = search_with(s, fresh, 0);
    return a.answer == STAR_REFUSED ? a.number : 0;
}

static void settings_fields(void)
{
    StarState fresh = {0};
    StarSettings good = settings(), s;
    EXPECT(asked(good) == 0);
    s = good, s.reserved = 0xffffffff;
    EXPECT(asked(s) == 0);
    s = good, s.bins = 0;
    EXPECT(asked(s) == 4);
    s = good, s.bins = 4097;
    EXPECT(asked(s) == 4);
    s = good, s.checking = 65;
    EXPECT(asked(s) == 4);
    s = good, s.checking = 3;
    EXPECT(search_with(s, fresh, 0).answer == STAR_ENDED && search_with(s, fresh, 0).number == STAR_TOO_FEW);
    s = good, s.error = 1.5f;
    EXPECT(asked(s) == 4);
    s = good, s.error = NAN;
    EXPECT(asked(s) == 4);
    s = good, s.radius = -1;
    EXPECT(asked(s) == 4);

    /* options: absent, given, and any other tag */
    s = good, s.matching = NAN;
    EXPECT(asked(s) == 0);
    s.matching_given = 1;
    EXPECT(asked(s) == 4);
    s.matching = 0.03f;
    EXPECT(asked(s) == 0);
    s.matching_given = 2;
    EXPECT(asked(s) == 4);
    s.matching_given = 0xffffffff;
    EXPECT(asked(s) == 4);
    s = good, s.fov = INFINITY;
    EXPECT(asked(s) == 0);
    s.fov_given = 1;
    EXPECT(asked(s) == 4);
    s.fov = 0.01f;
    EXPECT(asked(s) == 0);
    s.fov_given = 2;
    EXPECT(asked(s) == 4);
    s = good, s.cap = 0;
    EXPECT(search_with(s, fresh, 0).answer == STAR_USED);
    s.cap_given = 1;
    EXPECT(search_with(s, fresh, 0).answer == STAR_ENDED && search_with(s, fresh, 0).number == STAR_TIMEOUT);
    s.cap = (uint64_t)1 << 40;
    EXPECT(search_with(s, fresh, 0).answer == STAR_USED);
    s.cap_given = 2;
    EXPECT(asked(s) == 4);
    s = good, s.patterns = 0;
    EXPECT(search_with(s, fresh, 0).answer == STAR_ENDED && search_with(s, fresh, 0).number == STAR_NO_MATCH);
}

/* ---- the first no wins, unknown tags too */
static void first_no(void)
{
    StarState odd = {.phase = 77, .four = {1, 2, 3, 4}, .reserved = 5};
    StarSettings s = settings();
    s.cap_given = 9;
    EXPECT(refused(star_search(centroids, 3, order, 1, s, passes, 4, SLOTS, words, 7, packed, 22, stars, 4, odd, 1), 1, odd));
    EXPECT(refused(star_search(centroids, 4, order, 3, s, passes, 4, SLOTS, words, 7, packed, 22, stars, 4, odd, 1), 3, odd));
    EXPECT(refused(star_search(centroids, 4, order, 0, s, passes, 4, SLOTS, words, 7, packed, 22, stars, 4, odd, 1), 4, odd));
    s = settings();
    EXPECT(refused(star_search(centroids, 4, order, 0, s, passes, 4, SLOTS, words, 7, packed, 22, stars, 4, odd, 1), 5, odd));
    EXPECT(refused(star_search(centroids, 4, order, 0, s, passes, 3, SLOTS, words, 7, packed, 22, stars, 4, odd, 1), 6, odd));
    EXPECT(refused(star_search(centroids, 4, order, 0, s, passes, 3, SLOTS, words, 8, packed, 22, stars, 4, odd, 1), 7, odd));
    EXPECT(refused(star_search(centroids, 4, order, 0, s, passes, 3, SLOTS, words, 8, packed, 22, stars, 3, odd, 1), 8, odd));
}

/* ---- the table's calls */
static void table_calls(void)
{
    EXPECT(star_open(SLOTS, words, 8, packed, 22, stars, 3 * STARS) == 0);
    EXPECT(star_open(SLOTS + 1, words, 8, packed, 22, stars, 3 * STARS) == 6);
    EXPECT(star_open(SLOTS, words, 8, packed, 22, stars, 3 * STARS - 1) == 7);
    EXPECT(star_open(SLOTS, words, 8, packed, 21, stars, 3 * STARS) == 10);
    EXPECT(star_open(SLOTS, words, 8, packed, 22, stars, 3 * STARS - 3) == 9);

    StarSlot slot = star_slot(SLOTS, words, 8, packed, 22, 5);
    StarPart part = star_entry(SLOTS, words, 8, packed, 22, 5);
    EXPECT(slot.answer == STAR_SLOT_FILLED && slot.number == 0 && part.offset == 0 && part.length == 22);
    slot = star_slot(SLOTS, words, 8, packed, 22, 4);
    part = star_entry(SLOTS, words, 8, packed, 22, 4);
    EXPECT(slot.answer == STAR_SLOT_EMPTY && slot.number == 0 && part.offset == 0 && part.length == 0);
    slot = star_slot(SLOTS, words, 8, packed, 22, SLOTS);
    part = star_entry(SLOTS, words, 8, packed, 22, SLOTS);
    EXPECT(slot.answer == STAR_SLOT_REFUSED && slot.number == 11 && part.offset == 0 && part.length == 0);
    slot = star_slot(SLOTS, words, 8, packed, 21, 5);
    part = star_entry(SLOTS, words, 8, packed, 21, 5);
    EXPECT(slot.answer == STAR_SLOT_REFUSED && slot.number == 9 && part.offset == 0 && part.length == 0);
    slot = star_slot(SLOTS, words, 7, packed, 22, 5);
    EXPECT(slot.answer == STAR_SLOT_REFUSED && slot.number == 6);

    /* the offset is counted in bytes: rank 3 in a section of 4 entries */
    static uint8_t four[88];
    uint64_t ranked[8] = {3, 1u << 5, 0, 0, 0, 0, 0, 0};
    part = star_entry(SLOTS, ranked, 8, four, 88, 5);
    EXPECT(part.offset == 66 && part.length == 22);
    ranked[0] = UINT64_MAX;
    slot = star_slot(SLOTS, ranked, 8, four, 88, 5);
    EXPECT(slot.answer == STAR_SLOT_REFUSED && slot.number == 9);
}

/* ---- the sweep */
static void sweeps(void)
{
    static const float want[5] = {1, 1.25f, 0.75f, 1.5f, 0.5f};
    float out[6] = {-1, -1, -1, -1, -1, -1}, before[6] = {-1, -1, -1, -1, -1, -1};
    StarSwept s = star_sweep(1, 2, 0.5f, 0.25f, out, 6);
    EXPECT(s.answer == STAR_NOT_DONE && s.number == 12 && s.count == 0 && memcmp(out, before, sizeof out) == 0);
    s = star_sweep(1, 1, NAN, 0.25f, out, 6);
    EXPECT(s.answer == STAR_NOT_DONE && s.number == 12 && s.count == 0);
    s = star_sweep(1, 1, 0.5f, 0.25f, out, 4);
    EXPECT(s.answer == STAR_NOT_DONE && s.number == 13 && s.count == 0 && memcmp(out, before, sizeof out) == 0);
    s = star_sweep(1, 1, 0.5f, 0.25f, out, 6);
    EXPECT(s.answer == STAR_DONE && s.number == 0 && s.count == 5 && memcmp(out, want, sizeof want) == 0 && out[5] == -1);
    s = star_sweep(2, 0, NAN, 0.25f, out, 6);
    EXPECT(s.answer == STAR_DONE && s.count == 1 && out[0] == 2 && out[1] == 1.25f);
    s = star_sweep(2, 0, NAN, -1, out, 6);
    EXPECT(s.answer == STAR_NOT_DONE && s.number == 12);
}

/* ---- completing */
static StarCompleted completed(StarCandidate c, float scale)
{
    return star_complete(centroids, 2 * SPOTS, order, SPOTS, passes, 3 * PASSES, stars, 3 * STARS, c, scale);
}

static int same_vectors(StarCompleted a, StarCompleted b)
{
    return memcmp(a.image, b.image, sizeof a.image) == 0 && memcmp(a.star, b.star, sizeof a.star) == 0;
}

static int not_completed(StarCandidate c, float scale, uint32_t number)
{
    StarCompleted zero = {.answer = STAR_NOT_DONE, .number = number}, got = completed(c, scale);
    return memcmp(&got, &zero, sizeof got) == 0;
}

static void completing(void)
{
    StarCandidate c = {.pass = 1, .place = {0, 3, 5, 8}, .star = {1, 2, 4, 5}, .field = 0.25f}, d;
    StarCompleted base = completed(c, 0.01f), got;
    EXPECT(base.answer == STAR_DONE && base.number == 0);
    for (int i = 0; i < 4; i++)
        EXPECT(memcmp(&base.star[i], &stars[3 * c.star[i]], sizeof base.star[i]) == 0);
    for (int i = 0; i < 4; i++) {
        StarVector v = base.image[i];
        EXPECT(fabsf(v.x * v.x + v.y * v.y + v.z * v.z - 1) < 1e-6f && v.z > 0.9f);
    }
    /* each image vector is that of one of the four spots at the pass's scale */
    for (int k = 0; k < 4; k++) {
        float x = centroids[2 * order[c.place[k]]] * 0.00025f, y = centroids[2 * order[c.place[k]] + 1] * 0.00025f;
        int held = 0;
        for (int i = 0; i < 4; i++)
            held |= fabsf(base.image[i].x / base.image[i].z - x) < 1e-5f && fabsf(base.image[i].y / base.image[i].z - y) < 1e-5f;
        EXPECT(held);
    }
    /* slot, field and reserved aren't looked at */
    d = c, d.slot = UINT64_MAX, d.field = NAN, d.reserved = 7;
    got = completed(d, 0.01f);
    EXPECT(got.answer == STAR_DONE && same_vectors(got, base));
    d = c, d.pass = 2;
    got = completed(d, 0.01f);
    EXPECT(got.answer == STAR_DONE && !same_vectors(got, base));
    d = c, d.pass = PASSES;
    EXPECT(not_completed(d, 0.01f, 14));
    for (int k = 0; k < 4; k++) {
        d = c, d.place[k] = k < 3 ? c.place[k + 1] : SPOTS;
        EXPECT(not_completed(d, 0.01f, 14));
        d = c, d.star[k] = STARS;
        EXPECT(not_completed(d, 0.01f, 9));
        d = c, d.star[k] = 3;
        got = completed(d, 0.01f);
        EXPECT(got.answer == STAR_DONE && got.star[k].x == 0.6f && got.star[k].y == 0.8f && got.star[k].z == 0);
    }
    /* the mark: 0 takes the pass's scale, any other number the one given */
    d = c, d.rebuild = 1;
    got = completed(d, 0.01f);
    EXPECT(got.answer == STAR_DONE && !same_vectors(got, base));
    EXPECT(same_vectors(completed(d, 0.00025f), base));
    d.rebuild = 0x80000000u;
    EXPECT(same_vectors(completed(d, 0.01f), got));
    EXPECT(not_completed(c, 17, 14));
    EXPECT(not_completed(c, NAN, 14));
}

/* ---- lengths of 0: any object of the type will do */
static void empty_arrays(void)
{
    float f = 0;
    uint32_t u = 0;
    uint64_t w = 0;
    uint8_t b = 0;
    StarState fresh = {0};
    StarCandidate c = {0};
    EXPECT(star_open(0, &w, 0, &b, 0, &f, 0) == 0);
    EXPECT(refused(star_search(&f, 0, &u, 0, settings(), &f, 0, 0, &w, 0, &b, 0, &f, 0, fresh, 1), 5, fresh));
    StarAnswer a = star_search(&f, 0, &u, 0, settings(), passes, 3, 0, &w, 0, &b, 0, &f, 0, fresh, 1);
    EXPECT(a.answer == STAR_ENDED && a.number == STAR_TOO_FEW && a.state.phase == STAR_OVER && a.state.reads == 0);
    EXPECT(star_slot(0, &w, 0, &b, 0, 0).number == 11);
    EXPECT(star_sweep(1, 0, 0, 1, &f, 0).number == 13);
    EXPECT(star_complete(&f, 0, &u, 0, passes, 3, &f, 0, c, 1).number == 14);
}

/* ---- the stack: a thread's is painted, and what a call touched of it is counted */
enum { PAINTED = 1 << 20 };
static unsigned char *paint;

static void *nothing(void *at)
{
    return at;
}

static void *calls(void *at)
{
    /* at the last pass, so that pass, combination and keys are laid, with the most keys that question 4 lets through */
    StarState st = {.phase = STAR_AT, .pass = 2, .four = {1, 4, 6, 9}, .key = 1, .probe = 3, .patterns = 1, .reads = 2};
    StarCandidate c = {.pass = 1, .place = {0, 3, 5, 8}, .star = {1, 2, 4, 5}};
    StarSettings s = settings();
    float out[8];
    s.error = 0.05f;
    search_with(s, st, 100000);
    star_open(SLOTS, words, 8, packed, 22, stars, 3 * STARS);
    star_entry(SLOTS, words, 8, packed, 22, 5);
    star_sweep(1, 1, 0.5f, 0.25f, out, 8);
    completed(c, 1);
    return at;
}

static size_t touched(void *(*job)(void *))
{
    pthread_t thread;
    pthread_attr_t attr;
    memset(paint, 0xa5, PAINTED);
    pthread_attr_init(&attr);
    if (pthread_attr_setstack(&attr, paint, PAINTED) != 0 || pthread_create(&thread, &attr, job, NULL) != 0 || pthread_join(thread, NULL) != 0)
        exit(EXIT_FAILURE);
    pthread_attr_destroy(&attr);
    size_t low = 0;
    while (low < PAINTED && paint[low] == 0xa5)
        low++;
    return PAINTED - low;
}

static void stack(void)
{
    paint = aligned_alloc(4096, PAINTED);
    if (paint == NULL)
        exit(EXIT_FAILURE);
    size_t used = touched(calls) - touched(nothing);
    EXPECT(used <= STAR_STACK);
    printf("stack: %zu bytes\n", used);
    free(paint);
}

int main(void)
{
    version();
    states_as_received();
    state_fields();
    allowance_zero();
    settings_fields();
    first_no();
    table_calls();
    sweeps();
    completing();
    empty_arrays();
    stack();
    printf("%s: %u facts, %u wrong\n", wrong == 0 ? "ok" : "WRONG", checked, wrong);
    return wrong == 0 ? EXIT_SUCCESS : EXIT_FAILURE;
}

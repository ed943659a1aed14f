/*
 * star_search.h: the lost-in-space pattern search of a star camera, for hosts in C and C++.
 *
 * Link target/staticlib/libstar_search.a, which `tools/staticlib star_search` writes for plain x86-64 (System V calling convention). Of the
 * C library it needs memset alone. The header is C11, and C++11 or later.
 *
 * How a host works with it
 *   1. Once, before anything else: star_search_version() is STAR_SEARCH_VERSION. Where it isn't, header and archive don't belong
 *      together, and nothing below is promised. The number is raised when a struct, a function or any answer changes.
 *   2. Once for each table: star_open. Where it answers 0, a list of calls from a fresh state that are all lent this table and the
 *      same frame and settings is never refused under 6 to 9.
 *   3. For each frame: start from a fresh state (all zero) and call star_search with an allowance of table reads above 0, handing
 *      each call the state that the last one gave back, until the answer is STAR_ENDED (or STAR_REFUSED: the same call would be
 *      refused again). However the reads are divided into calls, the candidates, their order and the counts are the same.
 *   4. For each candidate: star_complete gives four image vectors beside four star vectors, for the host's own solver.
 *   star_sweep lists fields of view to make passes of; star_slot and star_entry read one slot of the table.
 *
 * What every function promises
 *   - Any bit pattern in a number, a struct or a lent array has its answer: there is no precondition on values, and no trap.
 *   - A question that is answered no refuses the call with its number (list below); the first no wins.
 *   - It keeps no pointer and no state between calls, has no global data, no heap, no input or output, no locks and no system
 *     calls. It may run in several threads at once, also on the same table, as long as nobody writes what is lent meanwhile.
 *   - It writes to nothing that it is lent but `out` of star_sweep, and to that only when it is not refused.
 *   - The same call gives the same answer, bit for bit: there is no clock and nothing random in it.
 *
 * What the host owes
 *   - Each array is lent as a pointer and a number of ELEMENTS (not bytes). It stays readable, and unwritten, until the call returns.
 *   - Each pointer is aligned for its element type and is not null, also where the length is 0: lend any object of that type then.
 *   - `out` of star_sweep is writable and no other thread touches it during the call.
 *   - The stack has room: STAR_STACK bytes are enough for any call. The deepest needs about 37 kB, and include/test checks the archive against the limit.
 *   - The floating-point control register is as C starts with it: rounding to nearest, exceptions masked, subnormals kept (no
 *     flush-to-zero, no denormals-are-zero).
 *   - floats are IEEE 754 binary32; all arrays are in the host's byte order, which is little-endian on x86-64.
 *
 * The questions (a refusal's number)
 *    1  the number of centroid coordinates is even and at most 512
 *    2  each coordinate is finite and of magnitude at most 32,768
 *    3  each index of the brightness list is below the number of centroids, and none is there twice
 *    4  bins 1 to 4,096; checking 0 to 64; error from 0 to 1; radius finite and not negative; options that are given finite;
 *       and e * bins (an f32 product) at most 1.25, where e is the larger of error and matching, but at most the larger of
 *       8 / bins and error
 *    5  1 to 256 whole passes; field above 0 and below the f32 pi (bits 40490FDB), scale above 0 and at most 16, cosine from -1 to 1
 *    6  at most 2^24 slots, and exactly 8 words for each begun block of 448 slots
 *    7  the number of star components is a multiple of 3 and at most 3 * 2^20
 *    8  the state is fresh, ended, or at numbers that exist in this frame and table, with at most 162,656,256 patterns
 *       and 2^62 reads
 *    9  the entry read lies inside the packed section, its stars inside the star array, each component finite and of
 *       magnitude at most 1
 *   10  every rank is the ones before its block, no bit past the last slot is set, the section has 22 bytes for each one
 *   11  the slot is below the slot count
 *   12  estimate above 0 and below the f32 pi, step finite and above 0, error finite or absent
 *   13  the list of fields fits the lent array
 *   14  the pass exists, the four places rise below the brightness list's length, the scale is above 0 and at most 16
 *   star_search asks 1 to 8 in order, and 9 at every filled slot it reads; star_open 6, 7, 10, then 9 over all filled slots;
 *   star_slot and star_entry 6, 11, then 9 for the section only; star_sweep 12, 13; star_complete 1, 2, 3, 5, 7, 14, then 9 for its stars.
 */
#ifndef STAR_SEARCH_H
#define STAR_SEARCH_H

#include <stddef.h>
#include <stdint.h>

#ifdef __cplusplus
extern "C" {
#endif

/* The version of this interface: raised whenever a struct, a function or any answer changes. A host compares it with what the archive
 * says (star_search_version). */
#define STAR_SEARCH_VERSION 1u

/* Room on the stack, in bytes, that is enough for any call below. */
#define STAR_STACK 65536u

/* StarState.phase. Any other number is refused with 8. */
enum {
    STAR_FRESH = 0,        /* not begun: patterns and reads are 0 */
    STAR_AT = 1,           /* at its next read: pass, four, key and probe say which */
    STAR_OVER = 2          /* ended: status says how */
};

/* StarState.status of an ended state, and StarAnswer.number of the answer STAR_ENDED. Any other number in an ended state is refused with 8. */
enum {
    STAR_TOO_FEW = 0,      /* the last pass kept fewer than 4 spots; earlier passes may have been read */
    STAR_NO_MATCH = 1,     /* the last pass kept 4 or more, and no read is left (with no slots or a pattern count of 0 there was none);
                              candidates may have been given before */
    STAR_TIMEOUT = 2       /* the cap on combinations was reached with a pass or a combination still to come */
};

/* StarAnswer.answer */
enum {
    STAR_CANDIDATE = 0,    /* the last read gave a candidate; go on with the state given back */
    STAR_USED = 1,         /* the allowance is used and a read is left; go on with the state given back. With allowance 0 it is the state as received */
    STAR_ENDED = 2,        /* no read is left; number is the status */
    STAR_REFUSED = 3       /* number is the question's; the state comes back as received */
};

/* StarSlot.answer */
enum {
    STAR_SLOT_FILLED = 0,
    STAR_SLOT_EMPTY = 1,
    STAR_SLOT_REFUSED = 2  /* number is the question's */
};

/* StarSwept.answer and StarCompleted.answer */
enum {
    STAR_DONE = 0,
    STAR_NOT_DONE = 1      /* refused: number is the question's */
};

/* The state of a search between two calls. All zero is a fresh state. A host keeps it, copies it or stores it as it likes; nothing
 * in it points anywhere. Fields that a phase doesn't use are ignored, and are 0 in every state that a call makes. A refused call makes none, and
 * neither does a call with allowance 0 that answers STAR_USED: they give back the state as received, byte for byte. */
typedef struct StarState {
    uint32_t phase;        /* STAR_FRESH, STAR_AT, STAR_OVER */
    uint32_t status;       /* of an ended state: STAR_TOO_FEW, STAR_NO_MATCH, STAR_TIMEOUT */
    uint32_t pass;         /* of a state at its next read: number of the pass, from 0 */
    uint32_t four[4];      /* .. the combination: four rising positions in the pass's kept list */
    uint32_t key;          /* .. number of the key, from 0 */
    uint32_t probe;        /* .. number of the probe, from 0 */
    uint32_t reserved;     /* padding: ignored, 0 in a state that a call makes */
    uint64_t patterns;     /* combinations tried so far */
    uint64_t reads;        /* table reads made so far */
} StarState;

/* The settings of a search; lend the same to each call on a frame. A tag (.._given) that is neither 0 nor 1 is refused with 4. */
typedef struct StarSettings {
    uint32_t bins;           /* pattern_bins of the table, 1 to 4,096 */
    uint32_t checking;       /* pattern_checking_stars: how many kept spots are combined, 0 to 64 */
    float error;             /* pattern_max_error of the table, 0 to 1 */
    float radius;            /* match_radius, as a part of the field of view; it decides the rebuild mark alone */
    uint32_t matching_given; /* 1: `matching` is the host's own match_max_error; 0: there is none, and `matching` is ignored */
    float matching;          /* match_max_error: the host's own tolerance on edge ratios */
    uint32_t fov_given;      /* 1: `fov` is given; 0: there is none, and `fov` is ignored */
    float fov;               /* fov_max_error_rad: how far an entry's field of view may differ from the pass's, in radians */
    uint32_t cap_given;      /* 1: `cap` is given; 0: no cap, and `cap` is ignored */
    uint32_t reserved;       /* padding: ignored */
    uint64_t cap;            /* max_patterns_checked: the most combinations that a run may try */
    uint64_t patterns;       /* the number of patterns in the table; 0 makes every pass end without a read */
} StarSettings;

/* A candidate: four spots of the image that may be four stars of the table. */
typedef struct StarCandidate {
    uint64_t slot;         /* the slot that gave it */
    uint32_t pass;         /* the pass, from 0 */
    uint32_t place[4];     /* the four spots, as rising places in the brightness list: place p is centroid order[p]. place[i] is NOT the
                              spot of star[i]: star_complete brings them into matched order */
    uint32_t star[4];      /* the four stars, in the entry's order: star i has its direction at stars[3 * i] .. stars[3 * i + 2] */
    float field;           /* the measured field of view, in radians */
    uint32_t rebuild;      /* 1: the measured field differs so much that star_complete takes the scale it is given; 0: the pass's own.
                              star_complete takes any number but 0 as 1 */
    uint32_t reserved;     /* padding: ignored, 0 in a candidate that a call gives */
} StarCandidate;

/* What star_search gives back. */
typedef struct StarAnswer {
    uint32_t answer;         /* STAR_CANDIDATE, STAR_USED, STAR_ENDED, STAR_REFUSED */
    uint32_t number;         /* STAR_ENDED: the status; STAR_REFUSED: the question's number; else 0 */
    StarCandidate candidate; /* all zero unless the answer is STAR_CANDIDATE */
    StarState state;         /* the state for the next call */
} StarAnswer;

/* What a slot holds. */
typedef struct StarSlot {
    uint32_t answer;       /* STAR_SLOT_FILLED, STAR_SLOT_EMPTY, STAR_SLOT_REFUSED */
    uint32_t number;       /* the question's number where refused, else 0 */
} StarSlot;

/* A part of the packed section: the entry's own bytes are packed[offset] .. packed[offset + length - 1]. */
typedef struct StarPart {
    uint64_t offset;       /* in bytes from the section's start; 0 unless the slot is filled */
    uint64_t length;       /* 22; 0 unless the slot is filled */
} StarPart;

/* What star_sweep gives back. */
typedef struct StarSwept {
    uint32_t answer;       /* STAR_DONE, STAR_NOT_DONE */
    uint32_t number;       /* the question's number where refused, else 0 */
    uint64_t count;        /* how many values were written; 0 where refused */
} StarSwept;

/* A direction. */
typedef struct StarVector {
    float x;
    float y;
    float z;
} StarVector;

/* What star_complete gives back. */
typedef struct StarCompleted {
    uint32_t answer;       /* STAR_DONE, STAR_NOT_DONE */
    uint32_t number;       /* the question's number where refused, else 0 */
    StarVector image[4];   /* four unit vectors of the image, in matched order: image[i] belongs to star[i]; all zero where refused */
    StarVector star[4];    /* the four star vectors, in the entry's order; all zero where refused */
} StarCompleted;

/*
 * The table, lent to star_open, star_search, star_slot and star_entry:
 *   slots   the number of slots
 *   words   8 words of 64 bits for each begun block of 448 slots: a rank (the filled slots before the block), then 7 words of
 *           occupancy, lowest bit first; words_length counts words
 *   packed  22 bytes for each filled slot, in slot order: four star indices (u32), largest edge in radians (f32), mark (u16),
 *           little-endian, no alignment needed
 *   stars   three components for each star: stars_length counts floats
 *
 * The frame, lent to star_search and star_complete:
 *   centroids  x, y of each spot in pixels from the image's centre; centroids_length counts floats
 *   order      the brightness list: indices of centroids, brightest first; it may be shorter than the centroids
 *   passes     for each pass its field of view in radians, pixel scale and cosine of the separation; passes_length counts floats.
 *              A spot's direction is (x * scale, y * scale, 1) divided by its norm; a spot is kept where no earlier kept one has a
 *              dot product with it above the cosine
 */

/* The version of the archive: the STAR_SEARCH_VERSION of the header that it was made with. It takes nothing and always answers. */
uint32_t star_search_version(void);

/* The opening check: 0 where the table passes, else the number of the question that refuses it. */
uint32_t star_open(uint64_t slots,
                   const uint64_t *words, size_t words_length,
                   const uint8_t *packed, size_t packed_length,
                   const float *stars, size_t stars_length);

/* One search call: at most `allowance` table reads from `state` on. With allowance 0 it makes none: unless it is refused it
 * answers STAR_ENDED where no read is left, else STAR_USED; refused or STAR_USED, it changes nothing. */
StarAnswer star_search(const float *centroids, size_t centroids_length,
                       const uint32_t *order, size_t order_length,
                       StarSettings settings,
                       const float *passes, size_t passes_length,
                       uint64_t slots,
                       const uint64_t *words, size_t words_length,
                       const uint8_t *packed, size_t packed_length,
                       const float *stars, size_t stars_length,
                       StarState state,
                       uint64_t allowance);

/* What a slot of the table holds. */
StarSlot star_slot(uint64_t slots,
                   const uint64_t *words, size_t words_length,
                   const uint8_t *packed, size_t packed_length,
                   uint64_t slot);

/* The entry's own 22 bytes of the packed section, as offset and length; 0 and 0 unless star_slot says filled. Only at this
 * boundary is the part given so: inside the library it is a part of the lent slice itself. */
StarPart star_entry(uint64_t slots,
                    const uint64_t *words, size_t words_length,
                    const uint8_t *packed, size_t packed_length,
                    uint64_t slot);

/* The fields of view to try around an estimate, all in radians: the estimate, then estimate + offset and, if above 0,
 * estimate - offset, for offsets a step apart up to the error; the list ends where estimate + offset reaches the f32 pi, or where
 * offset + step, rounded, is no larger than offset, and is the estimate alone where the error is absent or not above 0. They are written to `out` from its start, and nothing after them.
 * error_given: 1: `error` is given; 0: there is none; any other number is refused with 12. */
StarSwept star_sweep(float estimate, uint32_t error_given, float error, float step,
                     float *out, size_t out_length);

/* Completing a candidate. `scale` is the pixel scale for the candidate's measured field; it is used only where candidate.rebuild is
 * set, and question 14 asks it always (lend the pass's own scale where it isn't set). Of the candidate, slot and field are not looked at. */
StarCompleted star_complete(const float *centroids, size_t centroids_length,
                            const uint32_t *order, size_t order_length,
                            const float *passes, size_t passes_length,
                            const float *stars, size_t stars_length,
                            StarCandidate candidate,
                            float scale);

/* The layout that the archive was made for. */
#ifdef __cplusplus
#define STAR_LAYOUT(fact) static_assert(fact, #fact)
#else
#define STAR_LAYOUT(fact) _Static_assert(fact, #fact)
#endif
STAR_LAYOUT(sizeof(float) == 4);
STAR_LAYOUT(sizeof(size_t) == 8);
STAR_LAYOUT(sizeof(StarState) == 56);
STAR_LAYOUT(offsetof(StarState, status) == 4);
STAR_LAYOUT(offsetof(StarState, pass) == 8);
STAR_LAYOUT(offsetof(StarState, four) == 12);
STAR_LAYOUT(offsetof(StarState, key) == 28);
STAR_LAYOUT(offsetof(StarState, probe) == 32);
STAR_LAYOUT(offsetof(StarState, reserved) == 36);
STAR_LAYOUT(offsetof(StarState, patterns) == 40);
STAR_LAYOUT(offsetof(StarState, reads) == 48);
STAR_LAYOUT(sizeof(StarSettings) == 56);
STAR_LAYOUT(offsetof(StarSettings, checking) == 4);
STAR_LAYOUT(offsetof(StarSettings, error) == 8);
STAR_LAYOUT(offsetof(StarSettings, radius) == 12);
STAR_LAYOUT(offsetof(StarSettings, matching_given) == 16);
STAR_LAYOUT(offsetof(StarSettings, matching) == 20);
STAR_LAYOUT(offsetof(StarSettings, fov_given) == 24);
STAR_LAYOUT(offsetof(StarSettings, fov) == 28);
STAR_LAYOUT(offsetof(StarSettings, cap_given) == 32);
STAR_LAYOUT(offsetof(StarSettings, reserved) == 36);
STAR_LAYOUT(offsetof(StarSettings, cap) == 40);
STAR_LAYOUT(offsetof(StarSettings, patterns) == 48);
STAR_LAYOUT(sizeof(StarCandidate) == 56);
STAR_LAYOUT(offsetof(StarCandidate, pass) == 8);
STAR_LAYOUT(offsetof(StarCandidate, place) == 12);
STAR_LAYOUT(offsetof(StarCandidate, star) == 28);
STAR_LAYOUT(offsetof(StarCandidate, field) == 44);
STAR_LAYOUT(offsetof(StarCandidate, rebuild) == 48);
STAR_LAYOUT(offsetof(StarCandidate, reserved) == 52);
STAR_LAYOUT(sizeof(StarAnswer) == 120);
STAR_LAYOUT(offsetof(StarAnswer, number) == 4);
STAR_LAYOUT(offsetof(StarAnswer, candidate) == 8);
STAR_LAYOUT(offsetof(StarAnswer, state) == 64);
STAR_LAYOUT(sizeof(StarSlot) == 8);
STAR_LAYOUT(offsetof(StarSlot, number) == 4);
STAR_LAYOUT(sizeof(StarPart) == 16);
STAR_LAYOUT(offsetof(StarPart, length) == 8);
STAR_LAYOUT(sizeof(StarSwept) == 16);
STAR_LAYOUT(offsetof(StarSwept, number) == 4);
STAR_LAYOUT(offsetof(StarSwept, count) == 8);
STAR_LAYOUT(sizeof(StarVector) == 12);
STAR_LAYOUT(sizeof(StarCompleted) == 104);
STAR_LAYOUT(offsetof(StarCompleted, number) == 4);
STAR_LAYOUT(offsetof(StarCompleted, image) == 8);
STAR_LAYOUT(offsetof(StarCompleted, star) == 56);
#undef STAR_LAYOUT

#ifdef __cplusplus
}
#endif

#endif

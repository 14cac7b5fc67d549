/* The entries of the proved library for C and C++, as crates/seeds/src/lib.rt has them; docs/library.md says what each answers.
 * Words are those of document 01. Link crates/seeds/out/libseeds.a, which `rt lib` in crates/seeds makes, on x86-64 Linux.
 *
 * A list is a pointer and its number of entries. The pointer must not be NULL, also where the number is 0, and must be
 * aligned for its type; it must lead to that many entries, all of which have been written to before, also those of a buffer
 * that is lent to be written; and such a buffer must not overlap anything else that is handed in. No function checks this.
 * All else is checked: every call ends with an answer, and a refusal changes no entry of a lent buffer. A call needs at most
 * SEEDS_STACK bytes of stack. No function keeps anything between calls, so threads may call at the same time. */
#ifndef SEEDS_H
#define SEEDS_H

#include <stddef.h>
#include <stdint.h>

#ifdef __cplusplus
extern "C" {
#endif

/* The version of this header and of the Rust package; docs/library.md says what stays from one to the next. */
#define SEEDS_VERSION "0.7.0"

/* Most cells of a register; most chains; the greatest limit of a window, and the greatest depth; most slices of a set, and most
 * seeds of a list. */
#define SEEDS_MOST_CELLS 64
#define SEEDS_MOST_CHAINS 64
#define SEEDS_LONGEST_WINDOW 256
#define SEEDS_MOST_SLICES 2048

/* Bytes of a text that decide its answer, whatever stands behind them; bytes of the longest text that is written. */
#define SEEDS_LONGEST_INPUT 169601
#define SEEDS_LONGEST_OUTPUT 145408

/* Bytes of stack that are enough for every call: a thread may be made with just that many. */
#define SEEDS_STACK 720896

/* The same for seeds_stop alone, which keeps nothing for each slice. */
#define SEEDS_STACK_STOP 512

/* The number of an answer: accepted, or the cause of the refusal. docs/library.md has the whole cause and the value of each. */
enum seeds_cause {
    SEEDS_ACCEPTED = 0,
    SEEDS_REGISTER = 1,      /* cells or taps */
    SEEDS_CHAINS = 2,        /* their number, a mask, or an inverted chain that is none of them */
    SEEDS_LENGTHS = 3,       /* depth or limit not 1 to 256, window length not 1 to the limit, a number of slices or seeds */
    SEEDS_TEST_SLICE = 4,    /* a test slice, or two lists unequally long */
    SEEDS_STOP_SLICE = 5,    /* the stop slice */
    SEEDS_ALL_TAKEN = 6,     /* the fully specified slices take up all patterns */
    SEEDS_NO_SEED = 7,       /* no state covers the window */
    SEEDS_NO_CUTTING = 8,    /* the set can't be cut; the value counts slices in windows that all close with the stop */
    SEEDS_NO_SPACE = 9,      /* the lent buffer is too short */
    SEEDS_SEED_BEYOND = 10,  /* a seed with a bit at or above cells */
    SEEDS_SEED_AT_STOP = 11, /* a seed whose slice 0 shows the stop */
    SEEDS_SEED_ENDLESS = 12, /* a seed with no stop in slices 0 to the limit; the last one only where more than that are left */
    SEEDS_LINE = 13,         /* a line out of form or out of order, or text that ends early */
    SEEDS_TOTAL = 14         /* the expanded total differs from slices, or nothing is left for the last seed */
};

/* A register, by its number of cells and its taps, with the settings of a call. Make it by seeds_settings_of: a version with
 * a setting more has a field more.
 *
 * The limit is the most slices of a window, 1 to 256. Any other is refused by SEEDS_LENGTHS, with value 0, in every call with
 * a window, a cutting or an expanding in it: seeds_check_window, seeds_check_set, seeds_check_cubes, seeds_check_list,
 * seeds_expand, seeds_window, seeds_encode_set, seeds_encode_cubes. seeds_step and seeds_slice do not look at it.
 *
 * The chains of invert deliver the opposite bit, wherever a slice is formed: chain j has weight 2^(j-1), 0 is no chain. A bit
 * beyond the chains is refused by SEEDS_CHAINS, with value 0, in the same calls and in seeds_slice. seeds_step does not look
 * at it. Test slices and stop slices are written as the slices come out. */
typedef struct {
    size_t cells;
    uint64_t taps;
    size_t limit;
    uint64_t invert;
} seeds_settings;

/* A register, with windows of up to 256 slices and no inverted chain. For a lower limit set the field: settings.limit = 64;
 * for chain 2 inverted: settings.invert = 2. */
static inline seeds_settings seeds_settings_of(size_t cells, uint64_t taps) {
    seeds_settings settings = {cells, taps, SEEDS_LONGEST_WINDOW, 0};
    return settings;
}

/* A step: number 0 and the state after it; or a refusal's number and value, with state 0. */
typedef struct {
    size_t number;
    size_t value;
    uint64_t state;
} seeds_state_answer;

/* The slice of a state: number 0 and the slice; or a refusal's number and value, with slice 0. */
typedef struct {
    size_t number;
    size_t value;
    uint64_t slice;
} seeds_slice_answer;

/* A stop slice: number 0 and the stop slice; or a refusal's number and value, with a stop slice of 0 and 0. */
typedef struct {
    size_t number;
    size_t value;
    uint64_t specified;
    uint64_t bits;
} seeds_stop_answer;

/* A call that writes: number 0 and the entries written, or a refusal's number and value. */
typedef struct {
    size_t number;
    size_t value;
} seeds_answer;

/* The seed of a window: number 0 and the seed; or a refusal's number and value, with seed 0. */
typedef struct {
    size_t number;
    size_t value;
    uint64_t seed;
} seeds_seed_answer;

/* Cubes: number 0, the seeds written and the stop slice; or a refusal's number and value, with a stop slice of 0 and 0. */
typedef struct {
    size_t number;
    size_t value;
    uint64_t specified;
    uint64_t bits;
} seeds_cubes_answer;

/* A text: number 0, the bytes written and the seeds or slices in them as entries; or a refusal's number and value, with 0
 * entries, but for SEEDS_NO_SPACE: there they are the seeds or slices that enough space would have given. */
typedef struct {
    size_t number;
    size_t value;
    size_t entries;
} seeds_text_answer;

/* The register rule: one step from a state, and the slice of a state. */
seeds_state_answer seeds_step(seeds_settings settings, uint64_t state);
seeds_slice_answer seeds_slice(seeds_settings settings, const uint64_t *masks, size_t masks_len,
                               uint64_t state);

/* The number of the first of causes 1 to 5 that refuses a call, or 0. */
size_t seeds_check_window(seeds_settings settings, const uint64_t *masks, size_t masks_len,
                          uint64_t stop_specified, uint64_t stop_bits,
                          const uint64_t *specified, size_t specified_len,
                          const uint64_t *bits, size_t bits_len);
size_t seeds_check_set(seeds_settings settings, const uint64_t *masks, size_t masks_len,
                       uint64_t stop_specified, uint64_t stop_bits,
                       const uint64_t *specified, size_t specified_len,
                       const uint64_t *bits, size_t bits_len);
size_t seeds_check_cubes(seeds_settings settings, const uint64_t *masks, size_t masks_len,
                         size_t depth,
                         const uint64_t *specified, size_t specified_len,
                         const uint64_t *bits, size_t bits_len);
size_t seeds_check_stop(size_t chains,
                        const uint64_t *specified, size_t specified_len,
                        const uint64_t *bits, size_t bits_len);
size_t seeds_check_list(seeds_settings settings, const uint64_t *masks, size_t masks_len,
                        uint64_t stop_specified, uint64_t stop_bits,
                        size_t slices, size_t seeds);

/* The stop slice of a set: that of the published steps or, where they end with slices in, the smallest pattern that is free. */
seeds_stop_answer seeds_stop(size_t chains,
                             const uint64_t *specified, size_t specified_len,
                             const uint64_t *bits, size_t bits_len);

/* The slices of a seed list. Each seed but the last delivers the slices before its stop. The last one ends when `slices` are
 * delivered, whatever its next slice shows; it need not have a stop. Where its stop comes before, or nothing is left for
 * it, the answer is SEEDS_TOTAL with the total found; where more slices than the limit are left and it has no stop in slices 0
 * to the limit, SEEDS_SEED_ENDLESS. */
seeds_answer seeds_expand(seeds_settings settings, const uint64_t *masks, size_t masks_len,
                          uint64_t stop_specified, uint64_t stop_bits,
                          size_t slices, const uint64_t *seeds, size_t seeds_len,
                          uint64_t *out, size_t out_len);

/* The lowest state that covers a window, which closes with its stop; and the fewest seeds of a set. Every window of a set but
 * the one that ends it closes with its stop. That one is covered when its slices agree and none shows the stop: its seed is the
 * lowest such state, 0 too. */
seeds_seed_answer seeds_window(seeds_settings settings, const uint64_t *masks, size_t masks_len,
                               uint64_t stop_specified, uint64_t stop_bits,
                               const uint64_t *specified, size_t specified_len,
                               const uint64_t *bits, size_t bits_len);
seeds_answer seeds_encode_set(seeds_settings settings, const uint64_t *masks, size_t masks_len,
                              uint64_t stop_specified, uint64_t stop_bits,
                              const uint64_t *specified, size_t specified_len,
                              const uint64_t *bits, size_t bits_len,
                              uint64_t *out, size_t out_len);
seeds_cubes_answer seeds_encode_cubes(seeds_settings settings, const uint64_t *masks, size_t masks_len,
                                      size_t depth,
                                      const uint64_t *specified, size_t specified_len,
                                      const uint64_t *bits, size_t bits_len,
                                      uint64_t *out, size_t out_len);

/* The text of a sheet to its seed list, and of a seed list to its slice lines. The limit of a window is the number of the
 * text's line window=, or 256 where it has no such line; the inverted chains are those of its line invert=, or none. Sets and
 * lists are encoded and expanded as above. */
seeds_text_answer seeds_encode_text(const uint8_t *sheet, size_t sheet_len, uint8_t *out, size_t out_len);
seeds_text_answer seeds_expand_text(const uint8_t *list, size_t list_len, uint8_t *out, size_t out_len);

#ifdef __cplusplus
}
#endif

#endif

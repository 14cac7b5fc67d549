/* Quotes a sheet in C: reads it from standard input, prints its number of seeds and its seed list, and expands the list again.
 * Then the same by numbers, for document 01's register R. For an accepted sheet it prints what rust/examples/quote.rs prints.
 * It ends with status 1 where anything is refused. */
#include "seeds.h"
#include <stdbool.h>
#include <stdio.h>
#include <stdlib.h>

static uint8_t sheet[SEEDS_LONGEST_INPUT], list[SEEDS_LONGEST_OUTPUT], lines[SEEDS_LONGEST_OUTPUT];

/* Prints a refusal; whether there is one. */
static bool refused(size_t number, size_t value) {
    if (number == SEEDS_ACCEPTED)
        return false;
    printf("refused=%zu at=%zu\n", number, value);
    if (number == SEEDS_NO_CUTTING)
        printf("slices that can be cut, from the first on: %zu\n", value);
    return true;
}

/* Encodes and expands a sheet, and prints both; whether both are accepted. */
static bool by_text(size_t length) {
    seeds_text_answer encoded = seeds_encode_text(sheet, length, list, sizeof list);
    if (refused(encoded.number, encoded.value))
        return false;
    seeds_text_answer expanded = seeds_expand_text(list, encoded.value, lines, sizeof lines);
    if (refused(expanded.number, expanded.value))
        return false;
    printf("%zu seeds\n", encoded.entries);
    fwrite(list, 1, encoded.value, stdout);
    fwrite(lines, 1, expanded.value, stdout);
    return true;
}

/* Encodes document 01's set by numbers: 10, x1, 1x, 1x; chain 1 is the lowest bit. Whether it is accepted. */
static bool by_numbers(void) {
    const seeds_settings settings = seeds_settings_of(3, 6);
    const uint64_t masks[] = {1, 4};
    const uint64_t specified[] = {3, 2, 1, 1}, bits[] = {1, 2, 1, 1};
    uint64_t seeds[4] = {0}, slices[4] = {0};
    seeds_cubes_answer encoded = seeds_encode_cubes(settings, masks, 2, 2, specified, 4, bits, 4, seeds, 4);
    if (refused(encoded.number, encoded.value))
        return false;
    printf("stop %llu %llu, seeds", (unsigned long long)encoded.specified, (unsigned long long)encoded.bits);
    for (size_t place = 0; place < encoded.value; place++)
        printf(" %llu", (unsigned long long)seeds[place]);
    seeds_answer expanded =
        seeds_expand(settings, masks, 2, encoded.specified, encoded.bits, 4, seeds, encoded.value, slices, 4);
    if (refused(expanded.number, expanded.value))
        return false;
    printf("\n%zu slices", expanded.value);
    for (size_t place = 0; place < expanded.value; place++)
        printf(" %llu", (unsigned long long)slices[place]);
    printf("\n");
    return true;
}

int main(void) {
    bool text = by_text(fread(sheet, 1, sizeof sheet, stdin));
    bool numbers = by_numbers();
    return text && numbers ? EXIT_SUCCESS : EXIT_FAILURE;
}

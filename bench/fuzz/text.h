/* Texts, and random numbers that a seed decides. */
#ifndef TEXT_H
#define TEXT_H

#include <stddef.h>
#include <stdint.h>

/* The most octets that a text has. */
#define ROOM 16384

struct text {
    size_t length;
    uint8_t octets[ROOM];
};

/* Texts that damaged ones are made of. */
struct texts {
    struct text *items;
    size_t count;
};

/* xorshift64*, by Marsaglia and Vigna. */
struct numbers {
    uint64_t state; /* never 0 */
};

static inline uint64_t next_number(struct numbers *numbers)
{
    numbers->state ^= numbers->state >> 12;
    numbers->state ^= numbers->state << 25;
    numbers->state ^= numbers->state >> 27;
    return numbers->state * 0x2545F4914F6CDD1Dull;
}

/* A number below `end`, which is not 0. */
static inline size_t number_below(struct numbers *numbers, size_t end)
{
    return (size_t)((next_number(numbers) >> 16) % end);
}

/* The numbers for one text: those of another text, or of another seed, have nothing to do with them (splitmix64). */
static inline struct numbers numbers_of(uint64_t seed, uint64_t place)
{
    uint64_t mixed = seed * 0x9E3779B97F4A7C15ull + place * 0xD1B54A32D192ED03ull + 0x8CB92BA72F3D8DD7ull;
    struct numbers numbers;

    mixed = (mixed ^ mixed >> 30) * 0xBF58476D1CE4E5B9ull;
    mixed = (mixed ^ mixed >> 27) * 0x94D049BB133111EBull;
    numbers.state = (mixed ^ mixed >> 31) | 1;
    return numbers;
}

#endif

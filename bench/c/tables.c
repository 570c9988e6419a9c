// The kernels of bench/kernels/tables.rt.txt in C, with the same words and the same checksums.
//
// A table has an entry of four bytes for each quantile: its symbol, how far it lies above its row's
// left cumulative, and the row's weight. A weight is below 2^12, so no table has a row alone. An
// encoder multiplies by a reciprocal that is rounded up, which is exact for states below 2^63, so
// no weight may exceed 2^11. Memory for all words is requested before they are written.
#include <stddef.h>
#include <stdint.h>
#include <stdlib.h>

#define PRECISION 12
#define WHOLE (1u << PRECISION)

static inline uint64_t mix(uint64_t sum, uint64_t number)
{
    return (sum << 5 | sum >> 59) ^ number;
}

// The checksum with some of the bytes, so few that they take no time.
static inline uint64_t mix_some(uint64_t sum, const uint8_t *bytes, size_t count)
{
    for (size_t at = 0; at < count; at += 64)
        sum = mix(sum, bytes[at]);
    return sum;
}

// A symbol as an encoder has it.
struct prepared {
    uint64_t reciprocal;
    uint32_t left;
    uint32_t weight;
    uint32_t shift;
};

struct table {
    uint32_t entries[WHOLE];
    struct prepared symbols[256];
};

// 2^(64 + shift) / weight, rounded up, where the weight lies above 2^shift.
static void set_reciprocal(struct prepared *symbol)
{
    unsigned __int128 power = (unsigned __int128)1 << 64;
    uint32_t shift = 0;
    while (2u << shift < symbol->weight)
        shift++;
    symbol->shift = shift;
    symbol->reciprocal = (uint64_t)(((power << shift) + symbol->weight - 1) / symbol->weight);
}

static struct table *table_of(const uint32_t *weights, size_t count)
{
    struct table *table = calloc(1, sizeof *table);
    if (!table)
        return NULL;
    uint32_t left = 0;
    for (size_t number = 0; number < count; number++) {
        struct prepared *symbol = &table->symbols[number];
        symbol->left = left;
        symbol->weight = weights[number];
        if (symbol->weight > 1)
            set_reciprocal(symbol);
        for (uint32_t above = 0; above < weights[number]; above++)
            table->entries[left + above] = (uint32_t)number << 24 | above << PRECISION | weights[number];
        left += weights[number];
    }
    return table;
}

// Encodes the bytes from the last to the first. Returns how many words it wrote.
static inline size_t encode(const struct table *table, const uint8_t *bytes, size_t count, uint32_t *words)
{
    uint64_t state = 0;
    size_t written = 0;
    while (count-- > 0) {
        const struct prepared *symbol = &table->symbols[bytes[count]];
        uint64_t weight = symbol->weight;
        if (state >> (64 - PRECISION) >= weight) {
            words[written++] = (uint32_t)state;
            state >>= 32;
        }
        uint64_t quotient = state;
        if (weight > 1)
            quotient = (uint64_t)((unsigned __int128)state * symbol->reciprocal >> 64) >> symbol->shift;
        state += symbol->left + quotient * (WHOLE - weight);
    }
    for (; state; state >>= 32)
        words[written++] = (uint32_t)state;
    return written;
}

struct stack {
    uint64_t state;
    const uint32_t *words;
    size_t count;
};

static inline void take_word(struct stack *stack)
{
    if (stack->state < (uint64_t)1 << 32 && stack->count)
        stack->state = stack->state << 32 | stack->words[--stack->count];
}

static inline struct stack stack_of(const uint32_t *words, size_t count)
{
    struct stack stack = {0, words, count};
    take_word(&stack);
    take_word(&stack);
    return stack;
}

static inline uint8_t decode(struct stack *stack, const struct table *table)
{
    uint32_t entry = table->entries[stack->state % WHOLE];
    stack->state = (stack->state >> PRECISION) * (entry % WHOLE) + (entry >> PRECISION) % WHOLE;
    take_word(stack);
    return (uint8_t)(entry >> 24);
}

uint64_t c_table_encode(const uint32_t *weights, size_t rows, const uint8_t *bytes, size_t count, uint32_t repeats)
{
    struct table *table = table_of(weights, rows);
    uint32_t *words = malloc(4 * count + 8);
    if (!table || !words)
        return 1;
    uint64_t sum = 0;
    for (; repeats > 0; repeats--) {
        size_t written = encode(table, bytes, count, words);
        for (size_t at = 0; at < written; at++)
            sum = mix(sum, words[at]);
    }
    free(words);
    free(table);
    return sum;
}

uint64_t c_table_decode(const uint32_t *weights, size_t rows, const uint8_t *bytes, size_t count, uint32_t repeats)
{
    struct table *table = table_of(weights, rows);
    uint32_t *words = malloc(4 * count + 8);
    uint8_t *decoded = malloc(count);
    if (!table || !words || !decoded)
        return 1;
    size_t written = encode(table, bytes, count, words);
    uint64_t sum = 0;
    for (; repeats > 0; repeats--) {
        struct stack stack = stack_of(words, written);
        for (size_t at = 0; at < count; at++)
            decoded[at] = decode(&stack, table);
        sum = mix_some(sum, decoded, count);
    }
    free(decoded);
    free(words);
    free(table);
    return sum;
}

uint64_t c_table_decode_two(const uint32_t *weights, size_t rows, const uint8_t *bytes, size_t count, uint32_t repeats)
{
    struct table *table = table_of(weights, rows);
    size_t half = count / 2;
    uint32_t *first_words = malloc(4 * half + 8);
    uint32_t *second_words = malloc(4 * (count - half) + 8);
    uint8_t *decoded = malloc(count);
    if (!table || !first_words || !second_words || !decoded)
        return 1;
    size_t first_written = encode(table, bytes, half, first_words);
    size_t second_written = encode(table, bytes + half, count - half, second_words);
    uint64_t sum = 0;
    for (; repeats > 0; repeats--) {
        struct stack first = stack_of(first_words, first_written);
        struct stack second = stack_of(second_words, second_written);
        for (size_t at = 0; at < half; at++) {
            decoded[at] = decode(&first, table);
            decoded[half + at] = decode(&second, table);
        }
        for (size_t at = 2 * half; at < count; at++)
            decoded[at] = decode(&second, table);
        sum = mix_some(mix_some(sum, decoded, half), decoded + half, count - half);
    }
    free(decoded);
    free(first_words);
    free(second_words);
    free(table);
    return sum;
}

#include "damage.h"

#include <stdbool.h>
#include <string.h>

#include "checker.h"

/* Octets with a meaning in DER, which are put in more often than others. */
static const uint8_t TELLING[] = {0x00, 0x01, 0x02, 0x03, 0x04, 0x05, 0x06, 0x0A, 0x0C, 0x13, 0x16, 0x17, 0x18, 0x1F, 0x20, 0x21,
    0x22, 0x30, 0x31, 0x7F, 0x80, 0x81, 0x82, 0x83, 0x84, 0x85, 0x86, 0x87, 0xA0, 0xA1, 0xA3, 0xA4, 0xC0, 0xFF};

/* No octets: C does not let a null pointer stand for them. */
static const uint8_t NOTHING[1];

static uint8_t random_octet(struct numbers *numbers)
{
    uint64_t number = next_number(numbers);

    return (number & 1) != 0 ? (uint8_t)(number >> 8) : TELLING[(number >> 8) % sizeof TELLING];
}

/* Octets `from` up to `to` give way to `count` others, which may not lie in the text; false, and nothing done, where there is no room. */
static bool replace(struct text *text, size_t from, size_t to, const uint8_t *others, size_t count)
{
    size_t length = text->length - (to - from) + count;

    if (length > ROOM)
        return false;
    memmove(text->octets + from + count, text->octets + to, text->length - to);
    memcpy(text->octets + from, others, count);
    text->length = length;
    return true;
}

/* ---- Mistakes in octets, whatever they are. The text is not empty. ---- */

static void flip_bit(struct numbers *numbers, struct text *text)
{
    text->octets[number_below(numbers, text->length)] ^= (uint8_t)(1u << number_below(numbers, 8));
}

static void set_octet(struct numbers *numbers, struct text *text)
{
    text->octets[number_below(numbers, text->length)] = random_octet(numbers);
}

static void put_in(struct numbers *numbers, struct text *text)
{
    uint8_t octets[4];
    size_t count = 1 + number_below(numbers, sizeof octets);
    size_t at = number_below(numbers, text->length + 1);

    for (size_t i = 0; i < count; i++)
        octets[i] = random_octet(numbers);
    replace(text, at, at, octets, count);
}

/* A place in the text, and one behind it by at most so many octets. */
static void choose_span(struct numbers *numbers, const struct text *text, size_t most, size_t *from, size_t *to)
{
    *from = number_below(numbers, text->length);
    *to = *from + 1 + number_below(numbers, most);
    if (*to > text->length)
        *to = text->length;
}

static void take_out(struct numbers *numbers, struct text *text)
{
    size_t from, to;

    choose_span(numbers, text, 4, &from, &to);
    replace(text, from, to, NOTHING, 0);
}

static void cut(struct numbers *numbers, struct text *text)
{
    text->length = number_below(numbers, text->length);
}

static void repeat(struct numbers *numbers, struct text *text)
{
    uint8_t octets[64];
    size_t from, to;

    choose_span(numbers, text, sizeof octets, &from, &to);
    memcpy(octets, text->octets + from, to - from);
    replace(text, to, to, octets, to - from);
}

static void splice(struct numbers *numbers, struct text *text, const struct text *other)
{
    size_t at = number_below(numbers, text->length);
    size_t from = number_below(numbers, other->length);

    replace(text, at, text->length, other->octets + from, other->length - from);
}

/* ---- Values: where those of a text stand that is DER, the outermost first. Contents of an OCTET STRING that are DER count too. ---- */

#define MOST_VALUES 4096
#define NO_VALUE SIZE_MAX

struct value {
    size_t at;
    size_t header;   /* octets before the contents */
    size_t contents; /* octets of the contents */
    size_t parent;   /* the value round it, or NO_VALUE */
};

struct values {
    struct value items[MOST_VALUES];
    size_t count;
};

/* The value at a place of a text that is DER there. */
static struct value value_at(const struct text *text, size_t at, size_t parent)
{
    uint8_t first = text->octets[at + 1];
    struct value value = {at, 2, first, parent};

    if (first < 0x80)
        return value;
    value.header = 2 + (first & 0x7F);
    value.contents = 0;
    for (size_t i = 2; i < value.header; i++)
        value.contents = value.contents << 8 | text->octets[at + i];
    return value;
}

static bool is_der(const uint8_t *octets, size_t length)
{
    size_t offset;

    return checker_check(octets, length, &offset) == CHECKER_ACCEPTED;
}

/* Whether there are values inside. */
static bool is_open(const struct text *text, const struct value *value)
{
    uint8_t identifier = text->octets[value->at];

    if ((identifier & 0x20) != 0)
        return true;
    return identifier == 0x04 && is_der(text->octets + value->at + value->header, value->contents);
}

static void add_values_inside(const struct text *text, size_t parent, struct values *values)
{
    const struct value *round = &values->items[parent];
    size_t at = round->at + round->header;
    size_t end = at + round->contents;

    while (at < end && values->count < MOST_VALUES) {
        struct value value = value_at(text, at, parent);

        values->items[values->count++] = value;
        at += value.header + value.contents;
    }
}

/* The values of a text; none where it is not DER. */
static void find_values(const struct text *text, struct values *values)
{
    values->count = 0;
    if (!is_der(text->octets, text->length))
        return;
    values->items[values->count++] = value_at(text, 0, NO_VALUE);
    for (size_t i = 0; i < values->count; i++)
        if (is_open(text, &values->items[i]))
            add_values_inside(text, i, values);
}

/* ---- Mistakes in values. ---- */

/* Writes length octets of the shortest form. How many there are. */
static size_t write_length(uint8_t octets[9], size_t length)
{
    size_t count = 0;

    if (length < 0x80) {
        octets[0] = (uint8_t)length;
        return 1;
    }
    while (length >> 8 * count != 0)
        count++;
    octets[0] = (uint8_t)(0x80 | count);
    for (size_t i = 0; i < count; i++)
        octets[1 + i] = (uint8_t)(length >> 8 * (count - 1 - i));
    return 1 + count;
}

/* The lengths of a value and of those round it after the contents of the value have grown by so many octets. */
static void mend(struct text *text, const struct values *values, size_t place, ptrdiff_t growth)
{
    while (place != NO_VALUE) {
        const struct value *value = &values->items[place];
        uint8_t octets[9];
        size_t count = write_length(octets, value->contents + (size_t)growth);

        if (!replace(text, value->at + 1, value->at + value->header, octets, count))
            return;
        growth += (ptrdiff_t)(1 + count) - (ptrdiff_t)value->header;
        place = value->parent;
    }
}

/* The octets from a place in the contents of a value on give way to others, and lengths are mended. */
static void replace_inside(struct text *text, const struct values *values, size_t parent, size_t from, size_t to, const uint8_t *others,
                           size_t count)
{
    if (replace(text, from, to, others, count))
        mend(text, values, parent, (ptrdiff_t)count - (ptrdiff_t)(to - from));
}

static size_t end_of(const struct value *value)
{
    return value->at + value->header + value->contents;
}

static void replace_value(struct text *text, const struct values *values, size_t place, const uint8_t *others, size_t count)
{
    const struct value *value = &values->items[place];

    replace_inside(text, values, value->parent, value->at, end_of(value), others, count);
}

static void repeat_value(struct text *text, const struct values *values, size_t place)
{
    static uint8_t octets[ROOM];
    const struct value *value = &values->items[place];
    size_t count = end_of(value) - value->at;

    memcpy(octets, text->octets + value->at, count);
    replace_inside(text, values, value->parent, end_of(value), end_of(value), octets, count);
}

/* A value and the one behind it change places, where both are in one value. */
static void exchange_with_next(struct text *text, const struct values *values, size_t place)
{
    static uint8_t octets[ROOM];
    const struct value *value = &values->items[place];
    size_t first = end_of(value) - value->at;
    size_t second;

    if (place + 1 == values->count || values->items[place + 1].parent != value->parent)
        return;
    second = end_of(value + 1) - (value + 1)->at;
    memcpy(octets, text->octets + value->at, first);
    memmove(text->octets + value->at, text->octets + value->at + first, second);
    memcpy(text->octets + value->at + second, octets, first);
}

static void take_value_of(struct numbers *numbers, struct text *text, const struct values *values, size_t place, const struct text *other)
{
    static struct values others;
    const struct value *value;

    find_values(other, &others);
    if (others.count == 0)
        return;
    value = &others.items[number_below(numbers, others.count)];
    replace_value(text, values, place, other->octets + value->at, end_of(value) - value->at);
}

static void change_contents(struct numbers *numbers, struct text *text, const struct values *values, size_t place)
{
    const struct value *value = &values->items[place];
    size_t begin = value->at + value->header;
    size_t from = begin + number_below(numbers, value->contents + 1);
    size_t to = from + number_below(numbers, 3);
    uint8_t octets[2];
    size_t count = number_below(numbers, 3);

    for (size_t i = 0; i < count; i++)
        octets[i] = random_octet(numbers);
    replace_inside(text, values, place, from, to < end_of(value) ? to : end_of(value), octets, count);
}

static void put_round(struct numbers *numbers, struct text *text, const struct values *values, size_t place)
{
    static const uint8_t ROUND[] = {0x04, 0x30, 0x31, 0xA0, 0xA1, 0xA3, 0xA4};
    static uint8_t octets[ROOM];
    const struct value *value = &values->items[place];
    size_t inside = end_of(value) - value->at;
    size_t header;

    octets[0] = ROUND[number_below(numbers, sizeof ROUND)];
    header = 1 + write_length(octets + 1, inside);
    if (header + inside > ROOM)
        return;
    memcpy(octets + header, text->octets + value->at, inside);
    replace_value(text, values, place, octets, header + inside);
}

/* Length octets of some value that say something else, with nothing mended. */
static void change_length(struct numbers *numbers, struct text *text, const struct value *value)
{
    uint8_t octets[9];
    size_t count = write_length(octets, value->contents);

    switch (number_below(numbers, 5)) {
    case 0:
        count = write_length(octets, value->contents + 1 + number_below(numbers, 3));
        break;
    case 1:
        count = write_length(octets, value->contents - (value->contents > 0));
        break;
    case 2: /* one octet more than the shortest form has */
        memmove(octets + 2, octets + (count > 1), 7);
        octets[0] = (uint8_t)(0x80 | (count > 1 ? count : 1));
        octets[1] = count > 1 ? 0 : (uint8_t)value->contents;
        count += 1;
        break;
    case 3:
        count = 1 + number_below(numbers, 8);
        octets[0] = (uint8_t)(0x80 | (count - 1));
        for (size_t i = 1; i < count; i++)
            octets[i] = random_octet(numbers);
        break;
    default:
        octets[0] = random_octet(numbers);
        count = 1;
    }
    replace(text, value->at + 1, value->at + value->header, octets, count);
}

/* A mistake in a value of a text that is DER, with all lengths mended except those of one kind. */
static void damage_value(struct numbers *numbers, const struct texts *texts, struct text *text, const struct values *values)
{
    size_t place = number_below(numbers, values->count);

    switch (number_below(numbers, 10)) {
    case 0:
        replace_value(text, values, place, NOTHING, 0);
        break;
    case 1:
        repeat_value(text, values, place);
        break;
    case 2:
        exchange_with_next(text, values, place);
        break;
    case 3:
    case 4:
        take_value_of(numbers, text, values, place, &texts->items[number_below(numbers, texts->count)]);
        break;
    case 5:
        text->octets[values->items[place].at] = random_octet(numbers);
        break;
    case 6:
        put_round(numbers, text, values, place);
        break;
    case 7:
        change_length(numbers, text, &values->items[place]);
        break;
    default:
        change_contents(numbers, text, values, place);
    }
}

static void damage_octets(struct numbers *numbers, const struct texts *texts, struct text *text)
{
    switch (number_below(numbers, 9)) {
    case 0:
    case 1:
        flip_bit(numbers, text);
        break;
    case 2:
    case 3:
        set_octet(numbers, text);
        break;
    case 4:
        put_in(numbers, text);
        break;
    case 5:
        take_out(numbers, text);
        break;
    case 6:
        repeat(numbers, text);
        break;
    case 7:
        cut(numbers, text);
        break;
    default:
        splice(numbers, text, &texts->items[number_below(numbers, texts->count)]);
    }
}

void make_damaged(struct numbers *numbers, const struct texts *texts, struct text *made)
{
    static struct values values;
    const struct text *text = &texts->items[number_below(numbers, texts->count)];
    size_t mistakes = 1 + number_below(numbers, 4);

    made->length = text->length;
    memcpy(made->octets, text->octets, text->length);
    for (size_t i = 0; i < mistakes && made->length > 0; i++) {
        values.count = 0;
        if (number_below(numbers, 4) != 0)
            find_values(made, &values);
        if (values.count > 0)
            damage_value(numbers, texts, made, &values);
        else
            damage_octets(numbers, texts, made);
    }
}

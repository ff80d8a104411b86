#include "checker.h"

#include <stdbool.h>

#define DEEPEST 32

/* The header of a value. */
struct header {
    uint8_t identifier;
    size_t length;   /* octets before the contents */
    size_t contents; /* octets of the contents */
};

static bool is_constructed(uint8_t identifier)
{
    return (identifier & 0x20) != 0;
}

/* High tag numbers, universal 0, and universal types in the wrong form. */
static bool is_refused(uint8_t identifier)
{
    /* bit n is set where universal type n is refused in this form */
    static const uint32_t refused_primitive = 1u << 0 | 1u << 16 | 1u << 17;
    static const uint32_t refused_constructed = 0x7Fu | 1u << 10 | 1u << 12 | 1u << 19 | 1u << 20 | 1u << 22 | 1u << 23
        | 1u << 24 | 1u << 28 | 1u << 30;
    unsigned number = identifier & 0x1F;

    if (number == 31)
        return true;
    if (identifier >= 0x40)
        return false;
    return ((is_constructed(identifier) ? refused_constructed : refused_primitive) >> number & 1) != 0;
}

/* The length octets behind the identifier; the text has two octets at least. */
static enum checker_rule read_length(const uint8_t *text, size_t length, struct header *header)
{
    uint8_t first = text[1];
    size_t count;

    if (first < 0x80) {
        header->length = 2;
        header->contents = first;
        return CHECKER_ACCEPTED;
    }
    if (first == 0x80 || first == 0xFF)
        return CHECKER_LENGTH_FORM;
    count = first & 0x7F;
    if (length < 2 + count)
        return CHECKER_TRUNCATED;
    if (text[2] == 0 || (count == 1 && text[2] < 0x80))
        return CHECKER_LENGTH_FORM;
    if (count > 4 || (count == 4 && text[2] > 0x0F))
        return CHECKER_TOO_LONG;
    header->length = 2 + count;
    header->contents = 0;
    for (size_t i = 0; i < count; i++)
        header->contents = header->contents << 8 | text[2 + i];
    return CHECKER_ACCEPTED;
}

static enum checker_rule read_header(const uint8_t *text, size_t length, struct header *header)
{
    enum checker_rule rule;

    if (length == 0)
        return CHECKER_TRUNCATED;
    header->identifier = text[0];
    if (is_refused(text[0]))
        return CHECKER_TAG_FORM;
    if (length < 2)
        return CHECKER_TRUNCATED;
    rule = read_length(text, length, header);
    if (rule != CHECKER_ACCEPTED)
        return rule;
    return length - header->length < header->contents ? CHECKER_TRUNCATED : CHECKER_ACCEPTED;
}

static bool is_integer(const uint8_t *contents, size_t length)
{
    if (length == 0)
        return false;
    if (length == 1)
        return true;
    return !(contents[0] == 0x00 && contents[1] < 0x80) && !(contents[0] == 0xFF && contents[1] >= 0x80);
}

static bool is_bit_string(const uint8_t *contents, size_t length)
{
    if (length == 0)
        return false;
    if (length == 1)
        return contents[0] == 0;
    return contents[0] < 8 && (contents[length - 1] & ((1u << contents[0]) - 1)) == 0;
}

static bool is_object_identifier(const uint8_t *contents, size_t length)
{
    bool begins_arc = true;

    for (size_t i = 0; i < length; i++) {
        if (begins_arc && contents[i] == 0x80)
            return false;
        begins_arc = contents[i] < 0x80;
    }
    return length > 0 && begins_arc;
}

static bool is_contents(uint8_t identifier, const uint8_t *contents, size_t length)
{
    switch (identifier) {
    case 1:
        return length == 1 && (contents[0] == 0x00 || contents[0] == 0xFF);
    case 2:
    case 10:
        return is_integer(contents, length);
    case 3:
        return is_bit_string(contents, length);
    case 5:
        return length == 0;
    case 6:
        return is_object_identifier(contents, length);
    default:
        return true;
    }
}

enum checker_rule checker_check(const uint8_t *octets, size_t length, size_t *offset)
{
    size_t ends[DEEPEST + 1]; /* where the values end that are open, the outermost first; ends[0] is that of the input */
    size_t at = 0;
    unsigned depth = 0;
    struct header header;

    ends[0] = length;
    do {
        enum checker_rule rule = read_header(octets + at, ends[depth] - at, &header);

        *offset = at;
        if (rule != CHECKER_ACCEPTED)
            return rule;
        if (depth == DEEPEST)
            return CHECKER_TOO_DEEP;
        at += header.length;
        if (is_constructed(header.identifier)) {
            ends[++depth] = at + header.contents;
        } else {
            if (!is_contents(header.identifier, octets + at, header.contents))
                return CHECKER_CONTENT;
            at += header.contents;
        }
        while (depth > 0 && at == ends[depth])
            depth--;
    } while (depth > 0);
    *offset = at;
    return at < length ? CHECKER_TRAILING : CHECKER_ACCEPTED;
}

#include "image.h"

#include <string.h>

enum {
    EDITION = 4,
    MEMBERS = 3,
    QUORUM = 7,
    VOTE = 4,
    COUNT = 6,
    VERSION = 24,
    NAME = 20,
    VALUE = 16,
    ENTRY = NAME + VERSION + VALUE + VERSION
};

void image_put(struct image *image, unsigned width, uint32_t field)
{
    for (unsigned bit = width; bit-- > 0; image->bits++) {
        if (field >> bit & 1)
            image->bytes[image->bits / 8] |= (uint8_t)(0x80 >> image->bits % 8);
    }
}

uint32_t image_field(const uint8_t *bytes, size_t at, unsigned width)
{
    uint32_t field = 0;
    for (unsigned bit = 0; bit < width; bit++, at++)
        field = field << 1 | (bytes[at / 8] >> (7 - at % 8) & 1);
    return field;
}

void image_head(struct image *image, unsigned read, unsigned write, const uint8_t *votes, unsigned members)
{
    memset(image, 0, sizeof *image);
    image_put(image, EDITION, 1);
    image_put(image, MEMBERS, members - 1);
    image_put(image, QUORUM, read);
    image_put(image, QUORUM, write);
    for (unsigned i = 0; i < members; i++)
        image_put(image, VOTE, votes[i]);
}

void image_member(struct image *image, unsigned entries, uint32_t lowest_gap)
{
    image_put(image, COUNT, entries);
    image_put(image, VERSION, lowest_gap);
}

void image_entry(struct image *image, uint32_t name, uint32_t version, uint32_t value, uint32_t gap_above)
{
    image_put(image, NAME, name);
    image_put(image, VERSION, version);
    image_put(image, VALUE, value);
    image_put(image, VERSION, gap_above);
}

void image_fresh(struct image *image, unsigned read, unsigned write, const uint8_t *votes, unsigned members)
{
    image_head(image, read, write, votes, members);
    for (unsigned i = 0; i < members; i++)
        image_member(image, 0, 0);
}

size_t image_length(const uint8_t *image)
{
    unsigned members = image_field(image, EDITION, MEMBERS) + 1;
    size_t at = EDITION + MEMBERS + QUORUM + QUORUM + members * VOTE;
    for (unsigned i = 0; i < members; i++)
        at += COUNT + VERSION + image_field(image, at, COUNT) * (size_t)ENTRY;
    return (at + 7) / 8;
}

/* Suite images in C: fields of some bits each, most significant bit first, one after another. */
#ifndef IMAGE_H
#define IMAGE_H

#include <stddef.h>
#include <stdint.h>

#include "directory.h"

/* An image while it is made. The bits not yet put are zero, as the padding must be. */
struct image {
    uint8_t bytes[DIRECTORY_LONGEST_IMAGE];
    size_t bits;
};

/* Adds a field of so many bits, 32 at most. */
void image_put(struct image *image, unsigned width, uint32_t field);

/* The field of so many bits that starts at a bit of some bytes. */
uint32_t image_field(const uint8_t *bytes, size_t at, unsigned width);

/* Starts an image with its head: edition, number of members, R, W and each member's votes. */
void image_head(struct image *image, unsigned read, unsigned write, const uint8_t *votes, unsigned members);

/* Adds a member's own head: the number of its entries and the version of its lowest gap. */
void image_member(struct image *image, unsigned entries, uint32_t lowest_gap);

/* Adds an entry of that member, above those before it. */
void image_entry(struct image *image, uint32_t name, uint32_t version, uint32_t value, uint32_t gap_above);

/* A fresh suite's image. */
void image_fresh(struct image *image, unsigned read, unsigned write, const uint8_t *votes, unsigned members);

/* The bytes of an image that a call gave back, found from its number of members and their counts. */
size_t image_length(const uint8_t *image);

#endif

/* The rules paper's listing as bench calls, from a fresh suite whose image is made by hand. Prints every image
 * in hexadecimal and fails where a result, an answer or one of the images below is not the expected one.
 */
#include <stdio.h>
#include <string.h>

#include "directory.h"
#include "image.h"

/* The suite between calls: its image and how long it is. */
struct suite {
    uint8_t bytes[DIRECTORY_LONGEST_IMAGE];
    size_t length;
};

struct call {
    const char *line;
    uint32_t operation, read_set, write_set, name, value;
    uint32_t result;
    uint32_t answer[4];
    const char *image; /* in hexadecimal, where one is known */
};

/* The images below were put together from the paper's fields alone, by none of this project's programs: each field in
 * binary and in its width, the bits cut into bytes, zeros behind. A suite of three members with one vote each, R 2
 * and W 2 begins with
 *   edition 0001, members less one 010, R 0000010, W 0000010, votes 0001 0001 0001: 33 bits,
 *   0001.0100 0000.1000 0001.0000 1000.1000 1 = 14 08 10 88 and the first bit of an 8.
 * Then come for each member 30 bits, and 84 more for each of its entries:
 *   count (6 bits), version of the lowest gap (24); name (20), version (24), value (16), version of the gap above (24).
 */

/* Three members without an entry: 33 + 90 = 123 bits, all of the last 90 zero. */
#define FRESH "14081088800000000000000000000000"

/* Members 0 and 1 hold 20 (version 1, value 7), 291 bits. From bit 33 on, for member 0: 000001, 24 zeros, then
 * 00000000000000010100, 23 zeros and 1, 0000000000000111, 24 zeros; the same from bit 147 on for member 1. */
#define ONE_NAME \
    "140810888200000000028000002000e00000008000000000a000000800380000" \
    "0000000000"

/* After the removal of 20 through members 1 and 2, 627 bits. Member 0 was not written and still holds 20:
 *   member 0: two entries, lowest gap 0; 20, version 1, value 7, gap 0; 30, version 1, value 9, gap 0;
 *   members 1 and 2: two entries, lowest gap 0; 10, version 1, value 3, gap 2; 30, version 1, value 9, gap 0. */
#define REMOVED \
    "140810888400000000028000002000e0000000003c0000020012000000100000" \
    "00000500000080018000010000f0000008004800000040000000001400000200" \
    "060000040003c00000200120000000"

/* After 20 came back through members 0 and 1 with version 3, one above the gap, 711 bits:
 *   member 0: 20, version 3, value 8, gap 0; 30 as before;
 *   member 1: 10 as before; 20, version 3, value 8, gap 2, both halves of the gap being 2; 30 as before;
 *   member 2 was not written. */
#define BACK \
    "14081088840000000002800000600100000000003c0000020012000000180000" \
    "00000500000080018000010000a00000180040000010000f0000008004800000" \
    "040000000001400000200060000040003c0000020012000000"

static const struct call listing[] = {
    {"ins 3 3 20 7", DIRECTORY_INSERT, 3, 3, 20, 7, DIRECTORY_DONE, {1, 4, 0, 0}, ONE_NAME},
    {"look 6 20", DIRECTORY_LOOKUP, 6, 0, 20, 0, DIRECTORY_DONE, {1, 1, 7, 2}, ONE_NAME},
    {"ins 6 6 10 3", DIRECTORY_INSERT, 6, 6, 10, 3, DIRECTORY_DONE, {1, 4, 0, 0}, NULL},
    {"ins 5 5 30 9", DIRECTORY_INSERT, 5, 5, 30, 9, DIRECTORY_DONE, {1, 4, 0, 0}, NULL},
    {"del 5 6 20", DIRECTORY_REMOVE, 5, 6, 20, 0, DIRECTORY_DONE, {2, 6, 0, 0}, REMOVED},
    {"look 3 20", DIRECTORY_LOOKUP, 3, 0, 20, 0, DIRECTORY_DONE, {0, 2, 0, 2}, REMOVED},
    {"near 3 15", DIRECTORY_NEIGHBOURS, 3, 0, 15, 0, DIRECTORY_DONE, {10 + 1, 30 + 1, 4, 0}, REMOVED},
    {"look 3 10", DIRECTORY_LOOKUP, 3, 0, 10, 0, DIRECTORY_DONE, {1, 1, 3, 2}, REMOVED},
    {"ins 3 3 20 8", DIRECTORY_INSERT, 3, 3, 20, 8, DIRECTORY_DONE, {3, 4, 0, 0}, BACK},
    {"look 5 20", DIRECTORY_LOOKUP, 5, 0, 20, 0, DIRECTORY_DONE, {1, 3, 8, 2}, BACK},
    {"del 5 1 20", DIRECTORY_REMOVE, 5, 1, 20, 0, DIRECTORY_WRITE_VOTES, {0, 0, 0, 0}, BACK},
    {"ins 3 3 20 8", DIRECTORY_INSERT, 3, 3, 20, 8, DIRECTORY_PRESENT, {0, 0, 0, 0}, BACK},
};

/* Prints a suite's image; gives 1 where it is not the one that is known. */
static int show(const struct suite *suite, const char *known)
{
    char text[2 * DIRECTORY_LONGEST_IMAGE + 1];
    for (size_t i = 0; i < suite->length; i++)
        sprintf(text + 2 * i, "%02x", suite->bytes[i]);
    printf("image %s\n", text);
    if (known == NULL || strcmp(text, known) == 0)
        return 0;
    printf("expected %s\n", known);
    return 1;
}

/* Makes one call and takes the new image over; gives 1 where something is not as expected. */
static int step(struct suite *suite, const struct call *call)
{
    uint8_t image_out[DIRECTORY_LONGEST_IMAGE];
    uint8_t answer[DIRECTORY_ANSWER] = {0};
    int wrong = 0;

    uint32_t result = directory_step(call->operation, call->read_set, call->write_set, call->name, call->value,
                                     suite->bytes, suite->length, image_out, sizeof image_out, answer, sizeof answer);
    printf("%s: %u, answer", call->line, (unsigned)result);
    for (unsigned i = 0; i < 4; i++) {
        uint32_t number = image_field(answer, 32 * i, 32);
        printf(" %u", (unsigned)number);
        wrong |= number != call->answer[i];
    }
    printf("\n");
    if (result == DIRECTORY_DONE) {
        suite->length = image_length(image_out);
        memcpy(suite->bytes, image_out, suite->length);
    }
    wrong |= result != call->result;
    return show(suite, call->image) | wrong;
}

/* A pointer may be NULL where its length is 0. */
static int with_null(const struct suite *suite)
{
    uint8_t answer[DIRECTORY_ANSWER];
    uint32_t no_image = directory_step(DIRECTORY_LOOKUP, 3, 0, 20, 0, NULL, 0, NULL, 0, answer, sizeof answer);
    uint32_t no_answer = directory_step(DIRECTORY_LOOKUP, 3, 0, 20, 0, NULL, 0, NULL, 0, NULL, 0);
    uint32_t no_room = directory_step(DIRECTORY_LOOKUP, 3, 0, 20, 0, suite->bytes, suite->length, NULL, 0, answer,
                                      sizeof answer);
    printf("NULL: image in %u, answer %u, image out %u\n", (unsigned)no_image, (unsigned)no_answer, (unsigned)no_room);
    return no_image != DIRECTORY_IMAGE_SHORT || no_answer != DIRECTORY_BUFFER_SHORT || no_room != DIRECTORY_BUFFER_SHORT;
}

int main(void)
{
    static const uint8_t votes[] = {1, 1, 1};
    struct image fresh;
    struct suite suite;
    int wrong = 0;

    image_fresh(&fresh, 2, 2, votes, 3);
    suite.length = image_length(fresh.bytes);
    memcpy(suite.bytes, fresh.bytes, suite.length);
    printf("suite 2 2 1 1 1\n");
    wrong |= show(&suite, FRESH);
    for (size_t i = 0; i < sizeof listing / sizeof listing[0]; i++)
        wrong |= step(&suite, &listing[i]);
    wrong |= with_null(&suite);
    printf(wrong ? "example: something is not as expected\n" : "example: all as expected\n");
    return wrong;
}

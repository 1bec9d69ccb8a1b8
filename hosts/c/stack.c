/* Measures the stack that directory_step uses: a thread's stack is painted, every kind of call is made on it, and
 * the lowest byte that has changed tells how far down a call went. Fails where that comes within 4,096 bytes of DIRECTORY_STACK:
 * a call may reserve bytes that it does not touch, but not a whole page, since the compiler probes each page.
 */
#include <pthread.h>
#include <stdio.h>
#include <stdlib.h>
#include <string.h>

#include "directory.h"
#include "image.h"

enum { PAINT = 0xa5, AREA = 1 << 20, PAGE = 4096, ENTRIES = 32, LEFTOVER = 16 };

/* Room for the calls, outside the stack that is measured. */
static struct image images[3];
static uint8_t image_out[DIRECTORY_LONGEST_IMAGE];
static uint8_t answer[DIRECTORY_ANSWER];
static unsigned seen[DIRECTORY_BUFFER_SHORT + 1];
static char *top;

/* The longest image: eight members of 32 entries, names 1,000, 2,000 and on. The last member lacks the leftover and
 * knows that it is gone, so that a full member takes an insert of it. */
static void fill(struct image *image)
{
    static const uint8_t votes[] = {1, 1, 1, 1, 1, 1, 1, 1};
    image_head(image, 2, 7, votes, 8);
    for (unsigned member = 0; member < 8; member++) {
        image_member(image, ENTRIES, 1);
        for (unsigned i = 1; i <= ENTRIES + 1; i++) {
            int lacking = member == 7 ? i == LEFTOVER : i == ENTRIES + 1;
            if (!lacking)
                image_entry(image, 1000 * i, 2 + member, i, member == 7 && i == LEFTOVER - 1 ? 20 : 1);
        }
    }
}

/* Every operation on one image through all of its members, with enough room and with none. */
static void calls(const struct image *image, uint32_t read_set, uint32_t write_set)
{
    static const uint32_t names[] = {0, 1000, 1000 * LEFTOVER, 17500, 32000, 1048575, 1048576};
    size_t length = (image->bits + 7) / 8;
    for (uint32_t operation = 0; operation <= 5; operation++) {
        for (size_t i = 0; i < 2 * sizeof names / sizeof names[0]; i++) {
            uint32_t result = directory_step(operation, read_set, write_set, names[i / 2], 7, image->bytes, length,
                                             image_out, i % 2 ? sizeof image_out : 0, answer, sizeof answer);
            seen[result]++;
        }
    }
}

/* The thread. What it calls itself goes less deep than the call. */
static void *measured(void *unused)
{
    (void)unused;
    top = __builtin_frame_address(0);
    calls(&images[0], 255, 255);
    calls(&images[0], 255, 127);
    calls(&images[1], 7, 7);
    calls(&images[2], 7, 7);
    return NULL;
}

int main(void)
{
    static const uint8_t votes[] = {1, 1, 1};
    unsigned char *area = aligned_alloc(PAGE, AREA);
    pthread_attr_t attributes;
    pthread_t thread;

    fill(&images[0]);
    image_fresh(&images[1], 2, 2, votes, 3);
    images[2] = images[0];
    images[2].bits -= 80;
    if (area == NULL || pthread_attr_init(&attributes) || pthread_attr_setstack(&attributes, area, AREA))
        return 1;
    memset(area, PAINT, AREA);
    if (pthread_create(&thread, &attributes, measured, NULL) || pthread_join(thread, NULL))
        return 1;
    unsigned char *lowest = area;
    while (*lowest == PAINT)
        lowest++;
    size_t used = (size_t)(top - (char *)lowest);
    printf("stack: %zu bytes used, DIRECTORY_STACK is %d\n", used, DIRECTORY_STACK);
    if (!seen[DIRECTORY_DONE] || !seen[DIRECTORY_FULL] || !seen[DIRECTORY_IMAGE_SHORT] || !seen[DIRECTORY_BUFFER_SHORT])
        return printf("stack: a kind of call was not made\n"), 1;
    return used + PAGE > DIRECTORY_STACK;
}

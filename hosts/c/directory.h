/* The bench call of the soft-bit directory: one operation on a suite that is handed over as bytes.
 *
 * The function is proved against the rules paper and stands in target/staticlib/libbench.a, which
 * hosts/c/run makes: `rt lib` in crates/bench_c builds it. It needs memcpy, memmove and memset and nothing
 * else. example.c in this folder shows its use, image.h how an image is made and how long one is.
 */
#ifndef DIRECTORY_H
#define DIRECTORY_H

#include <stddef.h>
#include <stdint.h>

#ifdef __cplusplus
extern "C" {
#endif

/* The operations. */
enum directory_operation {
    DIRECTORY_LOOKUP = 0,
    DIRECTORY_INSERT = 1,
    DIRECTORY_UPDATE = 2,
    DIRECTORY_REMOVE = 3,
    DIRECTORY_NEIGHBOURS = 4
};

/* What the call gives: 0, or the number of the refusal. The rules paper's numbers 2 to 4 concern creation, and
 * no suite that can be read from an image is unsound (1), so the call never gives these four. */
enum directory_result {
    DIRECTORY_DONE = 0,
    DIRECTORY_NAME = 5,            /* name over 1,048,575 */
    DIRECTORY_VALUE = 6,           /* value over 65,535 */
    DIRECTORY_NO_SUCH_MEMBER = 7,  /* a set names a member that does not exist */
    DIRECTORY_READ_VOTES = 8,      /* the read set's votes are below R */
    DIRECTORY_WRITE_VOTES = 9,     /* the write set's votes are below W */
    DIRECTORY_PRESENT = 10,        /* insert: the name is present */
    DIRECTORY_ABSENT = 11,         /* update, remove: the name is absent */
    DIRECTORY_VERSION = 12,        /* the new version would exceed 16,777,215 */
    DIRECTORY_FULL = 13,           /* a member of the write set would hold over 32 entries */
    DIRECTORY_NOT_UNDERSTOOD = 14, /* no such operation */
    DIRECTORY_IMAGE_SHORT = 15,    /* image in ends inside or before a field that it must have */
    DIRECTORY_IMAGE_EDITION = 16,  /* image in: the edition is not 1 */
    DIRECTORY_IMAGE_UNSOUND = 17,  /* image in: a field breaks soundness */
    DIRECTORY_IMAGE_LONG = 18,     /* image in: a padding bit is set, or bytes follow */
    DIRECTORY_BUFFER_SHORT = 19    /* answer has under 16 bytes, or image out no room for the new image */
};

enum {
    DIRECTORY_LONGEST_IMAGE = 2725, /* bytes that hold any image */
    DIRECTORY_ANSWER = 16,          /* bytes of an answer */
    DIRECTORY_LOW = 0,              /* a predecessor that is LOW, as neighbours answers it */
    DIRECTORY_HIGH = 1048577,       /* a successor that is HIGH */

    /* Bytes of stack that a call needs, the caller's frame and what a signal handler takes not counted. Measured, not
     * proved: hosts/c/run paints a thread's stack, makes every kind of call on it and looks how far down it was changed.
     * That was 10,744 bytes when this was written. It fails where it finds less than 4,096 bytes to spare. */
    DIRECTORY_STACK = 20480
};

/* Carries one operation out on the suite in image_in.
 *
 * operation      one of enum directory_operation; any other number is refused with 14.
 * read_set       the members that are read: bit i names member i. It needs R votes.
 * write_set      the members that are written, in the same way, W votes; lookup and neighbours ignore it.
 * name           user * 16 + process, 0 to 1,048,575; for neighbours any name, present or not.
 * value          0 to 65,535; only insert and update look at it.
 * image_in       the suite's image, image_in_len bytes, neither more nor less. It is only read.
 * image_out      image_out_len bytes of room for the suite's image after the call (of a lookup too, which
 *                changes nothing). 2,725 bytes hold any. Those past the new image stay as they were; how long
 *                it is follows from its own fields (image_length in image.h).
 * answer         answer_len bytes of room, 16 at least. The first 16 become four numbers of 32 bits, most
 *                significant byte first; those past them stay as they were:
 *                  lookup                    present (1 or 0), version, value (0 if absent), requests
 *                  insert, update, remove    version, requests, 0, 0
 *                  neighbours                predecessor + 1 (LOW 0), successor + 1 (HIGH 1,048,577), requests, 0
 *
 * Gives 0 (enum directory_result) or the number of the first refusal in this order: 14, 19 for the answer,
 * 15 to 18, those of the operation itself by number, 19 for image_out. After a refusal image_out and answer are as they were.
 *
 * A pointer may be NULL where its length is 0. Then image_in is refused with 15 and answer with 19, and image_out
 * with 19 where nothing else is refused, since no image and no answer is empty.
 *
 * The buffers must not overlap: not even image_in with image_out. Nothing is promised where they do. They need no alignment.
 *
 * The call keeps no state and holds on to no pointer: the same arguments give the same result, calls may run at the same
 * time in several threads on buffers of their own, and one may interrupt another.
 */
uint32_t directory_step(uint32_t operation, uint32_t read_set, uint32_t write_set, uint32_t name, uint32_t value,
                        const uint8_t *image_in, size_t image_in_len, uint8_t *image_out, size_t image_out_len,
                        uint8_t *answer, size_t answer_len);

#ifdef __cplusplus
}
#endif

#endif

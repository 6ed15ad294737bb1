/* Gatelichen 0.1.0: an observed-remove set without tombstones, as C and C++ call it. docs/RULES.md has the exact rules.
 *
 * A replica of the set is an image, a run of bytes that a program stores and sends. Each call reads the
 * images, clocks and lists that it is lent, checks them, and either does its work and writes its result
 * into `out`, or refuses with a number. It keeps nothing between calls, takes no memory from the heap and
 * may be called from any thread.
 *
 * What a caller sees to. Everything else, any content of any input, the call checks itself:
 *   - Each pointer is followed by the count of what it points to: bytes, or for `members` 32-bit numbers
 *     (aligned as uint32_t). The count is true: that much may be read, and in `out` written.
 *   - `out` overlaps no input. Inputs may overlap each other.
 *   - No pointer is NULL, also where the count is 0 (lend the address of anything).
 *   - Nothing else writes what is lent until the call returns.
 *   - The program is for x86-64 Linux.
 *
 * The answer is one 64-bit number: refusal number * 2^32 + length. GATELICHEN_NUMBER and GATELICHEN_LENGTH
 * take it apart. Where the number isn't 0 the lower half is 0.
 *
 * The lowest refusal number that applies is given, limits being judged on the finished result. A refused
 * call leaves `out` as it was; only 11 and 12 write what they name, where it fits. A granted call writes
 * its result from byte 0 and leaves the bytes after it as they were.
 *
 * Limits: 16 actors in a clock, 64 members and 16 waiting removes in a replica, 32 members in a waiting
 * remove, 64 members in a list (any order, the same twice allowed, an empty list too).
 *
 * A clock is lent and written in the image's form, little-endian: a 32-bit count, then 12 bytes a dot,
 * actor (32 bits) and counter (64 bits); actors strictly ascending, no counter 0; a lent clock is exactly
 * 4 + 12 * count bytes. GATELICHEN_CLOCK_LENGTH gives that of a clock that a call wrote.
 *
 * An actor's dots must be made one after the other, at one place: counter 1, 2, 3 and so on. Two places that
 * make dots under one actor number, or an add whose counter leaves a gap, lose adds silently in a later
 * merge. Ask gatelichen_validate_add before you apply an add that came from elsewhere.
 */
#ifndef GATELICHEN_H
#define GATELICHEN_H

#include <stddef.h>
#include <stdint.h>

#ifdef __cplusplus
extern "C" {
#endif

#define GATELICHEN_VERSION "0.1.0"

/* No image is longer than this, no written clock and no written list of members than the other two. */
#define GATELICHEN_IMAGE_MAX 18268
#define GATELICHEN_CLOCK_MAX 196
#define GATELICHEN_MEMBERS_MAX 256

/* The two halves of an answer: the refusal number, and the length (or count) where that is 0. */
#define GATELICHEN_NUMBER(answer) ((uint32_t)((answer) >> 32))
#define GATELICHEN_LENGTH(answer) ((uint32_t)((answer) & 0xFFFFFFFFu))

/* How many bytes a clock has that a call wrote at `clock`: 4 + 12 * the count in its first four bytes, of which only
 * the first isn't 0. */
#define GATELICHEN_CLOCK_LENGTH(clock) ((size_t)4 + (size_t)12 * (clock)[0])

enum gatelichen_number {
    GATELICHEN_DONE = 0,              /* done */
    GATELICHEN_BAD_FIRST = 1,         /* the first replica isn't a well-formed image */
    GATELICHEN_BAD_SECOND = 2,        /* the second replica isn't a well-formed image */
    GATELICHEN_BAD_CLOCK = 3,         /* a clock argument isn't normalised or has over 16 actors */
    GATELICHEN_LONG_LIST = 4,         /* a member list is longer than 64 */
    GATELICHEN_NO_SUCCESSOR = 5,      /* a successor is asked of counter 18446744073709551615 (no call below asks) */
    GATELICHEN_MANY_ACTORS = 6,       /* the result's clock would have over 16 actors */
    GATELICHEN_MANY_MEMBERS = 7,      /* the result would have over 64 members */
    GATELICHEN_MANY_WAITING = 8,      /* the result would have over 16 waiting removes */
    GATELICHEN_MANY_IN_A_REMOVE = 9,  /* a waiting remove in the result would have over 32 members */
    GATELICHEN_SHORT_OUTPUT = 10,     /* the output is shorter than the result */
    GATELICHEN_GAP = 11,              /* gatelichen_validate_add only: the dot leaves a gap */
    GATELICHEN_DOUBLE_SPENT = 12      /* gatelichen_validate_merge only: a dot is held for two members */
};

/* Whether the bytes are a well-formed image of a replica. Refuses 1. */
uint64_t gatelichen_check(const uint8_t *image, size_t image_length);

/* Writes the empty replica, 28 bytes. Length: of the image. Refuses 10. */
uint64_t gatelichen_empty(uint8_t *out, size_t out_length);

/* Adds the members under the dot actor.counter. A dot that the replica's clock covers changes nothing. A gap is
 * accepted, and then what other replicas hold under the dots in it is lost when they are merged: ask
 * gatelichen_validate_add first. Writes the new image. Length: of the image. Refuses 1, 4, 6, 7, 10. */
uint64_t gatelichen_add(const uint8_t *image, size_t image_length, uint32_t actor, uint64_t counter,
                        const uint32_t *members, size_t members_count, uint8_t *out, size_t out_length);

/* Removes what the clock covers of the members; waits where the replica's clock doesn't cover it. Writes the new
 * image. Length: of the image. Refuses 1, 3, 4, 8, 9, 10. */
uint64_t gatelichen_remove(const uint8_t *image, size_t image_length, const uint8_t *clock, size_t clock_length,
                           const uint32_t *members, size_t members_count, uint8_t *out, size_t out_length);

/* Merges two replicas. Writes the new image. Length: of the image. Refuses 1, 2, 6, 7, 8, 9, 10. */
uint64_t gatelichen_merge(const uint8_t *a, size_t a_length, const uint8_t *b, size_t b_length,
                          uint8_t *out, size_t out_length);

/* Forgets all that the clock covers, in the replica's clock, its entries and its waiting removes. Writes the new
 * image. Length: of the image. Refuses 1, 3, 9, 10. */
uint64_t gatelichen_reset(const uint8_t *image, size_t image_length, const uint8_t *clock, size_t clock_length,
                          uint8_t *out, size_t out_length);

/* Whether the member is there: the lower half is 1 or 0, not a length. Writes the member's clock, by which it can be
 * removed; the empty clock (4 zero bytes) where it isn't there. GATELICHEN_CLOCK_LENGTH(out) is the clock's length.
 * Refuses 1, 10. */
uint64_t gatelichen_contains(const uint8_t *image, size_t image_length, uint32_t member,
                             uint8_t *out, size_t out_length);

/* Writes the members ascending, 32-bit little-endian numbers. The lower half is how many they are, not bytes.
 * Refuses 1, 10. */
uint64_t gatelichen_read(const uint8_t *image, size_t image_length, uint8_t *out, size_t out_length);

/* Writes the replica's clock. Length: of the clock in bytes. Refuses 1, 10. */
uint64_t gatelichen_clock(const uint8_t *image, size_t image_length, uint8_t *out, size_t out_length);

/* Whether an add under the dot actor.counter follows what the replica has seen of the actor. Refuses 1, 4 and 11.
 * At 11 it writes the gap where 16 bytes fit: start, the first counter missing, and end, the dot's counter, which is
 * not missing itself; 64-bit little-endian. */
uint64_t gatelichen_validate_add(const uint8_t *image, size_t image_length, uint32_t actor, uint64_t counter,
                                 const uint32_t *members, size_t members_count, uint8_t *out, size_t out_length);

/* Whether the arguments of a remove are good ones. Refuses 1, 3, 4. */
uint64_t gatelichen_validate_remove(const uint8_t *image, size_t image_length,
                                    const uint8_t *clock, size_t clock_length,
                                    const uint32_t *members, size_t members_count);

/* Whether a dot is held for one member by a and for another by b. Refuses 1, 2 and 12. At 12 it writes the first such
 * (a's members ascending, then b's, then actors) where 20 bytes fit: actor, counter (64 bits), a's member, b's member;
 * little-endian. */
uint64_t gatelichen_validate_merge(const uint8_t *a, size_t a_length, const uint8_t *b, size_t b_length,
                                   uint8_t *out, size_t out_length);

#ifdef __cplusplus
}
#endif

#endif

/* What the two examples share: a replica as a value, and the calls on it. A refusal ends the program. */
#include "gatelichen.h"
#include <stdio.h>
#include <stdlib.h>

/* A replica: its image and how long it is. */
typedef struct {
    uint8_t image[GATELICHEN_IMAGE_MAX];
    size_t length;
} replica;

/* The length or count of a granted answer; a refusal ends the program. */
static uint32_t granted(uint64_t answer, const char *call)
{
    if (GATELICHEN_NUMBER(answer) != GATELICHEN_DONE) {
        printf("%s: refused with %u\n", call, (unsigned)GATELICHEN_NUMBER(answer));
        exit(1);
    }
    return GATELICHEN_LENGTH(answer);
}

static replica empty(void)
{
    replica r;
    r.length = granted(gatelichen_empty(r.image, sizeof r.image), "empty");
    return r;
}

static replica add(const replica *r, uint32_t actor, uint64_t counter, const uint32_t *members, size_t count)
{
    replica next;
    next.length = granted(gatelichen_add(r->image, r->length, actor, counter, members, count,
                                         next.image, sizeof next.image), "add");
    return next;
}

/* Takes the member down as this replica knows it: by the clock that contains answers. */
static inline replica take_down(const replica *r, uint32_t member)
{
    replica next;
    uint8_t clock[GATELICHEN_CLOCK_MAX];
    granted(gatelichen_contains(r->image, r->length, member, clock, sizeof clock), "contains");
    next.length = granted(gatelichen_remove(r->image, r->length, clock, GATELICHEN_CLOCK_LENGTH(clock), &member, 1,
                                            next.image, sizeof next.image), "remove");
    return next;
}

static replica merge(const replica *a, const replica *b)
{
    replica next;
    next.length = granted(gatelichen_merge(a->image, a->length, b->image, b->length,
                                           next.image, sizeof next.image), "merge");
    return next;
}

static void print_members(const char *where, const replica *r)
{
    uint8_t list[GATELICHEN_MEMBERS_MAX];
    uint32_t count = granted(gatelichen_read(r->image, r->length, list, sizeof list), "read");
    printf("%s:", where);
    for (uint32_t i = 0; i < count; i++) {
        const uint8_t *m = list + 4 * i;
        printf(" %u", (unsigned)(m[0] | m[1] << 8 | m[2] << 16 | (uint32_t)m[3] << 24));
    }
    printf("\n");
}

/* How much stack a call takes: each call runs on a stack of its own that was filled with one byte, and what is no longer that byte
 * was used. The inputs are two of the longest images, 18,268 bytes, with a list of 64 members and a clock of 16 actors. */
#define _XOPEN_SOURCE 700
#include <pthread.h>
#include <stdio.h>
#include <stdlib.h>
#include <string.h>
#include "gatelichen.h"

enum { STACK = 1 << 20, FILL = 0xA5 };

static uint8_t ours[GATELICHEN_IMAGE_MAX], theirs[GATELICHEN_IMAGE_MAX], out[GATELICHEN_IMAGE_MAX];
static uint8_t clock16[GATELICHEN_CLOCK_MAX];
static uint32_t members[64];

static uint8_t *put32(uint8_t *p, uint32_t v) { memcpy(p, &v, 4); return p + 4; }
static uint8_t *put64(uint8_t *p, uint64_t v) { memcpy(p, &v, 8); return p + 8; }

/* A clock of actors 1 to 16 at one counter, but for the last. */
static uint8_t *put_clock(uint8_t *p, uint64_t counter, uint64_t last)
{
    p = put32(p, 16);
    for (uint32_t actor = 1; actor <= 16; actor++)
        p = put64(put32(p, actor), actor < 16 ? counter : last);
    return p;
}

static void make(uint8_t *image, uint32_t shift)
{
    uint8_t *entries = put_clock(image + 24, 10, 10), *p = entries;
    for (uint32_t m = 0; m < 64; m++)
        p = put_clock(put32(p, m), 5 + (m + shift) % 5, 5 + (m + shift) % 5);
    uint8_t *waiting = p;
    for (uint32_t w = 0; w < 16; w++) {
        p = put32(put_clock(p, 3, 20 + w), 32);
        for (uint32_t m = 0; m < 32; m++)
            p = put32(p, 100 + m);
    }
    uint8_t *end = p;
    p = put32(put32(image, 1), (uint32_t)(end - image));
    p = put32(put32(p, (uint32_t)(entries - image)), 64);
    put32(put32(p, (uint32_t)(waiting - image)), 16);
}

static uint64_t nothing(void) { return 0; }
static uint64_t check(void) { return gatelichen_check(ours, sizeof ours); }
static uint64_t merge(void) { return gatelichen_merge(ours, sizeof ours, theirs, sizeof theirs, out, sizeof out); }
static uint64_t add(void) { return gatelichen_add(ours, sizeof ours, 1, 1000, members, 64, out, sizeof out); }
static uint64_t removes(void) { return gatelichen_remove(ours, sizeof ours, clock16, sizeof clock16, members, 32, out, sizeof out); }
static uint64_t reset(void) { return gatelichen_reset(ours, sizeof ours, clock16, sizeof clock16, out, sizeof out); }
static uint64_t contains(void) { return gatelichen_contains(ours, sizeof ours, 3, out, sizeof out); }
static uint64_t reads(void) { return gatelichen_read(ours, sizeof ours, out, sizeof out); }
static uint64_t validate_merge(void) { return gatelichen_validate_merge(ours, sizeof ours, theirs, sizeof theirs, out, sizeof out); }

static void *run(void *call)
{
    (*(uint64_t (**)(void))call)();
    return NULL;
}

static size_t used(uint64_t (*call)(void))
{
    uint8_t *stack = aligned_alloc(4096, STACK);
    pthread_attr_t attributes;
    pthread_t thread;
    size_t i = 0;
    memset(stack, FILL, STACK);
    pthread_attr_init(&attributes);
    pthread_attr_setstack(&attributes, stack, STACK);
    if (pthread_create(&thread, &attributes, run, &call) != 0)
        exit(2);
    pthread_join(thread, NULL);
    while (i < STACK && stack[i] == FILL)
        i++;
    free(stack);
    return STACK - i;
}

int main(void)
{
    struct { const char *name; uint64_t (*call)(void); } calls[] = {
        {"check", check}, {"merge", merge}, {"add", add}, {"remove", removes}, {"reset", reset},
        {"contains", contains}, {"read", reads}, {"validate_merge", validate_merge},
    };
    make(ours, 0);
    make(theirs, 1);
    put_clock(clock16, 1, 99);
    for (uint32_t m = 0; m < 64; m++)
        members[m] = m;
    size_t base = used(nothing);
    for (size_t i = 0; i < sizeof calls / sizeof *calls; i++)
        printf("%-14s %6zu bytes, answer %llu\n", calls[i].name, used(calls[i].call) - base, (unsigned long long)calls[i].call());
    return 0;
}

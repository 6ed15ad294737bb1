/* Times the check of the longest image: 64 entries of 16 dots, 16 waiting removes of 32 members, 18,268 bytes. */
#include <stdio.h>
#include <time.h>
#include "gatelichen.h"

static uint8_t image[GATELICHEN_IMAGE_MAX];
static size_t length;

static void put16(uint32_t v) { image[length++] = (uint8_t)v; image[length++] = (uint8_t)(v >> 8); }
static void put32(uint32_t v) { put16(v); put16(v >> 16); }
static void put64(uint64_t v) { put32((uint32_t)v); put32((uint32_t)(v >> 32)); }

/* a clock of actors 0 to 15, each at the counter */
static void put_clock(uint64_t counter) {
    put32(16);
    for (uint32_t actor = 0; actor < 16; actor++) { put32(actor); put64(counter); }
}

int main(void) {
    enum { TIMES = 100000 };
    put16(1); put16(0); put32(18268); put32(24 + 196); put32(64); put32(24 + 196 + 64 * 200); put32(16);
    put_clock(1000000);
    for (uint32_t member = 0; member < 64; member++) { put32(member); put_clock(500000 + member); }
    for (uint32_t remove = 0; remove < 16; remove++) {
        put_clock(1 + remove);
        put32(32);
        for (uint32_t i = 0; i < 32; i++) put32(2 * i + remove % 2);
    }
    if (gatelichen_check(image, length) != 0) { puts("the image is not well-formed"); return 1; }
    clock_t start = clock();
    for (int i = 0; i < TIMES; i++) { gatelichen_check(image, length); __asm__ volatile("" ::: "memory"); }
    printf("%.1f microseconds of processor time for a check of %zu bytes\n", (double)(clock() - start) / CLOCKS_PER_SEC * 1e6 / TIMES, length);
    return 0;
}

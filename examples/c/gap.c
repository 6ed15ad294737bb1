/* What an add with a gap does: office B holds 7 under the dot 2.1; office A, which hasn't seen it, applies 2.4. */
#include "replica.h"

int main(void)
{
    const uint32_t boot[] = {7}, sandal[] = {0};
    replica nothing = empty();
    replica b = add(&nothing, 2, 1, boot, 1);
    print_members("office B", &b);

    /* asked first, the library says what is missing at office A: dots 2.1 to 2.3 */
    uint8_t gap[16];
    uint64_t verdict = gatelichen_validate_add(nothing.image, nothing.length, 2, 4, sandal, 1, gap, sizeof gap);
    if (GATELICHEN_NUMBER(verdict) == GATELICHEN_GAP)
        printf("2.4 at office A: a gap, from %u up to %u\n", (unsigned)gap[0], (unsigned)gap[8]);

    /* applied all the same, A takes 2.1 for seen and not held, so the merge takes it for removed */
    replica a = add(&nothing, 2, 4, sandal, 1);
    replica lost = merge(&a, &b);
    print_members("applied with the gap, then merged", &lost);

    /* merged first, nothing is lost */
    replica kept = merge(&nothing, &b);
    kept = add(&kept, 2, 2, sandal, 1);
    print_members("merged first, then added under 2.2", &kept);
    return 0;
}

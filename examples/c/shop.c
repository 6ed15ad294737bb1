/* Two offices of a shop: one empty replica, adds, a remove, a merge, and the members that are left. */
#include "replica.h"

int main(void)
{
    const uint32_t sizes[] = {40, 41, 42}, late[] = {43};
    replica office = empty();
    office = add(&office, 1, 1, sizes, 3);
    print_members("office", &office);

    replica laptop = office;
    laptop = add(&laptop, 2, 1, late, 1);
    print_members("laptop, offline", &laptop);

    office = take_down(&office, 41);
    print_members("office, 41 recalled", &office);

    office = merge(&office, &laptop);
    laptop = merge(&laptop, &office);
    print_members("office, merged", &office);
    print_members("laptop, merged", &laptop);
    return 0;
}

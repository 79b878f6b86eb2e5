/* Prints the limits of the proved code, by the names that the header has for them, for compare/header.py. */
#include <stdint.h>
#include <stdio.h>

uint32_t outside_count_max(void);
uint32_t outside_spacing_max(void);
uint32_t outside_coord_max(void);

int main(void)
{
    printf("COUNT_MAX %u\nSPACING_MAX %u\nCOORD_MAX %u\n", outside_count_max(), outside_spacing_max(), outside_coord_max());
    return 0;
}

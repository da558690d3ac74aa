/* Document 01's K1 from C: the square Q filled, its points printed. */
#include <beahcerot.h>
#include <stdio.h>
#include <stdlib.h>

int main(void) {
    const double corners[] = {0, 0, 10, 0, 10, 10, 0, 10};
    const size_t ends[] = {4};
    uint64_t floats_needed, wholes_needed, sections, count;
    if (beahcerot_fill_room(corners, 8, ends, 1, 4, 10, 0, 0, 1, 0, 1, &floats_needed, &wholes_needed) != BEAHCEROT_DONE)
        return 1;
    double *floats = calloc(floats_needed, sizeof *floats);
    size_t *wholes = calloc(wholes_needed, sizeof *wholes);
    double points[64];
    size_t stops[8];
    uint64_t answer = beahcerot_tatami(corners, 8, ends, 1, 0, 4, 10, 0, 0, 1, 0, 1, false, floats, floats_needed, wholes, wholes_needed, points, 64, stops, 8, &sections, &count);
    printf("%llu %llu %llu\n", (unsigned long long)answer, (unsigned long long)sections, (unsigned long long)count);
    for (uint64_t i = 0; i < count; i++)
        printf("%g %g\n", points[2 * i], points[2 * i + 1]);
    free(floats);
    free(wholes);
    return 0;
}

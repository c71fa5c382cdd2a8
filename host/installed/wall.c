/* What a newcomer's first program does with an installed copy: the moments of a wall, and where it stands. */
#include <maghnelt.h>

#include <stdio.h>

/* A slice is a pointer and then a length in elements. */
#define SLICE(array) (array), sizeof(array) / sizeof((array)[0])

int main(void) {
    const double corners[] = {0, 5, 0, 2, 5, 0, 0, 5, 2, 2, 5, 2};
    /* Eigenvalues and vectors of the scatter; a host has them from LAPACK or Eigen. */
    const double decomposition[MAGHNELT_DECOMPOSITION] = {1, 0, 1, 1, 0, 0, 0, 1, 0, 0, 0, 1};
    double wall[MAGHNELT_MOMENTS];
    double plane[7];
    uint32_t found = 0;

    uint32_t refused = maghnelt_moments_from_points(SLICE(corners), SLICE(wall));
    if (refused == 0) {
        refused = maghnelt_moments_plane(SLICE(wall), SLICE(decomposition), SLICE(plane), &found);
    }
    if (refused != 0) {
        printf("refused by reason %u\n", (unsigned)refused);
        return 1;
    }
    if (found != 1 || plane[1] != 1 || plane[3] != -5) {
        printf("FAILED: the wall stands elsewhere\n");
        return 1;
    }
    printf("%.0f points, the wall stands %.3f m from the origin\n", wall[0], -plane[3]);
    return 0;
}

/*
 * How much metal lies along a ray? A hollow casting is traced through the C entry points, and its wall
 * thickness worked out from the weighted sum, D and the squared length.
 *
 *   machine/archive ilvoresta
 *   machine/x86 cc target/wall examples/wall.c target/staticlib/libilvoresta.a
 *   machine/x86 run target/wall
 *
 * On an x86-64 machine the second line is
 *
 *   gcc -O2 -Iinclude -o target/wall examples/wall.c target/staticlib/libilvoresta.a -lm
 */
#include <inttypes.h>
#include <math.h>
#include <stdio.h>

#include "ilvoresta.h"

/* 40 by 20 by 10 voxels of 1 mm, its corner at the origin: aluminium, 3 mm thick all round. */
enum { NX = 40, NY = 20, NZ = 10, VOXEL = 10, WALL = 3, METAL = 2700, PLACES = NX + NY + NZ - 2 };

static uint16_t densities[NX * NY * NZ];

static int in_wall(int i, int n) { return i < WALL || i >= n - WALL; }

static void cast(void)
{
    for (int k = 0; k < NZ; k++)
        for (int j = 0; j < NY; j++)
            for (int i = 0; i < NX; i++)
                densities[i + NX * (j + NY * k)] = in_wall(i, NX) || in_wall(j, NY) || in_wall(k, NZ) ? METAL : 0;
}

/* sum/D of the ray's length has the unit density times 0.1 mm. */
static double metal_mm(const uint64_t *answer)
{
    double length = sqrt((double)answer[ILVORESTA_SQUARED]);
    return 0.1 * length * ((double)answer[ILVORESTA_SUM] / (double)answer[ILVORESTA_D]) / METAL;
}

static int measure(const char *name, const int32_t p[3], const int32_t q[3])
{
    uint32_t voxels[PLACES];
    uint64_t parts[PLACES], answer[ILVORESTA_ANSWER_COUNT];
    uint32_t code = ilvoresta_trace(NX, NY, NZ, VOXEL, VOXEL, VOXEL, 0, 0, 0, p[0], p[1], p[2], q[0], q[1], q[2],
                                    densities, NX * NY * NZ, voxels, PLACES, parts, PLACES, answer,
                                    ILVORESTA_ANSWER_COUNT);
    if (code != ILVORESTA_OK) {
        fprintf(stderr, "wall: %s is refused with code %u\n", name, (unsigned)code);
        return 1;
    }
    printf("%s: %" PRIu64 " voxels, %.3f mm of metal\n", name, answer[ILVORESTA_ENTRIES], metal_mm(answer));
    return 0;
}

int main(void)
{
    static const int32_t left[3] = {-100, 105, 55}, right[3] = {500, 105, 55};
    static const int32_t low[3] = {-100, -50, 20}, high[3] = {500, 250, 80};
    static const int32_t from[3] = {-100, 200, 55}, to[3] = {500, 200, 55};
    static const int32_t above[3] = {200, 100, 300}, beside[3] = {600, 100, 300};
    cast();
    return measure("straight through two walls", left, right) | measure("oblique", low, high) |
           measure("along the far face", from, to) | measure("over the casting", above, beside);
}

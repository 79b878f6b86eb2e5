/*
 * Ilvoresta: exact traces of a straight ray through a box-shaped array of voxels.
 *
 * Link target/staticlib/libilvoresta.a (made by `machine/archive ilvoresta`; x86-64 Linux). It needs no
 * other library, keeps no state and allocates nothing, so both calls may be made from any thread and
 * at the same time, as long as no list that one call writes is used by another.
 *
 * Lengths and coordinates are whole numbers in units of 0.1 mm. docs/RULES.md has the rules in full; this
 * file has what a caller needs of them.
 */
#ifndef ILVORESTA_H
#define ILVORESTA_H

#include <stddef.h>
#include <stdint.h>

#ifdef __cplusplus
extern "C" {
#endif

/* ---- The grid: nx, ny, nz, dx, dy, dz, bx, by, bz
 *
 * Each axis has n voxels of spacing d from its first plane b on. Plane i lies at b + i*d, i from 0 to
 * n. A voxel holds its lower plane and not its upper one, but the last voxel of an axis holds the far
 * plane too: a ray that stands still in the near or the far face of the array is in the voxels there.
 *
 *   n  1 to ILVORESTA_COUNT_MAX
 *   d  1 to ILVORESTA_SPACING_MAX
 *   b  -ILVORESTA_COORD_MAX to ILVORESTA_COORD_MAX, and b + n*d is at most ILVORESTA_COORD_MAX
 *
 * Voxel (i, j, k), counted from 0, has number i + nx*(j + ny*k).
 *
 * ---- The ray: px, py, pz, qx, qy, qz
 *
 * From P, where alpha is 0, to Q, where alpha is 1: P + alpha*(Q - P). Every coordinate is from
 * -ILVORESTA_COORD_MAX to ILVORESTA_COORD_MAX, and P and Q differ. An axis moves if its end
 * coordinates differ. D multiplies |Q - P| over the axes that move.
 */
#define ILVORESTA_COUNT_MAX 512
#define ILVORESTA_SPACING_MAX 4096
#define ILVORESTA_COORD_MAX 16384

/* ---- Codes
 *
 * Where none of the others applies the code is ILVORESTA_OK; else it is the first that does, from the
 * top down, and none of the lists lent to the call has changed.
 */
#define ILVORESTA_OK 0               /* accepted; a ray that misses the array is accepted too */
#define ILVORESTA_BAD_N 1            /* some n is 0 or over ILVORESTA_COUNT_MAX */
#define ILVORESTA_BAD_D 2            /* some d is 0 or over ILVORESTA_SPACING_MAX */
#define ILVORESTA_BAD_PLANE 3        /* on some axis b or b + n*d is beyond its limit */
#define ILVORESTA_BAD_DENSITIES 4    /* density_count is not nx*ny*nz */
#define ILVORESTA_BAD_COORD 5        /* a coordinate of P or Q is beyond its limit */
#define ILVORESTA_SAME_ENDS 6        /* P and Q are equal */
#define ILVORESTA_UNLIKE_LISTS 7     /* voxel_count and part_count differ */
#define ILVORESTA_SHORT_LISTS 8      /* the lists are shorter than the entries */
#define ILVORESTA_BAD_ANSWER 17      /* answer_count is not the number stated for the call */

/* ---- Lists
 *
 * A list is a pointer to its first place and its count of places (not of bytes). The caller keeps:
 *
 *   - all places are memory of the caller's, valid during the call, and the densities are set;
 *   - pointers are aligned as their type asks, and NULL only beside a count of 0;
 *   - no two lists of a call overlap.
 */

/* ---- ilvoresta_trace: which voxels the ray runs through, and how far
 *
 *   densities  one for each voxel, at its number: nx*ny*nz of them
 *   voxels     on ILVORESTA_OK the numbers of the voxels that the ray runs through, in its order
 *   parts      beside each number the ray's length in that voxel: part/D of the ray's whole length
 *   answer     ILVORESTA_ANSWER_COUNT places, filled on ILVORESTA_OK (see the macros below)
 *
 * Only the first 'entries' places of voxels and parts are written. nx + ny + nz - 2 places suffice
 * for every ray, and none are needed for one that misses.
 *
 * The ray is sqrt(squared length) long; the length of a stretch in units of 0.1 mm is
 * part/D * sqrt(squared length), and the sum over the ray of length times density is
 * sum/D * sqrt(squared length).
 */
#define ILVORESTA_ANSWER_COUNT 6

#define ILVORESTA_ENTRIES 0 /* the number of voxels listed, 0 on a miss */
#define ILVORESTA_CROSSED 1 /* planes crossed strictly inside the array, 0 on a miss */
#define ILVORESTA_SPAN 2    /* the total of all parts, 0 on a miss */
#define ILVORESTA_D 3       /* D, at most 2^45; given on a miss too */
#define ILVORESTA_SQUARED 4 /* the ray's squared length; given on a miss too */
#define ILVORESTA_SUM 5     /* the total of part times density, below 2^61; 0 on a miss */

uint32_t ilvoresta_trace(uint32_t nx, uint32_t ny, uint32_t nz,
                         uint32_t dx, uint32_t dy, uint32_t dz,
                         int32_t bx, int32_t by, int32_t bz,
                         int32_t px, int32_t py, int32_t pz,
                         int32_t qx, int32_t qy, int32_t qz,
                         const uint16_t *densities, size_t density_count,
                         uint32_t *voxels, size_t voxel_count,
                         uint64_t *parts, size_t part_count,
                         uint64_t *answer, size_t answer_count);

/* ---- ilvoresta_place: where the ray enters and leaves the array, for drawing
 *
 *   answer     ILVORESTA_PLACE_COUNT places, filled on ILVORESTA_OK: the alpha of entering and of
 *              leaving, each the float nearest the exact value, 0 <= enter < leave <= 1; on a miss
 *              both are 0
 *
 * The codes are those of the grid, the ray and the answer list: 1, 2, 3, 5, 6 and 17.
 */
#define ILVORESTA_PLACE_COUNT 2

#define ILVORESTA_ENTER 0
#define ILVORESTA_LEAVE 1

uint32_t ilvoresta_place(uint32_t nx, uint32_t ny, uint32_t nz,
                         uint32_t dx, uint32_t dy, uint32_t dz,
                         int32_t bx, int32_t by, int32_t bz,
                         int32_t px, int32_t py, int32_t pz,
                         int32_t qx, int32_t qy, int32_t qz,
                         double *answer, size_t answer_count);

#ifdef __cplusplus
}
#endif

#endif

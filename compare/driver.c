/*
 * Makes the calls that compare/calls.py asks for on standard input, and writes back all the memory
 * that it lent, so that every judgement is made there and none here.
 *
 * A list is lent between two margins, and all of its memory is filled with a pattern before the call.
 * The argument is the size of a margin in bytes, a multiple of 8; without margins each list is a block
 * of its own, and valgrind sees any step beside it.
 */
#include <stdint.h>
#include <stdio.h>
#include <stdlib.h>

#include "ilvoresta.h"

/* liboutside.a, the calls that the header has no entry for; its crate says what they hand over */
uint32_t outside_append(uint32_t nx, uint32_t ny, uint32_t nz, uint32_t dx, uint32_t dy, uint32_t dz, int32_t bx, int32_t by,
                        int32_t bz, int32_t px, int32_t py, int32_t pz, int32_t qx, int32_t qy, int32_t qz,
                        const uint16_t *densities, size_t densities_count, uint32_t *voxels, size_t voxels_count,
                        uint64_t *parts, size_t parts_count, size_t filled, uint64_t *answer, size_t answer_count);
uint32_t outside_points(uint32_t nx, uint32_t ny, uint32_t nz, uint32_t dx, uint32_t dy, uint32_t dz, int32_t bx, int32_t by,
                        int32_t bz, int32_t px, int32_t py, int32_t pz, int32_t qx, int32_t qy, int32_t qz, uint32_t *mark,
                        size_t mark_count, double *points, size_t points_count);

enum kind { TRACE, PLACE, APPEND, POINTS };

struct request {
    uint64_t densities, voxels, parts, answer; /* counts */
    uint64_t filled;                           /* places, of an append */
    uint32_t n[3], d[3];
    int32_t b[3], p[3], q[3];
    uint32_t kind;
    uint32_t null;        /* 1: a list of count 0 is lent as NULL */
    uint32_t kept;        /* 1: the voxels and parts of the call before are lent again, or their first places */
    uint32_t times, plus; /* the density of voxel v is the upper half of v * times + plus */
    uint32_t salt;        /* where the pattern begins */
};

struct block {
    uint8_t *memory;
    size_t size;
};

static size_t margin;

static void fail(const char *told)
{
    fprintf(stderr, "driver: %s\n", told);
    exit(3);
}

static uint8_t pattern(uint32_t salt, size_t at) { return (uint8_t)(salt + 37 * at); }

static struct block room_for(size_t bytes)
{
    struct block made = {malloc(bytes + 2 * margin), bytes + 2 * margin};
    if (made.memory == NULL && made.size > 0)
        fail("no memory");
    return made;
}

static void fill(struct block of, size_t from, size_t to, uint32_t salt)
{
    for (size_t at = from; at < to; at++)
        of.memory[at] = pattern(salt, at);
}

static struct block filled(size_t bytes, uint32_t salt)
{
    struct block made = room_for(bytes);
    fill(made, 0, made.size, salt);
    return made;
}

static void *list(struct block of, const struct request *r)
{
    return r->null && of.size == 2 * margin ? NULL : of.memory + margin;
}

static void write_back(struct block of) { fwrite(of.memory, 1, of.size, stdout); }

static void hand_back(struct block of)
{
    write_back(of);
    free(of.memory);
}

/* ---- the densities: kept from call to call, since a large array takes longer to fill than to trace */

static struct block array;
static struct request filled_for;

static uint16_t density(const struct request *r, size_t voxel)
{
    return (uint16_t)(((uint32_t)voxel * r->times + r->plus) >> 16);
}

/* The calls since the array was filled have changed neither a density nor the margins. */
static void check_array(void)
{
    const uint16_t *densities = (const uint16_t *)(array.memory + margin);
    for (size_t voxel = 0; voxel < filled_for.densities; voxel++)
        if (densities[voxel] != density(&filled_for, voxel))
            fail("a density was changed");
    for (size_t at = 0; at < margin; at++)
        if (array.memory[at] != pattern(filled_for.salt, at) ||
            array.memory[array.size - 1 - at] != pattern(filled_for.salt, array.size - 1 - at))
            fail("memory beside the densities was changed");
}

static void fill_array(const struct request *r)
{
    if (array.memory != NULL) {
        if (r->densities == filled_for.densities && r->times == filled_for.times && r->plus == filled_for.plus)
            return;
        check_array();
        free(array.memory);
    }
    array = room_for(sizeof(uint16_t) * r->densities);
    fill(array, 0, margin, r->salt);
    fill(array, array.size - margin, array.size, r->salt);
    filled_for = *r;
    uint16_t *densities = (uint16_t *)(array.memory + margin);
    for (size_t voxel = 0; voxel < r->densities; voxel++)
        densities[voxel] = density(r, voxel);
}

/* ---- the calls */

#define NUMBERS(r)                                                                                                              \
    (r)->n[0], (r)->n[1], (r)->n[2], (r)->d[0], (r)->d[1], (r)->d[2], (r)->b[0], (r)->b[1], (r)->b[2], (r)->p[0], (r)->p[1],    \
        (r)->p[2], (r)->q[0], (r)->q[1], (r)->q[2]

static void place(const struct request *r)
{
    struct block answer = filled(sizeof(double) * r->answer, r->salt);
    uint32_t code = ilvoresta_place(NUMBERS(r), list(answer, r), r->answer);
    fwrite(&code, sizeof code, 1, stdout);
    hand_back(answer);
}

static void points(const struct request *r)
{
    struct block mark = filled(sizeof(uint32_t), r->salt);
    struct block answer = filled(sizeof(double) * r->answer, r->salt);
    uint32_t code = outside_points(NUMBERS(r), list(mark, r), 1, list(answer, r), r->answer);
    fwrite(&code, sizeof code, 1, stdout);
    hand_back(mark);
    hand_back(answer);
}

static struct block voxels, parts;

static void lend_lists(const struct request *r)
{
    if (r->kept)
        return;
    free(voxels.memory);
    free(parts.memory);
    voxels = filled(sizeof(uint32_t) * r->voxels, r->salt);
    parts = filled(sizeof(uint64_t) * r->parts, r->salt);
}

static void trace(const struct request *r)
{
    uint32_t code;
    fill_array(r);
    lend_lists(r);
    struct block answer = filled(sizeof(uint64_t) * r->answer, r->salt);
    if (r->kind == APPEND)
        code = outside_append(NUMBERS(r), list(array, r), r->densities, list(voxels, r), r->voxels, list(parts, r), r->parts,
                              r->filled, list(answer, r), r->answer);
    else
        code = ilvoresta_trace(NUMBERS(r), list(array, r), r->densities, list(voxels, r), r->voxels, list(parts, r), r->parts,
                               list(answer, r), r->answer);
    fwrite(&code, sizeof code, 1, stdout);
    write_back(voxels);
    write_back(parts);
    hand_back(answer);
}

int main(int argc, char **argv)
{
    struct request r;
    for (const char *at = argc > 1 ? argv[1] : "64"; *at != 0; at++)
        margin = 10 * margin + (size_t)(*at - '0');
    while (fread(&r, sizeof r, 1, stdin) == 1)
        if (r.kind == PLACE)
            place(&r);
        else if (r.kind == POINTS)
            points(&r);
        else
            trace(&r);
    if (array.memory != NULL)
        check_array();
    return 0;
}

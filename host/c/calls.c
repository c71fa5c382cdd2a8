/* Calls each function of the header once and compares the answer with what the interface says. C11 and C++17. */
#include "maghnelt.h"

#include <math.h>
#include <stdio.h>
#include <string.h>

/* A slice is a pointer and then a length in elements. */
#define SLICE(array) (array), sizeof(array) / sizeof((array)[0])

static int failures = 0;

static void expect(int holds, const char *what) {
    if (!holds) {
        printf("FAILED: %s\n", what);
        failures += 1;
    }
}

static void leaves(void) {
    expect(maghnelt_sqrt(4.0) == 2.0, "the root of 4 is 2");
    expect(signbit(maghnelt_sqrt(-0.0)) != 0, "the root of -0 is -0");
    expect(isnan(maghnelt_sqrt(-1.0)), "the root of -1 is a NaN");

    expect(maghnelt_total_order_key(0) == 0, "the key of +0 is 0");
    expect(maghnelt_total_order_key(UINT64_C(0x8000000000000000)) == -1, "the key of -0 is -1");
    expect(maghnelt_total_order_key(UINT64_C(0xffffffffffffffff)) == INT64_MIN, "the least key is a negative NaN's");
}

/* The corners of a square on the floor, then lifted by five metres, a point and another square added. */
static void moments(void) {
    const double corners[] = {0, 0, 0, 2, 0, 0, 0, 2, 0, 2, 2, 0};
    const double upright[] = {1, 0, 0, 0, 1, 0, 0, 0, 1};
    const double up[] = {0, 0, 5};
    const double decomposition[MAGHNELT_DECOMPOSITION] = {1, 1, 0, 1, 0, 0, 0, 1, 0, 0, 0, 1};
    double floor_set[MAGHNELT_MOMENTS];
    double lifted[MAGHNELT_MOMENTS];
    double mean_and_scatter[12];
    double plane[7];
    uint32_t found = 2;

    expect(maghnelt_moments_from_points(SLICE(corners), SLICE(floor_set)) == 0, "points are accepted");
    expect(floor_set[0] == 4 && floor_set[1] == 4 && floor_set[2] == 4 && floor_set[3] == 0, "count and sum of corners");
    expect(floor_set[4] == 8 && floor_set[5] == 4 && floor_set[8] == 8, "outer products of corners");

    expect(maghnelt_moments_transformed(SLICE(floor_set), SLICE(upright), SLICE(up), SLICE(lifted)) == 0, "a move is accepted");
    expect(lifted[3] == 20 && lifted[6] == 20 && lifted[12] == 100, "corners that are lifted by five");

    expect(maghnelt_moments_mean_and_scatter(SLICE(lifted), SLICE(mean_and_scatter), &found) == 0 && found == 1,
           "points have a mean");
    expect(mean_and_scatter[0] == 1 && mean_and_scatter[2] == 5, "mean of lifted corners");
    expect(mean_and_scatter[3] == 1 && mean_and_scatter[4] == 0 && mean_and_scatter[11] == 0, "scatter of lifted corners");

    found = 2;
    expect(maghnelt_moments_plane(SLICE(lifted), SLICE(decomposition), SLICE(plane), &found) == 0 && found == 1,
           "corners have a plane");
    expect(plane[2] == 1 && plane[3] == -5 && plane[4] == 0 && plane[5] == 1, "plane of lifted corners");

    expect(maghnelt_moments_push(SLICE(lifted), SLICE(up)) == 0, "a point is accepted");
    expect(lifted[0] == 5 && lifted[3] == 25 && lifted[12] == 125, "a point is added");
    expect(maghnelt_moments_merge(SLICE(lifted), SLICE(floor_set)) == 0, "a set is accepted");
    expect(lifted[0] == 9 && lifted[1] == 8 && lifted[3] == 25, "a set is added");
}

static void no_answer(void) {
    const double no_points[MAGHNELT_MOMENTS] = {0};
    const double point[] = {1, 2, 3};
    double out[12] = {7};
    double record[MAGHNELT_MOMENTS] = {7};
    uint32_t found = 2;

    expect(maghnelt_moments_mean_and_scatter(SLICE(no_points), SLICE(out), &found) == 0 && found == 0 && out[0] == 7,
           "no points have no mean, and the output is left");
    expect(maghnelt_moments_push(record, MAGHNELT_MOMENTS - 1, SLICE(point)) == 3 && record[0] == 7,
           "a short record is refused and left");
}

/* A set of that count, with a NaN of a sign and a payload among its sums. */
static void make_set(double count, double set[MAGHNELT_MOMENTS]) {
    const double numbers[MAGHNELT_MOMENTS] = {count, 7};
    const uint64_t bits = UINT64_C(0xFFF8000000000B0B);

    memcpy(set, numbers, sizeof numbers);
    memcpy(&set[3], &bits, sizeof bits);
}

static int is_left(double count, const double set[MAGHNELT_MOMENTS]) {
    double made[MAGHNELT_MOMENTS];

    make_set(count, made);
    return memcmp(set, made, sizeof made) == 0;
}

/* What push and merge answer for these counts: accepted calls add, and refused ones leave the set. */
static uint32_t pushed(double count) {
    const double point[] = {1, 2, 3};
    double set[MAGHNELT_MOMENTS];
    uint32_t answer;

    make_set(count, set);
    answer = maghnelt_moments_push(SLICE(set), SLICE(point));
    expect(answer == 0 ? set[1] == 8 : is_left(count, set), "a point is added, or the set is left");
    return answer;
}

static uint32_t merged(double count, double other_count) {
    const double other[MAGHNELT_MOMENTS] = {other_count, 1, 2, 3};
    double set[MAGHNELT_MOMENTS];
    uint32_t answer;

    make_set(count, set);
    answer = maghnelt_moments_merge(SLICE(set), SLICE(other));
    expect(answer == 0 ? set[1] == 8 : is_left(count, set), "a set is added, or the other is left");
    return answer;
}

static void full_counts(void) {
    const double most = MAGHNELT_MAX_COUNT;
    const double point[] = {1, 2, 3};
    double set[MAGHNELT_MOMENTS] = {MAGHNELT_MAX_COUNT - 1};

    expect(maghnelt_moments_push(SLICE(set), SLICE(point)) == 0 && set[0] == most, "a set is full");
    expect(maghnelt_moments_push(SLICE(set), SLICE(point)) == 15 && set[0] == most && set[1] == 1, "and takes no more points");
    expect(maghnelt_moments_push(SLICE(set), point, 2) == 3, "a wrong length comes before a full count");
    expect(pushed(INFINITY) == 15 && pushed(-INFINITY) == 0 && pushed(NAN) == 0, "points for counts that are not finite");
    expect(merged(most, 1) == 15 && merged(1, most) == 15 && merged(most, 5e-324) == 15, "a sum above the most is refused");
    expect(merged(most - 1, 1.5) == 15, "also where the rounded sum is the most");
    expect(merged(most - 1, 1) == 0 && merged(most, -0.0) == 0 && merged(most + 2, -2) == 0, "the most is accepted");
    expect(merged(INFINITY, -1e308) == 15 && merged(-INFINITY, 1e308) == 0, "an infinite count is above or below every number");
    expect(merged(INFINITY, -INFINITY) == 0 && merged(NAN, most) == 0, "a sum that is no number is accepted");
}

/* One record more than a group has, number f of record k being 100 * k + f, but for a NaN with a sign and a payload. */
static void cards(void) {
    const size_t whole = MAGHNELT_GROUP * MAGHNELT_MOMENTS;
    const uint64_t bits = UINT64_C(0xFFF8000000000B0B);
    double list[(MAGHNELT_GROUP + 1) * MAGHNELT_MOMENTS];
    double card[(MAGHNELT_GROUP + 1) * MAGHNELT_MOMENTS] = {7};
    double back[(MAGHNELT_GROUP + 1) * MAGHNELT_MOMENTS] = {7};
    double old[(MAGHNELT_GROUP + 1) * MAGHNELT_MOMENTS];

    for (int k = 0; k <= MAGHNELT_GROUP; ++k) {
        for (int f = 0; f < MAGHNELT_MOMENTS; ++f) {
            list[MAGHNELT_MOMENTS * k + f] = 100 * k + f;
        }
    }
    /* Number 2 of record 5. */
    memcpy(&list[5 * MAGHNELT_MOMENTS + 2], &bits, sizeof bits);
    memcpy(old, card, sizeof old);

    expect(maghnelt_card_write(SLICE(list), card, whole) == 3 && memcmp(card, old, sizeof old) == 0, "a short card is refused and left");
    expect(maghnelt_card_write(list, whole - 1, card, whole - 1) == 3 && memcmp(card, old, sizeof old) == 0, "a part of a record is refused");
    expect(maghnelt_card_write(list, 0, card, 0) == 0 && memcmp(card, old, sizeof old) == 0, "an empty list is accepted");
    expect(maghnelt_card_write(SLICE(list), SLICE(card)) == 0, "a list is accepted");
    expect(card[0] == 0 && card[1] == 100 && card[7] == 700, "the counts of a group come first");
    expect(card[8] == 1 && card[9] == 101 && card[whole - 1] == 700 + MAGHNELT_MOMENTS - 1, "and then all other numbers");
    expect(memcmp(&card[8 * 2 + 5], &bits, sizeof bits) == 0, "a NaN keeps its bits");
    expect(memcmp(card + whole, list + whole, sizeof list - whole * sizeof list[0]) == 0, "a shorter group is left in record order");

    expect(maghnelt_card_read(card, whole, SLICE(back)) == 3 && memcmp(back, old, sizeof old) == 0, "a list that is too long is refused and left");
    expect(maghnelt_card_read(card, 0, back, 0) == 0 && memcmp(back, old, sizeof old) == 0, "an empty card is accepted");
    expect(maghnelt_card_read(SLICE(card), SLICE(back)) == 0, "a card is accepted");
    expect(memcmp(back, list, sizeof list) == 0, "what is read is what was written");
}

static void planes(void) {
    const double normal[] = {0, 3, 4};
    const double zero[] = {0, 0, 0};
    const double upright[] = {1, 0, 0, 0, 1, 0, 0, 0, 1};
    const double plane_covariance[36] = {0};
    const double point_covariance[] = {1, 0, 0, 0, 4, 0, 0, 0, 4};
    double plane[MAGHNELT_PLANE];
    double sigma = 7;

    expect(maghnelt_plane_new(SLICE(normal), 10.0, SLICE(plane)) == 0, "a normal is accepted");
    expect(plane[0] == 0 && plane[1] == 0.6 && plane[2] == 0.8 && plane[3] == 2, "normal and offset are divided");
    expect(maghnelt_plane_new(SLICE(zero), 1.0, SLICE(plane)) == 11 && plane[3] == 2, "no normal is refused");

    plane[1] = 0;
    plane[2] = 1;
    expect(maghnelt_point_to_plane_sigma(SLICE(plane), SLICE(zero), SLICE(plane_covariance), SLICE(point_covariance),
                                         SLICE(zero), SLICE(upright), &sigma) == 0 && sigma == 2,
           "the deviation along the normal");
    sigma = 7;
    plane[2] = 0;
    expect(maghnelt_point_to_plane_sigma(SLICE(plane), SLICE(zero), SLICE(plane_covariance), SLICE(point_covariance),
                                         SLICE(zero), SLICE(upright), &sigma) == 12 && sigma == 7,
           "a variance of 0 is refused");
}

static void block_maps(void) {
    const uint32_t map[] = {10, MAGHNELT_UNMAPPED, 30};
    const uint32_t list[] = {2, MAGHNELT_UNMAPPED, 0, 3, 1};
    const uint32_t bad[] = {MAGHNELT_UNMAPPED + 1};
    uint32_t out[5] = {7, 7, 7, 7, 7};

    expect(maghnelt_remap(SLICE(map), SLICE(bad), out, 1) == 9 && out[0] == 7, "a bad word is refused");
    expect(maghnelt_remap(SLICE(map), SLICE(list), out, 4) == 3 && out[0] == 7, "a short output is refused");
    expect(maghnelt_remap(SLICE(map), SLICE(list), SLICE(out)) == 0, "an index list is accepted");
    expect(out[0] == 30 && out[1] == MAGHNELT_UNMAPPED && out[2] == 10, "words that are found");
    expect(out[3] == MAGHNELT_UNMAPPED && out[4] == MAGHNELT_UNMAPPED, "words that go nowhere");
}

/* What a further transform is written to. */
static uint32_t out_shapes[4];
static double out_transforms[2 * MAGHNELT_TRANSFORM];

/*
 * A further transform of so many columns at a place of a map of two words: the first has a transform of three rows, the second
 * none, but a number where one would be. With no shapes or no transforms the slices are empty.
 */
static uint32_t further(uint32_t dof, const uint32_t map[2], size_t shapes, size_t transforms, uint32_t place, uint32_t columns) {
    const uint32_t beside[] = {3, 1, MAGHNELT_NO_TRANSFORM, MAGHNELT_NO_TRANSFORM};
    double numbers[2 * MAGHNELT_TRANSFORM] = {1, 10, 100, 7};
    const uint32_t shape[] = {2, columns};
    const double entries[MAGHNELT_TRANSFORM] = {1, 2, 3, 4, 5, 6, 7};

    numbers[MAGHNELT_TRANSFORM] = 8;
    return maghnelt_transform(dof, map, 2, beside, shapes, numbers, transforms, place, SLICE(shape), SLICE(entries),
                              SLICE(out_shapes), SLICE(out_transforms));
}

static void transform(void) {
    const uint32_t map[] = {0, MAGHNELT_UNMAPPED};
    const uint32_t bad[] = {0, MAGHNELT_UNMAPPED + 1};
    const size_t all = 2 * MAGHNELT_TRANSFORM;

    out_shapes[0] = 7;
    out_transforms[0] = 9;
    expect(further(10, bad, 4, 0, 0, 2) == 1, "a further transform for dof 10 is refused");
    expect(further(2, bad, 4, 0, 0, 2) == 3, "shapes without transforms are refused");
    expect(further(2, bad, 4, all, 0, 2) == 9, "a bad word beside transforms is refused");
    expect(further(2, map, 4, all, 0, 2) == 14, "two columns over three rows are refused");
    expect(out_shapes[0] == 7 && out_transforms[0] == 9, "a refused further transform writes nothing");

    expect(further(2, map, 4, all, 0, 3) == 0, "a further transform is accepted");
    expect(out_shapes[0] == 2 && out_shapes[1] == 1 && out_transforms[0] == 531 && out_transforms[1] == 642,
           "it multiplies from the left");
    expect(out_transforms[2] == 0 && out_transforms[3] == 0, "behind the product are zeros");
    expect(out_shapes[2] == MAGHNELT_NO_TRANSFORM && out_shapes[3] == MAGHNELT_NO_TRANSFORM &&
               out_transforms[MAGHNELT_TRANSFORM] == 8,
           "the other word is as it came");

    expect(further(2, map, 0, 0, 1, 3) == 0, "a first transform is accepted");
    expect(out_shapes[0] == MAGHNELT_NO_TRANSFORM && out_transforms[0] == 0, "no other word has one");
    expect(out_shapes[2] == 2 && out_shapes[3] == 3 && out_transforms[MAGHNELT_TRANSFORM + 5] == 6 &&
               out_transforms[MAGHNELT_TRANSFORM + 6] == 0,
           "it is taken as it is, with zeros behind it");
}

/* The moments of the corners of a square on the floor. */
static const double square[MAGHNELT_MOMENTS] = {4, 4, 4, 0, 8, 4, 0, 4, 8, 0, 0, 0, 0};

/* A frame of four corners, with a fixed set that is kept and one that is dropped. */
static void build(void) {
    double fixed[MAGHNELT_MOMENTS] = {1, 1, 1, 1, 1, 1, 1, 1, 1, 1, 1, 1, 1};
    double centred_frames[MAGHNELT_CENTRED] = {7};
    double centred_fixed[MAGHNELT_CENTRED] = {7};
    double points = 7;
    uint32_t dropped = 2;

    expect(maghnelt_frames_build(6, SLICE(square), SLICE(fixed), 0.0, SLICE(centred_frames), SLICE(centred_fixed), &points,
                                 &dropped) == 7,
           "no sigma is refused");
    expect(points == 7 && dropped == 2 && centred_frames[0] == 7 && centred_fixed[0] == 7, "a refused build writes nothing");
    expect(maghnelt_frames_build(6, SLICE(square), SLICE(fixed), 0.5, SLICE(centred_frames), SLICE(centred_fixed), &points,
                                 &dropped) == 0,
           "a build is accepted");
    expect(points == 5 && dropped == 0, "points of frames and fixed set");
    expect(centred_frames[1] == 1 && centred_frames[4] == 4 && centred_frames[8] == 4, "a centred frame");
    expect(centred_fixed[0] == 1 && centred_fixed[3] == 1 && centred_fixed[4] == 0, "a centred fixed set");
    fixed[0] = -1;
    centred_fixed[0] = 7;
    expect(maghnelt_frames_build(6, SLICE(square), SLICE(fixed), 0.5, SLICE(centred_frames), SLICE(centred_fixed), &points,
                                 &dropped) == 0 &&
               points == 4 && dropped == 1 && centred_fixed[0] == 7,
           "a fixed set without points is dropped and left");
    fixed[0] = -3;
    expect(maghnelt_frames_build(6, SLICE(square), SLICE(fixed), 0.5, SLICE(centred_frames), SLICE(centred_fixed), &points,
                                 &dropped) == 5,
           "a fixed set counts before it is dropped");
}

/* The same frame by the survey rule. */
static void build_strict(void) {
    double fixed[MAGHNELT_MOMENTS] = {-1, 1, 1, 1, 1, 1, 1, 1, 1, 1, 1, 1, 1};
    double centred_frames[MAGHNELT_CENTRED] = {7};
    double centred_fixed[MAGHNELT_CENTRED] = {7};
    double points = 7;
    uint32_t dropped = 2;

    expect(maghnelt_frames_build_strict(6, SLICE(square), SLICE(fixed), 0.5, SLICE(centred_frames), SLICE(centred_fixed), &points,
                                        &dropped) == 13,
           "a negative fixed count is refused");
    expect(points == 7 && dropped == 2 && centred_frames[0] == 7 && centred_fixed[0] == 7,
           "a refused strict build writes nothing");
    expect(maghnelt_frames_build(6, SLICE(square), SLICE(fixed), 0.5, SLICE(centred_frames), SLICE(centred_fixed), &points,
                                 &dropped) == 0 &&
               dropped == 1,
           "where a build that is not strict drops the set");
    fixed[0] = 0;
    points = 7;
    dropped = 2;
    expect(maghnelt_frames_build_strict(6, SLICE(square), SLICE(fixed), 0.5, SLICE(centred_frames), SLICE(centred_fixed), &points,
                                        &dropped) == 0 &&
               points == 4 && dropped == 1 && centred_fixed[0] == 7,
           "a fixed set without points is dropped and left by a strict build too");
    fixed[0] = 1;
    expect(maghnelt_frames_build_strict(6, SLICE(square), SLICE(fixed), 0.5, SLICE(centred_frames), SLICE(centred_fixed), &points,
                                        &dropped) == 0 &&
               points == 5 && dropped == 0,
           "a strict build is accepted");
    expect(centred_frames[1] == 1 && centred_frames[4] == 4 && centred_fixed[0] == 1 && centred_fixed[3] == 1,
           "frame and fixed set of a strict build are centred");
}

/* One frame of four points, lifted by five metres, and a fixed point. */
static void fit(void) {
    const double frames[MAGHNELT_CENTRED] = {4, 1, 1, 0, 4, 0, 0, 0, 4, 0, 0, 0, 0};
    const double fixed[MAGHNELT_CENTRED] = {1, 1, 1, 10, 0, 0, 0, 0, 0, 0, 0, 0, 0};
    double actions[MAGHNELT_ACTION] = {1, 0, 0, 0, 1, 0, 0, 0, 1, 0, 0, 5};
    double out[12] = {7};

    expect(maghnelt_frames_fit(10, SLICE(frames), SLICE(fixed), SLICE(actions), SLICE(out)) == 1, "dof 10 is refused");
    expect(maghnelt_frames_fit(6, frames, 0, SLICE(fixed), SLICE(actions), SLICE(out)) == 2, "no frame is refused");
    expect(maghnelt_frames_fit(6, SLICE(frames), fixed, 1, SLICE(actions), SLICE(out)) == 3, "a short set is refused");
    expect(maghnelt_frames_fit(6, SLICE(frames), fixed, 0, actions, 1, SLICE(out)) == 8 && out[0] == 7,
           "a short action is refused, and the output is left");
    expect(maghnelt_frames_fit(6, SLICE(frames), fixed, 0, SLICE(actions), SLICE(out)) == 0 && out[2] == 5 && out[3] == 4 &&
               out[11] == 0,
           "a frame that is lifted by five");
    expect(maghnelt_frames_fit(6, SLICE(frames), SLICE(fixed), SLICE(actions), SLICE(out)) == 0 && out[2] == 6 &&
               out[11] == 20,
           "the same with a fixed point");
}

/* The plane x = 1 through a square that lies across it, on a pose that one parameter moves along x and stretches. */
static void frame_factor(void) {
    const double frames[MAGHNELT_CENTRED] = {4, 1, 1, 0, 4, 0, 0, 0, 4, 0, 0, 0, 0};
    const double none[1] = {0};
    double actions[MAGHNELT_ACTION] = {1, 0, 0, 0, 1, 0, 0, 0, 1, 0, 0, 0, 3};
    double decompositions[2 * MAGHNELT_DECOMPOSITION] = {0, 1, 2, 1, 0, 0, 0, 1, 0, 0, 0, 1, 4, 4, 0, 1, 0, 0, 0, 1, 0, 0, 0, 1};
    const uint32_t map[] = {0};
    const uint32_t bad[] = {0, MAGHNELT_UNMAPPED + 1};
    double hessian[1] = {0};
    double gradient[1] = {0};
    double cost = 7;
    double residual[8];
    double jacobian[8];

    actions[39] = 1;
    expect(maghnelt_frames_accumulate(1, SLICE(frames), none, 0, 0.5, SLICE(actions), decompositions, MAGHNELT_DECOMPOSITION,
                                      SLICE(bad), SLICE(hessian), SLICE(gradient), &cost) == 9 &&
               cost == 7 && hessian[0] == 0,
           "a bad word is refused");
    expect(maghnelt_frames_accumulate(1, SLICE(frames), none, 0, 0.5, SLICE(actions), decompositions, MAGHNELT_DECOMPOSITION,
                                      SLICE(map), SLICE(hessian), SLICE(gradient), &cost) == 0 &&
               cost == 16 && hessian[0] == 272 && gradient[0] == 16,
           "a frame costs, and its block and vector are added");
    expect(maghnelt_frames_linearize(1, SLICE(frames), none, 0, 0.5, SLICE(actions), SLICE(decompositions), SLICE(residual),
                                     SLICE(jacobian)) == 0,
           "residuals and their derivatives");
    expect(residual[0] == 4 && residual[1] == 0 && residual[3] == 0 && residual[4] == 0 && residual[7] == 0, "residuals");
    expect(jacobian[0] == 4 && jacobian[1] == 0 && jacobian[3] == 16 && jacobian[4] == 0, "derivatives");
    decompositions[0] = 1;
    expect(maghnelt_frames_accumulate(1, SLICE(frames), none, 0, 0.5, SLICE(actions), decompositions, MAGHNELT_DECOMPOSITION,
                                      SLICE(map), SLICE(hessian), SLICE(gradient), &cost) == 0 &&
               cost == 0 && hessian[0] == 272,
           "without a plane nothing is added");
    expect(maghnelt_frames_linearize(1, SLICE(frames), none, 0, 0.5, SLICE(actions), SLICE(decompositions), SLICE(residual),
                                     jacobian, 0) == 0 &&
               residual[0] == 0 && jacobian[0] == 4,
           "without a plane all residuals are zeros");
}

/* What the calls below are lent. */
static double lent_hessian[4];
static double lent_gradient[2];
static double lent_cost;

/*
 * A frame whose block is (1, 4), (3, 5) by columns and whose vector is (5, 6), at an offset, beside a map of two words: the
 * frame's transform is (1, 2), the other one has so many columns. With no shapes the transforms are empty too.
 */
static uint32_t frame_transformed(uint32_t offset, size_t shapes, uint32_t columns) {
    const double frames[MAGHNELT_CENTRED] = {1, 0, 0, 0, 1, 4, 0, 3, 5, 0, 5, 6, 7};
    const double none[1] = {0};
    double actions[MAGHNELT_ACTION] = {0, 1, 0, 0, 0, 1, 1};
    const double decomposition[MAGHNELT_DECOMPOSITION] = {0, 1, 2, 1, 0, 0, 0, 1, 0, 0, 0, 1};
    const uint32_t map[] = {offset, MAGHNELT_UNMAPPED};
    const uint32_t beside[] = {2, 1, 2, columns};
    const double transforms[2 * MAGHNELT_TRANSFORM] = {1, 2, 7};

    actions[39] = 1;
    actions[69] = 1;
    return maghnelt_frames_accumulate_transformed(2, SLICE(frames), none, 0, 1.0, SLICE(actions), SLICE(decomposition),
                                                  SLICE(map), beside, shapes, transforms,
                                                  shapes == 0 ? 0 : 2 * MAGHNELT_TRANSFORM, SLICE(lent_hessian),
                                                  SLICE(lent_gradient), &lent_cost);
}

static void frames_transformed(void) {
    lent_hessian[0] = lent_hessian[1] = lent_hessian[2] = lent_hessian[3] = 100;
    lent_gradient[0] = lent_gradient[1] = 10;
    lent_cost = 9;
    expect(frame_transformed(2, 3, 10) == 3, "shapes that are too few are refused");
    expect(frame_transformed(2, 4, 10) == 14, "a transform of ten columns is refused, also of a word without a frame");
    expect(frame_transformed(2, 4, 9) == 10, "a row past the end is refused");
    expect(lent_hessian[3] == 100 && lent_gradient[1] == 10 && lent_cost == 9, "a refused frame writes nothing");

    expect(frame_transformed(1, 4, 9) == 0 && lent_cost == 7, "a frame with a transform is accepted");
    expect(lent_hessian[3] == 135 && lent_gradient[1] == 27, "its block and its vector between the transform are added");
    expect(lent_hessian[0] == 100 && lent_hessian[1] == 100 && lent_hessian[2] == 100 && lent_gradient[0] == 10,
           "to one row alone");
    expect(frame_transformed(1, 0, 9) == 10, "without transforms two rows are needed");
    expect(frame_transformed(0, 0, 9) == 0 && lent_hessian[0] == 101 && lent_hessian[1] == 104 && lent_hessian[2] == 103 &&
               lent_hessian[3] == 140 && lent_gradient[0] == 15 && lent_gradient[1] == 33,
           "without transforms block and vector are added as they are");
}

/* The corners of a square on the floor and a point above it. */
static void bundle_fit(void) {
    const uint32_t counts[] = {4};
    const uint32_t empty[] = {4, 0};
    double points[] = {0, 0, 0, 2, 0, 0, 0, 2, 0, 2, 2, 0};
    const double fixed[] = {1, 1, 5};
    double out[12] = {7};

    expect(maghnelt_bundle_fit(counts, 0, points, 0, SLICE(fixed), SLICE(out)) == 2, "no frame is refused");
    expect(maghnelt_bundle_fit(SLICE(counts), points, 9, SLICE(fixed), SLICE(out)) == 3, "fewer points than counted are refused");
    expect(maghnelt_bundle_fit(SLICE(empty), SLICE(points), SLICE(fixed), SLICE(out)) == 4, "a frame without points is refused");
    expect(maghnelt_bundle_fit(SLICE(counts), SLICE(points), SLICE(fixed), SLICE(out)) == 0, "points are accepted");
    expect(out[0] == 1 && out[1] == 1 && out[2] == 1, "centroid of corners and a fixed point");
    expect(out[3] == 0.8 && out[4] == 0 && out[7] == 0.8 && out[11] == 4, "their scatter, divided by their number");
    points[5] = NAN;
    out[0] = 7;
    expect(maghnelt_bundle_fit(SLICE(counts), SLICE(points), SLICE(fixed), SLICE(out)) == 6 && out[0] == 7,
           "a point that is not finite is refused, and the output is left");
}

/* Two frames on both sides of the plane x = 0 and a fixed point, each frame moved along x by one parameter. */
static void bundle_linearize(void) {
    const uint32_t counts[] = {1, 2};
    const uint32_t few[] = {1};
    const double points[] = {1, 5, 0, -3, 0, 7, 4, -5, 0};
    const double d_state[] = {1, 9, 9, 2, 9, 9, 3, 9, 9};
    const double fixed[] = {-2, 0, -7};
    double decomposition[MAGHNELT_DECOMPOSITION] = {0, 1, 2, 1, 0, 0, 0, 1, 0, 0, 0, 1};
    double residual[4] = {7};
    double jacobian[8] = {7};

    expect(maghnelt_bundle_linearize(10, counts, 0, SLICE(points), SLICE(d_state), SLICE(fixed), 0.0, SLICE(decomposition),
                                     SLICE(residual), SLICE(jacobian)) == 1,
           "dof 10 is refused");
    expect(maghnelt_bundle_linearize(1, SLICE(few), points, 3, d_state, 3, SLICE(fixed), 0.0, SLICE(decomposition), residual, 2,
                                     jacobian, 2) == 5,
           "two points are refused");
    expect(maghnelt_bundle_linearize(1, SLICE(counts), SLICE(points), SLICE(d_state), SLICE(fixed), 0.0, SLICE(decomposition),
                                     SLICE(residual), SLICE(jacobian)) == 7 &&
               residual[0] == 7 && jacobian[0] == 7,
           "no sigma is refused, and the outputs are left");
    expect(maghnelt_bundle_linearize(1, SLICE(counts), SLICE(points), SLICE(d_state), SLICE(fixed), 0.5, SLICE(decomposition),
                                     SLICE(residual), SLICE(jacobian)) == 0,
           "residuals and their derivatives");
    expect(residual[0] == 2 && residual[1] == -6 && residual[2] == 8 && residual[3] == -4, "residuals, the fixed point's last");
    expect(jacobian[0] == 2 && jacobian[1] == 0 && jacobian[2] == 0 && jacobian[3] == 0, "the first frame's column");
    expect(jacobian[4] == 0 && jacobian[5] == 4 && jacobian[6] == 6 && jacobian[7] == 0, "the second frame's column");
    decomposition[1] = 9e-13;
    expect(maghnelt_bundle_linearize(1, SLICE(counts), SLICE(points), SLICE(d_state), SLICE(fixed), 0.5, SLICE(decomposition),
                                     SLICE(residual), jacobian, 0) == 0 &&
               residual[0] == 0 && residual[3] == 0 && jacobian[0] == 2,
           "without a plane all residuals are zeros, and an empty Jacobian is not wanted");
}

/* Two matches with the plane x = 0, on a pose that one parameter moves along x. */
static void matches(void) {
    double list[2 * MAGHNELT_MATCH] = {2, 0, 0, 1, 0, 0, 0, 0.5, -1, 0, 0, 1, 0, 0, 0, 1};
    double action[MAGHNELT_ACTION] = {1, 0, 0, 0, 1, 0, 0, 0, 1, 0, 0, 0, 3};
    const uint32_t map[] = {1};
    const uint32_t past[] = {2};
    double hessian[4] = {1, 1, 1, 1};
    double gradient[2] = {1, 1};
    double cost = 7;
    double residual[2];
    double jacobian[2];

    expect(maghnelt_matches_accumulate(1, SLICE(list), SLICE(action), SLICE(past), SLICE(hessian), SLICE(gradient), &cost) ==
                   10 &&
               cost == 7 && hessian[3] == 1,
           "a segment past the end is refused");
    expect(maghnelt_matches_accumulate(1, SLICE(list), SLICE(action), SLICE(map), SLICE(hessian), SLICE(gradient), &cost) ==
                   0 &&
               cost == 17,
           "matches cost");
    expect(hessian[3] == 46 && hessian[0] == 1 && hessian[1] == 1 && hessian[2] == 1, "a block is added at its offset");
    expect(gradient[0] == 1 && gradient[1] == 22, "a vector is added at its offset");
    cost = 7;
    expect(maghnelt_matches_accumulate(1, SLICE(list), SLICE(action), map, 0, hessian, 0, gradient, 0, &cost) == 0 &&
               cost == 17 && hessian[3] == 46,
           "the cost alone");
    expect(maghnelt_matches_linearize(1, SLICE(list), SLICE(action), SLICE(residual), SLICE(jacobian)) == 0 &&
               residual[0] == 4 && residual[1] == -1 && jacobian[0] == 6 && jacobian[1] == 3,
           "residuals and their derivatives");
    list[7] = 0;
    list[8] = INFINITY;
    expect(maghnelt_matches_linearize(1, SLICE(list), SLICE(action), SLICE(residual), jacobian, 0) == 7 && residual[0] == 4,
           "the first bad match decides");
}

/* A match of the residual 2 and the row (3, 5), with one parameter in place of two. */
static void matches_transformed(void) {
    const double list[MAGHNELT_MATCH] = {2, 0, 0, 1, 0, 0, 0, 1};
    double action[MAGHNELT_ACTION] = {1, 0, 0, 0, 1, 0, 0, 0, 1, 0, 0, 0, 3, 0, 0, 5};
    const uint32_t map[] = {0};
    uint32_t shapes[] = {3, 1};
    const double transforms[MAGHNELT_TRANSFORM] = {1, 2, 7};
    double hessian[1] = {100};
    double gradient[1] = {10};
    double cost = 9;

    expect(maghnelt_matches_accumulate_transformed(2, SLICE(list), SLICE(action), SLICE(map), SLICE(shapes), SLICE(transforms),
                                                   SLICE(hessian), SLICE(gradient), &cost) == 14 &&
               cost == 9 && hessian[0] == 100 && gradient[0] == 10,
           "a transform of three rows is refused");
    expect(maghnelt_matches_accumulate_transformed(2, SLICE(list), SLICE(action), SLICE(map), shapes, 0, transforms, 0,
                                                   SLICE(hessian), SLICE(gradient), &cost) == 10,
           "two parameters have no room in one row");
    shapes[0] = 2;
    expect(maghnelt_matches_accumulate_transformed(2, SLICE(list), SLICE(action), SLICE(map), SLICE(shapes), SLICE(transforms),
                                                   SLICE(hessian), SLICE(gradient), &cost) == 0 &&
               cost == 4 && hessian[0] == 269 && gradient[0] == 36,
           "a list's block and vector between a transform are added");
}

static void one_match(void) {
    const double match[MAGHNELT_MATCH] = {0, 0, 0, 3, 3, 3, 1, 3};
    const double bad[MAGHNELT_MATCH] = {0, 0, NAN, 3, 3, 3, 1, 3};
    const double world[] = {1, 1, 1};
    const double d_state[] = {1, 0, 0};
    const double d_extrinsic[18] = {.1, .2, .3};
    double residual = 7;
    double row[7] = {7};

    expect(maghnelt_match_linearize(1, SLICE(bad), SLICE(world), SLICE(d_state), SLICE(d_extrinsic), &residual, SLICE(row)) == 6 &&
               residual == 7 && row[0] == 7,
           "a point that is not finite is refused");
    expect(maghnelt_match_linearize(1, match, 0, SLICE(world), SLICE(d_state), SLICE(d_extrinsic), &residual, SLICE(row)) == 2,
           "no match is refused");
    expect(maghnelt_match_linearize(1, SLICE(match), SLICE(world), SLICE(d_state), SLICE(d_extrinsic), &residual, row, 0) == 0 &&
               residual == 10 * (1.0 / 3.0) && row[0] == 7,
           "a residual without its row");
    expect(maghnelt_match_linearize(1, SLICE(match), SLICE(world), SLICE(d_state), SLICE(d_extrinsic), &residual, SLICE(row)) == 0 &&
               row[0] == 1 && row[1] == 0.6000000000000001 && row[6] == 0,
           "a row, its extrinsic columns scaled first");
}

int main(void) {
    leaves();
    moments();
    no_answer();
    full_counts();
    cards();
    planes();
    block_maps();
    transform();
    build();
    build_strict();
    fit();
    frame_factor();
    frames_transformed();
    bundle_fit();
    bundle_linearize();
    matches();
    matches_transformed();
    one_match();
    return failures != 0;
}

/*
 * The C interface of Maghnelt: lidar plane factors below their actions, proved bit for bit.
 *
 * A function that can refuse returns a uint32_t: 0 for accepted, otherwise the number of the reason; a refused
 * call writes nothing. A slice is a pointer and then a length in elements; every pointer is non-null and aligned,
 * also where the length is 0, and a slice that is written overlaps no other argument. A NaN that is written may
 * have any sign and payload, but the calls on cards keep the bits of every number.
 */
#ifndef MAGHNELT_H
#define MAGHNELT_H

#include <stddef.h>
#include <stdint.h>

#ifdef __cplusplus
extern "C" {
#endif

/* How many numbers a record has. Use the names: a later version changes the first. */
#define MAGHNELT_MOMENTS 13       /* count, sum (3), outer products (9, column after column) */
#define MAGHNELT_CENTRED 13       /* count, mean (3), scatter times count (9, column after column) */
#define MAGHNELT_ACTION 120       /* matrix A (9), shift b (3), origin (3 by 9), axes (three of 3 by 9) */
#define MAGHNELT_DECOMPOSITION 12 /* three eigenvalues, then their three vectors */
#define MAGHNELT_MATCH 8          /* point (3), normal (3), offset, sigma */
#define MAGHNELT_PLANE 4          /* normal (3), offset */
#define MAGHNELT_TRANSFORM 81     /* a matrix of up to 9 by 9, its columns first; no answer depends on what lies behind them */

/* The most that one call takes. */
#define MAGHNELT_MAX_DOF 9        /* columns of an action's derivatives, and of a transform */
#define MAGHNELT_MAX_POINTS 65536
#define MAGHNELT_MAX_FRAMES 256   /* frames of one plane */
#define MAGHNELT_MAX_WORDS 1024   /* words of a block map or of an index list */
#define MAGHNELT_MAX_ORDER 1024   /* rows of a Hessian */
#define MAGHNELT_MAX_MATCHES 65536
#define MAGHNELT_MAX_RECORDS 65536 /* records of a moment list on a card */

/*
 * Why a call is turned away. A call tests the reasons that its comment names, in that order, and answers the first that
 * applies.
 *
 *  1  the dof is above MAGHNELT_MAX_DOF
 *  2  the list of frames, of counts or of matches is empty
 *  3  a slice other than the actions has not the length its counts call for, or a limit is passed
 *  4  some frame's count (in a bundle, its number of points) is at or below 0
 *  5  the frames' counts summed in order, plus the fixed count (in a bundle, numbers of points), are below 3
 *  6  a moment of a frame or the fixed set, or a coordinate of a point or a fixed point, is not finite
 *  7  sigma is not finite and positive
 *  8  the actions are not MAGHNELT_ACTION numbers for each frame (one action, for a match list)
 *  9  a word of a map is above MAGHNELT_UNMAPPED
 * 10  a mapped frame's offset plus dof, or plus its transform's columns, exceeds the order n of the Hessian
 * 11  a plane's normal has a norm that is not finite or not above 1e-12
 * 12  the point-to-plane variance is not finite and positive
 * 13  the fixed set's count is below 0 (in a strict build only)
 * 14  a transform has more than 9 columns or not dof rows, or a further one not as many columns as the one it multiplies has
 *     rows
 * 15  the count is at or above MAGHNELT_MAX_COUNT (in a push), or the exact sum of the two counts is above it (in a merge)
 */

/*
 * A word of a block map says where a frame goes: below this one it is an offset, the row at which the frame's segment
 * begins; this one is a frame that goes nowhere, as is a frame beyond the map's end. No word is above it. In an index list
 * the offset is a place in a map.
 */
#define MAGHNELT_UNMAPPED UINT32_C(0x40000000)

/*
 * Beside a map may lie a transform for each word, or none: a matrix T of dof rows, in the same axes as the derivative columns
 * of the frame's action, which says how the frame's parameters follow from those that are solved for. Its shape is two
 * numbers, rows and columns, both MAGHNELT_NO_TRANSFORM where the word has none; T(r, c) is number rows * c + r of its
 * MAGHNELT_TRANSFORM numbers. shapes has the shapes of word 0, of word 1 and so on, and transforms their numbers; both may
 * be empty where no word has a transform.
 */
#define MAGHNELT_NO_TRANSFORM UINT32_C(0xFFFFFFFF)

/*
 * A card stores a moment list in groups of this many records. In a whole group, number f of record r, both counted from 0,
 * stands at place MAGHNELT_GROUP * f + r of the group's numbers: first the counts of all its records, then the first numbers
 * of their sums, and so on. A last shorter group is in record order, as the list itself is.
 */
#define MAGHNELT_GROUP 8

/*
 * The most points that a set counts: 2^53. A double holds every whole number up to it, but not the next, so that one point
 * more would change no count.
 */
#define MAGHNELT_MAX_COUNT 9007199254740992.0

/* ---- leaves ---- */

/*
 * IEEE 754's squareRoot, correctly rounded: -0 for -0, +infinity for +infinity, a NaN for a NaN and for every
 * number below zero.
 */
double maghnelt_sqrt(double x);

/*
 * The key of a binary64 bit pattern: the pattern as a signed integer whose low 63 bits are inverted when it is
 * negative. Signed comparison of keys is IEEE 754's totalOrder of the patterns, NaNs of all kinds included.
 */
int64_t maghnelt_total_order_key(uint64_t bits);

/* ---- moments: MAGHNELT_MOMENTS numbers a record; thirteen zeros are the empty set ---- */

/*
 * The moments of a list of points, 3 numbers each, at most MAGHNELT_MAX_POINTS. What `moments` held before does not count.
 * Refused by 3.
 */
uint32_t maghnelt_moments_from_points(const double *points, size_t points_length, double *moments,
                                      size_t moments_length);

/* One point more. Refused by 3, then by 15 if the count is at or above MAGHNELT_MAX_COUNT (+infinity too; a NaN is not). */
uint32_t maghnelt_moments_push(double *moments, size_t moments_length, const double *point, size_t point_length);

/*
 * The points of another set too. Refused by 3, then by 15 if the exact sum of the two counts is above MAGHNELT_MAX_COUNT, also
 * where the rounded sum is not. An infinite count is above or below every number by its sign; two opposite infinities are not
 * refused, and no NaN is.
 */
uint32_t maghnelt_moments_merge(double *moments, size_t moments_length, const double *other, size_t other_length);

/* The moments of the points carried by p -> A p + b; a is 3 by 3 by columns, b has 3 numbers. Refused by 3. */
uint32_t maghnelt_moments_transformed(const double *moments, size_t moments_length, const double *a, size_t a_length,
                                      const double *b, size_t b_length, double *out, size_t out_length);

/*
 * The mean (3) and the scatter about it (9, by columns): *found is 1, and out, of 12 numbers, holds them. None for a
 * count at or below 0: *found is 0, and out is as it was. Refused by 3.
 */
uint32_t maghnelt_moments_mean_and_scatter(const double *moments, size_t moments_length, double *out,
                                           size_t out_length, uint32_t *found);

/*
 * The plane of least scatter, by the decomposition of the scatter that the host hands in (MAGHNELT_DECOMPOSITION
 * numbers, in any order of the eigenvalues): *found is 1, and out, of 7 numbers, holds the normal, the offset and the
 * eigenvalues, rising in IEEE 754's total order. None for a count below 3 or where the two least eigenvalues are less
 * than 1e-14 apart: *found is 0, and out is as it was. Refused by 3.
 */
uint32_t maghnelt_moments_plane(const double *moments, size_t moments_length, const double *decomposition,
                                size_t decomposition_length, double *out, size_t out_length, uint32_t *found);

/* ---- cards: moment lists of 0 to MAGHNELT_MAX_RECORDS records of MAGHNELT_MOMENTS numbers ---- */

/*
 * The card of a moment list: every number is moved to its place with the bits that it has, a NaN too. card is as long as
 * moments. Refused by 3 if moments is not whole records or more than MAGHNELT_MAX_RECORDS, or if card has another length.
 */
uint32_t maghnelt_card_write(const double *moments, size_t moments_length, double *card, size_t card_length);

/*
 * The moment list of a card: the inverse of _write, bit for bit in both directions. moments is as long as card. Refused by
 * 3 if card is not whole records or more than MAGHNELT_MAX_RECORDS, or if moments has another length.
 */
uint32_t maghnelt_card_read(const double *card, size_t card_length, double *moments, size_t moments_length);

/* ---- planes: MAGHNELT_PLANE numbers ---- */

/*
 * The plane of a normal of any length: normal and offset divided by the normal's norm. Refused by 3, then by 11 if
 * the norm is not finite or not above 1e-12.
 */
uint32_t maghnelt_plane_new(const double *normal, size_t normal_length, double offset, double *plane,
                            size_t plane_length);

/*
 * The standard deviation of a point's distance from a plane: the plane with its centroid (3) and covariance (6 by 6),
 * the point's covariance (3 by 3), the point in the site (3) and its derivative by the point (3 by 3). Refused by 3,
 * then by 12 if the variance is not finite and positive.
 */
uint32_t maghnelt_point_to_plane_sigma(const double *plane, size_t plane_length, const double *centroid,
                                       size_t centroid_length, const double *plane_covariance,
                                       size_t plane_covariance_length, const double *point_covariance,
                                       size_t point_covariance_length, const double *world, size_t world_length,
                                       const double *d_world_d_point, size_t d_world_d_point_length, double *sigma);

/* ---- block maps: at most MAGHNELT_MAX_WORDS words ---- */

/*
 * The map that an index list makes of a map: out[i] is the map's word at the place that list[i] names, and
 * MAGHNELT_UNMAPPED where list[i] is that or names a place past the map's end. out is as long as list. Refused by 3, then
 * by 9 if a word of the map or of the list is above MAGHNELT_UNMAPPED.
 */
uint32_t maghnelt_remap(const uint32_t *map, size_t map_length, const uint32_t *list, size_t list_length, uint32_t *out,
                        size_t out_length);

/*
 * The transforms beside a map with a further one at a place: there the product of the further one with the one that was
 * there, each entry the sum of its products in rising index, or the further one itself where there was none, and zeros behind
 * it. Every other word has its shape and its MAGHNELT_TRANSFORM numbers as they came; where shapes and transforms are empty,
 * no transform and zeros. A place past the map's end changes no word. further_shape has 2 numbers and further
 * MAGHNELT_TRANSFORM; out_shapes has 2 numbers for each word of the map and out_transforms MAGHNELT_TRANSFORM. Refused by 1,
 * 3, 9, and then by 14 if a word's transform has more than 9 columns, or if the further one is none, has more than 9 columns
 * or other than dof rows, wherever the place is, or has other columns than the one at the place has rows.
 */
uint32_t maghnelt_transform(uint32_t dof, const uint32_t *map, size_t map_length, const uint32_t *shapes,
                            size_t shapes_length, const double *transforms, size_t transforms_length, uint32_t place,
                            const uint32_t *further_shape, size_t further_shape_length, const double *further,
                            size_t further_length, uint32_t *out_shapes, size_t out_shapes_length,
                            double *out_transforms, size_t out_transforms_length);

/* ---- frames of one plane: 1 to MAGHNELT_MAX_FRAMES frames, and a fixed set, of one frame or none (length 0) ---- */

/*
 * Builds a factor: frames and fixed are moments, and centred_frames and centred_fixed, of MAGHNELT_CENTRED numbers a set,
 * get what the other calls take. *points is the number of points. A fixed set of a count at or below 0 is dropped:
 * *fixed_dropped is 1, centred_fixed is as it was, and the later calls are to be handed an empty fixed slice; otherwise
 * *fixed_dropped is 0. Refused by 1 to 7; a fixed set that will be dropped counts in 5, and its numbers in 6.
 */
uint32_t maghnelt_frames_build(uint32_t dof, const double *frames, size_t frames_length, const double *fixed,
                               size_t fixed_length, double sigma, double *centred_frames, size_t centred_frames_length,
                               double *centred_fixed, size_t centred_fixed_length, double *points,
                               uint32_t *fixed_dropped);

/*
 * Builds a factor by the survey rule: as _build, but a fixed set of a count below 0 is refused by 13 (-infinity too; -0 and
 * a NaN are not below 0), and the total that 5 tests counts only sets that are kept: it is what *points gets. A fixed set of
 * a count of 0 or -0 is dropped, as in _build. Refused by 1, 2, 3, 13, 4, 5, 6 and 7, in this order. Unless the answer is 13,
 * the answer and all that is written are those of _build on the same arguments.
 */
uint32_t maghnelt_frames_build_strict(uint32_t dof, const double *frames, size_t frames_length, const double *fixed,
                                      size_t fixed_length, double sigma, double *centred_frames,
                                      size_t centred_frames_length, double *centred_fixed, size_t centred_fixed_length,
                                      double *points, uint32_t *fixed_dropped);

/*
 * The mean (3) and the scatter about it (9, by columns; neither divided nor made symmetric) of what a plane is fitted to,
 * for the decomposition that the host makes of the scatter: the frames, each carried by its action, and then the fixed set
 * as it comes. out has 12 numbers, actions MAGHNELT_ACTION for each frame. Refused by 1, 2, 3, 8.
 */
uint32_t maghnelt_frames_fit(uint32_t dof, const double *frames, size_t frames_length, const double *fixed,
                             size_t fixed_length, const double *actions, size_t actions_length, double *out,
                             size_t out_length);

/*
 * Fits the plane by the decomposition of what _fit gave (MAGHNELT_DECOMPOSITION numbers, in any order of the eigenvalues),
 * and adds the frames' normal equations to a Hessian of n by n and a gradient of n numbers, n being at most
 * MAGHNELT_MAX_ORDER: for each mapped frame, one after the other, dof rows and columns from its offset on. *cost is the
 * weighted sum of squared distances over all frames, mapped or not, and the fixed set. Without a plane (the two least
 * eigenvalues are not more than 1e-14 * t apart, t being the absolute value of the third where that is above 1, and else 1)
 * *cost is 0, and nothing else is written.
 * Hessian, gradient and map may all be empty. Refused by 1, 2, 3, 7, 8, 9 and 10.
 */
uint32_t maghnelt_frames_accumulate(uint32_t dof, const double *frames, size_t frames_length, const double *fixed,
                                    size_t fixed_length, double sigma, const double *actions, size_t actions_length,
                                    const double *decomposition, size_t decomposition_length, const uint32_t *map,
                                    size_t map_length, double *hessian, size_t hessian_length, double *gradient,
                                    size_t gradient_length, double *cost);

/*
 * _accumulate with transforms beside the map: a mapped frame that has a transform T adds T^t M T and T^t v in place of its
 * block M and its vector v, the left product first, each entry the sum of its products in rising index (+0 where there is
 * none), to as many rows and columns from its offset on as T has columns. shapes has 2 numbers for each word of the map and
 * transforms MAGHNELT_TRANSFORM; with both empty this is _accumulate. Refused by 1, 2, 3, 7, 8, 9, 14 and 10, in this order;
 * 14 looks at every word, also at those of no frame.
 */
uint32_t maghnelt_frames_accumulate_transformed(uint32_t dof, const double *frames, size_t frames_length,
                                                const double *fixed, size_t fixed_length, double sigma,
                                                const double *actions, size_t actions_length,
                                                const double *decomposition, size_t decomposition_length,
                                                const uint32_t *map, size_t map_length, const uint32_t *shapes,
                                                size_t shapes_length, const double *transforms,
                                                size_t transforms_length, double *hessian, size_t hessian_length,
                                                double *gradient, size_t gradient_length, double *cost);

/*
 * Four residuals for each frame and four for the fixed set, zeros without one; and the Jacobian with as many rows, column
 * after column, dof columns for each frame; an empty Jacobian is not wanted. Every number is written, without a plane all
 * zeros. decompositions has the fit's, then one for each frame's scatter, then the fixed set's if there is one. Refused by
 * 1, 2, 3, 7 and 8.
 */
uint32_t maghnelt_frames_linearize(uint32_t dof, const double *frames, size_t frames_length, const double *fixed,
                                   size_t fixed_length, double sigma, const double *actions, size_t actions_length,
                                   const double *decompositions, size_t decompositions_length, double *residual,
                                   size_t residual_length, double *jacobian, size_t jacobian_length);

/* ---- bundles: one plane point by point, 1 to MAGHNELT_MAX_FRAMES frames, and fixed points or none (length 0) ---- */

/*
 * The centroid (3) of a bundle's points and their scatter about it (9, by columns; divided by the number of points),
 * for the decomposition that the host makes of the scatter. counts has each frame's number of points, points the
 * frames' points as they lie in the site, frame after frame, and fixed the points that are known there: 3 numbers a
 * point, and at most MAGHNELT_MAX_POINTS of both kinds together. out has 12 numbers. Refused by 2, 3, 4, 5 and 6.
 */
uint32_t maghnelt_bundle_fit(const uint32_t *counts, size_t counts_length, const double *points, size_t points_length,
                             const double *fixed, size_t fixed_length, double *out, size_t out_length);

/*
 * Fits the plane by the decomposition of the scatter that _fit gave (MAGHNELT_DECOMPOSITION numbers, in any order of the
 * eigenvalues), and writes a residual for each point, (1 / sigma) * (normal . (point - centroid)), the fixed points
 * last; and the Jacobian with as many rows, column after column, dof columns for each frame: a point of a frame has
 * numbers in its own frame's columns, all else is zeros. An empty Jacobian is not wanted. d_state has dof columns of 3
 * numbers for each of points. Every number is written, without a plane (the two least eigenvalues are less than 1e-12
 * apart) all zeros. Refused by 1 to 7; 6 does not look at d_state.
 */
uint32_t maghnelt_bundle_linearize(uint32_t dof, const uint32_t *counts, size_t counts_length, const double *points,
                                   size_t points_length, const double *d_state, size_t d_state_length,
                                   const double *fixed, size_t fixed_length, double sigma, const double *decomposition,
                                   size_t decomposition_length, double *residual, size_t residual_length,
                                   double *jacobian, size_t jacobian_length);

/* ---- matches on one pose: 1 to MAGHNELT_MAX_MATCHES matches of MAGHNELT_MATCH numbers, and one action ---- */

/*
 * Adds the matches' normal equations to a Hessian of n by n and a gradient of n numbers, n being at most
 * MAGHNELT_MAX_ORDER, in the dof rows and columns from the offset on that word 0 of the map gives; *cost is the sum of
 * squared residuals. A list that is not mapped costs and writes nothing else; Hessian, gradient and map may all be empty.
 * Matches are summed in groups of 512, and then the groups. Refused by 1, 2, 3, then match by match by 6 and 7, by 8, 9
 * and 10.
 */
uint32_t maghnelt_matches_accumulate(uint32_t dof, const double *matches, size_t matches_length, const double *action,
                                     size_t action_length, const uint32_t *map, size_t map_length, double *hessian,
                                     size_t hessian_length, double *gradient, size_t gradient_length, double *cost);

/*
 * _accumulate with transforms beside the map, as for frames: if word 0 has a transform T, the list adds T^t M T and T^t v, M
 * and v being what its groups sum to. With shapes and transforms both empty this is _accumulate. Refused by 1, 2, 3, then
 * match by match by 6 and 7, by 8, 9, 14 and 10, in this order; 14 looks at every word of the map.
 */
uint32_t maghnelt_matches_accumulate_transformed(uint32_t dof, const double *matches, size_t matches_length,
                                                 const double *action, size_t action_length, const uint32_t *map,
                                                 size_t map_length, const uint32_t *shapes, size_t shapes_length,
                                                 const double *transforms, size_t transforms_length, double *hessian,
                                                 size_t hessian_length, double *gradient, size_t gradient_length,
                                                 double *cost);

/*
 * The residual of each match, and the Jacobian, a row for each match and dof columns, column after column; an empty
 * Jacobian is not wanted. Refused by 1, 2, 3, then match by match by 6 and 7, and by 8.
 */
uint32_t maghnelt_matches_linearize(uint32_t dof, const double *matches, size_t matches_length, const double *action,
                                    size_t action_length, double *residual, size_t residual_length, double *jacobian,
                                    size_t jacobian_length);

/* ---- one match below its chain: MAGHNELT_MATCH numbers, the plane being taken as it comes ---- */

/*
 * The residual (1 / sigma) * (normal . world + offset) of a match whose point a chain of a state and an extrinsic carries to
 * world (3), and the row of its derivatives, dof by the state and then 6 by the extrinsic; an empty row is not wanted.
 * d_state has 3 numbers a column, d_extrinsic 18. Refused by 1, 2, 3, 6 and 7; 6 looks at the match's own point alone.
 */
uint32_t maghnelt_match_linearize(uint32_t dof, const double *match, size_t match_length, const double *world,
                                  size_t world_length, const double *d_state, size_t d_state_length,
                                  const double *d_extrinsic, size_t d_extrinsic_length, double *residual, double *row,
                                  size_t row_length);

#ifdef __cplusplus
}
#endif

#endif

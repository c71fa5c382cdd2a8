//! The calls on moments, against plain Rust on plain arrays of the same layout.

use crate::harness::{measure_updated, measure_written};
use maghnelt::{slices, MAX_COUNT, MAX_POINTS, MOMENTS};
use oracle::draws::{record_of, stored, Pose, Wall};
use oracle::generator::Generator;
use std::hint::black_box;

/// Records that a batch goes through.
const RECORDS: usize = 256;
/// Points of a short list, and the lists that a batch goes through.
const FEW: usize = 64;
const LISTS: usize = 16;

/// The moments of a set.
pub type Record = [f64; MOMENTS];

/// A record and an affine map: a matrix by its columns, and a shift.
struct Move {
    moments: Record,
    a: [f64; 9],
    b: [f64; 3],
}

/// Prints the rows of the moments.
pub fn measure_all() {
    let mut generator = Generator::named(754, "moments");
    let generator = &mut generator;
    let short: Vec<_> = (0..LISTS).map(|_| wall_points(FEW, generator)).collect();
    let long = vec![wall_points(MAX_POINTS, generator)];
    for (case, lists) in [("64 points", short), ("65,536 points", long)] {
        measure_written(
            "moments_from_points",
            case,
            &lists,
            |list, out| {
                _ = slices::moments_from_points(list.as_flattened(), out);
            },
            |list, out| plain::from_points(list, out),
        );
    }
    measure_push_and_merge(generator);
    measure_transformed(generator);
    measure_mean_and_scatter(generator);
}

fn wall_points(points: usize, generator: &mut Generator) -> Vec<[f64; 3]> {
    let wall = Wall::random(generator);
    (0..points).map(|_| wall.point(generator)).collect()
}

fn some_records(generator: &mut Generator) -> Vec<Record> {
    (0..RECORDS)
        .map(|_| record_of(&Wall::random(generator), generator))
        .collect()
}

/// A call on two slices, as the library's are.
type Call = fn(&mut [f64], &[f64]) -> u32;

fn measure_push_and_merge(generator: &mut Generator) {
    // The compiler must not know which lengths the calls are handed, or it drops their tests.
    let [push_tested, merge_tested] = black_box([plain::push_tested as Call, plain::merge_tested]);
    let points = wall_points(RECORDS, generator);
    let pushed = with_records(points, generator);
    let push = |moments: &mut Record, point: &[f64; 3]| {
        _ = slices::moments_push(moments, point);
    };
    measure_updated("moments_push", "one point", &pushed, push, plain::push);
    measure_updated(
        "moments_push",
        "one point, Rust with the same tests",
        &pushed,
        push,
        |moments, point| {
            push_tested(moments, point);
        },
    );
    let others = some_records(generator);
    let merged = with_records(others, generator);
    let merge = |moments: &mut Record, other: &Record| {
        _ = slices::moments_merge(moments, other);
    };
    measure_updated("moments_merge", "two sets", &merged, merge, plain::merge);
    measure_updated(
        "moments_merge",
        "two sets, Rust with the same tests",
        &merged,
        merge,
        |moments, other| {
            merge_tested(moments, other);
        },
    );
}

/// A record to each of the inputs.
fn with_records<Input>(inputs: Vec<Input>, generator: &mut Generator) -> Vec<(Record, Input)> {
    some_records(generator).into_iter().zip(inputs).collect()
}

fn measure_transformed(generator: &mut Generator) {
    let moves: Vec<Move> = some_records(generator)
        .into_iter()
        .map(|moments| {
            let pose = Pose::random(generator);
            let mut a = [0.0; 9];
            a.copy_from_slice(&stored(pose.rotation));
            let b = pose.shift;
            Move { moments, a, b }
        })
        .collect();
    measure_written(
        "moments_transformed",
        "a pose",
        &moves,
        |Move { moments, a, b }, out| {
            _ = slices::moments_transformed(moments, a, b, out);
        },
        |Move { moments, a, b }, out| plain::transformed(moments, a, b, out),
    );
}

fn measure_mean_and_scatter(generator: &mut Generator) {
    measure_written(
        "moments_mean_and_scatter",
        "a wall",
        &some_records(generator),
        |moments, out: &mut [f64; 12]| {
            let mut found = 0;
            _ = slices::moments_mean_and_scatter(moments, out, &mut found);
        },
        |moments, out| {
            plain::mean_and_scatter(moments, out);
        },
    );
}

/// The same in plain Rust: the compiler knows every length and inlines all below the outermost functions, which are
/// called as the library's are.
pub mod plain {
    use super::{Record, MAX_COUNT};

    /// Where the sum and the outer products are in a record, after the count.
    const SUM: usize = 1;
    const OUTER: usize = 4;

    /// Six products and three coordinates are summed: y·x has the bits of x·y. The count is converted once.
    #[inline(never)]
    pub fn from_points(points: &[[f64; 3]], out: &mut Record) {
        let mut sum = [0.0; 3];
        let mut products = [0.0; 6];
        for &[x, y, z] in points {
            for (sum, number) in sum.iter_mut().zip([x, y, z]) {
                *sum += number;
            }
            let new = [x * x, y * x, z * x, y * y, z * y, z * z];
            for (product, number) in products.iter_mut().zip(new) {
                *product += number;
            }
        }
        let ([x, y, z], [xx, yx, zx, yy, zy, zz]) = (sum, products);
        let count = points.len() as f64;
        *out = [count, x, y, z, xx, yx, zx, yx, yy, zy, zx, zy, zz];
    }

    #[inline(always)]
    fn add(moments: &mut Record, point: &[f64; 3]) {
        moments[0] += 1.0;
        for r in 0..3 {
            moments[SUM + r] += point[r];
        }
        for c in 0..3 {
            for r in 0..3 {
                moments[OUTER + 3 * c + r] += point[r] * point[c];
            }
        }
    }

    #[inline(never)]
    pub fn push(moments: &mut Record, point: &[f64; 3]) {
        add(moments, point);
    }

    /// Of slices: 3 of their lengths, 15 of a full count, and nothing is added then.
    #[inline(never)]
    pub fn push_tested(moments: &mut [f64], point: &[f64]) -> u32 {
        let (Ok(moments), Ok(point)) = (<&mut Record>::try_from(moments), point.try_into()) else {
            return 3;
        };
        if moments[0] >= MAX_COUNT {
            return 15;
        }
        add(moments, point);
        0
    }

    #[inline(always)]
    fn join(moments: &mut Record, other: &Record) {
        for (number, other) in moments.iter_mut().zip(other) {
            *number += other;
        }
    }

    #[inline(never)]
    pub fn merge(moments: &mut Record, other: &Record) {
        join(moments, other);
    }

    /// Whether two counts come to more than one set counts. Where their rounded sum is that number, the larger one's difference to
    /// it is exact.
    #[inline(always)]
    fn too_many(a: f64, b: f64) -> bool {
        let sum = a + b;
        if sum < MAX_COUNT {
            return false;
        }
        let (low, high) = if a < b { (a, b) } else { (b, a) };
        sum > MAX_COUNT || low > MAX_COUNT - high
    }

    /// Of slices: 3 of their lengths, 15 of counts that come to too many, and nothing is added then.
    #[inline(never)]
    pub fn merge_tested(moments: &mut [f64], other: &[f64]) -> u32 {
        let (Ok(moments), Ok(other)) =
            (<&mut Record>::try_from(moments), <&Record>::try_from(other))
        else {
            return 3;
        };
        if too_many(moments[0], other[0]) {
            return 15;
        }
        join(moments, other);
        0
    }

    #[inline(never)]
    pub fn transformed(moments: &Record, a: &[f64; 9], b: &[f64; 3], out: &mut Record) {
        let count = moments[0];
        let row_times = |r: usize, x: &[f64]| a[r] * x[0] + a[3 + r] * x[1] + a[6 + r] * x[2];
        let mut a_sum = [0.0; 3];
        let mut a_outer = [0.0; 9];
        for r in 0..3 {
            a_sum[r] = row_times(r, &moments[SUM..OUTER]);
            for c in 0..3 {
                a_outer[3 * c + r] = row_times(r, &moments[OUTER + 3 * c..]);
            }
        }
        out[0] = count;
        for r in 0..3 {
            out[SUM + r] = a_sum[r] + b[r] * count;
        }
        for c in 0..3 {
            for r in 0..3 {
                let turned =
                    a_outer[r] * a[c] + a_outer[3 + r] * a[3 + c] + a_outer[6 + r] * a[6 + c];
                out[OUTER + 3 * c + r] =
                    turned + a_sum[r] * b[c] + b[r] * a_sum[c] + b[r] * b[c] * count;
            }
        }
    }

    #[inline(never)]
    pub fn mean_and_scatter(moments: &Record, out: &mut [f64; 12]) -> bool {
        if moments[0] <= 0.0 {
            return false;
        }
        let (mean, scatter) = mean_and_scatter_of(moments);
        out[..3].copy_from_slice(&mean);
        out[3..].copy_from_slice(&scatter);
        true
    }

    /// Of a count above 0.
    #[inline(always)]
    pub fn mean_and_scatter_of(moments: &Record) -> ([f64; 3], [f64; 9]) {
        let count = moments[0];
        let mut mean = [0.0; 3];
        for r in 0..3 {
            mean[r] = moments[SUM + r] / count;
        }
        let mut spread = [0.0; 9];
        for c in 0..3 {
            for r in 0..3 {
                spread[3 * c + r] = moments[OUTER + 3 * c + r] / count - mean[r] * mean[c];
            }
        }
        let mut scatter = [0.0; 9];
        for c in 0..3 {
            for r in 0..3 {
                scatter[3 * c + r] = (spread[3 * c + r] + spread[3 * r + c]) * 0.5;
            }
        }
        (mean, scatter)
    }
}

//! The calls on planes, against plain Rust on plain arrays of the same layout.

use crate::harness::measure_written;
use maghnelt::{slices, PLANE};
use oracle::draws::{covariance, rotation, stored, within, Wall};
use oracle::generator::Generator;

const INPUTS: usize = 256;

/// Prints the rows of the planes.
pub fn measure_all() {
    let mut generator = Generator::named(754, "plane");
    measure_new(&mut generator);
    measure_sigma(&mut generator);
}

fn measure_new(generator: &mut Generator) {
    let inputs: Vec<([f64; 3], f64)> = (0..INPUTS)
        .map(|_| {
            let normal = [(); 3].map(|()| within(-2.0, 2.0, generator));
            (normal, within(-50.0, 50.0, generator))
        })
        .collect();
    measure_written(
        "plane_new",
        "any normal",
        &inputs,
        |(normal, offset), plane| {
            _ = slices::plane_new(normal, *offset, plane);
        },
        |(normal, offset), plane| {
            plain::plane_new(normal, *offset, plane);
        },
    );
}

/// What the deviation is worked out from; matrices are by columns.
struct Uncertain {
    plane: [f64; PLANE],
    centroid: [f64; 3],
    of_plane: [f64; 36],
    of_point: [f64; 9],
    world: [f64; 3],
    d_world_d_point: [f64; 9],
}

impl Uncertain {
    fn random(generator: &mut Generator) -> Uncertain {
        let wall = Wall::random(generator);
        let [x, y, z] = wall.axes[2];
        Uncertain {
            plane: [x, y, z, within(-50.0, 50.0, generator)],
            centroid: wall.middle,
            of_plane: array(stored(covariance::<6>(1e-3, generator))),
            of_point: array(stored(covariance::<3>(1e-2, generator))),
            world: wall.point(generator),
            d_world_d_point: array(stored(rotation(generator))),
        }
    }
}

fn array<const N: usize>(numbers: Vec<f64>) -> [f64; N] {
    numbers
        .try_into()
        .expect("as many numbers as the matrix has")
}

fn measure_sigma(generator: &mut Generator) {
    let inputs: Vec<Uncertain> = (0..INPUTS).map(|_| Uncertain::random(generator)).collect();
    measure_written(
        "point_to_plane_sigma",
        "a wall",
        &inputs,
        |input, [sigma]| {
            _ = slices::point_to_plane_sigma(
                &input.plane,
                &input.centroid,
                &input.of_plane,
                &input.of_point,
                &input.world,
                &input.d_world_d_point,
                sigma,
            );
        },
        |input, [sigma]| {
            plain::point_to_plane_sigma(
                &input.plane,
                &input.centroid,
                &input.of_plane,
                &input.of_point,
                &input.world,
                &input.d_world_d_point,
                sigma,
            );
        },
    );
}

/// The same in plain Rust: the compiler knows every length and inlines all below the outermost functions, which are
/// called as the library's are.
mod plain {
    use maghnelt::PLANE;

    #[inline(never)]
    pub fn plane_new(normal: &[f64; 3], offset: f64, plane: &mut [f64; PLANE]) -> bool {
        let norm = dot(normal, normal).sqrt();
        let usable = norm.is_finite() && norm > 1e-12;
        if usable {
            let [x, y, z] = normal;
            *plane = [x / norm, y / norm, z / norm, offset / norm];
        }
        usable
    }

    #[inline(never)]
    pub fn point_to_plane_sigma(
        plane: &[f64; PLANE],
        centroid: &[f64; 3],
        of_plane: &[f64; 36],
        of_point: &[f64; 9],
        world: &[f64; 3],
        d_world_d_point: &[f64; 9],
        sigma: &mut f64,
    ) -> bool {
        let n = &[plane[0], plane[1], plane[2]];
        let a = d_world_d_point;
        let row = times(n, a);
        let row = times(&row, of_point);
        let mut turned = [0.0; 3];
        for c in 0..3 {
            turned[c] = row[0] * a[c] + row[1] * a[3 + c] + row[2] * a[6 + c];
        }
        let point = dot(&turned, n);
        let j = [
            world[0] - centroid[0],
            world[1] - centroid[1],
            world[2] - centroid[2],
            -n[0],
            -n[1],
            -n[2],
        ];
        let variance = point + dot(&times(&j, of_plane), &j);
        let usable = variance.is_finite() && variance > 0.0;
        if usable {
            *sigma = variance.sqrt();
        }
        usable
    }

    #[inline(always)]
    fn dot<const N: usize>(a: &[f64; N], b: &[f64; N]) -> f64 {
        let mut sum = a[0] * b[0];
        for k in 1..N {
            sum += a[k] * b[k];
        }
        sum
    }

    /// A row times a matrix.
    #[inline(always)]
    fn times<const N: usize>(row: &[f64; N], matrix: &[f64]) -> [f64; N] {
        std::array::from_fn(|c| {
            let mut sum = row[0] * matrix[N * c];
            for k in 1..N {
                sum += row[k] * matrix[N * c + k];
            }
            sum
        })
    }
}

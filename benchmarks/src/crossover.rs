//! At how many points a frame moments are faster than a bundle: what a host pays for one plane in one step of Gauss-Newton,
//! point by point and by moments. Moments are built once for all steps, so that their building is left out; so is the
//! decomposition of the scatter, which is the same work either way. All memory is kept from step to step.

use crate::harness::compare_on;
use maghnelt::{slices, FrameFactor, Moments, ACTION, CENTRED, DECOMPOSITION};
use oracle::draws::{rotation, within, Wall};
use oracle::generator::Generator;
use oracle::model::stored_matrix;
use oracle::scenes::decomposition_of;
use std::hint::black_box;

/// The points a frame that are tried.
const POINTS: [usize; 9] = [1, 2, 3, 4, 8, 16, 32, 64, 256];
const FRAMES: usize = 8;
/// The parameters of a pose: a shift and a turn, both in the frame's own axes.
const DOF: usize = 6;
const ORDER: usize = FRAMES * DOF;
const SIGMA: f64 = 0.02;
/// Planes that a batch goes through.
const PLANES: usize = 8;

type Point = [f64; 3];

/// Prints the table: the times for one plane, and their ratio, points to moments.
pub fn print_table() {
    println!("| points a frame | by points ns | by moments ns | ratio |");
    println!("|---:|---:|---:|---:|");
    let mut generator = Generator::named(754, "crossover");
    for of_frame in POINTS {
        let planes: Vec<Plane> = (0..PLANES)
            .map(|_| Plane::random(of_frame, &mut generator))
            .collect();
        measure(of_frame, &planes);
    }
}

fn measure(of_frame: usize, planes: &[Plane]) {
    let zeros = || Memory::zeros(FRAMES * of_frame);
    for plane in planes {
        let [mut by_points, mut by_moments] = [(); 2].map(|()| zeros());
        plane.add_by_points(&mut by_points);
        plane.add_by_moments(&mut by_moments);
        by_points.normal.assert_close(&by_moments.normal);
    }
    let each = |add: fn(&Plane, &mut Memory), memory: &mut Memory| {
        for plane in black_box(planes) {
            add(plane, memory);
        }
    };
    let times = compare_on(
        planes.len(),
        &mut zeros(),
        |memory| each(Plane::add_by_points, memory),
        |memory| each(Plane::add_by_moments, memory),
    );
    let [points, moments] = times.nanoseconds;
    println!(
        "| {of_frame} | {points:.0} | {moments:.0} | {:.2} |",
        times.ratio
    );
}

/// A pose, with the columns of its rotation.
struct Pose {
    rotation: [Point; 3],
    shift: Point,
}

impl Pose {
    fn random(generator: &mut Generator) -> Pose {
        Pose {
            rotation: rotation(generator),
            shift: [(); 3].map(|()| within(-5.0, 5.0, generator)),
        }
    }

    /// The site's `point` as the frame sees it.
    fn to_frame(&self, point: Point) -> Point {
        let off: Point = std::array::from_fn(|r| point[r] - self.shift[r]);
        self.rotation
            .map(|axis| axis[0] * off[0] + axis[1] * off[1] + axis[2] * off[2])
    }

    /// What the frame saw at `p`, in the site.
    fn to_site(&self, p: &Point) -> Point {
        let [x, y, z] = &self.rotation;
        std::array::from_fn(|r| x[r] * p[0] + y[r] * p[1] + z[r] * p[2] + self.shift[r])
    }

    /// Its derivatives by the parameters: `(R, −R·[p]×)`.
    fn columns(&self, p: &Point) -> [Point; DOF] {
        let [x, y, z] = self.rotation;
        let about_x = std::array::from_fn(|r| z[r] * p[1] - y[r] * p[2]);
        let about_y = std::array::from_fn(|r| x[r] * p[2] - z[r] * p[0]);
        let about_z = std::array::from_fn(|r| y[r] * p[0] - x[r] * p[1]);
        [x, y, z, about_x, about_y, about_z]
    }

    /// What the library is told of the pose, in place: the motion, and then the derivatives of its shift and of its three axes.
    fn write_action(&self, action: &mut [f64; ACTION]) {
        action.fill(0.0);
        let [x, y, z] = self.rotation;
        let minus = |axis: Point| axis.map(|x| -x);
        let mut put = |from: usize, column: Point| action[from..from + 3].copy_from_slice(&column);
        for (k, axis) in self.rotation.into_iter().enumerate() {
            put(3 * k, axis);
            put(12 + 3 * k, axis);
        }
        put(9, self.shift);
        put(39 + 12, minus(z));
        put(39 + 15, y);
        put(66 + 9, z);
        put(66 + 15, minus(x));
        put(93 + 9, minus(y));
        put(93 + 12, x);
    }
}

/// A wall that several poses see, with what a host keeps of it for either way.
struct Plane {
    poses: Vec<Pose>,
    /// Where each pose's rows begin.
    map: Vec<u32>,
    /// The points as each frame saw them, and how many they are.
    seen: Vec<Vec<Point>>,
    counts: Vec<u32>,
    /// Their centred moments.
    frames: Vec<[f64; CENTRED]>,
    /// The decompositions of the scatter, of the points and of the moments.
    of_points: [f64; DECOMPOSITION],
    of_moments: [f64; DECOMPOSITION],
}

impl Plane {
    fn random(of_frame: usize, generator: &mut Generator) -> Plane {
        let wall = Wall::random(generator);
        let poses: Vec<Pose> = (0..FRAMES).map(|_| Pose::random(generator)).collect();
        let mut see = |pose: &Pose| -> Vec<Point> {
            (0..of_frame)
                .map(|_| pose.to_frame(wall.point(generator)))
                .collect()
        };
        let seen: Vec<Vec<Point>> = poses.iter().map(&mut see).collect();
        let moments = |points: &Vec<Point>| Moments::from_points(points).expect("few points");
        let moments: Vec<Moments> = seen.iter().map(moments).collect();
        let factor = FrameFactor::new(DOF as u32, &moments, None, SIGMA).expect("a wall");
        let mut plane = Plane {
            poses,
            map: (0..FRAMES).map(|frame| (frame * DOF) as u32).collect(),
            seen,
            counts: vec![of_frame as u32; FRAMES],
            frames: factor.frames().iter().map(|set| *set.as_array()).collect(),
            of_points: [0.0; DECOMPOSITION],
            of_moments: [0.0; DECOMPOSITION],
        };
        let mut memory = Memory::zeros(FRAMES * of_frame);
        plane.fit_points(&mut memory);
        plane.of_points = decomposition_of(stored_matrix(&memory.fitted[3..]));
        plane.fit_moments(&mut memory);
        plane.of_moments = decomposition_of(stored_matrix(&memory.fitted[3..]));
        plane
    }

    /// Carries the points into the site with their columns, and fits.
    fn fit_points(&self, memory: &mut Memory) {
        memory.points.clear();
        memory.d_state.clear();
        for (pose, seen) in self.poses.iter().zip(&self.seen) {
            memory.points.extend(seen.iter().map(|p| pose.to_site(p)));
            memory.d_state.extend(seen.iter().map(|p| pose.columns(p)));
        }
        let points = memory.points.as_flattened();
        _ = slices::bundle_fit(&self.counts, points, &[], &mut memory.fitted);
    }

    fn add_by_points(&self, memory: &mut Memory) {
        self.fit_points(memory);
        _ = slices::bundle_linearize(
            DOF as u32,
            &self.counts,
            memory.points.as_flattened(),
            memory.d_state.as_flattened().as_flattened(),
            &[],
            SIGMA,
            &self.of_points,
            &mut memory.residual,
            &mut memory.jacobian,
        );
        let rows = memory.residual.len();
        let blocks = memory.jacobian.chunks_exact(DOF * rows);
        let mut first = 0;
        for ((&count, &offset), block) in self.counts.iter().zip(&self.map).zip(blocks) {
            let own = first..first + count as usize;
            let columns = std::array::from_fn(|c| &block[c * rows..][own.clone()]);
            let residual = &memory.residual[own.clone()];
            memory.normal.add(columns, residual, offset as usize);
            first = own.end;
        }
        memory.normal.cost = memory.residual.iter().map(|r| r * r).sum();
    }

    /// Makes the actions, and fits.
    fn fit_moments(&self, memory: &mut Memory) {
        for (action, pose) in memory.actions.iter_mut().zip(&self.poses) {
            pose.write_action(action);
        }
        let (frames, actions) = (self.frames.as_flattened(), memory.actions.as_flattened());
        _ = slices::frames_fit(DOF as u32, frames, &[], actions, &mut memory.fitted);
    }

    fn add_by_moments(&self, memory: &mut Memory) {
        self.fit_moments(memory);
        let normal = &mut memory.normal;
        _ = slices::frames_accumulate(
            DOF as u32,
            self.frames.as_flattened(),
            &[],
            SIGMA,
            memory.actions.as_flattened(),
            &self.of_moments,
            &self.map,
            &mut normal.hessian,
            &mut normal.gradient,
            &mut normal.cost,
        );
    }
}

/// What both ways write to.
struct Memory {
    points: Vec<Point>,
    d_state: Vec<[Point; DOF]>,
    residual: Vec<f64>,
    jacobian: Vec<f64>,
    actions: Vec<[f64; ACTION]>,
    fitted: [f64; 12],
    normal: Normal,
}

impl Memory {
    fn zeros(rows: usize) -> Memory {
        Memory {
            points: Vec::with_capacity(rows),
            d_state: Vec::with_capacity(rows),
            residual: vec![0.0; rows],
            jacobian: vec![0.0; rows * ORDER],
            actions: vec![[0.0; ACTION]; FRAMES],
            fitted: [0.0; 12],
            normal: Normal {
                hessian: vec![0.0; ORDER * ORDER],
                gradient: vec![0.0; ORDER],
                cost: 0.0,
            },
        }
    }
}

/// A Hessian, a gradient and a cost.
struct Normal {
    hessian: Vec<f64>,
    gradient: Vec<f64>,
    cost: f64,
}

impl Normal {
    /// Adds what a frame's own rows sum to, JᵀJ and Jᵀr, at its offset.
    fn add(&mut self, columns: [&[f64]; DOF], residual: &[f64], offset: usize) {
        // One half of the block, which is symmetric.
        let mut block = [[0.0; DOF]; DOF];
        let mut segment = [0.0; DOF];
        for (k, r) in residual.iter().enumerate() {
            let row = columns.map(|column| column[k]);
            for j in 0..DOF {
                for i in 0..=j {
                    block[j][i] += row[i] * row[j];
                }
                segment[j] += row[j] * r;
            }
        }
        for j in 0..DOF {
            let column = &mut self.hessian[(offset + j) * ORDER + offset..][..DOF];
            for i in 0..DOF {
                column[i] += block[i.max(j)][i.min(j)];
            }
            self.gradient[offset + j] += segment[j];
        }
    }

    /// The two ways round differently, and sums of squares far from the origin lose digits that differences keep.
    fn assert_close(&self, other: &Normal) {
        let pairs = [
            (&self.hessian[..], &other.hessian[..]),
            (&self.gradient, &other.gradient),
            (&[self.cost], &[other.cost]),
        ];
        for (one, other) in pairs {
            let largest = one.iter().fold(0.0, |largest: f64, x| largest.max(x.abs()));
            assert!(largest > 0.0, "nothing was added");
            for (x, y) in one.iter().zip(other) {
                assert!((x - y).abs() <= 1e-6 * largest, "{x} and {y}");
            }
        }
    }
}

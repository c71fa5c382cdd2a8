//! Bundles: the points of one plane with a row each, and what is decomposed for them.
//!
//! The original carries the points into the site; what its chains come to is handed to the library.

use super::draw::{self, Temper};
use super::moments::vector;
use super::refused;
use super::tried::{drawn_state, for_a_group, Tried};
use crate::calls::{self, Value};
use crate::case::{After, Case};
use crate::factors::lidar::action;
use crate::factors::lidar::map_plane::lidar_point_chain;
use crate::factors::lidar::plane_bundle::{fit_plane_pca, LidarPlaneBundleFactor};
use crate::factors::{Factor, FactorError};
use apex_manifolds::se3::SE3;
use apex_manifolds::{Affine, LieGroup};
use faer::mat::MatMut;
use nalgebra::eigen::{self, Asked, Decomposition};
use nalgebra::Vector3;
use oracle::draws::Wall;
use oracle::generator::Generator;

pub fn run(generator: &mut Generator, cases: &mut Vec<Case>) {
    match Temper::random(generator) {
        // A turn has no zeros to speak of.
        Temper::Zeros => of_group::<Affine<2>>(Temper::Zeros, generator, cases),
        temper => for_a_group!(generator, of_group(temper, generator, cases)),
    }
}

fn of_group<G: Tried>(temper: Temper, generator: &mut Generator, cases: &mut Vec<Case>) {
    let mut scan = Scan::drawn::<G>(temper, generator);
    if generator.below(5) == 0 {
        for _ in 0..=generator.below(2) {
            scan.spoil(generator);
        }
    }
    let bundle = Bundle::<G>::of(scan, temper, generator);
    bundle.fit(generator, cases);
    for wanted in [true, false] {
        bundle.linearize(wanted, generator, cases);
    }
    refused::add(cases, generator);
}

/// The number of a refusal of the factor's `new`.
fn number(error: &FactorError) -> u32 {
    match error {
        FactorError::TooFew { what, .. } => match *what {
            "frame count" => 2,
            "frame point count" => 4,
            "plane point count" => 5,
            what => panic!("no number for {what}"),
        },
        FactorError::NonFinite { what: "point", .. } => 6,
        FactorError::InvalidValue { what: "sigma", .. } => 7,
        error => panic!("no number for {error:?}"),
    }
}

/// What the original's factor is made of and linearized at.
struct Scan {
    extrinsic: Vec<f64>,
    states: Vec<Vec<f64>>,
    /// Each frame's points as the scanner has them.
    points: Vec<Vec<Vector3<f64>>>,
    fixed: Vec<Vector3<f64>>,
    sigma: f64,
}

/// How many points each frame has: mostly a few, at times some thousands, or a few in each of up to 256 frames.
fn counts(generator: &mut Generator) -> Vec<u64> {
    let (frames, most) = match generator.below(1000) {
        0..2 => (256, 1),
        2..4 => (1 + generator.below(256), 3),
        4..9 => (1 + generator.below(3), 2000),
        9..80 => (4 + generator.below(6), 12),
        _ => (1 + generator.below(3), 4),
    };
    (0..frames).map(|_| 1 + generator.below(most)).collect()
}

/// How many fixed points there are.
fn fixed_count(generator: &mut Generator) -> u64 {
    match generator.below(60) {
        0 => generator.below(500),
        1..20 => 0,
        _ => 1 + generator.below(4),
    }
}

/// Where the scanner is mounted: a turn would hide zeros, and a hostile one leaves few points finite.
fn extrinsic(temper: Temper, generator: &mut Generator) -> Vec<f64> {
    match temper {
        Temper::Zeros => vec![0.0, 0.0, 0.0, 1.0, 0.0, 0.0, 0.0],
        Temper::Hostile if generator.below(4) == 0 => drawn_state::<SE3>(temper, generator),
        _ => drawn_state::<SE3>(Temper::Met, generator),
    }
}

/// The temper of the states: half of the hostile bundles have nothing hostile but their points.
fn of_states(temper: Temper, generator: &mut Generator) -> Temper {
    match temper {
        Temper::Hostile if generator.below(2) == 0 => Temper::Met,
        _ => temper,
    }
}

/// A point near a piece of wall, or of any finite numbers.
fn drawn_point(temper: Temper, piece: &Wall, generator: &mut Generator) -> [f64; 3] {
    match temper {
        Temper::Met => piece.point(generator),
        _ => {
            let any = temper.any_finite(3, generator);
            std::array::from_fn(|k| any[k])
        }
    }
}

impl Scan {
    fn drawn<G: Tried>(temper: Temper, generator: &mut Generator) -> Scan {
        let piece = draw::piece(generator);
        let extrinsic = extrinsic(temper, generator);
        let mounted = action::beside::of_state::<SE3>(&extrinsic);
        let of_states = of_states(temper, generator);
        let (mut states, mut points) = (Vec::new(), Vec::new());
        for count in counts(generator) {
            let state = drawn_state::<G>(of_states, generator);
            let action = action::beside::of_state::<G>(&state);
            let mut seen = || {
                let point = drawn_point(temper, &piece, generator);
                match temper {
                    Temper::Met => draw::carried_back(draw::carried_back(point, &action), &mounted),
                    // Where the shift alone shows, which may be -0.
                    Temper::Zeros if generator.below(4) != 0 => [0.0; 3],
                    _ => point,
                }
            };
            points.push((0..count).map(|_| vector(&seen())).collect());
            states.push(state);
        }
        Scan {
            extrinsic,
            states,
            points,
            fixed: (0..fixed_count(generator))
                .map(|_| vector(&drawn_point(temper, &piece, generator)))
                .collect(),
            sigma: draw::sigma(temper, generator),
        }
    }

    /// Spoils something, so that the bundle may be refused.
    fn spoil(&mut self, generator: &mut Generator) {
        let coordinate = (generator.below(3) as usize, 0);
        let frames = self.points.len().max(1) as u64;
        let frame = self.points.get_mut(generator.below(frames) as usize);
        let kind = generator.below(7);
        match (kind, frame, self.fixed.last_mut()) {
            (0, _, _) => {
                self.points.clear();
                self.states.clear();
            }
            (1, _, _) => self.sigma = draw::bad_sigma(generator),
            (2, _, Some(point)) => point[coordinate] = draw::not_finite(generator),
            (3, Some(frame), _) => {
                frame.truncate(2);
                self.fixed.clear();
            }
            (4, Some(frame), _) => frame.clear(),
            (5, Some(frame), _) => {
                if let Some(point) = frame.last_mut() {
                    point[coordinate] = draw::not_finite(generator);
                }
            }
            // Finite as it was scanned, and mostly not in the site.
            (6, Some(frame), _) => frame.push(vector(&[f64::MAX; 3])),
            _ => {}
        }
    }

    /// The factor of points as they were scanned or as they lie in the site, or the number of its refusal.
    fn factor<G: Tried>(
        &self,
        points: &[Vec<Vector3<f64>>],
        sigma: f64,
    ) -> Result<LidarPlaneBundleFactor<G>, u32> {
        let extrinsic = SE3::from_param_slice(&self.extrinsic);
        LidarPlaneBundleFactor::new(extrinsic, points.to_vec(), self.fixed.clone(), sigma)
            .map_err(|error| number(&error))
    }
}

/// A bundle as the library is handed it, beside what the original makes of it.
struct Bundle<G: Tried> {
    scan: Scan,
    /// Each frame's points in the site, and the derivative columns of all points.
    site: Vec<Vec<Vector3<f64>>>,
    d_state: Vec<f64>,
    /// The factor, or the number of the refusal.
    factor: Result<LidarPlaneBundleFactor<G>, u32>,
    /// The same with a sigma that is taken, since a fit asks for none.
    unweighted: Result<LidarPlaneBundleFactor<G>, u32>,
    /// The decomposition, where LAPACK's is not taken.
    by_hand: Option<Decomposition>,
    temper: Temper,
}

/// The numbers of points.
fn numbers<'a>(points: impl IntoIterator<Item = &'a Vector3<f64>>) -> Vec<f64> {
    let points: Vec<&[f64]> = points.into_iter().map(Vector3::as_slice).collect();
    points.concat()
}

/// Each frame's points in the site, and the derivative columns of all points, as the original's chains give them.
fn carried<G: Tried>(scan: &Scan) -> (Vec<Vec<Vector3<f64>>>, Vec<f64>) {
    let extrinsic = SE3::from_param_slice(&scan.extrinsic);
    let mut d_state = Vec::new();
    let frames = scan.states.iter().zip(&scan.points);
    let site = frames
        .map(|(state, points)| {
            let state = G::from_param_slice(state);
            let worlds = points.iter().map(|point| {
                let chain = lidar_point_chain(&state, &extrinsic, point);
                d_state.extend(chain.d_state.as_flattened());
                chain.world
            });
            worlds.collect()
        })
        .collect();
    (site, d_state)
}

impl<G: Tried> Bundle<G> {
    fn of(scan: Scan, temper: Temper, generator: &mut Generator) -> Self {
        let (site, d_state) = carried::<G>(&scan);
        // The original tests points as they were scanned, the library those in the site: `new` is asked about both.
        let factor = |sigma: f64| match scan.factor(&site, sigma) {
            Ok(_) => scan.factor(&scan.points, sigma),
            refused => refused,
        };
        eigen::hand_out_by(draw::order(generator));
        Bundle {
            factor: factor(scan.sigma),
            unweighted: factor(1.0),
            by_hand: (generator.below(2) == 0).then(|| by_hand(generator)),
            scan,
            site,
            d_state,
            temper,
        }
    }

    /// Has the original linearize, by the decomposition of this job, and hands back what it asked for.
    fn run(
        &self,
        factor: &LidarPlaneBundleFactor<G>,
        residual: &mut [f64],
        jacobian: Option<MatMut<'_, f64>>,
    ) -> Asked {
        let params: Vec<&[f64]> = self.scan.states.iter().map(Vec::as_slice).collect();
        eigen::taken();
        eigen::hand_in(self.by_hand);
        factor.linearize(&params, residual, jacobian);
        eigen::hand_in([]);
        let [asked] = eigen::taken()[..] else {
            panic!("a bundle has one fit")
        };
        asked
    }

    /// The centroid, a result of the original's fit where there is a plane: it gets a decomposition with a gap.
    fn centroid(&self) -> Vector3<f64> {
        let all: Vec<Vector3<f64>> = self.points().chain(&self.scan.fixed).copied().collect();
        let mut with_gap = [0.0; 12];
        with_gap[..3].copy_from_slice(&[0.0, 1.0, 2.0]);
        eigen::hand_in([with_gap]);
        let plane = fit_plane_pca(&all);
        eigen::taken();
        plane.expect("there is a gap").1
    }

    /// All points of frames, in the site.
    fn points(&self) -> impl Iterator<Item = &Vector3<f64>> {
        self.site.iter().flatten()
    }

    /// counts, points and fixed points, as both calls take them.
    fn lists(&self) -> [Value; 3] {
        let counts = self.site.iter().map(|points| points.len() as u32);
        [
            Value::Words(counts.collect()),
            Value::Numbers(numbers(self.points())),
            Value::Numbers(numbers(&self.scan.fixed)),
        ]
    }

    /// The kind of a case that is accepted; of one that is refused the temper alone counts.
    fn kind(&self, label: &str) -> String {
        let frames = match self.site.len() {
            1 => "one frame",
            _ => "frames",
        };
        let fixed = match self.scan.fixed.len() {
            0 => "free",
            _ => "fixed",
        };
        format!("{} {:?} {frames} {fixed} {label}", G::NAME, self.temper)
    }

    fn refused(&self) -> String {
        format!("{:?} refused", self.temper)
    }

    fn fit(&self, generator: &mut Generator, cases: &mut Vec<Case>) {
        let mut before = self.lists().to_vec();
        before.push(Value::Numbers(draw::old(12, generator)));
        cases.push(match &self.unweighted {
            Err(number) => Case::refused(&calls::BUNDLE_FIT, self.refused(), before, *number),
            Ok(factor) => {
                let mut residual = vec![0.0; factor.residual_dim()];
                let asked = self.run(factor, &mut residual, None);
                let out = [self.centroid().as_slice(), &asked.matrix].concat();
                let after = [("out", After::numbers(&out))];
                Case::accepted(&calls::BUNDLE_FIT, self.kind(""), before, after)
            }
        });
    }

    /// What linearizing is handed.
    fn linearize_parameters(&self, decomposition: Decomposition, old: [Value; 2]) -> Vec<Value> {
        let [counts, points, fixed] = self.lists();
        let [residual, jacobian] = old;
        vec![
            Value::Words(vec![G::DOF as u32]),
            counts,
            points,
            Value::Numbers(self.d_state.clone()),
            fixed,
            Value::Numbers(vec![self.scan.sigma]),
            Value::Numbers(decomposition.to_vec()),
            residual,
            jacobian,
        ]
    }

    fn linearize(&self, wanted: bool, generator: &mut Generator, cases: &mut Vec<Case>) {
        let rows = self.points().count() + self.scan.fixed.len();
        let columns = self.site.len() * G::DOF;
        let mut residual = draw::old(rows, generator);
        let mut jacobian = draw::old(if wanted { rows * columns } else { 0 }, generator);
        let old = [&residual, &jacobian].map(|list| Value::Numbers(list.clone()));
        let asked = self.factor.as_ref().map(|factor| {
            let view = wanted.then(|| MatMut::of(rows, columns, &mut jacobian));
            self.run(factor, &mut residual, view)
        });
        let decomposition = match &asked {
            Ok(asked) => asked.decomposition,
            Err(_) => by_hand(generator),
        };
        let before = self.linearize_parameters(decomposition, old);
        let label = if wanted { "wanted" } else { "unwanted" };
        cases.push(match asked {
            Err(number) => Case::refused(&calls::BUNDLE_LINEARIZE, self.refused(), before, *number),
            Ok(_) => Case::accepted(
                &calls::BUNDLE_LINEARIZE,
                self.kind(&format!("{} {label}", gap(&decomposition))),
                before,
                [
                    ("residual", After::numbers(&residual)),
                    ("jacobian", After::numbers(&jacobian)),
                ],
            ),
        });
    }
}

/// A decomposition that no routine made; in half the cases the gap of its two least eigenvalues is about the bound.
fn by_hand(generator: &mut Generator) -> Decomposition {
    const GAPS: [f64; 6] = [
        0.0,
        9e-13,
        1e-12_f64.next_down(),
        1e-12,
        1e-12_f64.next_up(),
        2e-12,
    ];
    let mut drawn = draw::decomposition(generator);
    if generator.below(2) == 0 {
        let [a, b, c] = draw::order(generator);
        drawn[a] = generator.pick(&[0.0, -0.0, 1e-12, -1e-12, 0.5, -1.0]);
        drawn[b] = drawn[a] + generator.pick(&GAPS);
        drawn[c] = generator.pick(&[1.0, f64::INFINITY, f64::NAN]);
    }
    drawn
}

/// What the gap of the two least eigenvalues is, for the choice of a sample.
fn gap(decomposition: &Decomposition) -> &'static str {
    let mut values = [0, 1, 2].map(|k: usize| decomposition[k]);
    values.sort_by(f64::total_cmp);
    match values[1] - values[0] {
        gap if gap.is_nan() => "NaN gap",
        gap if gap < 1e-12 => "no plane",
        _ => "plane",
    }
}

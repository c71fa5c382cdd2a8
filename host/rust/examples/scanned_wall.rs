//! A wall scanned from two frames, and why its sums are to be stored as each frame saw them: what a wall that is moved,
//! stored and moved again does with every save.

use maghnelt::{Decomposition, MeanAndScatter, Moments, Refusal, MOMENTS};

/// A matrix as its columns: `m[c][r]` is the entry of row r and column c.
type Matrix = [[f64; 3]; 3];
/// What a file holds of a set of moments.
type Record = [f64; MOMENTS];

/// The wall stands so many metres from the site's origin, at a right angle to x.
const OFFSET: f64 = 12.0;
/// The scanner measures to within so many metres.
const NOISE: f64 = 0.003;
const SAVES: usize = 3;

/// One position of the backpack: the pose that registration found for it, and what it saw of the wall.
struct Frame {
    rotation: Matrix,
    shift: [f64; 3],
    points: Vec<[f64; 3]>,
}

fn main() -> Result<(), Refusal> {
    // The backpack's own track is some millimetres off the site: the poses are what is left to correct.
    let frames = [
        frame(turn_about_z(0.0005), [0.006, -0.004, 0.002], -3.0, 400),
        frame(turn_about_z(-0.0003), [-0.001, 0.003, -0.002], 1.0, 300),
    ];
    let mut own = Vec::new();
    for frame in &frames {
        own.push(Moments::from_points(&frame.points)?.into());
    }
    show_frames(&frames, &own)?;
    println!();
    show_saves(&frames, &own)?;
    println!();
    println!("A frame's own sums are moved once, when they are loaded, so the wall stays where it was to the last bit.");
    println!("Sums that were stored already moved are moved once more by every load, so the wall walks off a little each time.");
    Ok(())
}

/// The frames' moments, moved into the site and merged there.
fn show_frames(frames: &[Frame], own: &[Record]) -> Result<(), Refusal> {
    println!(
        "A wall with an offset of {OFFSET} m from the site's origin, scanned from two frames:"
    );
    println!();
    println!("  frame   points   offset as the frame saw it   offset in the site");
    let in_site = moved(frames, own);
    for (number, (own, in_site)) in (1..).zip(own.iter().zip(&in_site)) {
        let [own, in_site] = [own, in_site].map(|record| Moments::from(*record));
        let (seen, moved) = (offset(&own), offset(&in_site));
        let points = own.count();
        println!("  {number:>5}   {points:>6}   {seen:>23.3} mm   {moved:>15.3} mm");
    }
    let both = merged(&in_site)?;
    let (points, fitted) = (both.count(), offset(&both));
    println!("   both   {points:>6}   {:>26}   {fitted:>15.3} mm", "");
    Ok(())
}

/// The wall after each save, by what the file holds.
fn show_saves(frames: &[Frame], own: &[Record]) -> Result<(), Refusal> {
    println!("Saved and loaded {SAVES} times, with one or the other in the file:");
    println!();
    println!("          each frame's own sums          sums already moved");
    println!("  saves         offset       drift             offset       drift");
    let mut shown = moved(frames, own);
    let scanned = offset(&merged(&shown)?);
    for saves in 0..=SAVES {
        // The frames' own sums are in the file as they always were.
        let right = offset(&merged(&moved(frames, own))?);
        let wrong = offset(&merged(&shown)?);
        let drifts = [right - scanned, wrong - scanned];
        println!(
            "  {saves:>5}   {right:>9.3} mm  {:>7.3} mm       {wrong:>9.3} mm  {:>7.3} mm",
            drifts[0], drifts[1]
        );
        // What is shown goes into the file, and loading moves it though it was moved before.
        shown = moved(frames, &shown);
    }
    Ok(())
}

/// What is loaded: each record moved by its frame's pose.
fn moved(frames: &[Frame], records: &[Record]) -> Vec<Record> {
    let load = |(frame, record): (&Frame, &Record)| {
        let moments = Moments::from(*record);
        moments.transformed(&frame.rotation, &frame.shift).into()
    };
    frames.iter().zip(records).map(load).collect()
}

/// All sets as one.
fn merged(records: &[Record]) -> Result<Moments, Refusal> {
    let mut all = Moments::EMPTY;
    for record in records {
        all.merge(&Moments::from(*record))?;
    }
    Ok(all)
}

/// How far from the origin, in millimetres, the plane lies that fits the points best.
fn offset(moments: &Moments) -> f64 {
    let MeanAndScatter { scatter, .. } = moments.mean_and_scatter().expect("there are points");
    let fitted = moments
        .plane(&decomposition(scatter))
        .expect("the points lie in one plane");
    // The sign hangs on the side to which the normal points.
    fitted.plane.offset.abs() * 1000.0
}

/// A frame of that pose, which sees a part of the wall eight metres long from y = `from` on, three metres high.
fn frame(rotation: Matrix, shift: [f64; 3], from: f64, points: usize) -> Frame {
    let points = (0..points)
        .map(|k| {
            // Spread evenly, and the same on every run.
            let spread = |step: f64| (k as f64 * step).fract();
            let in_site = [
                OFFSET + NOISE * (2.0 * spread(0.618_034) - 1.0),
                from + 8.0 * spread(0.754_878),
                3.0 * spread(0.569_840),
            ];
            // The pose takes a point p to R·p + t, so the frame saw Rᵀ·(site − t).
            let off: [f64; 3] = std::array::from_fn(|r| in_site[r] - shift[r]);
            rotation.map(|column| (0..3).map(|r| column[r] * off[r]).sum())
        })
        .collect();
    Frame {
        rotation,
        shift,
        points,
    }
}

/// The turn about z by an angle in radians.
fn turn_about_z(angle: f64) -> Matrix {
    let (sin, cos) = angle.sin_cos();
    [[cos, sin, 0.0], [-sin, cos, 0.0], [0.0, 0.0, 1.0]]
}

/// Eigenvalues and vectors of a symmetric matrix by Jacobi's rotations: the library takes a decomposition from its host,
/// which may as well use nalgebra's.
fn decomposition(mut m: Matrix) -> Decomposition {
    let mut vectors = [[1.0, 0.0, 0.0], [0.0, 1.0, 0.0], [0.0, 0.0, 1.0]];
    // Each sweep squares what is left beside the diagonal; eight are plenty for three rows.
    for _ in 0..8 {
        for (p, q) in [(0, 1), (0, 2), (1, 2)] {
            if m[q][p] == 0.0 {
                continue;
            }
            // The rotation in the plane of p and q that clears their entry.
            let theta = (m[q][q] - m[p][p]) / (2.0 * m[q][p]);
            let tan = theta.signum() / (theta.abs() + (theta * theta + 1.0).sqrt());
            let cos = 1.0 / (tan * tan + 1.0).sqrt();
            let sin = tan * cos;
            let rotated = |x: f64, y: f64| (cos * x - sin * y, sin * x + cos * y);
            for r in 0..3 {
                (m[p][r], m[q][r]) = rotated(m[p][r], m[q][r]);
                (vectors[p][r], vectors[q][r]) = rotated(vectors[p][r], vectors[q][r]);
            }
            for column in &mut m {
                (column[p], column[q]) = rotated(column[p], column[q]);
            }
        }
    }
    Decomposition {
        eigenvalues: [m[0][0], m[1][1], m[2][2]],
        vectors,
    }
}

//! The picture: the room from above before and after the adjustment, one wall from close by, and its story.

use crate::adjust::Progress;
use crate::height::Height;
use crate::job::{moments, Job};
use crate::lapack;
use crate::pose::{cross, dot, norm, Pose, Vector};
use crate::saves::{outwards, Story};
use std::fmt::{Display, Write as _};

const WIDTH: f64 = 1480.0;
const HEIGHT: f64 = 980.0;
/// The frame of the plan, and of the column beside it: left, top, width, height.
const PLAN: Frame = Frame(40.0, 112.0, 960.0, 828.0);
const CLOSE: Frame = Frame(1078.0, 156.0, 362.0, 208.0);
const SAVES: Frame = Frame(1078.0, 462.0, 362.0, 208.0);
const STEPS: Frame = Frame(1078.0, 768.0, 362.0, 138.0);

const BEFORE: &str = "#e8743b";
const AFTER: &str = "#1b4f8a";
const WRONG: &str = "#b3261e";
const INK: &str = "#26292e";
const FAINT: &str = "#80796c";
const GRID: &str = "#e4dfd3";

/// Points that are drawn of each set: more make the file larger and the picture no clearer.
const MOST_DOTS: usize = 8_000;
/// Walls that have their names beside them: with more there would be no wall to be seen.
const MOST_NAMES: usize = 40;

/// A wall in plan: its name, where it begins and where it ends.
pub type Wall<'a> = (&'a str, [f64; 2], [f64; 2]);

/// What the picture shows.
pub struct Picture<'a> {
    /// The job, with the poses as odometry had them.
    pub job: &'a Job,
    /// The walls as they are, where somebody knows it; one ends where the next begins.
    pub walls: &'a [Wall<'a>],
    /// The poses as they were adjusted.
    pub adjusted: &'a [Pose],
    /// How things stood before the first step and after each.
    pub steps: &'a [Progress],
    /// Whether the poses kept their heights.
    pub height: Height,
    /// The surface of the story.
    pub wall: usize,
    /// Its story.
    pub story: &'a Story,
}

/// A part of the picture: left, top, width, height.
#[derive(Clone, Copy)]
struct Frame(f64, f64, f64, f64);

impl Frame {
    /// What the frame shows, above it.
    fn head(self, svg: &mut Svg, head: &str, below: &str) {
        svg.text([self.0, self.1 - 32.0], "head", head);
        svg.text([self.0, self.1 - 12.0], "axis", below);
    }
}

/// A surface as the adjusted poses have it.
struct Sheet {
    name: String,
    mean: Vector,
    /// Away from the scanner.
    normal: Vector,
    /// In the surface and level, to the right as the scanner sees it.
    along: Vector,
    /// Its points in the site, by odometry and as adjusted.
    before: Vec<Vector>,
    after: Vec<Vector>,
}

impl Sheet {
    /// How far a point is from the mean: along the surface, and off it.
    fn off(&self, point: &Vector) -> [f64; 2] {
        let from = std::array::from_fn(|r| point[r] - self.mean[r]);
        [dot(&self.along, &from), dot(&self.normal, &from)]
    }

    /// How far it reaches from the mean, to the one side and to the other.
    fn reach(&self) -> [f64; 2] {
        span(self.after.iter().map(|point| self.off(point)[0]))
    }

    /// Whether it is seen as a line from above.
    fn upright(&self) -> bool {
        self.normal[2].abs() < 0.5
    }
}

/// Metres to places in the picture.
struct Scale {
    left: f64,
    bottom: f64,
    per_metre: f64,
}

impl Scale {
    fn place(&self, [x, y]: [f64; 2]) -> [f64; 2] {
        [
            self.left + self.per_metre * x,
            self.bottom - self.per_metre * y,
        ]
    }
}

impl Picture<'_> {
    /// The picture as a file.
    #[must_use]
    pub fn svg(&self) -> String {
        let mut svg = Svg::new();
        self.title(&mut svg);
        let sheets = self.sheets();
        self.plan(&mut svg, &sheets);
        if let Some(sheet) = &sheets[self.wall] {
            close(&mut svg, sheet);
            self.saves(&mut svg, &sheet.name);
        }
        self.steps(&mut svg);
        svg.finished()
    }

    fn title(&self, svg: &mut Svg) {
        let how = match self.height {
            Height::Free => "on a walk",
            Height::Locked => "at locked heights",
        };
        let title = format!("A room scanned {how}, before and after its poses are adjusted");
        svg.text([40.0, 52.0], "title", title);
        let (seen, _) = self.job.points();
        let mut facts = format!(
            "{} poses, {} points",
            self.job.stations.len(),
            grouped(seen)
        );
        if self.height == Height::Locked {
            let unknowns = self.height.unknowns();
            let _ = write!(facts, "  ·  heights locked, {unknowns} unknowns a pose");
        }
        if let [first, .., last] = self.steps {
            let millimetres = |x: f64| 1000.0 * x;
            let _ = write!(
                facts,
                "  ·  wall thickness {:.1} mm → {:.1} mm",
                millimetres(first.thickness),
                millimetres(last.thickness)
            );
            if let (Some((from, _)), Some((to, _))) = (first.worst, last.worst) {
                let _ = write!(
                    facts,
                    "  ·  worst pose {:.0} mm → {:.1} mm off",
                    millimetres(from),
                    millimetres(to)
                );
            }
        }
        svg.text([40.0, 82.0], "facts", facts);
    }

    /// Each surface; none where its points lie in no plane.
    fn sheets(&self) -> Vec<Option<Sheet>> {
        let seen = self.job.seen();
        let each = seen.iter().zip(&self.job.surfaces);
        each.map(|(frames, surface)| self.sheet(frames, &surface.name))
            .collect()
    }

    fn sheet(&self, frames: &[(usize, Vec<Vector>)], name: &str) -> Option<Sheet> {
        let stations = &self.job.stations;
        let by = |pose: &dyn Fn(usize) -> Pose| -> Vec<Vector> {
            let carried = frames.iter().map(|(k, points)| (pose(*k), points));
            carried
                .flat_map(|(pose, points)| points.iter().map(move |p| pose.to_site(p)))
                .collect()
        };
        let (before, after) = (by(&|k| stations[k].pose), by(&|k| self.adjusted[k]));
        let seen = moments(&after).ok()?.mean_and_scatter()?;
        let axes = lapack::decomposition(&seen.scatter)?;
        let poses: Vec<&Pose> = frames.iter().map(|(k, _)| &self.adjusted[*k]).collect();
        let normal = outwards(&axes.vectors[0], &seen.mean, &poses);
        let level = cross(&normal, &[0.0, 0.0, 1.0]);
        let length = norm(&level);
        Some(Sheet {
            name: name.to_owned(),
            mean: seen.mean,
            normal,
            along: if length > 0.1 {
                level.map(|x| x / length)
            } else {
                [1.0, 0.0, 0.0]
            },
            before,
            after,
        })
    }
}

/// The plan.
impl Picture<'_> {
    fn plan(&self, svg: &mut Svg, sheets: &[Option<Sheet>]) {
        let upright: Vec<&Sheet> = sheets.iter().flatten().filter(|s| s.upright()).collect();
        let of = |points: fn(&Sheet) -> &Vec<Vector>| -> Vec<[f64; 2]> {
            let all = upright.iter().flat_map(|sheet| points(sheet));
            all.map(|&[x, y, _]| [x, y]).collect()
        };
        let (before, after) = (of(|s| &s.before), of(|s| &s.after));
        let odometry: Vec<Pose> = self.job.stations.iter().map(|s| s.pose).collect();
        let scale = scale(before.iter().chain(&after).copied());
        svg.frame(PLAN);
        self.floor(svg, &scale);
        for (dots, class) in [(&before, "dots before"), (&after, "dots after")] {
            let thin = dots.iter().step_by(dots.len() / MOST_DOTS + 1);
            svg.dots(thin.map(|&p| scale.place(p)), class);
        }
        path(svg, &scale, &odometry, "path before");
        path(svg, &scale, self.adjusted, "path after");
        self.numbers(svg, &scale);
        let few = upright.len() <= MOST_NAMES;
        for (surface, sheet) in sheets.iter().enumerate() {
            let upright = sheet.as_ref().filter(|sheet| sheet.upright());
            match upright {
                Some(sheet) if surface == self.wall => {
                    label(svg, &scale, sheet, "wall story");
                    self.walked(svg, &scale, sheet);
                }
                Some(sheet) if few => label(svg, &scale, sheet, "wall"),
                _ => {}
            }
        }
        legend(svg, self.story.moved.len() - 1);
        scale_bar(svg, &scale);
    }

    /// The floor between the walls, with a line each metre, or each ten where a metre is too small to see.
    fn floor(&self, svg: &mut Svg, scale: &Scale) {
        let corners = self.walls.iter().map(|(_, from, _)| scale.place(*from));
        svg.closed(corners, "floor");
        let Frame(left, top, width, height) = PLAN;
        let step = nice(90.0 / scale.per_metre);
        let [x, y] = scale.place([0.0; 2]);
        let apart = step * scale.per_metre;
        for k in ((left - x) / apart).ceil() as i64..=((left + width - x) / apart).floor() as i64 {
            let x = x + apart * k as f64;
            svg.line([x, top], [x, top + height], "grid");
        }
        for k in ((top - y) / apart).ceil() as i64..=((top + height - y) / apart).floor() as i64 {
            let y = y + apart * k as f64;
            svg.line([left, y], [left + width, y], "grid");
        }
    }

    /// The wall of the story where it stands after the last of the wrong saves.
    fn walked(&self, svg: &mut Svg, scale: &Scale, sheet: &Sheet) {
        let drift = self.story.moved.last().map_or(0.0, |s| s.drift);
        let end = |reach: f64| {
            let at = |r: usize| sheet.mean[r] + reach * sheet.along[r] + drift * sheet.normal[r];
            scale.place([at(0), at(1)])
        };
        let [left, right] = sheet.reach();
        svg.line(end(left), end(right), "drift wrong");
    }

    /// Every fifth pose has its number beside it, and the first and the last have words.
    fn numbers(&self, svg: &mut Svg, scale: &Scale) {
        let last = self.adjusted.len();
        for (number, pose) in (1..).zip(self.adjusted) {
            let [x, y] = scale.place([pose.shift[0], pose.shift[1]]);
            let words = match number {
                1 => "start".to_owned(),
                n if n == last => "end".to_owned(),
                n if n % 5 == 0 => n.to_string(),
                _ => continue,
            };
            svg.text([x + 9.0, y - 9.0], "number", words);
        }
    }
}

/// The scale at which everything fits.
fn scale(points: impl Iterator<Item = [f64; 2]>) -> Scale {
    let (mut low, mut high) = ([f64::INFINITY; 2], [f64::NEG_INFINITY; 2]);
    for point in points {
        for i in 0..2 {
            low[i] = low[i].min(point[i]);
            high[i] = high[i].max(point[i]);
        }
    }
    // A job without an upright surface has only its path to show.
    if low[0] > high[0] {
        (low, high) = ([-5.0; 2], [5.0; 2]);
    }
    let Frame(left, top, width, height) = PLAN;
    // Room for the names of walls all round, and for the legend below.
    let (aside, below) = (56.0, 96.0);
    let [wide, tall] = [0, 1].map(|i| (high[i] - low[i]).max(0.1));
    let per_metre = ((width - 2.0 * aside) / wide).min((height - aside - below) / tall);
    let middle = [left + width / 2.0, top + (height + aside - below) / 2.0];
    Scale {
        left: middle[0] - per_metre * (low[0] + high[0]) / 2.0,
        bottom: middle[1] + per_metre * (low[1] + high[1]) / 2.0,
        per_metre,
    }
}

fn path(svg: &mut Svg, scale: &Scale, poses: &[Pose], class: &str) {
    let places: Vec<[f64; 2]> = poses
        .iter()
        .map(|pose| scale.place([pose.shift[0], pose.shift[1]]))
        .collect();
    svg.open(places.iter().copied(), class);
    for &place in &places {
        svg.circle(place, 3.4, &format!("pose {class}"));
    }
}

/// The wall's name behind it.
fn label(svg: &mut Svg, scale: &Scale, sheet: &Sheet, class: &str) {
    let outside = 24.0 / scale.per_metre;
    // Beside the middle one of its points: the mean of a wall in two parts may lie between them.
    let middle = quantile(sheet.after.iter().map(|point| sheet.off(point)[0]), 0.5);
    let at = |r: usize| sheet.mean[r] + middle * sheet.along[r] + outside * sheet.normal[r];
    let [x, y] = scale.place([at(0), at(1)]);
    let mut angle = -sheet.along[1].atan2(sheet.along[0]).to_degrees();
    // Never upside down.
    if angle > 90.5 {
        angle -= 180.0;
    } else if angle < -89.5 {
        angle += 180.0;
    }
    svg.turned([x, y], angle, class, &sheet.name);
}

fn legend(svg: &mut Svg, saves: usize) {
    let Frame(left, top, _, height) = PLAN;
    let y = top + height - 22.0;
    let mut x = left + 18.0;
    for (class, words, room) in [
        ("before", "before: by odometry", 244.0),
        ("after", "after: adjusted", 206.0),
    ] {
        let dot = |k: i32| [x + 2.2 * f64::from(k), y - 5.0 + f64::from(k * 5 % 7 - 3)];
        svg.dots((0..16).map(dot), &format!("dots big {class}"));
        svg.line(
            [x + 44.0, y - 5.0],
            [x + 78.0, y - 5.0],
            &format!("path {class}"),
        );
        svg.circle([x + 61.0, y - 5.0], 3.4, &format!("pose path {class}"));
        svg.text([x + 88.0, y], "legend", words);
        x += room + 18.0;
    }
    svg.line([x, y - 5.0], [x + 34.0, y - 5.0], "drift wrong");
    svg.text(
        [x + 44.0, y],
        "legend",
        format!("the wall after {saves} wrong saves"),
    );
}

fn scale_bar(svg: &mut Svg, scale: &Scale) {
    let Frame(left, top, width, height) = PLAN;
    let metres = nice(150.0 / scale.per_metre);
    let length = metres * scale.per_metre;
    let [x, y] = [left + width - 24.0 - length, top + height - 26.0];
    svg.line([x, y], [x + length, y], "ink");
    for part in [0.0, 0.5, 1.0] {
        svg.line(
            [x + part * length, y - 5.0],
            [x + part * length, y + 5.0],
            "ink",
        );
    }
    svg.anchored(
        [x + length / 2.0, y - 10.0],
        "legend",
        "middle",
        format!("{metres} m"),
    );
}

/// The wall of the story from close by: how far its points are from it, before and after.
fn close(svg: &mut Svg, sheet: &Sheet) {
    let off = |points: &[Vector]| -> Vec<[f64; 2]> {
        let each = points.iter().map(|point| sheet.off(point));
        each.map(|[along, off]| [along, 1000.0 * off]).collect()
    };
    let (before, after) = (off(&sheet.before), off(&sheet.after));
    let most = nice_above(quantile(before.iter().map(|p| p[1].abs()), 0.98));
    let [low, high] = sheet.reach();
    let chart = Chart::new(CLOSE, [low, high], [-most, most]);
    CLOSE.head(
        svg,
        &format!("The {} from close by", sheet.name),
        "how far its points are off the wall, in mm",
    );
    chart.axes(svg, &[-most, -most / 2.0, 0.0, most / 2.0, most]);
    for (dots, class) in [(&before, "dots big before"), (&after, "dots big after")] {
        let thin = dots.iter().step_by(dots.len() / 1500 + 1);
        let inside = thin.filter(|p| (low..=high).contains(&p[0]) && p[1].abs() <= most);
        svg.dots(inside.map(|&p| chart.place(p)), class);
    }
    let words = format!("along the wall, {:.1} m", high - low);
    let Frame(left, top, width, height) = CLOSE;
    let below = [left + width / 2.0, top + height + 20.0];
    svg.anchored(below, "axis", "middle", words);
}

/// The column beside the plan.
impl Picture<'_> {
    /// Where the wall stands after each save.
    fn saves(&self, svg: &mut Svg, name: &str) {
        let millimetres = |x: f64| 1000.0 * x;
        let moved = &self.story.moved;
        let widest = moved
            .iter()
            .map(|s| s.drift.abs() + s.thickness)
            .fold(0.001, f64::max);
        let most = nice_above(millimetres(widest));
        // The side to which the wall walks is the one to show.
        let down = moved.last().is_some_and(|s| s.drift < 0.0);
        let [low, high] = if down {
            [-most, most / 4.0]
        } else {
            [-most / 4.0, most]
        };
        let saves = (moved.len() - 1) as f64;
        let chart = Chart::new(SAVES, [-0.35, saves + 0.35], [low, high]);
        SAVES.head(
            svg,
            &format!("The {name}, saved and loaded"),
            "how far it has walked off, in mm; the bars are its thickness",
        );
        let sign = if down { -1.0 } else { 1.0 };
        let ticks: Vec<f64> = [0.0, 0.25, 0.5, 0.75, 1.0]
            .map(|part| sign * part * most)
            .to_vec();
        chart.axes(svg, &ticks);
        // The words stand where the lines are not.
        let Frame(left, top, width, height) = SAVES;
        let zero = chart.place([0.0, 0.0])[1];
        let wrong_at = [
            left + 12.0,
            if down {
                top + height - 14.0
            } else {
                top + 24.0
            },
        ];
        let own_at = [
            left + width - 8.0,
            if down { zero - 14.0 } else { zero + 24.0 },
        ];
        for (stands, class, words, place, anchor) in [
            (moved, "wrong", "sums stored moved", wrong_at, "start"),
            (
                &self.story.own,
                "own",
                "each frame's own moments",
                own_at,
                "end",
            ),
        ] {
            let places = || {
                (0..)
                    .zip(stands)
                    .map(|(k, s)| chart.place([f64::from(k), millimetres(s.drift)]))
            };
            svg.open(places(), &format!("drift {class}"));
            for (place, stand) in places().zip(stands) {
                let half = (zero - chart.place([0.0, millimetres(stand.thickness)])[1]).max(2.0);
                svg.line(
                    [place[0], place[1] - half],
                    [place[0], place[1] + half],
                    &format!("thick {class}"),
                );
            }
            let last = stands.last().map_or(0.0, |s| millimetres(s.drift));
            let label = format!("{words}: {} mm", signed(last));
            svg.anchored(place, &format!("mark {class}"), anchor, label);
        }
        for save in 0..moved.len() {
            let [x, _] = chart.place([save as f64, 0.0]);
            let words = if save == 1 {
                "1 save".to_owned()
            } else {
                format!("{save} saves")
            };
            svg.anchored([x, SAVES.1 + SAVES.3 + 20.0], "axis", "middle", words);
        }
    }

    /// The thickness of the walls after each step, each gridline ten times the one below.
    fn steps(&self, svg: &mut Svg) {
        if self.steps.is_empty() {
            return;
        }
        let thickness: Vec<f64> = self.steps.iter().map(|s| 1000.0 * s.thickness).collect();
        let [low, high] = span(thickness.iter().map(|t| t.max(1e-6).log10()));
        let (low, high) = (low.floor(), high.ceil().max(low.floor() + 1.0));
        let last = (thickness.len().max(2) - 1) as f64;
        let chart = Chart::new(STEPS, [-0.35, last + 0.35], [low, high]);
        STEPS.head(
            svg,
            "Gauss-Newton, step by step",
            "the thickness of the walls",
        );
        svg.frame(STEPS);
        let Frame(left, _, width, _) = STEPS;
        for power in low as i64..=high as i64 {
            let [_, y] = chart.place([0.0, power as f64]);
            svg.line([left, y], [left + width, y], "grid");
            let words = format!("{} mm", 10f64.powi(power as i32));
            svg.anchored([left - 8.0, y + 4.0], "axis", "end", words);
        }
        let noise = (1000.0 * self.job.sigma).log10();
        if (low..=high).contains(&noise) {
            let [_, y] = chart.place([0.0, noise]);
            svg.line([left, y], [left + width, y], "noise");
            svg.anchored(
                [left + width - 4.0, y - 7.0],
                "axis",
                "end",
                "the scanner's noise",
            );
        }
        let places: Vec<[f64; 2]> = (0..)
            .zip(&thickness)
            .map(|(k, t)| chart.place([f64::from(k), t.max(1e-6).log10()]))
            .collect();
        svg.open(places.iter().copied(), "drift own");
        for place in places {
            svg.circle(place, 3.0, "step");
        }
        let words = format!("{last} steps");
        svg.anchored(
            [left + width / 2.0, STEPS.1 + STEPS.3 + 20.0],
            "axis",
            "middle",
            words,
        );
    }
}

/// A chart: what of its axes is at the ends of its frame.
struct Chart {
    frame: Frame,
    across: [f64; 2],
    up: [f64; 2],
}

impl Chart {
    fn new(frame: Frame, across: [f64; 2], up: [f64; 2]) -> Chart {
        Chart { frame, across, up }
    }

    fn place(&self, [x, y]: [f64; 2]) -> [f64; 2] {
        let Frame(left, top, width, height) = self.frame;
        let part = |v: f64, [low, high]: [f64; 2]| (v - low) / (high - low);
        [
            left + width * part(x, self.across),
            top + height * (1.0 - part(y, self.up)),
        ]
    }

    /// The frame, and a line with its number at each of these heights.
    fn axes(&self, svg: &mut Svg, heights: &[f64]) {
        let Frame(left, _, width, _) = self.frame;
        svg.frame(self.frame);
        for &height in heights {
            let [_, y] = self.place([0.0, height]);
            svg.line(
                [left, y],
                [left + width, y],
                if height == 0.0 { "zero" } else { "grid" },
            );
            svg.anchored([left - 8.0, y + 4.0], "axis", "end", height + 0.0);
        }
    }
}

/// The largest of 1, 2, 5, 10, 20 … that is not above `most`.
fn nice(most: f64) -> f64 {
    let power = 10f64.powf(most.log10().floor());
    let steps = [5.0, 2.0, 1.0];
    power * steps.into_iter().find(|s| s * power <= most).unwrap_or(1.0)
}

/// The least number of few digits that is not below `least` and whose quarters have few digits too.
fn nice_above(least: f64) -> f64 {
    let power = 10f64.powf(least.max(1e-3).log10().floor());
    let steps = [1.0, 1.2, 1.6, 2.0, 2.4, 3.2, 4.0, 6.0, 8.0];
    power
        * steps
            .into_iter()
            .find(|s| s * power >= least)
            .unwrap_or(10.0)
}

/// A whole number with a comma before each three digits.
fn grouped(number: usize) -> String {
    let digits = number.to_string();
    let mut words = String::new();
    for (k, digit) in digits.chars().enumerate() {
        if k > 0 && (digits.len() - k).is_multiple_of(3) {
            words.push(',');
        }
        words.push(digit);
    }
    words
}

/// A number with its sign, none for a zero.
fn signed(number: f64) -> String {
    if number.abs() < 0.05 {
        "0.0".to_owned()
    } else {
        format!("{number:+.1}").replace('-', "−")
    }
}

/// The number below which that part of the numbers lies.
fn quantile(numbers: impl Iterator<Item = f64>, part: f64) -> f64 {
    let mut sorted: Vec<f64> = numbers.collect();
    sorted.sort_by(f64::total_cmp);
    let place = (part * sorted.len() as f64) as usize;
    sorted
        .get(place.min(sorted.len().saturating_sub(1)))
        .copied()
        .unwrap_or(1.0)
}

fn span(numbers: impl Iterator<Item = f64>) -> [f64; 2] {
    numbers.fold([f64::INFINITY, f64::NEG_INFINITY], |[low, high], x| {
        [low.min(x), high.max(x)]
    })
}

/// A file that is being written.
struct Svg(String);

impl Svg {
    fn new() -> Svg {
        let style = format!(
            "text{{font-family:Helvetica,Arial,'DejaVu Sans',sans-serif;fill:{INK}}}\
             .title{{font-size:27px;font-weight:bold}}.facts{{font-size:16px;fill:{FAINT}}}\
             .head{{font-size:15px;font-weight:bold}}.legend{{font-size:14px}}.axis{{font-size:12px;fill:{FAINT}}}\
             .wall{{font-size:13px;fill:{FAINT};text-anchor:middle}}.wall.story{{fill:{INK};font-weight:bold}}\
             .number{{font-size:12px;fill:{AFTER}}}.mark{{font-size:13px}}\
             .frame{{fill:#fff;stroke:{GRID}}}.floor{{fill:#f6f2e8}}.grid{{stroke:{GRID};stroke-width:.7}}\
             .zero{{stroke:{FAINT};stroke-width:1}}.ink{{stroke:{INK};stroke-width:1.6}}\
             .dots{{fill:none;stroke-width:1.9;stroke-linecap:round;stroke-opacity:.6}}.big{{stroke-width:2.5}}\
             .dots.before{{stroke:{BEFORE}}}.dots.after{{stroke:{AFTER};stroke-opacity:.8}}\
             .path{{fill:none;stroke-width:1.8}}.path.before{{stroke:{BEFORE};stroke-dasharray:5 4}}.path.after{{stroke:{AFTER}}}\
             .pose{{fill:#fff;stroke-dasharray:none!important;stroke-width:1.5}}.pose.after{{fill:{AFTER}}}\
             .drift{{fill:none;stroke-width:2}}.drift.own,.step{{stroke:{AFTER}}}.drift.wrong{{stroke:{WRONG};stroke-dasharray:6 4}}\
             .thick{{stroke-width:9;stroke-opacity:.55}}.thick.own{{stroke:{AFTER}}}.thick.wrong{{stroke:{WRONG}}}\
             .mark.own{{fill:{AFTER}}}.mark.wrong{{fill:{WRONG}}}.step{{fill:{AFTER}}}\
             .noise{{stroke:{FAINT};stroke-dasharray:3 3}}"
        );
        Svg(format!(
            "<svg xmlns=\"http://www.w3.org/2000/svg\" viewBox=\"0 0 {WIDTH} {HEIGHT}\" width=\"{WIDTH}\" height=\"{HEIGHT}\">\n\
             <style>{style}</style>\n<rect width=\"100%\" height=\"100%\" fill=\"#fbfaf6\"/>\n"
        ))
    }

    fn add(&mut self, line: std::fmt::Arguments<'_>) {
        self.0
            .write_fmt(line)
            .expect("a string takes whatever is written");
        self.0.push('\n');
    }

    fn finished(mut self) -> String {
        self.0.push_str("</svg>\n");
        self.0
    }

    fn frame(&mut self, Frame(left, top, width, height): Frame) {
        self.add(format_args!("<rect class=\"frame\" x=\"{left}\" y=\"{top}\" width=\"{width}\" height=\"{height}\"/>"));
    }

    fn line(&mut self, [x, y]: [f64; 2], [u, v]: [f64; 2], class: &str) {
        self.add(format_args!(
            "<path class=\"{class}\" d=\"M{x:.1} {y:.1}L{u:.1} {v:.1}\"/>"
        ));
    }

    fn open(&mut self, places: impl Iterator<Item = [f64; 2]>, class: &str) {
        let d = lines(places);
        self.add(format_args!("<path class=\"{class}\" d=\"{d}\"/>"));
    }

    fn closed(&mut self, places: impl Iterator<Item = [f64; 2]>, class: &str) {
        let d = lines(places);
        if !d.is_empty() {
            self.add(format_args!("<path class=\"{class}\" d=\"{d}Z\"/>"));
        }
    }

    /// Dots as lines of no length with round ends, which take the least room in the file.
    fn dots(&mut self, places: impl Iterator<Item = [f64; 2]>, class: &str) {
        let mut d = String::new();
        for [x, y] in places {
            let _ = write!(d, "M{x:.1} {y:.1}h0");
        }
        self.add(format_args!("<path class=\"{class}\" d=\"{d}\"/>"));
    }

    fn circle(&mut self, [x, y]: [f64; 2], radius: f64, class: &str) {
        self.add(format_args!(
            "<circle class=\"{class}\" cx=\"{x:.1}\" cy=\"{y:.1}\" r=\"{radius}\"/>"
        ));
    }

    fn text(&mut self, place: [f64; 2], class: &str, words: impl Display) {
        self.anchored(place, class, "start", words);
    }

    fn anchored(&mut self, [x, y]: [f64; 2], class: &str, anchor: &str, words: impl Display) {
        let words = escaped(&words.to_string());
        self.add(format_args!(
            "<text class=\"{class}\" x=\"{x:.1}\" y=\"{y:.1}\" text-anchor=\"{anchor}\">{words}</text>"
        ));
    }

    fn turned(&mut self, [x, y]: [f64; 2], angle: f64, class: &str, words: &str) {
        let words = escaped(words);
        self.add(format_args!(
            "<text class=\"{class}\" transform=\"translate({x:.1} {y:.1}) rotate({angle:.1})\" dy=\"4\">{words}</text>"
        ));
    }
}

fn lines(places: impl Iterator<Item = [f64; 2]>) -> String {
    let mut d = String::new();
    for [x, y] in places {
        let sign = if d.is_empty() { 'M' } else { 'L' };
        let _ = write!(d, "{sign}{x:.1} {y:.1}");
    }
    d
}

/// Names come from a user's file and may have signs that mean something here.
fn escaped(words: &str) -> String {
    words
        .replace('&', "&amp;")
        .replace('<', "&lt;")
        .replace('>', "&gt;")
}

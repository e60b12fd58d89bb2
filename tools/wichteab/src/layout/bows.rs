//! Edges that would run over a position are bowed round it.

use super::{Point, RADIUS};

/// How far an edge stays from the middle of a position that it does not belong to.
const CLEARANCE: i64 = RADIUS as i64 + 2;
/// How far off the straight line the point may lie that the edge is drawn towards, on either side, and in what steps.
const FARTHEST: i64 = 400;
const STEP: i64 = 20;
/// Where along the edge it lies, in tenths: in the middle, else nearer to one of the ends.
const ALONG: [i64; 5] = [5, 2, 8, 0, 10];
/// The points of a curve that are looked at.
const LOOKS: i64 = 40;

/// For each edge the point that it is drawn towards, none where it is straight: the first bow that keeps clear of every
/// other position, else the one that keeps clearest.
pub fn bows(places: &[Point], edges: &[(usize, usize)]) -> Vec<Option<Point>> {
    edges.iter().map(|&edge| bow(places, edge)).collect()
}

fn bow(places: &[Point], (a, b): (usize, usize)) -> Option<Point> {
    let (from, to) = (places[a], places[b]);
    let others: Vec<Point> =
        (0..places.len()).filter(|&at| at != a && at != b).map(|at| places[at]).collect();
    let straight = nearest(from, ((from.0 + to.0) / 2, (from.1 + to.1) / 2), to, &others);
    let mut clearest = (straight, None);
    for towards in choices(from, to) {
        if clearest.0 >= CLEARANCE * CLEARANCE {
            break;
        }
        let room = nearest(from, towards, to, &others);
        if room > clearest.0 {
            clearest = (room, Some(towards));
        }
    }
    clearest.1
}

/// The points that an edge may be drawn towards, those nearest to its middle first.
fn choices(from: Point, to: Point) -> impl Iterator<Item = Point> {
    let (x, y) = (i64::from(to.0 - from.0), i64::from(to.1 - from.1));
    let length = ((x * x + y * y) as f64).sqrt().max(1.0) as i64;
    let far = (1..=FARTHEST / STEP).flat_map(|steps| [steps * STEP, -steps * STEP]);
    let spots = ALONG.into_iter().flat_map(move |along| far.clone().map(move |far| (along, far)));
    spots.map(move |(along, far)| {
        (
            from.0 + (x * along / 10 - y * far / length) as i32,
            from.1 + (y * along / 10 + x * far / length) as i32,
        )
    })
}

/// The square of the distance from the curve to the nearest of the points.
fn nearest(from: Point, towards: Point, to: Point, others: &[Point]) -> i64 {
    let on_curve = |look: i64| {
        let back = LOOKS - look;
        let blend = |a: i32, b: i32, c: i32| {
            (back * back * i64::from(a) + 2 * back * look * i64::from(b) + look * look * i64::from(c))
                / (LOOKS * LOOKS)
        };
        (blend(from.0, towards.0, to.0), blend(from.1, towards.1, to.1))
    };
    let square = |(x, y): (i64, i64), other: &Point| {
        let (x, y) = (x - i64::from(other.0), y - i64::from(other.1));
        x * x + y * y
    };
    let looks = (1..LOOKS).map(on_curve);
    looks.flat_map(|point| others.iter().map(move |other| square(point, other))).min().unwrap_or(i64::MAX)
}

//! A ring's positions on an oval, at equal distances, clockwise from the middle of its top.
//!
//! The oval is a rectangle with round corners. Up to 20 positions it is wider than high; longer ones keep that width
//! and grow in height, so that a narrow screen shows them too.

use super::{Point, SPACING};
use std::f64::consts::PI;

/// Neighbours are this far apart: more than the spacing, so that the edges between them are seen.
const APART: i32 = SPACING * 6 / 5;

/// Half the width of the widest oval, in spacings.
const HALF_WIDTH: f64 = 3.8;
/// The straight pieces of a quarter of the circle.
const PIECES: usize = 96;

/// The place of each position; `round` has the positions in the order of the ring.
pub fn places(round: &[usize]) -> Vec<Point> {
    let outline = outline(round.len() as f64);
    // A chord is shorter than its arc, so the oval may have to grow for the distances to be kept.
    let mut size = f64::from(APART);
    loop {
        let points = walked(&outline, round.len(), size);
        if far_enough(&points) {
            let mut places = vec![(0, 0); round.len()];
            for (&position, &point) in round.iter().zip(&points) {
                places[position] = point;
            }
            return places;
        }
        size += 1.0;
    }
}

fn far_enough(points: &[Point]) -> bool {
    let apart = |a: &Point, b: &Point| {
        let (x, y) = (i64::from(a.0 - b.0), i64::from(a.1 - b.1));
        x * x + y * y >= i64::from(APART) * i64::from(APART)
    };
    points.iter().enumerate().all(|(index, a)| points[..index].iter().all(|b| apart(a, b)))
}

/// The corners' radius and how far their middles are from the oval's, across and down, for this circumference.
fn measures(circumference: f64) -> (f64, f64, f64) {
    // Wide ovals: the straight runs at top and bottom are as long as the corners' radius.
    let radius = circumference / (2.0 * PI + 2.0);
    if 1.5 * radius <= HALF_WIDTH {
        return (radius, radius / 2.0, 0.0);
    }
    // Of the greatest width: the radius grows until the runs are used up, then runs at the sides grow.
    let radius = ((circumference - 4.0 * HALF_WIDTH) / (2.0 * PI - 4.0)).min(HALF_WIDTH);
    let across = HALF_WIDTH - radius;
    (radius, across, ((circumference - 2.0 * PI * radius - 4.0 * across) / 4.0).max(0.0))
}

/// The oval of this circumference as many short pieces: clockwise from the middle of its top, back to there.
fn outline(circumference: f64) -> Vec<(f64, f64)> {
    let (radius, across, down) = measures(circumference);
    // A quarter of the circle, from its top to its right, without angles.
    let quarter: Vec<(f64, f64)> = (0..=PIECES)
        .map(|piece| {
            let t = piece as f64 / PIECES as f64;
            let along = (2.0 * t / (1.0 + t * t), (1.0 - t * t) / (1.0 + t * t));
            (across + radius * along.0, down + radius * along.1)
        })
        .collect();
    let top = (0.0, down + radius);
    let upper_right = quarter.iter().map(|&(x, y)| (x, -y));
    let lower_right = quarter.iter().rev().copied();
    let lower_left = quarter.iter().map(|&(x, y)| (-x, y));
    let upper_left = quarter.iter().rev().map(|&(x, y)| (-x, -y));
    let sides = upper_right.chain(lower_right).chain(lower_left).chain(upper_left);
    std::iter::once((0.0, -top.1)).chain(sides).chain([(0.0, -top.1)]).collect()
}

/// So many points of the outline, at equal distances along it, scaled by the size.
fn walked(outline: &[(f64, f64)], count: usize, size: f64) -> Vec<Point> {
    let length =
        |a: (f64, f64), b: (f64, f64)| ((a.0 - b.0) * (a.0 - b.0) + (a.1 - b.1) * (a.1 - b.1)).sqrt();
    let whole: f64 = outline.windows(2).map(|two| length(two[0], two[1])).sum();
    let mut points = Vec::new();
    let mut walked = 0.0;
    for two in outline.windows(2) {
        let piece = length(two[0], two[1]);
        while points.len() < count && points.len() as f64 * whole / count as f64 <= walked + piece {
            let rest = points.len() as f64 * whole / count as f64 - walked;
            let part = if piece > 0.0 { rest / piece } else { 0.0 };
            let between = |from: f64, to: f64| ((from + (to - from) * part) * size).round() as i32;
            points.push((between(two[0].0, two[1].0), between(two[0].1, two[1].1)));
        }
        walked += piece;
    }
    points
}

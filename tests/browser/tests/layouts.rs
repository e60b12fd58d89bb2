//! Layouts of floors: no two tiles overlap, grids are grids, rings are ovals, edges keep clear of other positions.

use compare::floors::{self, floor_of_shape, Floor, SHAPES};
use compare::random::Random;
use compare::rings::random_ring;
use wichteab_tool::layout::{layout, Kind, Layout, Point, RADIUS, SPACING};

fn drawn(floor: &Floor) -> Layout {
    layout(floor.n, &pairs(floor))
}

fn pairs(floor: &Floor) -> Vec<(usize, usize)> {
    floor.edges.iter().map(|&(a, b)| (usize::from(a), usize::from(b))).collect()
}

fn square(a: Point, b: Point) -> i64 {
    let (x, y) = (i64::from(a.0 - b.0), i64::from(a.1 - b.1));
    x * x + y * y
}

/// No two positions are nearer than the spacing, so that the circles round their tiles do not overlap, and all of
/// them are inside the frame.
fn assert_apart(layout: &Layout) {
    assert!(2 * RADIUS <= SPACING);
    for (index, &(x, y)) in layout.places.iter().enumerate() {
        assert!(
            (RADIUS..=layout.width - RADIUS).contains(&x) && (RADIUS..=layout.height - RADIUS).contains(&y)
        );
        for &other in &layout.places[..index] {
            assert!(square((x, y), other) >= i64::from(SPACING).pow(2), "{:?}", layout.places);
        }
    }
}

#[test]
fn no_two_tiles_overlap() {
    let mut random = Random::new(31);
    for shape in SHAPES {
        for _ in 0..160 {
            let floor = floor_of_shape(&mut random, shape);
            let layout = drawn(&floor);
            assert_eq!((layout.places.len(), layout.bows.len()), (floor.n, floor.edges.len()));
            assert_apart(&layout);
        }
    }
}

#[test]
fn no_two_tiles_overlap_on_any_floor_of_four() {
    for n in 1..=4 {
        floors::every_floor(n).for_each(|floor| assert_apart(&drawn(&floor)));
    }
}

#[test]
fn one_floor_has_one_layout() {
    let mut random = Random::new(32);
    for shape in SHAPES {
        let floor = floor_of_shape(&mut random, shape);
        let mut turned: Vec<(usize, usize)> = pairs(&floor).into_iter().map(|(a, b)| (b, a)).collect();
        turned.reverse();
        let (first, second) = (drawn(&floor), drawn(&floor));
        assert_eq!(first, second);
        assert_eq!(first.places, layout(floor.n, &turned).places);
    }
}

#[test]
fn grids_are_drawn_as_grids() {
    for rows in 1..=64usize {
        for columns in 1..=64 / rows {
            let layout = drawn(&floors::grid(rows, columns));
            // A single column and a single row are one floor.
            let (rows, columns) = if columns == 1 { (1, rows) } else { (rows, columns) };
            assert_eq!(layout.kind, Kind::Grid { rows, columns });
            let (left, top) = layout.places[0];
            for (at, &(x, y)) in layout.places.iter().enumerate() {
                let wanted = (left + (at % columns) as i32 * SPACING, top + (at / columns) as i32 * SPACING);
                assert_eq!((x, y), wanted);
            }
            assert!(layout.bows.iter().all(Option::is_none));
        }
    }
}

#[test]
fn grids_numbered_in_another_way_are_straight() {
    let mut random = Random::new(33);
    for rows in 2..=8 {
        for columns in rows.max(3)..=8 {
            let grid = floors::grid(rows, columns);
            let names = random.distinct(grid.n, grid.n);
            let name = |at: u8| usize::from(names[usize::from(at)]);
            let floor = Floor::new(grid.n, grid.edges.iter().map(|&(a, b)| (name(a), name(b))));
            let layout = drawn(&floor);
            for (a, b) in pairs(&floor) {
                let ((x, y), (to_x, to_y)) = (layout.places[a], layout.places[b]);
                assert!((x == to_x) != (y == to_y), "{rows} by {columns}");
            }
            assert_apart(&layout);
        }
    }
}

#[test]
fn rings_are_drawn_as_ovals() {
    let mut random = Random::new(34);
    for n in 3..=64 {
        let (floor, round) = random_ring(&mut random, n);
        let layout = drawn(&floor);
        if layout.kind == (Kind::Grid { rows: 2, columns: 2 }) {
            continue; // the ring of four, numbered row by row
        }
        assert_eq!(layout.kind, Kind::Oval);
        assert_apart(&layout);
        let at = |index: usize| layout.places[round[index % n]];
        let turn = |a: Point, b: Point, c: Point| {
            i64::from(b.0 - a.0) * i64::from(c.1 - b.1) - i64::from(b.1 - a.1) * i64::from(c.0 - b.0)
        };
        let turns: Vec<i64> = (0..n).map(|index| turn(at(index), at(index + 1), at(index + 2))).collect();
        assert!(turns.iter().all(|&turn| turn >= 0) || turns.iter().all(|&turn| turn <= 0), "{n}: {turns:?}");
        let sides: Vec<i64> = (0..n).map(|index| square(at(index), at(index + 1))).collect();
        let (least, most) = (sides.iter().min().expect("a side"), sides.iter().max().expect("a side"));
        assert!(4 * most <= 9 * least, "the sides of {n} differ too much");
    }
}

/// How far the edge stays from the middles of the positions that it does not belong to.
fn clearance(layout: &Layout, index: usize, (a, b): (usize, usize)) -> f64 {
    let (from, to) = (layout.places[a], layout.places[b]);
    let towards = layout.bows[index].unwrap_or(((from.0 + to.0) / 2, (from.1 + to.1) / 2));
    let others = (0..layout.places.len()).filter(|&at| at != a && at != b).map(|at| layout.places[at]);
    let blend = |part: f64, a: i32, b: i32, c: i32| {
        let rest = 1.0 - part;
        rest * rest * f64::from(a) + 2.0 * rest * part * f64::from(b) + part * part * f64::from(c)
    };
    let distance = |part: f64, other: Point| {
        let x = blend(part, from.0, towards.0, to.0) - f64::from(other.0);
        let y = blend(part, from.1, towards.1, to.1) - f64::from(other.1);
        (x * x + y * y).sqrt()
    };
    let near = others
        .map(|other| (0..=100).map(|look| distance(f64::from(look) / 100.0, other)).fold(f64::MAX, f64::min));
    near.fold(f64::MAX, f64::min)
}

/// Edges that run over a position which they do not belong to, on random floors of these sizes that can be planned:
/// bi-connected, with at most four neighbours to a position. How many there are, and how many edges in all.
fn run_over(random: &mut Random, least: usize, most: usize) -> (usize, usize) {
    let (mut over, mut edges) = (0, 0);
    for _ in 0..120 {
        let n = random.between(least, most);
        let floor = floors::four_sided(random, n);
        let (layout, pairs) = (drawn(&floor), pairs(&floor));
        edges += pairs.len();
        over += (0..pairs.len()).filter(|&index| clearance(&layout, index, pairs[index]) < 40.0).count();
    }
    println!("{least} to {most} positions: {over} of {edges} edges run over another position");
    (over, edges)
}

/// None on small floors. On large ones that were made at random, with edges from anywhere to anywhere, a few do.
#[test]
fn edges_keep_clear_of_other_positions() {
    let mut random = Random::new(35);
    for (least, most, in_a_thousand) in [(3, 12, 0), (13, 24, 0), (25, 40, 5), (41, 64, 20)] {
        let (over, edges) = run_over(&mut random, least, most);
        assert!(1000 * over <= in_a_thousand * edges);
    }
}

//! How good the planner's plans are: their moves and steps beside those of the proved method alone, of BIBOX, the
//! published method, and beside a bound that no plan undercuts.

use crate::{seconds, shown};
use compare::floors;
use compare::orders;
use compare::packed;
use compare::proved;
use compare::random::Random;
use compare::rings;
use compare::write::{Edition, Plan};
use published::bibox;
use published::operation::Choice;
use second::breakdown::shortest_path;
use second::floor::all_positions;
use second::order;
use std::collections::HashSet;
use std::thread;
use std::time::Instant;

/// Rows and columns of each grid, and how many random orders are planned on it for each count of vacancies.
const GRIDS: [(usize, usize, usize); 6] =
    [(2, 3, 100), (3, 3, 100), (3, 4, 100), (4, 4, 100), (4, 5, 100), (8, 8, 100)];

/// Positions of floors made of handles, how many inner positions their handles have at most, and how many such floors.
const OF_HANDLES: [(usize, usize, usize); 4] = [(20, 4, 50), (20, 16, 50), (64, 4, 25), (64, 16, 25)];

/// Prints the table. The second implementation checks and timetables every plan.
pub fn print_table() {
    println!();
    println!("Plans of the planner, of the proved method alone, without the search beside it, and of BIBOX, the method of");
    println!("source document 001 (tests/published), with the nearest position wherever its text leaves one open, and with");
    println!("the first. The same random orders; means for one order. The distances of the racks from start to goal are");
    println!("added up: no plan has fewer moves. The ratios are planner to BIBOX: below 1, the planner's plan is the shorter.");
    println!("The time is that of planning, checking and timetabling.");
    println!("{HEAD}");
    let mut random = Random::new(0xBE_0007);
    for (rows, columns, count) in GRIDS {
        let floor = floors::grid(rows, columns);
        for vacancies in vacancy_counts(floor.n) {
            let mut order = || orders::order_on(&mut random, &floor, floor.n - vacancies).record();
            let orders: Vec<Vec<u8>> = (0..count).map(|_| order()).collect();
            print_row(&format!("{rows} by {columns} {vacancies:>6}"), &orders);
        }
    }
    for (n, longest, count) in OF_HANDLES {
        let mut order = || {
            let floor = floors::of_handles(&mut random, n, longest);
            orders::order_on(&mut random, &floor, n - 2).record()
        };
        let orders: Vec<Vec<u8>> = (0..count).map(|_| order()).collect();
        print_row(&format!("{n}, of {longest:<2}   2"), &orders);
    }
    println!("(20, of 16: floors of 20 positions, a small ring and handles of up to 16 inner positions)");
}

/// Prints the planner's moves beside those of the shortest plans there are, on the two smallest grids.
pub fn print_shortest() {
    println!();
    println!(
        "Moves of the planner's plans, and of the shortest plans there are, found by exhaustive search."
    );
    println!("grid   vacant  orders |  moves  least  ratio");
    let mut random = Random::new(0xBE_000A);
    for (rows, columns) in [(2, 3), (3, 3)] {
        let floor = floors::grid(rows, columns);
        let mut order = || orders::order_on(&mut random, &floor, floor.n - 2).record();
        let orders: Vec<Vec<u8>> = (0..100).map(|_| order()).collect();
        let made = mean_length(&orders, planned);
        let least = by_shares(&orders, |share| share.iter().map(|order| fewest_moves(order)).sum::<usize>());
        let least = least.iter().sum::<usize>() as f64 / orders.len() as f64;
        println!(
            "{rows} by {columns}      2 {:>7} | {:>6.1} {least:>6.1} {:>6.2}",
            orders.len(),
            made.moves,
            made.moves / least
        );
    }
}

/// The fewest moves that lead from the starts of an order to its goals: breadth-first over all arrangements.
fn fewest_moves(order: &[u8]) -> usize {
    let order = order::read(order).expect("the order is sound");
    let edges: Vec<(usize, usize)> = both_ways(&order);
    let table = |places: &[u8]| {
        let mut racks = vec![0u8; order.floor.n];
        places.iter().zip(1..).for_each(|(&at, rack)| racks[usize::from(at)] = rack);
        racks
    };
    let goal = table(order.goals());
    let mut layer = vec![table(order.starts())];
    let mut seen: HashSet<Vec<u8>> = layer.iter().cloned().collect();
    let mut moves = 0;
    while !layer.contains(&goal) {
        let mut next = Vec::new();
        for racks in &layer {
            for &(a, b) in &edges {
                if racks[a] != 0 && racks[b] == 0 {
                    let mut after = racks.clone();
                    after.swap(a, b);
                    if seen.insert(after.clone()) {
                        next.push(after);
                    }
                }
            }
        }
        layer = next;
        moves += 1;
    }
    moves
}

fn both_ways(order: &order::Order) -> Vec<(usize, usize)> {
    let pairs = (0..order.floor.n).flat_map(|a| (0..order.floor.n).map(move |b| (a, b)));
    pairs.filter(|&(a, b)| order.floor.joined(a, b)).collect()
}

/// Rings of 16 and 64 positions, with one vacancy and with half of the positions vacant.
pub fn print_rings() {
    println!();
    println!("Plans on rings, the positions numbered in any order round them; means for one order. The distances are added");
    println!("up as the racks go without passing each other: in the better of the two senses, all of them, and each in its");
    println!("own, which no plan undercuts.");
    println!("ring   vacant  orders  one sense      least |  moves  steps        time");
    let mut random = Random::new(0xBE_0008);
    for n in [16, 64] {
        for vacancies in [1, n / 2] {
            let (mut orders, mut one_sense, mut least) = (Vec::new(), 0, 0);
            for _ in 0..1_000 {
                let (floor, positions) = rings::random_ring(&mut random, n);
                let mut order = orders::order_on(&mut random, &floor, n - vacancies);
                order.goals = rings::goals_in_order(&mut random, &positions, &order.starts);
                one_sense += rings::least_moves_in_one_sense(&positions, &order.starts, &order.goals);
                least += rings::least_moves(&positions, &order.starts, &order.goals);
                orders.push(order.record());
            }
            let mean = |sum: usize| sum as f64 / orders.len() as f64;
            let (planned, time) = (mean_length(&orders, planned), shown(mean_time(&orders)));
            let (one_sense, least) = (mean(one_sense), mean(least));
            println!(
                "{n:>4} {vacancies:>8} {:>7} {one_sense:>10.1} {least:>10.1} | {planned} {time:>11}",
                orders.len()
            );
        }
    }
}

/// Prints what the proved method's own plans lose when they are shortened.
pub fn print_shortened() {
    println!();
    println!("The proved method's plans, and what the shortener leaves of them: means for one order.");
    println!("grid   vacant  orders |  moves   left     lost |  steps   left");
    let mut random = Random::new(0xBE_0009);
    for (rows, columns, count) in GRIDS {
        let floor = floors::grid(rows, columns);
        for vacancies in vacancy_counts(floor.n) {
            let mut order = || orders::order_on(&mut random, &floor, floor.n - vacancies).record();
            let orders: Vec<Vec<u8>> = (0..count).map(|_| order()).collect();
            let (made, left) = (mean_length(&orders, by_method), mean_length(&orders, shortened_plan));
            let lost = 100.0 * (made.moves - left.moves) / made.moves;
            println!(
                "{rows} by {columns} {vacancies:>6} {count:>7} | {:>6.1} {:>6.1} {lost:>6.2} % | {:>6.1} {:>6.1}",
                made.moves, left.moves, made.steps, left.steps
            );
        }
    }
}

fn shortened_plan(order: &[u8]) -> Vec<u8> {
    let plan = by_method(order);
    let mut buffer = vec![0; plan.len()];
    let k = packed::to_count(proved::plan_shorten(order, &plan, &mut buffer)).expect("the plan is accepted");
    buffer.truncate(Edition::Two.length(k as usize));
    buffer
}

const HEAD: &str = "
                      distances |        planner            | proved method | BIBOX, nearest     ratios | BIBOX, first       ratios
floor  vacant  orders    in all |  moves  steps        time |  moves  steps |  moves  steps moves steps |  moves  steps moves steps";

fn print_row(floor: &str, orders: &[Vec<u8>]) {
    let made = mean_length(orders, planned);
    let time = shown(made.seconds);
    let (method, distances) = (mean_length(orders, by_method), mean_distances(orders));
    print!("{floor} {:>7} {distances:>9.1} | {made} {time:>11} | {method}", orders.len());
    for choice in [Choice::Nearest, Choice::First] {
        let bibox = mean_length(orders, |order| bibox_plan(order, choice));
        print!(" | {bibox} {:>5.2} {:>5.2}", made.moves / bibox.moves, made.steps / bibox.steps);
    }
    println!();
}

/// Two vacancies, a quarter of the positions and half of them. A quarter of six positions is two again.
fn vacancy_counts(n: usize) -> Vec<usize> {
    let mut counts = vec![2, n.div_ceil(4), n / 2];
    counts.dedup();
    counts
}

/// The mean length of plans, and the seconds that one takes.
struct Length {
    moves: f64,
    steps: f64,
    seconds: f64,
}

impl std::fmt::Display for Length {
    fn fmt(&self, f: &mut std::fmt::Formatter) -> std::fmt::Result {
        write!(f, "{:>6.1} {:>6.1}", self.moves, self.steps)
    }
}

/// The mean length of the plans that are made for the orders. The checker has to accept them. The orders are shared out
/// among the cores; an order's seconds are those on its own core.
fn mean_length(orders: &[Vec<u8>], plan: impl Fn(&[u8]) -> Vec<u8> + Sync) -> Length {
    let sums: Vec<(u32, u32, f64)> = by_shares(orders, |share| total_length(share, &plan));
    let mean = |sum: f64| sum / orders.len() as f64;
    Length {
        moves: mean(sums.iter().map(|sum| f64::from(sum.0)).sum()),
        steps: mean(sums.iter().map(|sum| f64::from(sum.1)).sum()),
        seconds: mean(sums.iter().map(|sum| sum.2).sum()),
    }
}

/// What comes of the orders, a share of them on each core.
fn by_shares<T: Send>(orders: &[Vec<u8>], work: impl Fn(&[Vec<u8>]) -> T + Sync) -> Vec<T> {
    let cores = thread::available_parallelism().map_or(1, usize::from);
    let shares = orders.chunks(orders.len().div_ceil(cores));
    let work = &work;
    thread::scope(|scope| {
        let running: Vec<_> = shares.map(|share| scope.spawn(move || work(share))).collect();
        running.into_iter().map(|share| share.join().expect("every plan is accepted")).collect()
    })
}

/// The moves and the steps of the orders' plans, and the seconds that it took to plan, check and timetable them.
fn total_length(orders: &[Vec<u8>], plan: impl Fn(&[u8]) -> Vec<u8>) -> (u32, u32, f64) {
    let start = Instant::now();
    let (mut moves, mut steps) = (0, 0);
    for order in orders {
        let plan = plan(order);
        let k = second::plan::check(order, &plan).expect("the plan is accepted");
        let mut timetable = vec![0; 3 * k as usize + 3];
        moves += k;
        steps += second::making::make(order, &plan, &mut timetable).expect("the timetable is made");
    }
    (moves, steps, start.elapsed().as_secs_f64())
}

/// Room for every plan of a floor with 64 positions.
fn plan_buffer() -> Vec<u8> {
    vec![0; 18 * 64 * 64 * 64 + 3]
}

/// The planner's plan.
fn planned(order: &[u8]) -> Vec<u8> {
    let mut buffer = plan_buffer();
    let k = packed::to_count(proved::plan_make(order, &mut buffer)).expect("the order can be planned");
    buffer.truncate(Edition::Two.length(k as usize));
    buffer
}

/// The plan of the proved method alone.
fn by_method(order: &[u8]) -> Vec<u8> {
    let mut buffer = plan_buffer();
    let k = proved::inspect_method(order, &mut buffer, 1);
    buffer.truncate(Edition::Two.length(k as usize));
    buffer
}

fn bibox_plan(order: &[u8], choice: Choice) -> Vec<u8> {
    let order = order::read(order).expect("the order is sound");
    let moves = bibox::plan(&order, choice).expect("the order can be planned");
    Plan::of_moves(&moves).record()
}

/// Seconds that the planner takes for one of the orders.
fn mean_time(orders: &[Vec<u8>]) -> f64 {
    let mut buffer = plan_buffer();
    let mut all = || orders.iter().map(|order| proved::plan_make(order, &mut buffer)).sum();
    seconds(1, &mut all) / orders.len() as f64
}

/// The sum over an order's racks of the shortest way from start to goal, in the mean.
fn mean_distances(orders: &[Vec<u8>]) -> f64 {
    let of_order = |order: &Vec<u8>| distances(&order::read(order).expect("the order is sound"));
    orders.iter().map(of_order).sum::<usize>() as f64 / orders.len() as f64
}

fn distances(order: &order::Order) -> usize {
    let all = all_positions(order.floor.n);
    let distance = |(&start, &goal): (&u8, &u8)| match start == goal {
        true => 0,
        false => {
            let way = shortest_path(&order.floor, usize::from(start), 1 << goal, all);
            way.expect("the floor is connected").len() - 1
        }
    };
    order.starts().iter().zip(order.goals()).map(distance).sum()
}

/// One method's plans on a grid: what the figure shows.
struct Bar {
    name: &'static str,
    moves: f64,
    steps: Option<f64>,
}

/// Writes the figure of the documents: moves and steps on the 4 by 4 and the 8 by 8 grid with two vacancies.
pub fn write_figure(path: &str) {
    let mut random = Random::new(0xBE_000B);
    let mut panels = String::new();
    for (at, (rows, columns)) in [(4, 4), (8, 8)].into_iter().enumerate() {
        let floor = floors::grid(rows, columns);
        let mut order = || orders::order_on(&mut random, &floor, floor.n - 2).record();
        let orders: Vec<Vec<u8>> = (0..100).map(|_| order()).collect();
        let bars = bars(&orders);
        panels += &panel(&format!("{rows} by {columns} positions, two vacant"), &bars, 190 * at);
    }
    let text = format!(
        "<svg xmlns=\"http://www.w3.org/2000/svg\" viewBox=\"0 0 680 390\" font-family=\"sans-serif\" font-size=\"13\">\n\
         <rect width=\"680\" height=\"390\" fill=\"#fff\"/>\n{panels}</svg>\n"
    );
    std::fs::write(path, text).expect("the figure is written");
}

fn bars(orders: &[Vec<u8>]) -> [Bar; 4] {
    let published = mean_length(orders, |order| bibox_plan(order, Choice::Nearest));
    let method = mean_length(orders, by_method);
    let made = mean_length(orders, planned);
    let bar = |name, length: Length| Bar { name, moves: length.moves, steps: Some(length.steps) };
    [
        bar("published method", published),
        bar("proved method", method),
        bar("with the search", made),
        Bar { name: "sum of distances", moves: mean_distances(orders), steps: None },
    ]
}

/// A grid's bars, the longest 360 units long; the steps are told beside them.
fn panel(title: &str, bars: &[Bar; 4], top: usize) -> String {
    let most = bars.iter().map(|bar| bar.moves).fold(1.0, f64::max);
    let mut text = format!("<text x=\"20\" y=\"{}\" font-weight=\"bold\">{title}</text>\n", top + 30);
    for (bar, row) in bars.iter().zip(0..) {
        let y = top + 44 + 34 * row;
        let width = 360.0 * bar.moves / most;
        let steps = bar.steps.map_or(String::new(), |steps| format!(", {steps:.0} steps"));
        text += &format!(
            "<text x=\"20\" y=\"{}\">{}</text>\n\
             <rect x=\"140\" y=\"{y}\" width=\"{width:.1}\" height=\"22\" fill=\"#2b6cb0\"/>\n\
             <text x=\"{:.1}\" y=\"{}\">{:.0} moves{steps}</text>\n",
            y + 16,
            bar.name,
            146.0 + width,
            y + 16,
            bar.moves
        );
    }
    text
}

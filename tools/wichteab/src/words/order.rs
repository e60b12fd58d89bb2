//! 10 to 14, of orders, and 50 to 52 with 14, of short orders.

use super::{counted, positions, Given};
use crate::records::{order_counts, packed_length, Order, ShortOrder};
use crate::text::grid_edges;

/// What words speak of, so that a text's line can be told.
#[derive(Clone, Copy, PartialEq, Eq, Debug)]
pub enum Named {
    /// The edge of this index in the record.
    Edge(usize),
    /// The rack of this number.
    Rack(usize),
}

type Meaning = Option<(String, Option<Named>)>;

pub fn meaning(number: u8, order: &[u8]) -> Meaning {
    let alone = |words| Some((words, None));
    let length = counted(order.len(), "byte");
    if order.len() < 3 {
        return (number == 10).then(|| (format!("the order has {length}; its counts alone take 3"), None));
    }
    let (n, e, m) = order_counts(order);
    let whole = 3 + packed_length(e + m);
    match number {
        10 => {
            let (e, m) = (counted(e, "edge"), counted(m, "rack"));
            alone(format!("the order has {length}; its length for {e} and {m} is {whole}"))
        }
        _ if order.len() != whole => None,
        11 => alone(format!("the order has {}; a floor has 1 to 64", counted(n, "position"))),
        12 if order[2] & 3 != 0 => alone("a spare bit is set in byte 3 of the order".into()),
        12 => alone(format!("a pad bit is set in the last byte of the order, byte {}", order.len())),
        13 => edge_meaning(&Order::of_record(order)),
        14 => {
            let Order { positions, starts, goals, .. } = Order::of_record(order);
            rack_meaning(positions, &starts, &goals)
        }
        _ => None,
    }
}

/// The first edge that breaks a rule.
fn edge_meaning(order: &Order) -> Meaning {
    let n = order.positions;
    (0..order.edges.len()).find_map(|index| {
        let (a, b) = order.edges[index];
        let before = index.checked_sub(1).map(|index| order.edges[index]);
        let what = match before {
            _ if a >= n || b >= n => positions(n),
            _ if a == b => "an edge joins two positions".into(),
            _ if a > b => "the lower position comes first".into(),
            Some(before) if before == (a, b) => "the edge before it is the same".into(),
            Some((c, d)) if (c, d) > (a, b) => format!("the edge before it is {c}-{d}, and edges ascend"),
            _ => return None,
        };
        Some((format!("edge {} is {a}-{b}; {what}", index + 1), Some(Named::Edge(index))))
    })
}

/// The first rack whose start or goal breaks a rule.
fn rack_meaning(n: usize, starts: &[usize], goals: &[usize]) -> Meaning {
    let off = |list: &[usize], what: &str| {
        let index = list.iter().position(|&place| place >= n)?;
        let words = format!("rack {} {what} {}; {}", index + 1, list[index], positions(n));
        Some((words, Some(Named::Rack(index + 1))))
    };
    let shared = |list: &[usize], what: &str| {
        let second = (0..list.len()).find(|&index| list[..index].contains(&list[index]))?;
        let first = list.iter().position(|place| *place == list[second])?;
        let words = format!("racks {} and {} {what} {}", first + 1, second + 1, list[second]);
        Some((words, Some(Named::Rack(second + 1))))
    };
    off(starts, "starts at")
        .or_else(|| shared(starts, "both start at"))
        .or_else(|| off(goals, "has the goal"))
        .or_else(|| shared(goals, "both have the goal"))
}

/// Rows and columns of the models that are sold, model 1 first.
const MODELS: [(usize, usize); 5] = [(2, 3), (3, 4), (4, 4), (4, 5), (8, 8)];

fn model_size(model: usize) -> Option<(usize, usize)> {
    MODELS.get(model.checked_sub(1)?).copied()
}

pub fn short_meaning(number: u8, given: &Given) -> Option<String> {
    let short = given.short_order?;
    let length = counted(short.len(), "byte");
    if short.len() < 2 {
        return (number == 50).then(|| format!("the short order has {length}; its model and count take 2"));
    }
    let racks = usize::from(short[1] >> 1);
    let whole = 2 + packed_length(racks);
    match number {
        50 if short.len() != whole => Some(format!(
            "the short order has {length}; its length for {} is {whole}",
            counted(racks, "rack")
        )),
        _ if short.len() != whole => None,
        50 if short[1] & 1 == 1 => Some("the spare bit is set in byte 2 of the short order".into()),
        50 => Some(format!("a pad bit is set in the last byte of the short order, byte {}", short.len())),
        51 => Some(format!("model {} is not sold; models are 1 to {}", short[0], MODELS.len())),
        14 => Some(short_rack_meaning(short)?.0),
        52 => {
            let (rows, columns) = model_size(usize::from(short[0]))?;
            let whole = 3 + packed_length(grid_edges(rows, columns).len() + racks);
            Some(format!("the order buffer has {}; the order takes {whole}", counted(given.buffer?, "byte")))
        }
        _ => None,
    }
}

fn short_rack_meaning(short: &[u8]) -> Meaning {
    let ShortOrder { model, starts, goals } = ShortOrder::of_record(short);
    let (rows, columns) = model_size(model)?;
    rack_meaning(rows * columns, &starts, &goals)
}

/// The rack that a refused short order's words speak of.
pub fn short_named(number: u8, short: &[u8]) -> Option<Named> {
    match number {
        14 => short_rack_meaning(short)?.1,
        _ => None,
    }
}

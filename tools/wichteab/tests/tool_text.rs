//! The text form of orders: there and back on random records, what a person may write, and what is turned away. What
//! the text of a record has to be is written here a second time, from docs/TEXT.md.

use compare::floors;
use compare::orders;
use compare::random::Random;
use compare::write::{self, ShortOrder};
use wichteab_tool::input::{begins_as_text, form, Form};
use wichteab_tool::library;
use wichteab_tool::records::{self, Order};
use wichteab_tool::text::{self, Written};

const CASES: usize = 100_000;

/// The racks of the canonical text.
fn racks(starts: &[u8], goals: &[u8]) -> String {
    (0..starts.len())
        .map(|rack| format!("rack {}: {} -> {}\n", rack + 1, starts[rack], goals[rack]))
        .collect()
}

/// The canonical text of an order, from its fields.
fn canonical(order: &write::Order) -> String {
    let mut text = format!("positions {}\n", order.n);
    for (index, (a, b)) in order.edges.iter().enumerate() {
        text += if index % 10 == 0 { "edges " } else { " " };
        text += &format!("{a}-{b}");
        if index % 10 == 9 || index + 1 == order.edges.len() {
            text += "\n";
        }
    }
    let is_grid =
        |rows: &usize| order.n % rows == 0 && floors::grid(*rows, order.n / rows).edges == order.edges;
    if let Some(rows) = (1..=order.n).find(is_grid) {
        text = format!("floor {rows}x{}\n", order.n / rows);
    }
    text + &racks(&order.starts, &order.goals)
}

fn record_of(text: &str) -> Vec<u8> {
    match text::read(text).expect(text).0 {
        Written::Full(order) => order.record(),
        Written::Short(order) => order.record(),
    }
}

#[test]
fn records_there_and_back() {
    let mut random = Random::new(1);
    for _ in 0..CASES {
        let order = orders::random_order(&mut random);
        let record = order.record();
        assert_eq!(library::order_check(&record), Ok(()));
        let shown = text::write(&Order::of_record(&record));
        assert_eq!(shown, canonical(&order));
        assert_eq!(record_of(&shown), record, "{shown}");
        assert_eq!(form(&record), Form::Record);
        assert_eq!(form(shown.as_bytes()), Form::Text);
    }
}

#[test]
fn grids_there_and_back() {
    let mut random = Random::new(2);
    for rows in 1..=64 {
        for columns in 1..=64 / rows {
            let floor = floors::grid(rows, columns);
            let order = orders::order_on(&mut random, &floor, rows * columns / 2);
            let shown = text::write(&Order::of_record(&order.record()));
            let (fewest, other) = if columns == 1 { (1, rows) } else { (rows, columns) };
            assert!(shown.starts_with(&format!("floor {fewest}x{other}\n")), "{shown}");
            let own_name =
                shown.replacen(&format!("floor {fewest}x{other}\n"), &format!("floor {rows}x{columns}\n"), 1);
            assert_eq!(record_of(&own_name), order.record());
        }
    }
}

#[test]
fn short_orders_there_and_back() {
    let mut random = Random::new(3);
    for _ in 0..CASES {
        let model = random.between(1, 5) as u8;
        let (rows, columns) = second::models::size(model).expect("it is sold");
        let m = orders::random_rack_count(&mut random, rows * columns);
        let (starts, goals) = (random.distinct(m, rows * columns), random.distinct(m, rows * columns));
        let short = ShortOrder { model, starts, goals, spare: 0, pad: 0 };
        let record = short.record();
        let shown = text::write_short(&records::ShortOrder::of_record(&record));
        assert_eq!(shown, format!("model {model}\n") + &racks(&short.starts, &short.goals));
        assert_eq!(record_of(&shown), record, "{shown}");
        assert_eq!(form(&record), Form::Short);
    }
}

/// The order of "Programs" in document 01.
const WORKED: [u8; 14] = [8, 10, 8, 0, 16, 2, 4, 32, 67, 8, 48, 3, 12, 0];

#[test]
fn what_a_person_may_write() {
    let texts = [
        "positions 4\nedges 0-1 0-2 1-2 1-3 2-3\nrack 1: 0 -> 3\nrack 2: 3 -> 0\n",
        "positions 4\nedges 0-1 0-2 1-2 1-3 2-3\nrack 1: 0 -> 3\nrack 2: 3 -> 0",
        "# the floor F\n\npositions 4 # four\nedges 3-2 1-0\nedges 2 - 1  2-0\n\track 2:3->0\nedges 1-3\nrack 1 :0 -> 3",
        "positions 4\r\nedges 0-1 0-2 1-2 1-3 2-3\r\nrack 1: 0 -> 3\r\nrack 2: 3 -> 0\r\n",
        "\u{FEFF}  positions 04\n#größer wird's nicht\nedges 0-1 0-2 1-2 1-3 2-3\nrack 1: 0 -> 3\nrack 2: 3 -> 0\n",
    ];
    for text in texts {
        assert_eq!(record_of(text), WORKED, "{text}");
        assert_eq!(form(text.as_bytes()), Form::Text, "{text}");
    }
}

/// `floor` and `model` name the same floors as request (a): positions row by row, edges between side neighbours.
#[test]
fn floors_and_models() {
    for (model, (rows, columns)) in [(1, (2, 3)), (2, (3, 4)), (3, (4, 4)), (4, (4, 5)), (5, (8, 8))] {
        let short = record_of(&format!("model {model}\nrack 1: 0 -> 5\n"));
        let full = record_of(&format!("floor {rows} x {columns}\nrack 1: 0 -> 5\n"));
        assert_eq!(second::models::expand(&short, 576), Ok(full));
    }
}

/// A text, the line and the column of what is wrong, and what is expected there.
const TURNED_AWAY: [(&str, usize, usize, &str); 32] = [
    ("", 1, 1, "`floor`, `model` or `positions`; found the end of the text"),
    ("# nothing\n\n", 3, 1, "`floor`, `model` or `positions`; found the end of the text"),
    ("rack 1: 0 -> 3\n", 1, 1, "`floor`, `model` or `positions`; found `rack`"),
    ("\n  flor 4x4\n", 2, 3, "`floor`, `model` or `positions`; found `flor`"),
    ("16 positions", 1, 1, "`floor`, `model` or `positions`; found `16`"),
    ("floor 4x4\nfloor 4x4\n", 2, 1, "`rack`; found `floor`"),
    ("floor 4\n", 1, 8, "`x` and the floor's columns; found the end of the line"),
    ("floor 4y4\n", 1, 8, "`x` and the floor's columns; found `y`"),
    ("floor x4\n", 1, 7, "the floor's rows, from 1 to 64; found `x`"),
    ("floor 9x8\n", 1, 7, "rows times columns of at most 64"),
    ("floor 4x4\nedges 0-5\n", 2, 1, "`rack`; found `edges`"),
    ("floor 4x4\nrack 1: 0 -> 15 16\n", 2, 17, "the end of the line; found `16`"),
    ("floor 4x4\nrack 1: 0 > 15\n", 2, 11, "`->` and the rack's goal; found `>`"),
    ("floor 4x4\nrack 1: 0 - 15\n", 2, 11, "`->` and the rack's goal; found `-`"),
    ("floor 4x4\nrack 1 0 -> 15\n", 2, 8, "`:` after the rack's number; found `0`"),
    ("floor 4x4\nrack 1: 0 -> # 15\n", 2, 13, "a position, from 0 to 63; found the end of the line"),
    ("floor 4x4\nrack 1: 0 -> 64\n", 2, 14, "a position, from 0 to 63; found `64`"),
    ("floor 4x4\nrack 1: -1 -> 6\n", 2, 9, "a position, from 0 to 63; found `-`"),
    ("floor 4x4\nrack 0: 0 -> 1\n", 2, 6, "a rack's number, from 1"),
    ("floor 4x4\nrack 128: 0 -> 1\n", 2, 6, "a rack's number, from 1; found `128`"),
    ("floor 4x4\nrack 1: 0 -> 1\nrack 1: 2 -> 2\n", 3, 6, "another rack: line 2 has rack 1 already"),
    (
        "positions 4\nrack 1: 0 -> 1\nrack 3: 2 -> 2\n",
        3,
        6,
        "rack 2: racks are numbered from 1 without a gap",
    ),
    ("floor 4x4\nrock 1: 0 -> 1\n", 2, 1, "`rack`; found `rock`"),
    ("positions 4\nrock 1: 0 -> 1\n", 2, 1, "`rack` or `edges`; found `rock`"),
    ("positions 4\npositions 5\n", 2, 1, "`rack` or `edges`; found `positions`"),
    ("model 256\n", 1, 7, "a model's number, from 1 to 5; found `256`"),
    ("positions 128\n", 1, 11, "how many positions the floor has, from 1 to 64; found `128`"),
    ("positions 4\nedges\n", 2, 6, "a position, from 0 to 63; found the end of the line"),
    (
        "positions 4\nedges 0-1 2\n",
        2,
        12,
        "`-` and the other position of the edge; found the end of the line",
    ),
    ("positions 4\nedges 0-1, 2-3\n", 2, 10, "a position, from 0 to 63; found `,`"),
    ("positions 99999999999999999999\n", 1, 11, "how many positions the floor has, from 1 to 64; found"),
    ("# größer\nfloor 4x4\nräck 1: 0 -> 1\n", 3, 1, "`rack`; found `r`"),
];

fn turned_away(text: &str, line: usize, column: usize, expected: &str) {
    let error = text::read(text).expect_err(text);
    assert_eq!((error.line, error.column), (line, column), "{text}{error:?}");
    assert!(error.expected.starts_with(expected), "{text}{error:?}");
}

#[test]
fn what_is_expected_and_where() {
    for (text, line, column, expected) in TURNED_AWAY {
        turned_away(text, line, column, expected);
    }
    let edge = |index| format!("{}-{}", index / 16, 16 + index % 16);
    let edges: String = (0..255).map(|index| format!(" {}", edge(index))).collect();
    assert!(text::read(&format!("positions 64\nedges{edges}\n")).is_ok());
    let more = format!("positions 64\nedges{edges} 40-41\n");
    turned_away(&more, 2, "edges".len() + edges.len() + 2, "at most 255 edges");
}

/// What the parser lets through the library judges: 11, 13 and 14 are met by texts too.
#[test]
fn what_the_library_has_to_judge() {
    let cases = [
        ("positions 0\n", 11),
        ("positions 65\n", 11),
        ("floor 0x4\n", 11),
        ("positions 4\nedges 1-1\n", 13),
        ("positions 4\nedges 0-1 1-0\n", 13),
        ("positions 4\nedges 0-4\n", 13),
        ("positions 4\nrack 1: 0 -> 4\n", 14),
        ("positions 4\nrack 1: 0 -> 1\nrack 2: 0 -> 2\n", 14),
    ];
    for (text, number) in cases {
        let record = record_of(text);
        assert_eq!(second::order::check(&record).expect_err(text).number, number, "{text}");
        assert_eq!(library::order_check(&record).expect_err(text).number, number, "{text}");
    }
}

/// The orders that docs/TEXT.md shows, each an indented block, are accepted.
#[test]
fn the_page_s_examples() {
    let page = concat!(env!("CARGO_MANIFEST_DIR"), "/../../docs/TEXT.md");
    let page = std::fs::read_to_string(page).expect("it is there");
    let indented = |block: &&str| block.starts_with("    ") && begins_as_text(block.as_bytes());
    let texts: Vec<&str> = page.split("\n\n").filter(indented).collect();
    assert_eq!(texts.len(), 3);
    let records: Vec<Vec<u8>> = texts.into_iter().map(record_of).collect();
    assert_eq!(records[0], record_of("floor 4x4\nrack 1: 0 -> 15\nrack 2: 5 -> 5\n"));
    assert_eq!(records[1], WORKED);
    assert!(second::models::expand(&records[2], 576).is_ok());
}

/// Whether these bytes may be the beginning of something that begins as text.
fn may_begin_text(bytes: &[u8]) -> bool {
    let rest = bytes.trim_ascii_start();
    let control = |byte: &u8| *byte < 0x20 && !b"\t\n\r".contains(byte) || *byte == 0x7F;
    let words: [&[u8]; 3] = [b"floor", b"model", b"positions"];
    let word = |word: &&[u8]| rest.starts_with(word) || word.starts_with(rest);
    (rest.is_empty() || rest[0] == b'#' || words.iter().any(word)) && !bytes.iter().any(control)
}

/// No accepted order can be taken for a text. Every head that passes 11, 12 and the counts of a floor is tried, and
/// behind the few that may begin a text every first edge.
#[test]
fn no_order_begins_as_text() {
    let mut left = 0;
    for head in 0..1u32 << 24 {
        let (n, e, m) = (head >> 17, head >> 9 & 255, head >> 2 & 127);
        let bytes = head.to_be_bytes();
        if !(1..=64).contains(&n)
            || head & 3 != 0
            || m > n
            || e > n * (n - 1) / 2
            || !may_begin_text(&bytes[1..])
        {
            continue;
        }
        left += 1;
        assert!(e > 0, "such an order ends behind its head and its racks");
        for (a, b) in (0..n).flat_map(|a| (a + 1..n).map(move |b| (a, b))) {
            // every edge of the order has a lower position of a or more
            if e > (n - a) * (n - a - 1) / 2 {
                continue;
            }
            for next in 0..64u32 {
                let edge = ((a << 10 | b << 4 | next >> 2) as u16).to_be_bytes();
                assert!(!may_begin_text(&[&bytes[1..], &edge].concat()), "{n} {e} {m} {a}-{b} {next}");
            }
        }
    }
    assert!(left > 0, "the second part was not tried");
    // a byte order mark would be more than 64 positions
    assert!("\u{FEFF}".as_bytes()[0] >> 1 > 64);
}

/// No accepted short order is an accepted order: with the same head they would have other lengths.
#[test]
fn no_order_is_a_short_order() {
    for model in 1..=5u8 {
        for m in 0..=64usize {
            let short_length = 2 + (12 * m).div_ceil(8);
            for third in 0..=255u8 {
                let head = [model, (m << 1) as u8, third];
                let (n, e, racks) = records::order_counts(&head);
                let length = 3 + (12 * (e + racks)).div_ceil(8);
                let sound = (1..=64).contains(&n) && racks <= n && e <= n * (n - 1) / 2;
                assert!(!sound || length != short_length, "{head:?}");
            }
        }
    }
    assert!(!begins_as_text(&[1, 0]));
}

//! Exit statuses and what standard error says: command line, standard input, and the words, one case each.

mod running;

use running::{number_told, tool};

const ORDER: &str = "examples/casebook.order";
const SOUND: &str = "floor 4x4\nrack 1: 0 -> 15\n";

/// Accepted: status 0, something on standard output, nothing on standard error.
fn accepted(words: &str, input: &str) {
    let run = tool(&words.split(' ').collect::<Vec<_>>(), input.as_bytes());
    assert_eq!((run.status, run.errors.as_str()), (0, ""), "{words}");
    assert!(!run.out.is_empty(), "{words}");
}

/// Refused: status 1, nothing on standard output, these words on standard error.
fn refused(words: &str, input: impl AsRef<[u8]>, said: &str) {
    let run = tool(&words.split(' ').collect::<Vec<_>>(), input.as_ref());
    assert_eq!((run.status, run.errors), (1, format!("{said}\n")), "{words}");
    assert!(run.out.is_empty(), "{words}");
}

/// Wrong use: status 2, nothing on standard output, and these words begin what standard error has.
fn wrong_use(words: &str, input: &str, said: &str) {
    let run = tool(&words.split(' ').collect::<Vec<_>>(), input.as_bytes());
    assert_eq!((run.status, run.out.len()), (2, 0), "{words}");
    assert!(run.errors.starts_with(&format!("wichteab: {said}")), "{words}: {}", run.errors);
}

#[test]
fn status_0() {
    for words in ["check", "check --floor", "order", "show", "plan", "timetable", "carry", "picture", "play"]
    {
        accepted(words, SOUND);
        accepted(&format!("{words} -"), SOUND);
        accepted(&format!("{words} {ORDER}"), "");
        accepted(&format!("{words} --from record {ORDER}"), "");
        accepted(&format!("{words} --help"), "");
    }
    accepted("season", "");
    accepted("--help", "");
    accepted("-h", "");
    accepted("help", "");
    accepted("--version", "");
}

#[test]
fn status_1_with_the_words_of_a_refusal() {
    let path = "floor 1x4\nrack 1: 0 -> 3\n";
    refused("check --floor", path, "refused 21: without position 1 no way leads from 0 to 2");
    refused("plan", "", "refused 10: the order has 0 bytes; its counts alone take 3");
    let counts = "its length for 54 edges and 27 racks is 125";
    refused("plan --from record", "floor 4x4\n", &format!("refused 10: the order has 10 bytes; {counts}"));
    refused(&format!("check {ORDER} -"), "\0\0\x04\0\0", "refused 32 at move 1: no edge joins 0 and 0");
    refused(&format!("check {ORDER} -"), "\0\0\x04\0", "refused 43: rack 1 stands at 0, its goal is 3");
    let both = "as a plan refused 30: the plan has 2 bytes; its count alone takes 3\n\
                as a timetable refused 40: the timetable has 2 bytes; its count alone takes 3";
    refused(&format!("check {ORDER} -"), "\0\0", both);
    let short = "refused 30: the plan has 2 bytes; its count alone takes 3";
    refused(&format!("check --plan {ORDER} -"), "\0\0", short);
}

#[test]
fn status_1_with_the_line_of_a_text() {
    let off =
        "refused 14: rack 1 has the goal 16; the floor's positions are 0 to 15 (standard input, line 2)";
    refused("check", "floor 4x4\nrack 1: 0 -> 16\n", off);
    let off = "refused 14: rack 1 has the goal 6; the floor's positions are 0 to 5 (standard input, line 3)";
    refused("check", "model 1\n\nrack 1: 0 -> 6\n", off);
    let twice = "refused 13: edge 2 is 0-1; the edge before it is the same (standard input, line 3)";
    refused("plan", "positions 4\nedges 0-1 2-3\nedges 1-0\n", twice);
    let shared = "refused 14: racks 1 and 2 both start at 0 (standard input, line 2)";
    refused("plan", "floor 4x4\nrack 2: 0 -> 2\nrack 1: 0 -> 1\n", shared);
}

#[test]
fn status_1_with_line_and_column() {
    let number = "standard input:2:14: expected a position, from 0 to 63; found `x`";
    refused("plan", "floor 4x4\nrack 1: 0 -> x\n", number);
    let first = "standard input:1:1: expected `floor`, `model` or `positions`; found";
    refused("plan", "flor 4x4\n", &format!("{first} `flor`"));
    refused("show --from text order", "flor 4x4\n", &format!("{first} `flor`"));
    refused("plan --from text", "", &format!("{first} the end of the text"));
    let bytes = "standard input:1:1: expected `floor`, `model` or `positions`; found `\\0`";
    refused("plan --from text", "\0", bytes);
    let encoding = "standard input:2:5: expected text in UTF-8";
    refused("plan", b"floor 4x4\n# \xC3\xB6 \xFF\n", encoding);
}

#[test]
fn status_2() {
    wrong_use("paln", "", "no subcommand paln\nusage: wichteab SUBCOMMAND");
    wrong_use("plan --edition 3", SOUND, "--edition takes one of 1, 2, not 3\n");
    wrong_use("plan --editions", SOUND, "no option --editions here; see --help\n");
    wrong_use("season --text", "", "no option --text here; see --help\n");
    wrong_use("plan -o", SOUND, "-o takes a value, FILE\n");
    wrong_use("plan --text=yes", SOUND, "--text takes no value\n");
    wrong_use("plan examples/none", "", "cannot read examples/none: ");
    wrong_use("plan -o examples/none/plan", SOUND, "cannot write examples/none/plan: ");
    wrong_use("plan one two", "", "2 files given\nusage: wichteab plan [OPTIONS] [ORDER]\n");
    wrong_use(
        &format!("shorten {ORDER}"),
        "",
        "1 files given\nusage: wichteab shorten [OPTIONS] ORDER PLAN\n",
    );
    wrong_use("check - -", SOUND, "standard input can be read once\n");
    wrong_use("check --plan", SOUND, "--plan and --timetable are of a second file\n");
    let both = format!("check --plan --timetable {ORDER} examples/casebook.plan");
    wrong_use(&both, "", "--plan or --timetable, not both\n");
    wrong_use("show", "\0\0\0", "say what standard input is: show order|short|plan|timetable|season\n");
    wrong_use(
        "show plane x",
        "",
        "plane is no kind of record; kinds are order, short, plan, timetable, season\n",
    );
    wrong_use("show timetable --step one", "\0\0\0", "--step takes a number, not one\n");
    wrong_use(&format!("order --to short {ORDER}"), "", "examples/casebook.order names no model");
    assert_eq!(tool(&[], b"").status, 2);
}

/// A record on F, rack 1 from 0 to 3 and rack 2 from 3 to 0: where a move or step is told with its number, after it.
const ON_F: [(&str, &[u8], &str); 13] = [
    ("check --plan", &[0, 0], "30"),
    ("convert", &[0, 0, 2], "31"),
    ("shorten", &[0, 0, 4, 0, 0x30], "32 at move 1"),
    ("timetable", &[0, 0, 0], "33"),
    ("check", &[0, 0, 4, 4, 0x20], "34 at move 1"),
    ("play", &[0, 0, 8, 0, 0x10, 0x43], "35 at move 2"),
    ("show plan --order", &[0, 0, 5, 0, 0x10, 0x40], "36 at move 1"),
    ("check --timetable", &[0, 0], "40"),
    ("play --timetable", &[0, 0, 1], "41"),
    ("check", &[0, 0, 4, 1, 0, 0x30], "42 at step 1"),
    ("check", &[0, 0, 4, 0], "43"),
    ("show timetable --step 2", &[0, 0, 4, 0], "45"),
    ("show timetable --step 0", &[0, 0, 4, 0], "45"),
];

/// The other numbers that the tool can meet. Buffers are never too short here, and no floor is live.
const OTHERS: [(&str, &[u8], u8); 17] = [
    ("order", &[8, 10], 10),
    ("plan", b"positions 65\n", 11),
    ("check", &[6, 0, 1], 12),
    ("carry", b"positions 4\nedges 0-0\n", 13),
    ("picture", b"positions 4\nrack 1: 0 -> 4\n", 14),
    ("plan", b"floor 1x3\nrack 1: 0 -> 0\nrack 2: 1 -> 1\n", 20),
    ("plan", b"floor 1x4\n", 21),
    ("one-vacancy", b"floor 1x2\nrack 1: 0 -> 0\n", 21),
    (
        "timetable",
        b"positions 4\nedges 0-1 1-2 2-3 3-0\nrack 1: 0 -> 1\nrack 2: 1 -> 0\nrack 3: 2 -> 2\n",
        24,
    ),
    ("play", b"positions 6\nedges 0-1 0-2 0-3 0-4 0-5 1-2 2-3 3-4 4-5 5-1\n", 26),
    ("carry", b"positions 2\n", 27),
    ("one-vacancy", b"floor 2x3\n", 29),
    ("season", &[2, 0, 0, 0, 0], 46),
    ("show season", &[2, 0], 46),
    ("order", &[1, 0, 0], 50),
    ("show short", &[2, 1], 50),
    ("order --from short", &[6, 0], 51),
];

#[test]
fn every_number_that_the_tool_meets() {
    for (words, record, told) in ON_F {
        // `show timetable` takes no order; the others take it before the record
        let words: Vec<&str> = words.split(' ').collect();
        let order = if words[1..].contains(&"timetable") { None } else { Some(ORDER) };
        let run = tool(&[words, order.into_iter().collect(), vec!["-"]].concat(), record);
        assert!(run.errors.starts_with(&format!("refused {told}: ")), "{told}: {}", run.errors);
        assert_eq!(run.status, 1, "{told}");
    }
    for (words, input, number) in OTHERS {
        let run = tool(&words.split(' ').collect::<Vec<_>>(), input);
        assert_eq!(number_told(&run), number, "{words}");
    }
    let pair = [2, 0, 0, 0, 0, 0];
    assert_eq!(number_told(&tool(&["season"], &pair.repeat(65_536))), 47);
}

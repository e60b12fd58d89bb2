//! The tool as a person runs it: the command line in, files, standard output and the exit status out. What it has to
//! write comes from document 01 and from the second implementation.

mod running;

use compare::random::Random;
use compare::write::{Edition, Order, Plan};
use compare::{cancelling, orders, plans, seasons, timetables};
use running::{number_told, search_path, tool, top, Folder};
use std::fs;
use std::path::Path;
use std::process::Command;
use wichteab_tool::commands::{COMMANDS, VERSION};

/// Order, plan and timetable of "Programs" and case 1 in document 01, and the plan in edition two, of request (h).
const ORDER: [u8; 14] = [8, 10, 8, 0, 16, 2, 4, 32, 67, 8, 48, 3, 12, 0];
const PLAN: [u8; 9] = [0, 0, 0x10, 0, 0x10, 0xC2, 8, 0, 0x43];
const PLAN_TWO: [u8; 12] = [0, 0, 0x11, 0, 0x10, 3, 8, 0x10, 0x80, 4, 0x10, 0xC0];
const TIMETABLE: [u8; 11] = [0, 0, 8, 2, 0, 0x10, 0xC2, 2, 4, 0x30, 0x80];
const TEXT: &str = "positions 4\nedges 0-1 0-2 1-2 1-3 2-3\nrack 1: 0 -> 3\nrack 2: 3 -> 0\n";
const PRINTED: &str = "steps 2 moves 4\n1 0>1 3>2\n2 1>3 2>0\n";

#[test]
fn the_worked_example() {
    let folder = Folder::new("worked");
    let order = folder.file("order.text", TEXT.as_bytes());
    let record = folder.file("order", &ORDER);
    let plan = folder.file("plan", &PLAN);
    let two = folder.file("two", &PLAN_TWO);
    let timetable = folder.file("timetable", &TIMETABLE);
    assert_eq!(tool(&["order", &order], b"").out, ORDER);
    assert_eq!(tool(&["show", &record], b"").text(), TEXT);
    for order in [&order, &record] {
        assert_eq!(tool(&["timetable", order, &plan], b"").out, TIMETABLE);
        assert_eq!(tool(&["timetable", "--text", order, &two], b"").text(), PRINTED);
        assert_eq!(tool(&["convert", order, &plan], b"").out, PLAN_TWO);
        assert_eq!(tool(&["convert", order, &two], b"").out, PLAN);
        assert_eq!(tool(&["convert", "--edition", "1", order, &plan], b"").out, PLAN);
        assert_eq!(tool(&["convert", "--edition=2", order, &plan], b"").out, PLAN_TWO);
        assert_eq!(tool(&["shorten", order, &plan], b"").out, PLAN);
        assert_eq!(tool(&["check", order, &plan], b"").text(), "accepted: plan, moves 4\n");
        assert_eq!(tool(&["check", order, &timetable], b"").text(), "accepted: timetable, steps 2 moves 4\n");
    }
    assert_eq!(tool(&["show", &timetable], b"").text(), PRINTED);
    let with_racks = "1 0>1 rack 1\n2 3>2 rack 2\n3 2>0 rack 2\n4 1>3 rack 1\n";
    assert_eq!(tool(&["show", "plan", &two], b"").text(), format!("moves 4 edition 2\n{with_racks}"));
    assert_eq!(tool(&["show", "plan", &plan], b"").text(), "moves 4 edition 1\n1 0>1\n2 3>2\n3 2>0\n4 1>3\n");
    let shown = tool(&["show", "plan", "--order", &order, &plan], b"");
    assert_eq!(shown.text(), format!("moves 4 edition 1\n{with_racks}"));
    assert_eq!(tool(&["show", "timetable", "--step", "2", &timetable], b"").text(), "2 1>3 2>0\n");
}

/// The examples that examples/run.expected has, by the tool.
#[test]
fn the_examples_of_the_readme() {
    let ring = tool(&["timetable", "-t", "examples/ring_of_ten.order"], b"");
    assert_eq!(ring.text(), "steps 2 moves 9\n1 1>2 2>3 3>4 4>5 5>6 6>7 7>8 8>9\n2 0>1\n");
    let depot = tool(&["timetable", "-t", "examples/depot.short"], b"");
    assert!(depot.text().starts_with("steps 3 moves 7\n1 5>6 6>7 7>11\n"), "{}", depot.text());
    let expected = fs::read_to_string(top().join("examples/run.expected")).expect("it is there");
    assert!(expected.contains(ring.text()) && expected.contains(depot.text()));
    let four = tool(
        &["check", "examples/four_by_four.order", "-"],
        &tool(&["plan", "examples/four_by_four.order"], b"").out,
    );
    assert_eq!(four.text(), "accepted: plan, moves 12\n");
}

/// The largest floor, 8 by 8 with 62 racks, which the plan program cannot plan.
#[test]
fn sixty_four_positions() {
    let racks: String =
        (1..=62).map(|rack| format!("rack {rack}: {} -> {}\n", rack - 1, (rack * 37) % 64)).collect();
    let text = format!("model 5\n{racks}");
    let order = tool(&["order"], text.as_bytes()).out;
    let plan = tool(&["plan"], text.as_bytes());
    let moves = second::plan::check(&order, &plan.out).expect("it is accepted");
    assert!(moves > 300, "{moves}");
    let timetable = tool(&["timetable"], text.as_bytes());
    let counts = second::timetable::check(&order, &timetable.out).expect("it is accepted");
    assert_eq!(counts.moves, moves);
    let one = tool(&["plan", "--edition", "1", "--from", "record"], &order);
    assert_eq!(second::plan::check(&order, &one.out), Ok(moves));
    assert_eq!(one.out[2] & 3, 0);
}

/// What the tool makes of the bytes as an order's record.
fn of_record(word: &str, record: &[u8]) -> running::Run {
    tool(&[word, "--from", "record"], record)
}

/// Whether the order was planned; plan and timetable are the second implementation's to judge.
fn plans_as_the_second(record: &[u8]) -> bool {
    let (plan, timetable) = (of_record("plan", record), of_record("timetable", record));
    if let Err(refusal) = second::floor::check(record) {
        assert_eq!(number_told(&plan), refusal.number);
        assert_eq!(number_told(&timetable), refusal.number);
        return false;
    }
    assert_eq!(plan.status, 0, "{}", plan.errors);
    assert!(second::plan::check(record, &plan.out).is_ok());
    let mut buffer = vec![0; 3 * plan.out.len() + 3];
    second::making::make(record, &plan.out, &mut buffer).expect("it is made");
    buffer.truncate(second::timetable::length(&buffer).expect("it is whole"));
    assert_eq!(timetable.out, buffer);
    true
}

fn answers_as_the_second(record: &[u8]) {
    match second::order::check(record) {
        Ok(_) => assert_eq!(of_record("order", record).out, record),
        Err(refusal) => assert_eq!(number_told(&of_record("order", record)), refusal.number),
    }
    let answered = of_record("one-vacancy", record);
    match second::vacancy::check(record) {
        Ok(second::vacancy::Judgement::Impossible) => assert_eq!(answered.text(), "impossible\n"),
        Ok(second::vacancy::Judgement::NotJudged) => assert_eq!(answered.text(), "not judged\n"),
        Err(refusal) => assert_eq!(number_told(&answered), refusal.number),
    }
    let carried = of_record("carry", record);
    match second::carry::find(record, &mut [0; 1024]) {
        Ok(carry) => {
            let second::carry::Carry { start, goal, moves } = carry;
            assert!(carried
                .text()
                .starts_with(&format!("from {start} to {goal}\nmoves {moves} edition 2\n")));
        }
        Err(refusal) => assert_eq!(number_told(&carried), refusal.number),
    }
}

#[test]
fn random_orders_against_the_second_implementation() {
    let mut random = Random::new(11);
    let mut planned = 0;
    for _ in 0..150 {
        let order = orders::random_order(&mut random);
        let record = match random.one_in(3) {
            true => orders::damaged_often(&mut random, &order),
            false => order.record(),
        };
        answers_as_the_second(&record);
        planned += usize::from(plans_as_the_second(&record));
    }
    assert!(planned > 10, "{planned}");
}

#[test]
fn random_plans_against_the_second_implementation() {
    let mut random = Random::new(12);
    let folder = Folder::new("plans");
    for _ in 0..120 {
        let (_, case) = plans::random_case(&mut random);
        let order = folder.file("order", &case.order);
        let on = |word, option| tool(&[word, option, "--from=record", &order, "-"], &case.record);
        let judged = second::plan::check(&case.order, &case.record);
        let mut buffer = vec![0; 3 * case.record.len() + 64];
        match judged {
            Err(refusal) => {
                assert_eq!(number_told(&on("check", "--plan")), refusal.number);
                assert_eq!(number_told(&on("convert", "--from=record")), refusal.number);
                assert_eq!(number_told(&on("shorten", "--from=record")), refusal.number);
            }
            Ok(moves) => {
                assert_eq!(on("check", "--plan").text(), format!("accepted: plan, moves {moves}\n"));
                second::converting::convert(&case.order, &case.record, &mut buffer).expect("it is accepted");
                let converted = on("convert", "--from=record").out;
                assert_eq!(converted, buffer[..converted.len()]);
                assert_eq!(second::plan::check(&case.order, &converted), Ok(moves));
                let left = second::shortening::shorten(&case.order, &case.record, &mut buffer)
                    .expect("it is accepted");
                let shortened = on("shorten", "--from=record").out;
                assert_eq!(shortened, buffer[..shortened.len()]);
                assert_eq!(second::plan::check(&case.order, &shortened), Ok(left));
            }
        }
    }
}

#[test]
fn random_timetables_against_the_second_implementation() {
    let mut random = Random::new(13);
    let folder = Folder::new("timetables");
    for _ in 0..120 {
        let (_, case) = timetables::random_case(&mut random);
        let order = folder.file("order", &case.order);
        let checked = tool(&["check", "--timetable", "--from=record", &order, "-"], &case.record);
        match second::timetable::check(&case.order, &case.record) {
            Ok(counts) => {
                let expected =
                    format!("accepted: timetable, steps {} moves {}\n", counts.steps, counts.moves);
                assert_eq!(checked.text(), expected);
                assert_eq!(tool(&["check", &order, "-"], &case.record).status, 0);
                assert!(tool(&["play", "--timetable", &order, "-"], &case.record)
                    .text()
                    .contains("<!DOCTYPE html>"));
            }
            Err(refusal) => {
                assert_eq!(number_told(&checked), refusal.number);
                let played = tool(&["play", "--timetable", "--from=record", &order, "-"], &case.record);
                assert_eq!(number_told(&played), refusal.number);
            }
        }
    }
}

#[test]
fn moves_that_cancel_are_taken_out() {
    let order = Order {
        n: 4,
        edges: vec![(0, 1), (0, 2), (1, 2), (1, 3), (2, 3)],
        starts: vec![0],
        goals: vec![1],
        spare: 0,
        pad: 0,
    };
    let plan = Plan::of_moves(&[(0, 2), (2, 0), (0, 1)]).record();
    let folder = Folder::new("cancel");
    let order = folder.file("order", &order.record());
    let shortened = tool(&["shorten", "--text", &order, "-"], &plan);
    assert_eq!(shortened.text(), "moves 1 edition 1\n1 0>1\n");
    // plans made to cancel, by the second implementation's own count
    let mut random = Random::new(14);
    for _ in 0..20 {
        let shape = random.pick(&cancelling::SHAPES);
        let sample = cancelling::random_sample(&mut random, shape);
        let (order, plan) = (sample.order.record(), sample.plan(Edition::Two).record());
        let mut buffer = vec![0; plan.len()];
        let left = second::shortening::shorten(&order, &plan, &mut buffer).expect("it is accepted");
        let order = folder.file("order", &order);
        let shortened = tool(&["shorten", "-t", "--from=record", &order, "-"], &plan);
        assert!(shortened.text().starts_with(&format!("moves {left} edition 2\n")));
    }
}

/// The season program cuts at 65,536 bytes; the tool reads to the end.
#[test]
fn seasons_of_any_length() {
    let mut random = Random::new(15);
    for pairs in [0, 1, 5, 40] {
        let (season, _) = seasons::sound(&mut random, pairs);
        let printed = second::program::season_program(&season);
        if season.len() <= 65_536 {
            assert_eq!(tool(&["season"], &season).text(), printed);
        }
    }
    let pair = [&ORDER[..], &TIMETABLE].concat();
    let long = tool(&["season"], &pair.repeat(10_000));
    assert_eq!(long.text(), "accepted 10000\nrefused 0\nsteps 20000\nmoves 40000\nparallelism 2000\n");
    let cut = tool(&["season"], &pair.repeat(10_000)[..249_990]);
    let words = "refused 46 at pair 10000: the season's 249990 bytes end inside its timetable; the pair begins at byte 249976\n";
    assert_eq!((cut.status, cut.errors.as_str()), (1, words));
    let shown = tool(&["show", "season"], &[&pair[..], &ORDER, &[0, 0, 0]].concat());
    let refused = "refused 43: rack 1 stands at 0, its goal is 3\n";
    assert_eq!(shown.text(), format!("pair 1\n{TEXT}{PRINTED}\npair 2\n{refused}"));
}

/// `impossible` is of the known puzzle: 4 by 4 positions, fifteen racks, two of them exchanged.
#[test]
fn one_vacancy() {
    let goal = |rack| match rack {
        14 => 14,
        15 => 13,
        _ => rack - 1,
    };
    let racks: String =
        (1..=15).map(|rack| format!("rack {rack}: {} -> {}\n", rack - 1, goal(rack))).collect();
    let puzzle = tool(&["one-vacancy"], format!("floor 4x4\n{racks}").as_bytes());
    assert_eq!((puzzle.status, puzzle.text()), (0, "impossible\n"));
    assert_eq!(tool(&["one-vacancy", "examples/ring_of_ten.order"], b"").text(), "not judged\n");
}

#[test]
fn forms_of_an_order() {
    let short = fs::read(top().join("examples/depot.short")).expect("it is there");
    let full = second::models::expand(&short, 576).expect("it is accepted");
    assert_eq!(tool(&["order"], &short).out, full);
    let text = tool(&["show"], &short).out;
    assert!(text.starts_with(b"model 2\nrack 1: 0 -> 0\n"));
    assert_eq!(tool(&["order"], &text).out, full);
    assert_eq!(tool(&["order", "--to", "short"], &text).out, short);
    assert!(tool(&["show", "order"], &short).out.starts_with(b"floor 3x4\nrack 1: 0 -> 0\n"));
    assert_eq!(tool(&["show", "short"], &short).out, text);
    assert_eq!(tool(&["order", "--text", "--to=short"], &short).out, text);
    assert!(tool(&["picture"], &short).text().contains("<svg"));
}

#[test]
fn files_are_written() {
    let folder = Folder::new("written");
    let name = folder.file("made", b"");
    for (words, expected) in [
        (vec!["order", "-o", &name], &ORDER[..]),
        (vec!["order", "--text", "--output", &name], TEXT.as_bytes()),
        (vec!["show", "-o", &name], TEXT.as_bytes()),
        (vec!["carry", "-o", &name], &[0, 0, 9, 0, 16, 1, 12, 0][..]),
    ] {
        let run = tool(&words, &ORDER);
        assert_eq!(run.status, 0, "{}", run.errors);
        assert_eq!(fs::read(&name).expect("it is there"), expected, "{words:?}");
    }
    let nowhere = tool(&["order", "-o", "/no such folder/file"], &ORDER);
    assert_eq!(nowhere.status, 2);
    assert!(nowhere.errors.starts_with("wichteab: cannot write /no such folder/file: "));
}

/// Each subcommand's help has its usage, its options and an example; the example runs where the examples are.
#[test]
fn every_example_of_the_help_runs() {
    let folder = Folder::new("help");
    fs::create_dir(folder.0.join("examples")).expect("it is made");
    for entry in fs::read_dir(top().join("examples")).expect("it is there") {
        let path = entry.expect("it is read").path();
        let name = path.file_name().expect("a name");
        fs::copy(&path, folder.0.join("examples").join(name)).expect("it is copied");
    }
    let search = search_path(Path::new(env!("CARGO_BIN_EXE_wichteab")));
    for command in &COMMANDS {
        let help = tool(&[command.name, "--help"], b"");
        assert_eq!(help.status, 0);
        assert!(help.text().starts_with(&format!("usage: wichteab {} [OPTIONS]", command.name)));
        assert_eq!(help.text(), tool(&["help", command.name], b"").text());
        for choice in command.choices {
            assert!(help.text().contains(&format!("--{}", choice.long)), "{}", help.text());
        }
        let (_, line) = help.text().rsplit_once("Example:\n\n").expect("an example");
        assert!(line.contains(&format!("wichteab {}", command.name)), "{line}");
        let ran = Command::new("sh").args(["-c", line]).env("PATH", &search).current_dir(&folder.0).output();
        let ran = ran.expect("it runs");
        assert!(
            ran.status.success() && ran.stderr.is_empty(),
            "{line}{}",
            String::from_utf8_lossy(&ran.stderr)
        );
        assert!(tool(&["--help"], b"").text().contains(command.summary));
    }
}

/// The commands of README.md's section on the tool print what stands there.
#[test]
fn the_commands_of_the_readme() {
    let readme = fs::read_to_string(top().join("README.md")).expect("it is there");
    let (_, section) = readme.split_once("\n## The tool\n").expect("the section");
    let (section, _) = section.split_once("\n| Subcommand").expect("the table");
    let shown: Vec<&str> = section.lines().filter_map(|line| line.strip_prefix("    ")).collect();
    let folder = Folder::new("readme");
    let commands = shown.split_inclusive(|line| line.starts_with("$ ")).skip(1);
    let names = shown.iter().filter_map(|line| line.strip_prefix("$ "));
    let mut ran = 0;
    for (line, printed) in names.zip(commands) {
        // what was split off ends with the next command
        let printed = printed.iter().filter(|line| !line.starts_with("$ "));
        let printed: String = printed.map(|line| format!("{line}\n")).collect();
        if let Some(name) = line.strip_prefix("cat ") {
            folder.file(name, printed.as_bytes());
            continue;
        }
        let words = line.strip_prefix("wichteab ").expect("the tool").split(' ');
        let run = Command::new(env!("CARGO_BIN_EXE_wichteab")).args(words).current_dir(&folder.0).output();
        assert_eq!(String::from_utf8(run.expect("it runs").stdout).expect("text"), printed, "{line}");
        ran += 1;
    }
    assert_eq!(ran, 3);
}

#[test]
fn the_version_is_the_header_s() {
    let header = fs::read_to_string(top().join("include/wichteab.h")).expect("it is there");
    assert!(header.contains(&format!("#define WICHTEAB_VERSION \"{VERSION}\"\n")));
    assert_eq!(tool(&["--version"], b"").text(), format!("wichteab {VERSION}\n"));
}

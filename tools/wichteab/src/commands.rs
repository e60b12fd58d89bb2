//! The subcommands: their table, and the way from the command line to one of them.
//!
//! | module     | subcommands                                    |
//! |------------|------------------------------------------------|
//! | `orders`   | `order`, `carry`, `one-vacancy`                |
//! | `plans`    | `plan`, `shorten`, `convert`, `timetable`      |
//! | `checking` | `check`, `season`                              |
//! | `showing`  | `show`, `picture`, `play`                      |

mod checking;
mod orders;
mod plans;
mod showing;

use crate::arguments::{Arguments, Choice};
use crate::{help, output, Failure};

type Outcome = Result<(), Failure>;

/// A subcommand, and what its help says.
pub struct Command {
    pub name: &'static str,
    /// The files that it takes, as usage shows them.
    pub files: &'static str,
    pub fewest_files: usize,
    pub most_files: usize,
    /// One line, for the list of all.
    pub summary: &'static str,
    pub about: &'static str,
    pub choices: &'static [Choice],
    pub example: &'static str,
    run: fn(&Arguments) -> Outcome,
}

const OUTPUT: Choice = Choice {
    long: "output",
    short: Some('o'),
    value: Some("FILE"),
    values: &[],
    about: "write to FILE; without it to standard output",
};
const TEXT: Choice = Choice {
    long: "text",
    short: Some('t'),
    value: None,
    values: &[],
    about: "write the text that `show` prints in place of the record",
};
const FROM: Choice = Choice {
    long: "from",
    short: None,
    value: Some("FORM"),
    values: &["text", "record", "short"],
    about: "the order's form: text, record or short; without it the order shows it",
};
const TO: Choice = Choice {
    long: "to",
    short: None,
    value: Some("FORM"),
    values: &["record", "short"],
    about: "record, a full order, or short, a short order, where a model is named",
};
const EDITION: Choice = Choice {
    long: "edition",
    short: None,
    value: Some("NUMBER"),
    values: &["1", "2"],
    about: "the edition to write, 1 or 2",
};
const PLAN: Choice =
    Choice { long: "plan", short: None, value: None, values: &[], about: "the second file is a plan" };
const TIMETABLE: Choice = Choice {
    long: "timetable",
    short: None,
    value: None,
    values: &[],
    about: "the second file is a timetable",
};
const FLOOR: Choice = Choice {
    long: "floor",
    short: None,
    value: None,
    values: &[],
    about: "of an order alone: can it be planned?",
};
const ORDER: Choice = Choice {
    long: "order",
    short: None,
    value: Some("FILE"),
    values: &[],
    about: "of a plan: its order, so that edition one is shown with racks too",
};
const STEP: Choice = Choice {
    long: "step",
    short: None,
    value: Some("NUMBER"),
    values: &[],
    about: "of a timetable: this step alone",
};

/// All subcommands, in the order in which a person meets them.
pub const COMMANDS: [Command; 12] = [
    Command {
        name: "order",
        files: "[ORDER]",
        fewest_files: 0,
        most_files: 1,
        summary: "write the record of an order that is a text or names a model",
        about: "Reads an order, as text, as a record or as a short order, has it checked and writes its record.",
        choices: &[FROM, TO, OUTPUT, TEXT],
        example: "printf 'floor 4x4\\nrack 1: 0 -> 15\\n' | wichteab order -o corner.order",
        run: orders::order,
    },
    Command {
        name: "show",
        files: "[order|short|plan|timetable|season] [FILE]",
        fewest_files: 0,
        most_files: 2,
        summary: "print a record as text",
        about: "Prints a record as text. Without its kind, the file has to show what it is: orders do, and a plan or \
                timetable whose length fits no other kind.",
        choices: &[ORDER, STEP, FROM, OUTPUT],
        example: "wichteab show order examples/casebook.order",
        run: showing::show,
    },
    Command {
        name: "plan",
        files: "[ORDER]",
        fewest_files: 0,
        most_files: 1,
        summary: "plan an order",
        about: "Writes a plan that brings every rack of the order to its goal, one rack at a time, in edition two.",
        choices: &[EDITION, FROM, OUTPUT, TEXT],
        example: "wichteab plan examples/four_by_four.order -o called.plan",
        run: plans::plan,
    },
    Command {
        name: "timetable",
        files: "[ORDER [PLAN]]",
        fewest_files: 0,
        most_files: 2,
        summary: "make the timetable of a plan, or of an order",
        about: "Writes the timetable of the plan, several racks in a step. Without a plan the order is planned first.",
        choices: &[FROM, OUTPUT, TEXT],
        example: "wichteab timetable --text examples/casebook.order examples/casebook.plan",
        run: plans::timetable,
    },
    Command {
        name: "check",
        files: "[ORDER [PLAN-OR-TIMETABLE]]",
        fewest_files: 0,
        most_files: 2,
        summary: "check an order, a plan or a timetable",
        about: "Says whether the order is well formed, or whether the plan or timetable brings its racks to their \
                goals. Without --plan and --timetable the second file is the one whose length it has.",
        choices: &[PLAN, TIMETABLE, FLOOR, FROM],
        example: "wichteab check examples/casebook.order examples/casebook.timetable",
        run: checking::check,
    },
    Command {
        name: "shorten",
        files: "ORDER PLAN",
        fewest_files: 2,
        most_files: 2,
        summary: "take the moves that cancel out of a plan",
        about: "Writes the plan without the moves that cancel, in the edition that it has.",
        choices: &[FROM, OUTPUT, TEXT],
        example: "wichteab shorten examples/casebook.order examples/casebook.plan -o shorter.plan",
        run: plans::shorten,
    },
    Command {
        name: "convert",
        files: "ORDER PLAN",
        fewest_files: 2,
        most_files: 2,
        summary: "write a plan in the other edition",
        about: "Writes the plan in the other edition, or in the one that --edition names.",
        choices: &[EDITION, FROM, OUTPUT, TEXT],
        example: "wichteab convert --text examples/casebook.order examples/casebook.plan",
        run: plans::convert,
    },
    Command {
        name: "carry",
        files: "[ORDER]",
        fewest_files: 0,
        most_files: 1,
        summary: "find the dearest single carry of a floor",
        about: "Prints the start and the goal whose shortest plan is longest, for one rack alone on the order's floor, \
                and that plan. With -o the plan's record is written too.",
        choices: &[FROM, OUTPUT],
        example: "wichteab carry examples/four_by_four.order",
        run: orders::carry,
    },
    Command {
        name: "one-vacancy",
        files: "[ORDER]",
        fewest_files: 0,
        most_files: 1,
        summary: "ask whether an order with one vacant position is impossible",
        about: "Prints `impossible` where no plan exists, by the parity of the change, or `not judged`.",
        choices: &[FROM],
        example: "wichteab one-vacancy examples/ring_of_ten.order",
        run: orders::one_vacancy,
    },
    Command {
        name: "season",
        files: "[SEASON]",
        fewest_files: 0,
        most_files: 1,
        summary: "report on pairs of an order and a timetable",
        about: "Reads pairs of an order and a timetable, one after another, to the end of the file, and prints how many \
                were accepted and refused, the steps and moves of the accepted ones, and the parallelism.",
        choices: &[OUTPUT],
        example: "cat examples/casebook.order examples/casebook.timetable | wichteab season",
        run: checking::season,
    },
    Command {
        name: "picture",
        files: "[ORDER]",
        fewest_files: 0,
        most_files: 1,
        summary: "draw an order",
        about: "Writes a picture of the order, its floor, starts and goals, as SVG.",
        choices: &[FROM, OUTPUT],
        example: "wichteab picture examples/casebook.order -o casebook.svg",
        run: showing::picture,
    },
    Command {
        name: "play",
        files: "[ORDER [PLAN-OR-TIMETABLE]]",
        fewest_files: 0,
        most_files: 2,
        summary: "make a page that plays a timetable",
        about: "Writes an HTML page that plays the timetable. A plan is made a timetable first, and an order alone is \
                planned first; the timetable checker has accepted what is played.",
        choices: &[PLAN, TIMETABLE, FROM, OUTPUT],
        example: "wichteab play examples/casebook.order examples/casebook.timetable -o casebook.html",
        run: showing::play,
    },
];

/// The version of library and tool, as include/wichteab.h has it.
pub const VERSION: &str = "3.0.0";

/// Runs the subcommand that the words begin with.
pub fn run(words: &[String]) -> Outcome {
    let Some((name, rest)) = words.split_first() else {
        return Err(Failure::WrongUse(help::overview()));
    };
    match (name.as_str(), rest.first()) {
        ("--version" | "-V", _) => return output::print(&format!("wichteab {VERSION}\n")),
        ("--help" | "-h", _) | ("help", None) => return output::print(&help::overview()),
        ("help", Some(name)) => return output::print(&help::of(command(name)?)),
        _ => {}
    }
    let command = command(name)?;
    if rest.iter().take_while(|word| *word != "--").any(|word| word == "--help" || word == "-h") {
        return output::print(&help::of(command));
    }
    let arguments = Arguments::read(rest, command.choices)?;
    let count = arguments.files.len();
    if count < command.fewest_files || count > command.most_files {
        let usage = help::usage(command);
        return Err(Failure::WrongUse(format!("{count} files given\n{usage}")));
    }
    if arguments.files.iter().filter(|file| *file == "-").count() > 1 {
        return Err(Failure::WrongUse("standard input can be read once".into()));
    }
    (command.run)(&arguments)
}

fn command(name: &str) -> Result<&'static Command, Failure> {
    let found = COMMANDS.iter().find(|command| command.name == name);
    found.ok_or_else(|| Failure::WrongUse(format!("no subcommand {name}\n{}", help::overview())))
}

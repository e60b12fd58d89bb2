//! docs/DECISIONS.md, "What a reader has to believe": its table names every file with such a definition, and no other.

use believed::{Believed, SOURCES};
use std::collections::BTreeSet;
use std::fs;
use std::path::Path;

/// The files that the table names. A name without a folder is in the folder of the one before it.
fn named(document: &str) -> BTreeSet<String> {
    let part = document.split("## What a reader has to believe").nth(1).expect("the part is there");
    let part = part.split("\n## ").next().expect("it ends somewhere");
    let mut files = BTreeSet::new();
    let mut folder = String::new();
    for row in part.lines().filter(|line| line.starts_with("| `")) {
        let cell = row.split('|').nth(1).expect("a row has cells");
        for name in cell.split('`').filter(|word| word.ends_with(".antt")) {
            if let Some((before, _)) = name.rsplit_once('/') {
                folder = before.to_string();
            }
            let file = name.rsplit('/').next().expect("a name has an end");
            files.insert(format!("{folder}/{file}"));
        }
    }
    files
}

#[test]
fn the_table_names_just_the_files_with_such_definitions() {
    let repository = Path::new(env!("CARGO_MANIFEST_DIR")).join("../..");
    let document = fs::read_to_string(repository.join("docs/DECISIONS.md")).expect("the document is there");
    let named = named(&document);
    let believed: BTreeSet<String> = Believed::of(&repository).files.into_keys().collect();
    let missing: Vec<_> = believed.difference(&named).collect();
    let needless: Vec<_> = named.difference(&believed).collect();
    assert!(
        missing.is_empty() && needless.is_empty(),
        "not named: {missing:?}; named without need: {needless:?}"
    );
}

/// docs/DECISIONS.md: what document 01 asks for rests on under 700 lines, with all that the requests changed in it.
#[test]
fn what_document_01_asks_for_rests_on_under_700_lines() {
    let repository = Path::new(env!("CARGO_MANIFEST_DIR")).join("../..");
    let lines = Believed::of_sources(&repository, &SOURCES[..1]).lines();
    assert!(lines > 0 && lines < 700, "it rests on {lines} lines");
}

/// README.md: for one function of the C interface a reader never has to believe more than 300 lines.
#[test]
fn no_function_of_the_c_interface_rests_on_more_than_300_lines() {
    let repository = Path::new(env!("CARGO_MANIFEST_DIR")).join("../..");
    let functions = Believed::by_function(&repository);
    let (together, alone) = functions.split_last().expect("there are functions");
    assert_eq!(alone.len(), 19, "the header declares nineteen functions");
    for (name, believed) in alone {
        assert!(believed.lines() <= 300, "{name} rests on {} lines", believed.lines());
        assert!(believed.lines() > 0 && believed.lines() <= together.1.lines());
    }
}

//! What a reader has to believe. A promise is a contract or a theorem; it cites definitions of `specs/`, and these are
//! made of others. The files are read as text: a definition is a block that begins at the left margin, and it is made of
//! the definitions whose names stand in it.

mod source;

use source::{Block, Module};
use std::collections::{BTreeMap, BTreeSet};
use std::fs;
use std::path::Path;

const C_INTERFACE: &str = "crates/controller/src/lib.rt";

/// Where a promise comes from: document 01, or a request of document 02 by its letter.
pub const SOURCES: [&str; 10] =
    ["document 01", "(a)", "(d)", "(e)", "(g)", "(h)", "(k)", "(l)", "(m)", "(n)"];

/// The functions of the C interface, each with its source.
const FUNCTIONS: &[(&str, &str)] = &[
    ("document 01", "wichteab_order_check"),
    ("document 01", "wichteab_floor_check"),
    ("document 01", "wichteab_plan_make"),
    ("document 01", "wichteab_plan_check"),
    ("document 01", "wichteab_timetable_check"),
    ("document 01", "wichteab_timetable_make"),
    ("document 01", "wichteab_timetable_step"),
    ("document 01", "wichteab_order_length"),
    ("document 01", "wichteab_timetable_length"),
    ("(a)", "wichteab_order_expand"),
    ("(e)", "wichteab_plan_shorten"),
    ("(h)", "wichteab_plan_convert"),
    ("(k)", "wichteab_floor_open"),
    ("(k)", "wichteab_floor_read"),
    ("(k)", "wichteab_floor_run"),
    ("(k)", "wichteab_floor_take_back"),
    ("(l)", "wichteab_season_report"),
    ("(m)", "wichteab_dearest_carry"),
    ("(n)", "wichteab_one_vacancy"),
];

/// The other contracts that somebody relies on, those of the programs: every definition that these files cite. Of the
/// timetable program's crate and of the season program's it is the program's own contract.
const CONTRACTS: &[(&str, &str, &[&str])] = &[
    ("document 01", "crates/plan_program/src/lib.rt", &[]),
    ("document 01", "crates/text/src/lib.rt", &["program_text", "Wrote"]),
    ("(a)", "crates/order_program/src/lib.rt", &[]),
    ("(l)", "crates/season_program/src/lib.rt", &["season_text", "Wrote"]),
];

/// The records that the main theorems state; of a file without names, all of it.
const THEOREMS: &[(&str, &str, &[&str])] = &[
    ("document 01", "crates/order/specs/Theorems.antt", &[]),
    ("document 01", "crates/plan_check/specs/Solutions.antt", &["SolutionOf", "AcceptedPlan"]),
    ("document 01", "crates/timetable_check/specs/Solutions.antt", &[]),
    ("document 01", "crates/motion/specs/LegalStep.antt", &[]),
    ("document 01", "crates/floor/specs/Plannable.antt", &[]),
    ("document 01", "crates/delivery/specs/Theorems.antt", &[]),
    ("(a)", "crates/models/specs/Theorems.antt", &[]),
    ("(d)", "crates/planner/specs/Rings.antt", &[]),
    ("(e)", "crates/shortening/specs/Theorems.antt", &[]),
    ("(g)", "crates/optimality/specs/Shortest.antt", &[]),
    ("(h)", "crates/converting/specs/Theorems.antt", &[]),
    ("(k)", "crates/live/specs/Picture.antt", &["LegalHere"]),
    ("(k)", "crates/live/specs/Theorems.antt", &[]),
    ("(l)", "crates/season/specs/Theorems.antt", &[]),
    ("(m)", "crates/carry/specs/Theorems.antt", &[]),
    ("(n)", "crates/parity/specs/Theorems.antt", &[]),
];

pub struct Definition {
    pub name: String,
    pub lines: usize,
}

/// The definitions by their files.
pub struct Believed {
    pub files: BTreeMap<String, Vec<Definition>>,
}

impl Believed {
    /// What all the promises rest on.
    pub fn of(repository: &Path) -> Believed {
        Believed::of_sources(repository, &SOURCES)
    }

    /// What the promises of some sources rest on.
    pub fn of_sources(repository: &Path, sources: &[&str]) -> Believed {
        let modules = read_modules(repository);
        let mut wanted: Vec<(String, String)> = Vec::new();
        let mut exported = source::exported(&read(&repository.join(C_INTERFACE)));
        assert_eq!(exported.len(), FUNCTIONS.len(), "every function of the C interface has a source");
        exported.retain(|(name, _)| {
            FUNCTIONS.iter().any(|(from, known)| known == name && sources.contains(from))
        });
        wanted.extend(exported.into_iter().flat_map(|(_, cited)| cited));
        for &(_, file, names) in CONTRACTS.iter().filter(|(from, _, _)| sources.contains(from)) {
            let cited = source::cited(&read(&repository.join(file)));
            wanted.extend(
                cited.into_iter().filter(|(_, name)| names.is_empty() || names.contains(&name.as_str())),
            );
        }
        for &(_, file, names) in THEOREMS.iter().filter(|(from, _, _)| sources.contains(from)) {
            let all = modules[file].blocks.iter().map(|block| block.name.as_str());
            let names: Vec<&str> = if names.is_empty() { all.collect() } else { names.to_vec() };
            wanted.extend(names.iter().map(|name| (file.to_string(), name.to_string())));
        }
        for (file, name) in &wanted {
            assert!(modules[file.as_str()].defines(name), "{file} does not define {name}");
        }
        Believed { files: close(&modules, wanted) }
    }

    /// What the contract of each function of the C interface rests on, taken by itself, and at the end all of them.
    pub fn by_function(repository: &Path) -> Vec<(String, Believed)> {
        let modules = read_modules(repository);
        let functions = source::exported(&read(&repository.join(C_INTERFACE)));
        let together = functions.iter().flat_map(|(_, named)| named.clone()).collect();
        let together = ("all of them together".to_string(), together);
        let rows = functions.into_iter().chain([together]);
        rows.map(|(name, named)| (name, Believed { files: close(&modules, named) })).collect()
    }

    pub fn lines(&self) -> usize {
        self.files.values().flatten().map(|definition| definition.lines).sum()
    }
}

/// Every definition that is wanted, and every one that these are made of.
fn close(
    modules: &BTreeMap<String, Module>,
    mut wanted: Vec<(String, String)>,
) -> BTreeMap<String, Vec<Definition>> {
    let mut taken: BTreeSet<(String, usize)> = BTreeSet::new();
    while let Some((file, name)) = wanted.pop() {
        let Some(module) = modules.get(&file) else { continue };
        let Some(index) = module.find(&name) else { continue };
        if !taken.insert((file.clone(), index)) {
            continue;
        }
        wanted.extend(made_of(&file, module, &module.blocks[index]));
    }
    let mut files: BTreeMap<String, Vec<Definition>> = BTreeMap::new();
    for (file, index) in taken {
        let block = &modules[&file].blocks[index];
        let definition = Definition { name: block.name.clone(), lines: block.lines };
        files.entry(file).or_default().push(definition);
    }
    files
}

/// The definitions whose names stand in a block: of its own file, and those that its file brings in.
fn made_of(file: &str, module: &Module, block: &Block) -> Vec<(String, String)> {
    let own = module
        .blocks
        .iter()
        .flat_map(|other| other.names.iter())
        .filter(|name| !block.names.contains(*name) && block.uses(name))
        .map(|name| (file.to_string(), name.clone()));
    let brought_in = module
        .imports
        .iter()
        .filter(|import| block.uses(&import.called))
        .map(|import| (import.file.clone(), import.name.clone()));
    own.chain(brought_in).collect()
}

/// The files of `specs/` of every crate.
fn read_modules(repository: &Path) -> BTreeMap<String, Module> {
    let mut modules = BTreeMap::new();
    for crate_folder in entries(&repository.join("crates")) {
        for file in entries(&crate_folder.join("specs")) {
            if file.extension().is_some_and(|extension| extension == "antt") {
                let name = file.strip_prefix(repository).expect("it is below").display().to_string();
                modules.insert(name, Module::parse(&read(&file)));
            }
        }
    }
    modules
}

fn entries(folder: &Path) -> Vec<std::path::PathBuf> {
    fs::read_dir(folder).map_or_else(|_| Vec::new(), |all| all.flatten().map(|entry| entry.path()).collect())
}

fn read(file: &Path) -> String {
    fs::read_to_string(file).unwrap_or_else(|error| panic!("{}: {error}", file.display()))
}

//! Prints the definitions that a reader has to believe: those that the promises below cite, and those that these
//! are made of, file by file with their lines; then how many lines document 01's promises rest on, and how many more
//! each request has brought; then how many each function of the C interface rests on.

use believed::{Believed, SOURCES};
use std::path::Path;

fn main() {
    let repository = Path::new(env!("CARGO_MANIFEST_DIR")).join("../..");
    let believed = Believed::of(&repository);
    for (file, definitions) in &believed.files {
        let names: Vec<&str> = definitions.iter().map(|definition| definition.name.as_str()).collect();
        let lines: usize = definitions.iter().map(|definition| definition.lines).sum();
        println!("{lines:>4} {file}: {}", names.join(", "));
    }
    println!("{:>4} lines of definitions, in {} files", believed.lines(), believed.files.len());
    println!("of these, for what document 01 asks for, and more with each request:");
    let mut before = 0;
    for (index, source) in SOURCES.iter().enumerate() {
        let lines = Believed::of_sources(&repository, &SOURCES[..=index]).lines();
        println!("{:>4} {source}", lines - before);
        before = lines;
    }
    println!("of these, for one function of the C interface alone:");
    for (name, believed) in Believed::by_function(&repository) {
        println!("{:>4} {name}", believed.lines());
    }
}

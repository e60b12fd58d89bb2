//! A file of `specs/`, as text.

use std::collections::BTreeSet;

/// A definition: what stands from one line at the left margin up to the next that begins another.
pub struct Block {
    pub name: String,
    /// What it brings into scope: its own name, and the constructors of a data type.
    pub names: BTreeSet<String>,
    /// Lines that are neither empty nor comments.
    pub lines: usize,
    words: BTreeSet<String>,
}

/// A name that a `use` line brings in, and what it is called here.
pub struct Import {
    pub file: String,
    pub name: String,
    pub called: String,
}

pub struct Module {
    pub blocks: Vec<Block>,
    pub imports: Vec<Import>,
}

impl Block {
    /// Whether the name stands in the block; of an operator such as `◌∙◌` one of its parts.
    pub fn uses(&self, name: &str) -> bool {
        self.words.contains(name)
            || name.contains('◌') && name.split('◌').any(|part| !part.is_empty() && self.words.contains(part))
    }

    fn parse(lines: &[&str]) -> Block {
        let head = without_marks(lines[0]);
        // A decision carries the proof that it decides: what it decides stands in its type, and nobody has to
        // believe the rest.
        let lines = if decides(lines[0]) { &lines[..1] } else { lines };
        let is_type = head.starts_with("record ") || head.starts_with("data ");
        let name = head.split_whitespace().nth(usize::from(is_type)).unwrap_or("").to_string();
        let mut names = BTreeSet::from([name.clone()]);
        let mut words = BTreeSet::new();
        let mut fields = BTreeSet::new();
        for line in lines {
            words.extend(words_of(line));
            if let Some(field) = declared(line).filter(|_| is_type) {
                fields.insert(field.to_string());
            }
            if let Some(inner) =
                declared(line).filter(|_| head.starts_with("module ") || head.starts_with("data "))
            {
                names.insert(inner.to_string());
            }
        }
        // A field's own name is no use of a definition that is called the same.
        words.retain(|word| !fields.contains(word));
        let lines = lines.iter().filter(|line| !code_of(line).trim().is_empty()).count();
        Block { name, names, lines, words }
    }
}

impl Module {
    pub fn parse(text: &str) -> Module {
        let lines: Vec<&str> = text.lines().collect();
        let mut module = Module { blocks: Vec::new(), imports: Vec::new() };
        let mut at = 0;
        while at < lines.len() {
            let line = lines[at];
            let is_import = without_marks(line).starts_with("use ");
            if is_import {
                module.imports.extend(imports_of(without_marks(line)));
            }
            if line.is_empty() || line.starts_with([' ', '-']) || is_import {
                at += 1;
                continue;
            }
            let end = end_of_block(&lines, at);
            module.blocks.push(Block::parse(&lines[at..end]));
            at = end;
        }
        module
    }

    /// The block that brings the name into scope.
    pub fn find(&self, name: &str) -> Option<usize> {
        self.blocks.iter().position(|block| block.names.contains(name))
    }

    pub fn defines(&self, name: &str) -> bool {
        self.find(name).is_some()
    }
}

/// A block goes on over indented lines, empty ones before them, and the clauses that begin with its name.
fn end_of_block(lines: &[&str], begin: usize) -> usize {
    let name = without_marks(lines[begin]).split_whitespace().next().unwrap_or("").to_string();
    let mut end = begin + 1;
    let mut at = end;
    while at < lines.len() {
        let line = lines[at];
        let goes_on = line.starts_with([' ', ')', '}', ']'])
            || line.starts_with("unfolding ")
            || line.split_whitespace().next() == Some(&name);
        at += 1;
        if goes_on {
            end = at;
        } else if !line.is_empty() {
            break;
        }
    }
    end
}

/// The definitions that the `ghost use` lines of a source name: the file and the name.
pub fn cited(text: &str) -> Vec<(String, String)> {
    let lines = text.lines().filter_map(|line| line.strip_prefix("ghost "));
    lines.flat_map(imports_of).map(|import| (import.file, import.name)).collect()
}

/// The functions that a source exports to C, each with the definitions that its own contract names.
pub fn exported(text: &str) -> Vec<(String, Vec<(String, String)>)> {
    let lines = text.lines().filter_map(|line| line.strip_prefix("ghost "));
    let imports: Vec<Import> = lines.flat_map(imports_of).collect();
    let function = |part: &str| {
        let (name, _) = part.split_once('(').expect("a function has parameters");
        let (contract, _) = part.split_once("\n{").expect("a function has a body");
        let words: BTreeSet<String> = contract.lines().map(without_clause_name).flat_map(words_of).collect();
        let named = imports.iter().filter(|import| words.contains(&import.called));
        (name.to_string(), named.map(|import| (import.file.clone(), import.name.clone())).collect())
    };
    text.split("pub extern \"C\" fn ").skip(1).map(function).collect()
}

/// `use Rattle.order.specs.Floor.{Floor, joined as joins}`. What Rattle's own library defines is not of this repository.
fn imports_of(line: &str) -> Vec<Import> {
    let Some(path) = line.strip_prefix("use Rattle.") else { return Vec::new() };
    let Some((path, names)) = path.split_once(".{") else { return Vec::new() };
    let Some((crate_name, module)) = path.split_once(".specs.") else { return Vec::new() };
    if crate_name == "std" {
        return Vec::new();
    }
    // The constructors of a data type may be named below it: `Walk.Walk.{alone, step}`.
    let module = module.split('.').next().unwrap_or(module);
    let file = format!("crates/{crate_name}/specs/{module}.antt");
    let names = names.trim_end_matches(';').trim_end_matches('}').split(',').map(str::trim);
    let import = |name: &str| {
        let (name, called) = name.split_once(" as ").unwrap_or((name, name));
        Import { file: file.clone(), name: name.to_string(), called: called.to_string() }
    };
    names.filter(|name| !name.is_empty()).map(import).collect()
}

fn without_marks(line: &str) -> &str {
    let line = line.strip_prefix("abbrev ").or(line.strip_prefix("unfoldable ")).unwrap_or(line);
    line.strip_prefix("pub ").unwrap_or(line)
}

/// Whether a definition's type, on one line, ends in what a decision gives, as in
/// `bi_connected? : (F : Floor) → Dec (BiConnected ..)`.
fn decides(line: &str) -> bool {
    let result = line.rsplit("→ ").next().unwrap_or(line);
    line.contains(" : ") && result.starts_with("Dec (") && result.ends_with(')')
}

/// The name that an indented line declares: a field, a constructor, or a definition of a section.
fn declared(line: &str) -> Option<&str> {
    let inner = line.strip_prefix("  ")?;
    let (name, rest) = without_marks(inner.trim_start()).split_once(' ')?;
    let plain = !name.is_empty() && !name.contains(['(', '{', '→']);
    (plain && rest.starts_with(':')).then_some(name)
}

/// `ensures tells { .. }` without the name of the clause, which is no definition.
fn without_clause_name(line: &str) -> &str {
    let is_clause = ["ensures", "requires"].iter().any(|clause| line.trim_start().starts_with(clause));
    line.find('{').filter(|_| is_clause).map_or(line, |begin| &line[begin..])
}

/// The line without its comment.
fn code_of(line: &str) -> &str {
    let comment = if line.starts_with("--") { Some(0) } else { line.find(" --") };
    &line[..comment.unwrap_or(line.len())]
}

fn words_of(line: &str) -> impl Iterator<Item = String> + '_ {
    let ends = |c: char| c.is_whitespace() || "(){}[],;.".contains(c);
    let words = code_of(line).split(ends).map(|word| word.trim_start_matches('λ'));
    words.filter(|word| !word.is_empty()).map(str::to_string)
}

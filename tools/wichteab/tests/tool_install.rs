//! `make install` into a folder of the test's own, as a person installs a C library: what is there, what a C program
//! is compiled with, the man pages, and that `make uninstall` leaves nothing. Nothing is built or proved here, and
//! nothing outside that folder is written.

mod running;

use compare::programs;
use running::{search_path, top, Folder};
use std::collections::{BTreeMap, BTreeSet};
use std::fs;
use std::os::unix::fs::PermissionsExt;
use std::path::Path;
use std::process::{Command, Output};
use wichteab_tool::commands::{COMMANDS, VERSION};

/// Runs make with what was built already. rt and cargo are not to be called: `false` would end it.
fn make(goal: &str, prefix: &Path, staging: &str) {
    let programs = programs::path("plan_main");
    let ran = Command::new("make")
        .current_dir(top())
        .arg(goal)
        .args(["RT=false", "CARGO=false"])
        .arg(format!("PREFIX={}", prefix.display()))
        .arg(format!("DESTDIR={staging}"))
        .arg(format!("ARCHIVE={}", env!("WICHTEAB_ARCHIVE")))
        .arg(format!("PROGRAMS={}", programs.parent().expect("a folder").display()))
        .arg(format!("TOOL={}", env!("CARGO_BIN_EXE_wichteab")))
        .output()
        .expect("make runs");
    succeeded(&ran, goal);
}

fn succeeded(ran: &Output, what: &str) {
    assert!(ran.status.success(), "{what}: {}", String::from_utf8_lossy(&ran.stderr));
}

/// The files below a folder, by their names in it.
fn files(folder: &Path) -> BTreeSet<String> {
    let mut found = BTreeSet::new();
    let mut waiting = vec![folder.to_path_buf()];
    while let Some(next) = waiting.pop() {
        for entry in fs::read_dir(&next).expect("it is there") {
            let path = entry.expect("it is read").path();
            match path.is_dir() {
                true => waiting.push(path),
                false => drop(found.insert(path.strip_prefix(folder).expect("below").display().to_string())),
            }
        }
    }
    found
}

const INSTALLED: [&str; 10] = [
    "bin/wichteab",
    "bin/wichteab-order",
    "bin/wichteab-plan",
    "bin/wichteab-season",
    "bin/wichteab-timetable",
    "include/wichteab.h",
    "lib/libwichteab.a",
    "lib/pkgconfig/wichteab.pc",
    "share/man/man1/wichteab.1",
    "share/man/man3/wichteab.3",
];

fn installed() -> BTreeSet<String> {
    INSTALLED.iter().map(|name| name.to_string()).collect()
}

#[test]
fn everything_in_its_place_and_gone_again() {
    let folder = Folder::new("place");
    let prefix = folder.0.join("prefix");
    make("install", &prefix, "");
    assert_eq!(files(&prefix), installed());
    for name in INSTALLED {
        let mode = fs::metadata(prefix.join(name)).expect("it is there").permissions().mode() & 0o777;
        assert_eq!(mode, if name.starts_with("bin/") { 0o755 } else { 0o644 }, "{name}");
    }
    let same = |name: &str, source: &Path| {
        assert_eq!(fs::read(prefix.join(name)).expect(name), fs::read(source).expect(name), "{name}");
    };
    same("include/wichteab.h", &top().join("include/wichteab.h"));
    same("lib/libwichteab.a", Path::new(env!("WICHTEAB_ARCHIVE")));
    same("bin/wichteab", Path::new(env!("CARGO_BIN_EXE_wichteab")));
    for name in ["order", "plan", "timetable", "season"] {
        same(&format!("bin/wichteab-{name}"), &programs::path(&format!("{name}_main")));
    }
    make("install", &prefix, "");
    make("uninstall", &prefix, "");
    assert_eq!(files(&prefix), BTreeSet::new());
}

/// A package is made in a folder of its own, and its files name the place where they will be.
#[test]
fn a_staged_installation() {
    let folder = Folder::new("staged");
    let staging = folder.0.display().to_string();
    make("install", Path::new("/opt/floors"), &staging);
    assert_eq!(files(&folder.0.join("opt/floors")), installed());
    assert_eq!(files(&folder.0).len(), INSTALLED.len());
    let variables = read_package(&folder.0.join("opt/floors/lib/pkgconfig/wichteab.pc"));
    assert_eq!(variables["prefix"], "/opt/floors");
    assert_eq!(variables["Libs"], "-L/opt/floors/lib -lwichteab");
    make("uninstall", Path::new("/opt/floors"), &staging);
    assert_eq!(files(&folder.0), BTreeSet::new());
}

/// The variables and fields of a .pc file, with the variables put in.
fn read_package(path: &Path) -> BTreeMap<String, String> {
    let mut read: BTreeMap<String, String> = BTreeMap::new();
    for line in fs::read_to_string(path).expect("it is there").lines() {
        let sign = line.find(['=', ':']);
        let Some(at) = sign else { continue };
        let mut value = line[at + 1..].trim().to_string();
        for (name, meaning) in &read {
            value = value.replace(&format!("${{{name}}}"), meaning);
        }
        read.insert(line[..at].to_string(), value);
    }
    read
}

/// What pkg-config says of the package; none where it is not there.
fn pkg_config(option: &str, folder: &Path) -> Option<String> {
    let ran = Command::new("pkg-config")
        .arg(option)
        .arg("wichteab")
        .env("PKG_CONFIG_PATH", folder)
        .output()
        .ok()?;
    succeeded(&ran, option);
    Some(String::from_utf8(ran.stdout).expect("text").trim().to_string())
}

#[test]
fn a_c_program_against_the_installed_library() {
    let folder = Folder::new("compiled");
    let prefix = folder.0.join("prefix");
    make("install", &prefix, "");
    let packages = prefix.join("lib/pkgconfig");
    let package = read_package(&packages.join("wichteab.pc"));
    assert_eq!(package["Version"], VERSION);
    for (option, field) in [("--cflags", "Cflags"), ("--libs", "Libs"), ("--modversion", "Version")] {
        if let Some(said) = pkg_config(option, &packages) {
            assert_eq!(said, package[field], "pkg-config {option}");
        }
    }
    let program = folder.0.join("delivery");
    let compiled = Command::new("gcc")
        .args(["-std=c99", "-Wall", "-Wextra", "-Werror", "-pedantic"])
        .args(package["Cflags"].split_whitespace())
        .arg(top().join("examples/delivery.c"))
        .args(package["Libs"].split_whitespace())
        .arg("-o")
        .arg(&program)
        .output()
        .expect("gcc runs");
    succeeded(&compiled, "gcc");
    let ran =
        Command::new(&program).arg(top().join("examples/four_by_four.order")).output().expect("it runs");
    succeeded(&ran, "delivery");
    let expected = fs::read(top().join("examples/delivery.expected")).expect("it is there");
    assert_eq!(String::from_utf8_lossy(&ran.stdout), String::from_utf8_lossy(&expected));
}

#[test]
fn the_installed_programs_run() {
    let folder = Folder::new("programs");
    make("install", &folder.0, "");
    let line = "wichteab-order <examples/depot.short >$WORK/order && wichteab-plan <$WORK/order >$WORK/plan && \
                cat $WORK/order $WORK/plan | wichteab-timetable && \
                cat examples/casebook.order examples/casebook.timetable | wichteab-season && wichteab --version";
    let search = search_path(&folder.0.join("bin/wichteab"));
    let ran = Command::new("sh")
        .args(["-c", line])
        .current_dir(top())
        .env("PATH", search)
        .env("WORK", &folder.0)
        .output();
    let ran = ran.expect("sh runs");
    succeeded(&ran, line);
    let printed = String::from_utf8(ran.stdout).expect("text");
    // README.md has both beginnings and the report
    assert!(printed.starts_with("steps 3 moves 7\n1 5>6 6>7 7>11\n"), "{printed}");
    let report = "accepted 1\nrefused 0\nsteps 2\nmoves 4\nparallelism 2000\n";
    assert!(printed.ends_with(&format!("{report}wichteab {VERSION}\n")), "{printed}");
}

fn page(name: &str) -> String {
    fs::read_to_string(top().join("share/man").join(name)).expect(name).replace("\\-", "-")
}

/// The functions that the header declares, with their parameters' names.
fn declared() -> Vec<(String, Vec<String>)> {
    let header = fs::read_to_string(top().join("include/wichteab.h")).expect("it is there");
    let declarations = header.split("\nuint64_t wichteab_").skip(1);
    let named = |declaration: &str| {
        let (name, rest) = declaration.split_once('(').expect("parameters");
        let (inside, _) = rest.split_once(");").expect("an end");
        let last = |parameter: &str| {
            let name = parameter.rsplit([' ', '*']).next().expect("a name");
            name.split('[').next().expect("a name").to_string()
        };
        (format!("wichteab_{name}"), inside.split(',').map(last).collect())
    };
    declarations.map(named).collect()
}

#[test]
fn the_man_pages_name_everything() {
    let tool = page("man1/wichteab.1");
    for command in &COMMANDS {
        assert!(tool.contains(&format!("\n.BR {} ", command.name)), "{}", command.name);
        for choice in command.choices {
            assert!(tool.contains(&format!("--{}", choice.long)), "{}", choice.long);
        }
    }
    let library = page("man3/wichteab.3");
    let functions = declared();
    assert_eq!(functions.len(), 19);
    for (name, parameters) in functions {
        let (_, rest) = library.split_once(&format!("uint64_t {name}(")).expect(&name);
        let (synopsis, _) = rest.split_once(';').expect("an end");
        let at: Vec<Option<usize>> = parameters.iter().map(|one| synopsis.find(one.as_str())).collect();
        assert!(at.iter().all(Option::is_some) && at.is_sorted(), "{name} {parameters:?} {synopsis}");
        assert!(library.matches(&name).count() >= 2, "{name} is not described");
    }
    for text in [&tool, &library] {
        assert!(text.lines().next().expect("a title").contains(&format!("\"Wichteab {VERSION}\"")));
    }
}

/// Where groff is there, it has to read both pages without a warning.
#[test]
fn the_man_pages_are_sound() {
    for name in ["man1/wichteab.1", "man3/wichteab.3"] {
        let text = page(name);
        for section in ["NAME", "SYNOPSIS", "DESCRIPTION", "SEE ALSO"] {
            assert!(text.contains(&format!("\n.SH {section}\n")), "{name} {section}");
        }
        let path = top().join("share/man").join(name);
        if let Ok(ran) = Command::new("groff").args(["-man", "-Tascii", "-ww", "-z"]).arg(&path).output() {
            succeeded(&ran, name);
            assert!(ran.stderr.is_empty(), "{name}: {}", String::from_utf8_lossy(&ran.stderr));
        }
    }
}

// The version: one number in the header, the wrapper, the Pascal unit, the definitions and the archive; a C, C++ or Rust
// program does not link with an archive of another one. `tests/pascal/run.sh` has the same for Pascal.

use std::fs;
use std::path::{Path, PathBuf};
use std::process::{Command, Output};
use std::sync::OnceLock;

use compare::archive;
use dilbreth::VERSION;

const HEADER: &str = include_str!("../../../include/dilbreth.h");
const UNIT: &str = include_str!("../../../include/dilbreth.pas");
const SOURCE: &str = include_str!("../../../crates/dilbreth/src/version.rt");
const DEFINITION: &str = include_str!("../../../crates/dilbreth/specs/Version.antt");
const CHANGES: &str = include_str!("../../../CHANGELOG.md");

// The number that follows the words where they stand first.
fn number_after(text: &str, words: &str) -> u32 {
    let (_, rest) = text.split_once(words).expect(words);
    let end = rest.find(|c: char| !c.is_ascii_digit()).unwrap_or(rest.len());
    rest[..end].parse().expect(words)
}

#[test]
fn one_number() {
    assert_eq!(dilbreth::version(), VERSION);
    for (text, words) in [
        (HEADER, "\n#define DILBRETH_VERSION "),
        (UNIT, "\n  DILBRETH_VERSION = "),
        (UNIT, "\nfunction dilbreth_version_"),
        (SOURCE, " fn dilbreth_version_"),
        (DEFINITION, "\nVERSION = "),
        (CHANGES, "\n## "),
    ] {
        assert_eq!(number_after(text, words), VERSION, "{words:?}");
    }
}

#[test]
fn the_archive_has_its_own_number_only() {
    let found = Command::new("nm").arg("--defined-only").arg(archive::path()).output().expect("nm");
    let symbols = String::from_utf8(found.stdout).unwrap();
    let mut names: Vec<&str> = symbols.lines().filter_map(|line| line.split(' ').next_back()).collect();
    names.retain(|name| name.starts_with("dilbreth_version"));
    names.sort();
    assert_eq!(names, ["dilbreth_version".to_string(), format!("dilbreth_version_{VERSION}")]);
}

fn work(name: &str) -> PathBuf {
    let folder = PathBuf::from(env!("CARGO_TARGET_TMPDIR")).join("version").join(name);
    fs::create_dir_all(&folder).unwrap();
    folder
}

// The folder of a copy of the archive that has the next number.
fn next_archive() -> &'static Path {
    static FOLDER: OnceLock<PathBuf> = OnceLock::new();
    FOLDER.get_or_init(|| {
        let folder = work("next-archive");
        let renamed = Command::new("objcopy")
            .arg(format!("--redefine-sym=dilbreth_version_{VERSION}=dilbreth_version_{}", VERSION + 1))
            .args([archive::path(), folder.join("libdilbreth.a")])
            .status();
        assert!(renamed.expect("objcopy").success());
        folder
    })
}

const OPTIONS: [&str; 4] = [
    "-O0",
    "-O2",
    "-O2 -ffunction-sections -fdata-sections -Wl,--gc-sections",
    "-O2 -flto -ffunction-sections -fdata-sections -Wl,--gc-sections",
];

// C and, where g++ is installed, C++.
fn compilers() -> Vec<[&'static str; 2]> {
    let mut compilers = vec![["gcc", "-std=c99"]];
    if Command::new("g++").arg("--version").output().is_ok() {
        compilers.extend([["g++", "-std=c++98"], ["g++", "-std=c++17"]]);
    } else {
        println!("C++: skipped, g++ is not installed");
    }
    compilers
}

// Builds tests/c/includes.c, which calls nothing, in every way.
fn build(header: &Path, archive: &Path, name: &str, see: impl Fn(Output)) {
    let program = work(name).join("includes");
    for (compiler, options) in compilers().iter().flat_map(|compiler| OPTIONS.map(|options| (compiler, options))) {
        let mut command = Command::new(compiler[0]);
        command.args([compiler[1], "-Wall", "-Wextra", "-Werror", "-pedantic", "-I"]).arg(header);
        command.args(options.split(' ')).arg(archive::root().join("tests/c/includes.c"));
        see(command.arg(archive.join("libdilbreth.a")).arg("-o").arg(&program).env("LC_ALL", "C").output().unwrap());
    }
}

fn links(found: Output) {
    assert!(found.status.success() && found.stderr.is_empty(), "{}", String::from_utf8_lossy(&found.stderr));
}

// The link failed, and a line of the linker names the number.
fn does_not_link(found: Output, number: u32) {
    let said = String::from_utf8_lossy(&found.stderr);
    let symbol = format!("dilbreth_version_{number}");
    assert!(!found.status.success());
    assert!(said.lines().any(|line| line.contains("undefined") && line.contains(&symbol)), "{said}");
}

#[test]
fn c_links_with_its_own_version_only() {
    let include = archive::root().join("include");
    build(&include, &archive::folder(), "own", links);
    build(&include, next_archive(), "next-archive", |found| does_not_link(found, VERSION));
}

#[test]
fn c_with_the_next_header_does_not_link() {
    let [line, next] = [VERSION, VERSION + 1].map(|number| format!("\n#define DILBRETH_VERSION {number}\n"));
    assert_eq!(HEADER.matches(&line).count(), 1);
    let folder = work("next-header");
    fs::write(folder.join("dilbreth.h"), HEADER.replace(&line, &next)).unwrap();
    build(&folder, &archive::folder(), "next-header", |found| does_not_link(found, VERSION + 1));
    build(&folder, next_archive(), "next-of-both", links);
}

// The wrapper over an archive, and a program that calls nothing of it.
fn build_rust(archive: &Path, name: &str) -> Output {
    let folder = work(name);
    let rustc = || {
        let mut command = Command::new("rustc");
        command.args(["--edition", "2021", "-O", "--out-dir"]).arg(&folder).env("LC_ALL", "C");
        command
    };
    let mut wrapper = rustc();
    wrapper.args(["--crate-type", "rlib", "--crate-name", "dilbreth", "-l", "static=dilbreth", "-L"]).arg(archive);
    links(wrapper.arg(archive::root().join("rust/dilbreth/src/lib.rs")).output().expect("rustc"));
    let program = folder.join("program.rs");
    fs::write(&program, "fn main() {\n    println!(\"{}\", dilbreth::VERSION);\n}\n").unwrap();
    rustc()
        .arg("--extern")
        .arg(format!("dilbreth={}/libdilbreth.rlib", folder.display()))
        .arg(program)
        .output()
        .unwrap()
}

#[test]
fn rust_links_with_its_own_version_only() {
    links(build_rust(&archive::folder(), "rust-own"));
    does_not_link(build_rust(next_archive(), "rust-next-archive"), VERSION);
}

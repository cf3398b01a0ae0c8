//! The C header compiles without a warning, a C host can use the store, and the
//! example for a module does what its page says.

use bench::host;
use std::env;
use std::fs;
use std::path::{Path, PathBuf};
use std::process::{Command, Output};

fn here() -> &'static Path {
    Path::new(env!("CARGO_MANIFEST_DIR"))
}

/// As cargo links and runs this test, where the machine is no x86-64.
fn given(what: &str) -> Option<String> {
    env::var(format!("CARGO_TARGET_X86_64_UNKNOWN_LINUX_GNU_{what}")).ok()
}

/// Compiles a C program with the header and links it with the archives.
fn compiled(source: &str, name: &str) -> PathBuf {
    let program = Path::new(env!("CARGO_TARGET_TMPDIR")).join(name);
    let cc = given("LINKER").unwrap_or_else(|| "cc".to_string());
    let flags = [
        "-std=c99",
        "-Wall",
        "-Wextra",
        "-Wpedantic",
        "-Werror",
        "-I",
    ];
    let ended = Command::new(cc)
        .args(flags)
        .arg(here().join("include"))
        .arg(here().join(source))
        .arg(here().join("../target/staticlib/libhost.a"))
        .arg(here().join("../target/staticlib/liblists.a"))
        .arg(here().join("../target/staticlib/libfitting.a"))
        .arg("-o")
        .arg(&program)
        .status()
        .expect("cc runs, as it does to link this test");
    assert!(ended.success());
    program
}

/// Runs a program, which must end with 0.
fn run(program: &Path) -> Output {
    let runner = given("RUNNER").unwrap_or_else(|| "env".to_string());
    let output = Command::new(runner).arg(program).output();
    let output = output.expect("the program runs");
    assert_eq!(output.status.code(), Some(0), "{output:?}");
    output
}

#[test]
fn a_c_host_runs_a_few_lines_of_the_sheet() {
    run(&compiled("tests/c/sheet.c", "sheet"));
}

#[test]
fn a_c_module_leaves_the_fit_test_out() {
    run(&compiled("tests/c/fitting.c", "fitting"));
}

#[test]
fn null_pointers_odd_places_and_long_lengths() {
    run(&compiled("tests/c/pointers.c", "pointers"));
}

#[test]
fn the_example_prints_what_its_page_says() {
    let output = run(&compiled("../examples/module.c", "module"));
    let printed = String::from_utf8(output.stdout).expect("plain text");
    let page = fs::read_to_string(here().join("../docs/MODULE.md")).expect("the page is there");
    let indented: String = printed
        .lines()
        .map(|line| format!("    {line}\n"))
        .collect();
    assert!(
        page.contains(&indented),
        "docs/MODULE.md has not:\n{indented}"
    );
}

#[test]
fn header_and_wrapper_have_one_version() {
    let header = fs::read_to_string(here().join("include/sooqidhaal.h")).expect("the header");
    let number = |name: &str| -> u32 {
        let define = format!("#define STORE_VERSION_{name} ");
        let line = header.lines().find_map(|line| line.strip_prefix(&define));
        line.and_then(|text| text.parse().ok()).expect("a number")
    };
    assert_eq!(host::VERSION, (number("MAJOR"), number("MINOR")));
}

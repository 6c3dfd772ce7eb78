//! A program that is built with an installed library, static and shared, as a user of an installed library builds it.

mod common;

use common::in_repository;
use std::fs;
use std::path::{Path, PathBuf};
use std::process::{Command, Output};

/// The first call of examples/shift.calls, and the second program's lines for it.
const CALL: [&str; 3] = ["examples/1023.rtcm", "49.0", "11.0"];
const LINES: &str =
    "north-south 1205 0.01205 arc seconds\neast-west -712 -0.00712 arc seconds\nheight 469435 46.9435 m\n";

/// The file of the library with which the tests are linked, if it is an archive.
fn archive() -> Option<&'static Path> {
    let (file, origin) = tarnoklej::LIBRARY.split_once(" (").expect("a file and its origin");
    origin.starts_with("static").then_some(Path::new(file))
}

/// Runs a command, which must succeed.
fn succeed(command: &mut Command) -> Output {
    let output = command.output().unwrap_or_else(|error| panic!("{command:?}: {error}"));
    assert!(output.status.success(), "{command:?}\n{}", String::from_utf8_lossy(&output.stderr));
    output
}

/// A prefix in which the library is installed as archive and as shared library. It holds a link, so it stands outside the
/// repository, where `rt ci` allows none.
fn installed(archive: &Path) -> PathBuf {
    let prefix = std::env::temp_dir().join(format!("tarnoklej-installed-{}", std::process::id()));
    let _ = fs::remove_dir_all(&prefix);
    let lib = prefix.join("lib");
    fs::create_dir_all(lib.join("pkgconfig")).expect("a folder can be made");
    fs::copy(archive, lib.join("libtarnoklej.a")).expect("the archive can be copied");
    let compiler = std::env::var("CC").unwrap_or_else(|_| "cc".to_string());
    let mut link = Command::new(compiler);
    link.args(["-shared", "-Wl,-soname,libtarnoklej.so.1", "-o"]).arg(lib.join("libtarnoklej.so.1"));
    succeed(link.arg("-Wl,--whole-archive").arg(archive).arg("-Wl,--no-whole-archive"));
    succeed(Command::new("ln").args(["-s", "libtarnoklej.so.1"]).arg(lib.join("libtarnoklej.so")));
    let version = env!("CARGO_PKG_VERSION");
    let text = format!(
        "libdir={}\n\nName: tarnoklej\nDescription: a copy for a test\nVersion: {version}\nLibs: -L${{libdir}} -ltarnoklej\n",
        lib.display()
    );
    fs::write(lib.join("pkgconfig/tarnoklej.pc"), text).expect("a file can be made");
    prefix
}

/// The example `shift`, built with the installed library in one way, and the words in which the build said so.
fn built(prefix: &Path, link: &str) -> (PathBuf, String) {
    let folder = Path::new(env!("CARGO_TARGET_TMPDIR")).join(link);
    let manifest = Path::new(env!("CARGO_MANIFEST_DIR")).join("Cargo.toml");
    let mut build = Command::new(std::env::var_os("CARGO").unwrap_or_else(|| "cargo".into()));
    build.args(["build", "--offline", "--example", "shift", "--manifest-path"]).arg(manifest);
    build.arg("--target-dir").arg(&folder);
    build.env("TARNOKLEJ_LIBRARY", "installed").env("TARNOKLEJ_LINK", link);
    build.env("PKG_CONFIG_LIBDIR", prefix.join("lib/pkgconfig")).env_remove("PKG_CONFIG_PATH");
    let said = String::from_utf8(succeed(&mut build).stderr).expect("text");
    (folder.join("debug/examples/shift"), said)
}

/// What the example prints for the call, with a folder in which shared libraries are searched for.
fn run(program: &Path, libraries: &Path) -> Output {
    let mut run = Command::new(program);
    run.args(CALL).current_dir(in_repository("")).env("LD_LIBRARY_PATH", libraries).output().expect("it can be run")
}

#[test]
fn a_program_is_linked_with_the_installed_library() {
    let Some(archive) = archive() else {
        panic!("the tests are linked with {}; this one needs an archive", tarnoklej::LIBRARY)
    };
    let prefix = installed(archive);
    let (program, said) = built(&prefix, "static");
    let expected =
        format!("linked: {} (static, installed, found by pkg-config)", prefix.join("lib/libtarnoklej.a").display());
    assert!(said.contains(&expected), "{said}");
    assert_eq!(String::from_utf8_lossy(&run(&program, Path::new("/none")).stdout), LINES);
    let (program, said) = built(&prefix, "shared");
    assert!(said.contains("libtarnoklej.so.1 (shared, installed, found by pkg-config)"), "{said}");
    assert_eq!(String::from_utf8_lossy(&run(&program, &prefix.join("lib")).stdout), LINES);
    assert!(!run(&program, Path::new("/none")).status.success(), "the program does not use the shared library");
    fs::remove_dir_all(&prefix).expect("the folder can be removed");
}

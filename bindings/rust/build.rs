//! Finds the proved library or has it built, and says which one is linked: as cargo's warning, and as `tarnoklej::LIBRARY`.
//!
//! TARNOKLEJ_LIBRARY names it: a file, a folder, `installed` or `repository`. Where that is not set, the first of these is taken:
//! the library that was built in the repository of this crate, an installed one that pkg-config knows, or one that is now built in
//! the repository. Where a folder has an archive and a shared library, TARNOKLEJ_LINK says which: `static` (the default) or
//! `shared`.

use std::env;
use std::path::{Path, PathBuf};
use std::process::{exit, Command};

/// Names the library, or where it is to be taken from.
const LIBRARY_VARIABLE: &str = "TARNOKLEJ_LIBRARY";
/// Says `static` or `shared`.
const LINK_VARIABLE: &str = "TARNOKLEJ_LINK";
/// The variables of the environment on which the choice depends.
const VARIABLES: [&str; 7] = [
    LIBRARY_VARIABLE,
    LINK_VARIABLE,
    "PKG_CONFIG",
    "PKG_CONFIG_PATH",
    "PKG_CONFIG_LIBDIR",
    "PKG_CONFIG_SYSROOT_DIR",
    "PKG_CONFIG_ALLOW_CROSS",
];

/// How a library is linked.
#[derive(Clone, Copy, PartialEq)]
enum Link {
    Static,
    Shared,
}

/// A library that is there, and where it comes from in words.
struct Library {
    file: PathBuf,
    link: Link,
    origin: &'static str,
}

/// A library, or why there is none, in words.
type Found = Result<Library, String>;

fn main() {
    VARIABLES.iter().for_each(|name| println!("cargo:rerun-if-env-changed={name}"));
    println!("cargo:rerun-if-changed=build.rs");
    let said = found().and_then(|library| said_to_cargo(&library));
    if let Err(reasons) = said {
        eprintln!("tarnoklej: there is no library to link.\n{reasons}");
        exit(1);
    }
}

/// The library that is to be linked.
fn found() -> Found {
    let wanted = wanted_link()?;
    let named = env::var_os(LIBRARY_VARIABLE).filter(|value| !value.is_empty());
    match named.as_deref().map(|value| (value.to_str(), Path::new(value))) {
        Some((Some("installed"), _)) => installed(wanted),
        Some((Some("repository"), _)) => built_before(wanted).or_else(|_| built_now(wanted)),
        Some((_, path)) => at_path(path, wanted),
        None => built_before(wanted).or_else(|not_there| {
            installed(wanted).or_else(|not_installed| {
                built_now(wanted).map_err(|not_built| {
                    let variable = format!("{LIBRARY_VARIABLE} is not set; it may name the library's file or folder.");
                    [variable, not_there, not_installed, not_built].join("\n")
                })
            })
        }),
    }
}

/// The way of linking that is asked for, if any.
fn wanted_link() -> Result<Option<Link>, String> {
    match env::var(LINK_VARIABLE).as_deref() {
        Err(_) | Ok("") => Ok(None),
        Ok("static") => Ok(Some(Link::Static)),
        Ok("shared") => Ok(Some(Link::Shared)),
        Ok(other) => Err(format!("{LINK_VARIABLE} is {other}, and not static or shared.")),
    }
}

/// The library that the environment names by its file or folder.
fn at_path(path: &Path, wanted: Option<Link>) -> Found {
    let origin = "named by TARNOKLEJ_LIBRARY";
    let named = format!("{LIBRARY_VARIABLE} names {}", path.display());
    if path.is_relative() {
        return Err(format!("{named}, which is no absolute path."));
    }
    if path.is_dir() {
        return in_folder(path, wanted, origin);
    }
    if !path.is_file() {
        return Err(format!("{named}, which is not there."));
    }
    let link = link_of(path).ok_or_else(|| format!("{named}, which is not named as a library is."))?;
    Ok(Library { file: path.to_path_buf(), link, origin })
}

/// How a file is linked, by its name.
fn link_of(file: &Path) -> Option<Link> {
    let name = file.file_name()?.to_str()?;
    let shared = [".so", ".dylib", ".dll.a"].iter().any(|end| name.ends_with(end));
    let archive = name.ends_with(".a") || name.ends_with(".lib");
    match (shared, archive) {
        (true, _) => Some(Link::Shared),
        (false, true) => Some(Link::Static),
        (false, false) => None,
    }
}

/// The library of a folder, an archive where either is there and nothing is asked for.
fn in_folder(folder: &Path, wanted: Option<Link>, origin: &'static str) -> Found {
    let archives = ["libtarnoklej.a", "libcapi.a", "tarnoklej.lib"];
    let shared = ["libtarnoklej.so", "libtarnoklej.dylib", "libtarnoklej.dll.a"];
    let names: Vec<&str> = match wanted {
        Some(Link::Static) => archives.to_vec(),
        Some(Link::Shared) => shared.to_vec(),
        None => [archives, shared].concat(),
    };
    let there = names.iter().map(|name| folder.join(name)).find(|file| file.is_file());
    let file = there.ok_or_else(|| format!("{} has none of {}.", folder.display(), names.join(", ")))?;
    let link = link_of(&file).expect("the names above are those of libraries");
    Ok(Library { file, link, origin })
}

/// The library that pkg-config knows, of a version that this crate can use.
fn installed(wanted: Option<Link>) -> Found {
    if variable("HOST") != variable("TARGET") && env::var_os("PKG_CONFIG_ALLOW_CROSS").is_none() {
        return Err("pkg-config is not asked for another machine, unless PKG_CONFIG_ALLOW_CROSS is set.".to_string());
    }
    let version = variable("CARGO_PKG_VERSION");
    let major: u32 = version.split('.').next().and_then(|number| number.parse().ok()).expect("a version has numbers");
    let (least, below) = (format!("tarnoklej >= {version}"), format!("tarnoklej < {}", major + 1));
    ask_pkg_config(&["--print-errors", "--exists", &least, &below])?;
    let folder = ask_pkg_config(&["--variable=libdir", "tarnoklej"])?;
    in_folder(Path::new(folder.trim()), wanted, "installed, found by pkg-config")
}

/// What pkg-config prints, or why it does not answer.
fn ask_pkg_config(words: &[&str]) -> Result<String, String> {
    let program = env::var_os("PKG_CONFIG").unwrap_or_else(|| "pkg-config".into());
    let shown = program.to_string_lossy().into_owned();
    let output =
        Command::new(program).args(words).output().map_err(|error| format!("{shown} cannot be run: {error}."))?;
    if output.status.success() {
        return Ok(String::from_utf8_lossy(&output.stdout).into_owned());
    }
    let said = String::from_utf8_lossy(&output.stderr);
    Err(format!("{shown}: {}", said.trim().replace('\n', " ")))
}

/// The repository of this crate, if it stands in one.
fn repository() -> Result<PathBuf, String> {
    let root = PathBuf::from(variable("CARGO_MANIFEST_DIR")).join("../..");
    match root.canonicalize() {
        Ok(root) if root.join("bindings/staticlib").is_file() => Ok(root),
        _ => Err("This crate does not stand in the repository, where a library could be built.".to_string()),
    }
}

/// The folder of the repository's library for the machine, and the words that build it there.
fn in_repository(wanted: Option<Link>) -> Result<(String, Vec<&'static str>), String> {
    let (arch, os) = (variable("CARGO_CFG_TARGET_ARCH"), variable("CARGO_CFG_TARGET_OS"));
    let name = match (arch.as_str(), os.as_str()) {
        ("x86_64", "linux") if wanted != Some(Link::Shared) => {
            return Ok(("target/staticlib".to_string(), vec!["bindings/staticlib"]));
        }
        ("x86_64", "linux") => "x86_64-linux-gnu",
        ("aarch64", "linux" | "android") => "aarch64-linux-gnu",
        ("riscv64", "linux") => "riscv64-linux-gnu",
        ("x86_64", "windows") => "x86_64-windows-gnu",
        _ => return Err(format!("The repository builds no library for {}.", variable("TARGET"))),
    };
    Ok((format!("target/targets/{name}"), vec!["targets/build", name]))
}

/// The library that was built in the repository.
fn built_before(wanted: Option<Link>) -> Found {
    let (folder, _) = in_repository(wanted)?;
    in_folder(&repository()?.join(folder), wanted, "built in the repository")
}

/// The library that is now built in the repository, which proves what is not proved yet.
fn built_now(wanted: Option<Link>) -> Found {
    let (root, (folder, words)) = (repository()?, in_repository(wanted)?);
    let (program, arguments) = words.split_first().expect("a program");
    let output = Command::new(root.join(program)).args(arguments).current_dir(&root).output();
    let output = output.map_err(|error| format!("{program} cannot be run: {error}."))?;
    if !output.status.success() {
        let said = String::from_utf8_lossy(&output.stderr);
        return Err(format!("{} did not build it: {}", words.join(" "), said.trim()));
    }
    in_folder(&root.join(folder), wanted, "built in the repository for this build")
}

/// Tells cargo what to link, and tells the user.
fn said_to_cargo(library: &Library) -> Result<(), String> {
    let file = library.file.canonicalize().map_err(|error| format!("{}: {error}", library.file.display()))?;
    let (folder, name) = (library.file.parent(), library.file.file_name().and_then(|name| name.to_str()));
    let (Some(folder), Some(name)) = (folder, name) else {
        return Err(format!("{} is no library's name.", library.file.display()));
    };
    let stem = name.split('.').next().unwrap_or(name);
    let stem = if name.ends_with(".lib") { stem } else { stem.strip_prefix("lib").unwrap_or(stem) };
    let (kind, words) = match library.link {
        Link::Static => ("static", "static"),
        Link::Shared => ("dylib", "shared"),
    };
    println!("cargo:rerun-if-changed={}", file.display());
    println!("cargo:rustc-link-search=native={}", folder.display());
    println!("cargo:rustc-link-lib={kind}={stem}");
    let said = format!("{} ({words}, {})", file.display(), library.origin);
    println!("cargo:rustc-env=TARNOKLEJ_LINKED={said}");
    println!("cargo:warning=linked: {said}");
    Ok(())
}

/// A variable that cargo sets.
fn variable(name: &str) -> String {
    env::var(name).unwrap_or_else(|_| panic!("cargo sets {name}"))
}

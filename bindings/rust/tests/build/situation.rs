//! A folder with a made-up repository and a made-up prefix, in which build.rs is run.

use std::fs;
use std::path::{Path, PathBuf};
use std::process::Command;
use std::sync::OnceLock;

/// A machine as cargo names it: the triple, the architecture and the operating system.
pub type Machine = [&'static str; 3];

/// The machine on which the tests run, for the script.
pub const HERE: Machine = ["x86_64-unknown-linux-gnu", "x86_64", "linux"];
/// Another machine.
pub const CROSS: Machine = ["aarch64-unknown-linux-gnu", "aarch64", "linux"];

/// What build.rs told cargo, with the made-up folders as words.
#[derive(Debug)]
pub struct Said {
    pub search: String,
    pub library: String,
    pub linked: String,
    pub warning: String,
}

/// The folder of a situation.
pub struct Situation {
    folder: PathBuf,
}

/// build.rs as a program.
fn program() -> &'static Path {
    static PROGRAM: OnceLock<PathBuf> = OnceLock::new();
    PROGRAM.get_or_init(|| {
        let program = Path::new(env!("CARGO_TARGET_TMPDIR")).join("build_script");
        let compiler = std::env::var_os("RUSTC").unwrap_or_else(|| "rustc".into());
        let mut build = Command::new(compiler);
        build.args(["--edition", "2021"]).arg(Path::new(env!("CARGO_MANIFEST_DIR")).join("build.rs"));
        let built = build.arg("-o").arg(&program).status().expect("rustc can be run");
        assert!(built.success());
        program
    })
}

impl Situation {
    /// A folder of a name, in which nothing is but the crate's own folder.
    pub fn new(name: &str) -> Self {
        let folder = Path::new(env!("CARGO_TARGET_TMPDIR")).join("situations").join(name);
        let _ = fs::remove_dir_all(&folder);
        fs::create_dir_all(folder.join("repository/bindings/rust")).expect("a folder can be made");
        Situation { folder: folder.canonicalize().expect("the folder is there") }
    }

    /// The path of a file or folder.
    pub fn path(&self, name: &str) -> String {
        self.folder.join(name).display().to_string()
    }

    /// Makes a file.
    pub fn file(&self, name: &str) {
        let file = self.folder.join(name);
        fs::create_dir_all(file.parent().expect("a file has a folder")).expect("a folder can be made");
        fs::write(file, "").expect("a file can be made");
    }

    /// Makes the repository one in which a library can be built, with a file.
    pub fn in_repository(&self, name: &str) {
        self.builder("bindings/staticlib", "exit 1");
        self.file(&format!("repository/{name}"));
    }

    /// Makes a script of the repository.
    pub fn builder(&self, name: &str, commands: &str) {
        let file = self.folder.join("repository").join(name);
        fs::create_dir_all(file.parent().expect("a script has a folder")).expect("a folder can be made");
        fs::write(&file, format!("#!/bin/sh\n{commands}\n")).expect("a script can be made");
        let made = Command::new("chmod").arg("+x").arg(&file).status().expect("chmod can be run");
        assert!(made.success());
    }

    /// Installs libraries of a version in the prefix.
    pub fn install(&self, version: &str, libraries: &[&str]) {
        libraries.iter().for_each(|name| self.file(&format!("prefix/lib/{name}")));
        self.file("prefix/lib/pkgconfig/tarnoklej.pc");
        let prefix = self.path("prefix");
        let text = format!(
            "prefix={prefix}\nlibdir=${{prefix}}/lib\n\nName: tarnoklej\nDescription: made up\nVersion: {version}\n\
             Libs: -L${{libdir}} -ltarnoklej\n"
        );
        fs::write(self.folder.join("prefix/lib/pkgconfig/tarnoklej.pc"), text).expect("a file can be made");
    }

    /// Runs build.rs, and gives what it told cargo or what it wrote on standard error.
    pub fn run(&self, [target, arch, os]: Machine, variables: &[(&str, &str)]) -> Result<Said, String> {
        let mut run = Command::new(program());
        run.env_remove("TARNOKLEJ_LIBRARY").env_remove("TARNOKLEJ_LINK").env_remove("PKG_CONFIG_ALLOW_CROSS");
        run.env("CARGO_MANIFEST_DIR", self.folder.join("repository/bindings/rust"));
        run.env("CARGO_PKG_VERSION", "1.0.0").env("HOST", HERE[0]).env("TARGET", target);
        run.env("CARGO_CFG_TARGET_ARCH", arch).env("CARGO_CFG_TARGET_OS", os);
        run.env("PKG_CONFIG_LIBDIR", self.folder.join("prefix/lib/pkgconfig")).env_remove("PKG_CONFIG_PATH");
        variables.iter().for_each(|(name, value)| {
            run.env(name, value);
        });
        let output = run.output().expect("build.rs can be run");
        let in_words = |bytes: &[u8]| {
            let text = String::from_utf8_lossy(bytes).replace(&self.path("repository"), "REPOSITORY");
            text.replace(&self.path("prefix"), "PREFIX").replace(&self.path(""), "FOLDER/")
        };
        if !output.status.success() {
            return Err(in_words(&output.stderr));
        }
        let said = in_words(&output.stdout);
        let value = |key: &str| {
            let mut lines = said.lines().filter_map(|line| line.strip_prefix(key));
            let value = lines.next().unwrap_or_else(|| panic!("{key} is not said")).to_string();
            assert_eq!(lines.next(), None, "{key} is said twice");
            value
        };
        Ok(Said {
            search: value("cargo:rustc-link-search=native="),
            library: value("cargo:rustc-link-lib="),
            linked: value("cargo:rustc-env=TARNOKLEJ_LINKED="),
            warning: value("cargo:warning="),
        })
    }
}

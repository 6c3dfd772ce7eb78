//! The proved programs, which stand beside the installed command.

use crate::failure::{wrong, Failure};
use std::convert::Infallible;
use std::os::unix::process::CommandExt;
use std::path::PathBuf;
use std::process::Command;

/// Names another folder of the proved programs.
const FOLDER_VARIABLE: &str = "TARNOKLEJ_LIBEXEC";
/// The folder of the proved programs, seen from the folder of the command.
const FOLDER: &str = "../libexec/tarnoklej";
/// The script by which they are run.
const RUNNER: &str = "proved";

/// The folder of the proved programs.
fn folder() -> Option<PathBuf> {
    if let Some(named) = std::env::var_os(FOLDER_VARIABLE) {
        return Some(PathBuf::from(named));
    }
    let command = std::env::current_exe().ok()?.canonicalize().ok()?;
    Some(command.parent()?.join(FOLDER))
}

/// Runs a proved program in place of the command.
pub fn run(name: &str, words: &[String]) -> Result<Infallible, Failure> {
    if !words.is_empty() {
        return Err(wrong(format!("{name} takes no words and reads standard input; see tarnoklej help {name}")));
    }
    let Some(folder) = folder().filter(|folder| folder.join(name).is_file() && folder.join(RUNNER).is_file()) else {
        return Err(wrong(format!(
            "the proved program {name} is not installed; in the repository it is ./tarnoklej {name}"
        )));
    };
    let error = Command::new(folder.join(RUNNER)).arg(&folder).arg(name).exec();
    Err(wrong(format!("cannot run {name}: {error}")))
}

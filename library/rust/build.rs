//! Finds `libmold.a` and links it. `docs/LIBRARY.md` states where it looks for the archive.

use std::env;
use std::path::PathBuf;
use std::process::{exit, Command};

const ARCHIVE: &str = "libmold.a";
const VARIABLE: &str = "MOLD_LIB_DIR";

/// The folders beside this crate that may have the archive: `library/out` of a built repository, and `lib` of a release.
fn folders_beside() -> [PathBuf; 2] {
    let folder = env::var_os("CARGO_MANIFEST_DIR").map(PathBuf::from).unwrap_or_default();
    ["out", "lib"].map(|name| folder.with_file_name(name))
}

/// The path that a command prints, if it succeeds.
fn printed_path(command: &mut Command) -> Option<PathBuf> {
    let done = command.output().ok()?;
    let path = String::from_utf8(done.stdout).ok()?;
    (done.status.success() && !path.trim().is_empty()).then(|| PathBuf::from(path.trim()))
}

/// The folder of the repository's prebuilt archive, if that was built from the present sources.
fn prebuilt_folder() -> Option<PathBuf> {
    let crate_folder = env::var_os("CARGO_MANIFEST_DIR").map(PathBuf::from)?;
    let script = crate_folder.parent()?.with_file_name("prebuilt").join("find");
    let archive = printed_path(Command::new("sh").arg(script).arg(ARCHIVE))?;
    archive.parent().map(PathBuf::from)
}

/// The folder that `pkg-config` returns for an installed library.
fn installed_folder() -> Option<PathBuf> {
    printed_path(Command::new("pkg-config").args(["--variable=libdir", "mold"]))
}

/// The first folder that has the archive, or why there is none.
fn archive_folder() -> Result<PathBuf, String> {
    if let Some(folder) = env::var_os(VARIABLE).map(PathBuf::from) {
        return if folder.join(ARCHIVE).is_file() {
            Ok(folder)
        } else {
            Err(format!("{VARIABLE} is {}, but that folder has no {ARCHIVE}", folder.display()))
        };
    }
    let [built, released] = folders_beside();
    let beside = [built.clone(), released].into_iter();
    let mut folders = beside.chain(prebuilt_folder()).chain(installed_folder());
    folders.find(|folder| folder.join(ARCHIVE).is_file()).ok_or_else(|| {
        format!(
            "{ARCHIVE} was not found in {}, nor by `pkg-config --variable=libdir mold`, and there is no prebuilt one for \
             these sources. Build it with `sh library/build`, install it with `sh install.sh --library`, or set \
             {VARIABLE} to its folder",
            built.display()
        )
    })
}

fn main() {
    println!("cargo:rerun-if-env-changed={VARIABLE}");
    println!("cargo:rerun-if-env-changed=PKG_CONFIG_PATH");
    match archive_folder() {
        Ok(folder) => {
            println!("cargo:rerun-if-changed={}", folder.join(ARCHIVE).display());
            println!("cargo:rustc-link-search=native={}", folder.display());
            println!("cargo:rustc-link-lib=static=mold");
        }
        Err(why) => {
            eprintln!("{why}");
            exit(1);
        }
    }
}

//! Says where libjivaszte.a is: in the folder JIVASZTE_LIB, in this repository's target/staticlib, or
//! where pkg-config has it, as `make install` puts it. The first of these that there is.

use std::path::{Path, PathBuf};
use std::process::Command;

const ARCHIVE: &str = "libjivaszte.a";

fn main() {
    println!("cargo:rerun-if-env-changed=JIVASZTE_LIB");
    println!("cargo:rerun-if-env-changed=PKG_CONFIG_PATH");
    let here = Path::new(env!("CARGO_MANIFEST_DIR")).join("../target/staticlib");
    let given = std::env::var_os("JIVASZTE_LIB").map(PathBuf::from);
    let folder = match given {
        Some(folder) => folder,
        None if here.join(ARCHIVE).exists() => here,
        None => installed().unwrap_or(here),
    };
    let archive = folder.join(ARCHIVE);
    println!("cargo:rerun-if-changed={}", archive.display());
    assert!(
        archive.exists(),
        "{} is not there: `tools/build library` or `make install` makes it, and JIVASZTE_LIB names its folder",
        archive.display()
    );
    println!("cargo:rustc-link-search=native={}", folder.display());
}

fn installed() -> Option<PathBuf> {
    let asked = Command::new("pkg-config").args(["--variable=libdir", "jivaszte"]).output().ok()?;
    let folder = String::from_utf8(asked.stdout).ok()?;
    Some(PathBuf::from(folder.trim())).filter(|folder| asked.status.success() && folder.is_dir())
}

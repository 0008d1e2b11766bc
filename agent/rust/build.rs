//! Links the proved library: that of the checkout, or the archive that QADHMULEH_AGENT_LIB names.

use std::env;
use std::path::{Path, PathBuf};
use std::process::exit;

/// The variable that names another archive, such as an installed libqadhmuleh-agent.a.
const VARIABLE: &str = "QADHMULEH_AGENT_LIB";

fn main() {
    println!("cargo:rerun-if-env-changed={VARIABLE}");
    println!("cargo:rerun-if-changed=build.rs");
    let crates = Path::new(env!("CARGO_MANIFEST_DIR")).join("../../crates/agent");
    let archive = match env::var_os(VARIABLE) {
        Some(named) => PathBuf::from(named),
        None => crates.join("out/libagent.a"),
    };
    let Ok(archive) = archive.canonicalize() else {
        eprintln!(
            "there is no library {}; `rt lib`, in crates/agent of the checkout, proves and builds it as \
             out/libagent.a; the variable {VARIABLE} can name an archive that is elsewhere, by its whole path",
            archive.display()
        );
        exit(1);
    };
    println!("cargo:rerun-if-changed={}", archive.display());

    // The linker is given a folder and a name, of lib<name>.a.
    let name = archive
        .file_name()
        .and_then(|file| file.to_str())
        .and_then(|file| {
            let file = file.strip_prefix("lib")?;
            file.strip_suffix(".a")
        });
    let (Some(folder), Some(name)) = (archive.parent(), name) else {
        eprintln!(
            "{} is not named lib<name>.a, as a library to be linked must be",
            archive.display()
        );
        exit(1);
    };
    println!("cargo:rustc-link-search=native={}", folder.display());
    println!("cargo:rustc-link-lib=static={name}");
}

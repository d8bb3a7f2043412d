//! Links libgrants.a: from the folder that GRANTS_LIB_DIR names, else from the one that a packaged crate has for the target's machine (archives), else from
//! target/native of the checkout, where `rust/library` makes it: of proved functions where this checkout's proofs are made, else of the same sources without them. The file libgrants.proofs beside it says which.

use std::env;
use std::fs;
use std::path::{Path, PathBuf};
use std::process::{Command, Stdio};

fn main() {
    println!("cargo:rerun-if-env-changed=GRANTS_LIB_DIR");
    let folder = match env::var_os("GRANTS_LIB_DIR") {
        Some(folder) => PathBuf::from(folder),
        None => packed().unwrap_or_else(native),
    };
    let archive = folder.join("libgrants.a");
    assert!(archive.is_file(), "{} is not there", archive.display());
    let proofs = folder.join("libgrants.proofs");
    let said = fs::read_to_string(&proofs).unwrap_or_default();
    let said = said
        .lines()
        .next()
        .unwrap_or("nothing is said about its proofs");
    println!("cargo:rustc-env=GRANTS_PROOFS={said}");
    if env::var_os("GRANTS_LIB_DIR").is_none() && said.contains("without") {
        println!("cargo:warning=libgrants.a: {said}");
    }
    println!("cargo:rerun-if-changed={}", archive.display());
    println!("cargo:rerun-if-changed={}", proofs.display());
    println!("cargo:rustc-link-search=native={}", folder.display());
    println!("cargo:rustc-link-lib=static=grants");
}

/// The folder of a packaged crate with the archive for the machine that is compiled for.
fn packed() -> Option<PathBuf> {
    let top = PathBuf::from(env::var_os("CARGO_MANIFEST_DIR")?).join("archives");
    if !top.is_dir() {
        return None;
    }
    let (machine, system) = ("CARGO_CFG_TARGET_ARCH", "CARGO_CFG_TARGET_OS");
    let (machine, system) = (env::var(machine).ok()?, env::var(system).ok()?);
    let folder = top.join(format!("{machine}-{system}"));
    assert!(
        folder.is_dir(),
        "this package has no libgrants.a for {machine}-{system}: GRANTS_LIB_DIR may name a folder that has one"
    );
    Some(folder)
}

fn native() -> PathBuf {
    // A package that cargo verifies lies deeper in the checkout than the crate.
    let here = PathBuf::from(env::var_os("CARGO_MANIFEST_DIR").unwrap());
    let mut above = here.ancestors().skip(1);
    let checkout = above.find(|folder| folder.join("rust/library").is_file());
    let checkout = checkout.unwrap_or(Path::new("."));
    let changed = |path: PathBuf| println!("cargo:rerun-if-changed={}", path.display());
    changed(checkout.join("crates.txt"));
    // What the kit makes of a crate, in its out/, is no source.
    let rooms = checkout.join("crates");
    match fs::read_dir(&rooms) {
        // An error isn't taken for a folder that isn't there: what can't be read is looked at anew each time.
        Err(error) if error.kind() != std::io::ErrorKind::NotFound => changed(rooms),
        Err(_) => {}
        Ok(found) => {
            for room in found {
                let Ok(room) = room else {
                    changed(rooms.clone());
                    continue;
                };
                for part in ["src", "specs", "proofs"] {
                    let part = room.path().join(part);
                    match fs::metadata(&part) {
                        Err(error) if error.kind() == std::io::ErrorKind::NotFound => {}
                        _ => changed(part),
                    }
                }
            }
        }
    }
    let made = Command::new(checkout.join("rust/library"))
        .stdout(Stdio::null())
        .status();
    assert!(
        made.is_ok_and(|status| status.success()),
        "no libgrants.a: `rust/library` makes it with the Rattle kit, or GRANTS_LIB_DIR names the folder that has it"
    );
    checkout.join("target/native")
}

//! Links the proved code as static archives into the tests and the benchmark:
//! the door, and the whole square root alone. `cfg(door)` and `cfg(whole_root)`
//! say which of them are there. The library `host` itself has nothing of them.
//!
//! `QUECHOTZAL_DOOR` and `QUECHOTZAL_WHOLE_ROOT` name the archives. Without it,
//! one is what `tools/door` or `tools/whole_root` wrote, where the machine is the
//! one that it is for.

use std::env;
use std::path::{Path, PathBuf};

fn main() {
    println!("cargo:rerun-if-changed=build.rs");
    for name in ["door", "whole_root"] {
        println!("cargo:rustc-check-cfg=cfg({name})");
        match archive(name) {
            Ok(path) => link(name, &path),
            Err(why) => println!("cargo:warning={name} is not linked: {why}"),
        }
    }
}

/// The archive to link, or why there is none.
fn archive(name: &str) -> Result<PathBuf, String> {
    let variable = format!("QUECHOTZAL_{}", name.to_uppercase());
    println!("cargo:rerun-if-env-changed={variable}");
    if let Some(named) = env::var_os(&variable).filter(|named| !named.is_empty()) {
        let path = Path::new(&named).canonicalize();
        return Ok(path.unwrap_or_else(|why| panic!("{variable} is {named:?}: {why}")));
    }
    let machine = env::var("CARGO_CFG_TARGET_ARCH").unwrap();
    if machine != "x86_64" {
        return Err(format!(
            "it is built for x86-64, and this is {machine}; {variable} may name another"
        ));
    }
    let built = format!("../target/staticlib/lib{name}.a");
    println!("cargo:rerun-if-changed={built}");
    Path::new(&built)
        .canonicalize()
        .map_err(|why| format!("{built}: {why}; `tools/{name}` writes it"))
}

fn link(name: &str, archive: &Path) {
    let archive = archive.display();
    println!("cargo:rerun-if-changed={archive}");
    println!("cargo:rustc-cfg={name}");
    println!("cargo:rustc-link-arg-tests={archive}");
    println!("cargo:rustc-link-arg-benches={archive}");
}

//! Tells the linker where `liblimecove.a` is: in the folder that LIMECOVE_LIB names, or in that of a release, or where `bindings/build.sh`
//! puts it. If it is nowhere, that is a warning: documentation and checks need no library.

use std::env;
use std::path::PathBuf;

/// What cargo says of the target.
fn target(what: &str) -> String {
    env::var(format!("CARGO_CFG_TARGET_{}", what)).unwrap_or_default()
}

/// The folders that may have the library, or why there are none.
fn folders() -> Result<Vec<PathBuf>, String> {
    if let Some(named) = env::var_os("LIMECOVE_LIB").map(PathBuf::from) {
        return match named.is_absolute() {
            true => Ok(vec![named]),
            false => Err(format!(
                "LIMECOVE_LIB is no absolute path: {}",
                named.display()
            )),
        };
    }
    let here = PathBuf::from(env::var_os("CARGO_MANIFEST_DIR").expect("cargo sets it"));
    let name = format!("{}-unknown-linux-gnu", target("ARCH"));
    let built = here.join("../../out");
    Ok(vec![
        here.join("../..").join(&name).join("lib"),
        match name.starts_with("x86_64-") {
            true => built,
            false => built.join(name),
        },
    ])
}

/// The folder that has it, or why none has.
fn found() -> Result<PathBuf, String> {
    let folders = folders()?;
    let has = |folder: &&PathBuf| folder.join("liblimecove.a").is_file();
    if let Some(folder) = folders.iter().find(has) {
        return Ok(folder.clone());
    }
    // a file that is not there counts as changed: it is looked for again
    for folder in &folders {
        println!(
            "cargo:rerun-if-changed={}",
            folder.join("liblimecove.a").display()
        );
    }
    Err("set LIMECOVE_LIB to the folder that has liblimecove.a".to_string())
}

fn main() {
    println!("cargo:rerun-if-changed=build.rs");
    println!("cargo:rerun-if-env-changed=LIMECOVE_LIB");
    let is_built_for = matches!(target("ARCH").as_str(), "x86_64" | "aarch64")
        && (target("OS"), target("POINTER_WIDTH"), target("ENDIAN"))
            == ("linux".into(), "64".into(), "little".into());
    if !is_built_for {
        println!("cargo:warning=liblimecove.a is for Linux on x86-64 and aarch64");
    }
    match found() {
        Ok(folder) => {
            println!(
                "cargo:rerun-if-changed={}",
                folder.join("liblimecove.a").display()
            );
            println!("cargo:rustc-link-search=native={}", folder.display());
            println!("cargo:rustc-link-lib=static=limecove");
        }
        // no `static=`: the crate could not be built then. A program says what it lacks when it is linked.
        Err(reason) => {
            println!("cargo:warning={}", reason);
            println!("cargo:rustc-link-lib=limecove");
        }
    }
}

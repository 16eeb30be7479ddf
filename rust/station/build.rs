//! Links libstation.a (feature `link`): from the folder STATION_LIBRARY_DIR, or from this repository's target/staticlib.

use std::env;
use std::path::PathBuf;

fn main() {
    println!("cargo::rerun-if-changed=build.rs");
    println!("cargo::rerun-if-env-changed=STATION_LIBRARY_DIR");
    if env::var_os("CARGO_FEATURE_LINK").is_none() {
        return;
    }
    if let Err(message) = link() {
        println!("cargo::error={message}");
    }
}

fn link() -> Result<(), String> {
    let arch = env::var("CARGO_CFG_TARGET_ARCH").unwrap_or_default();
    if arch != "x86_64" {
        return Err(format!("libstation.a is for x86-64 alone, and this build is for {arch}"));
    }
    let (folder, advice) = match env::var_os("STATION_LIBRARY_DIR") {
        Some(folder) => {
            (PathBuf::from(folder), "STATION_LIBRARY_DIR has to name the folder that has it, as PREFIX/lib after tools/install PREFIX")
        }
        None => (
            PathBuf::from(env::var_os("CARGO_MANIFEST_DIR").unwrap_or_default()).join("../../target/staticlib"),
            "run tools/archive in the station's repository, or set STATION_LIBRARY_DIR to the folder that has it",
        ),
    };
    let archive = folder.join("libstation.a");
    // an archive that comes or changes later is seen
    println!("cargo::rerun-if-changed={}", archive.display());
    if !archive.is_file() {
        return Err(format!("there is no {}: {advice}", archive.display()));
    }
    let folder = folder.canonicalize().map_err(|error| format!("{}: {error}", folder.display()))?;
    println!("cargo::rustc-link-search=native={}", folder.display());
    println!("cargo::rustc-link-lib=static=station");
    Ok(())
}

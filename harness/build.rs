//! Compiles the C files with gcc (no outside crate) and links the station's library.
//!
//! STATION_LIBRARY names the library: a path to an archive with the station's calls and the board's (default: target/staticlib/libstation.a
//! of the repository, which tools/archive makes), or the word `base`, which puts c/base.c in its place under the names station_* and board_*.

mod room {
    include!("src/room.rs");
}

use std::env;
use std::path::{Path, PathBuf};
use std::process::Command;

fn run(command: &mut Command) {
    let status = command.status().unwrap_or_else(|error| panic!("{command:?}: {error}"));
    assert!(status.success(), "{command:?}: {status}");
}

/// Compiles one C file and puts it into an archive of its own, which is linked.
fn compile(here: &Path, out: &Path, source: &str, archive: &str, flags: &[&str]) {
    let object = out.join(format!("{archive}.o"));
    let library = out.join(format!("lib{archive}.a"));
    run(Command::new("gcc")
        .args(["-std=c11", "-O2", "-Wall", "-Wextra", "-Werror", "-c", "-I"])
        .arg(here.join("../include"))
        .args(flags)
        .args([format!("-DROOM={}", room::ROOM), format!("-DNO_RUNNER={}", room::NO_RUNNER)])
        .arg(here.join("c").join(source))
        .arg("-o")
        .arg(&object));
    let _ = std::fs::remove_file(&library);
    run(Command::new("ar").arg("rcs").arg(&library).arg(&object));
    println!("cargo:rustc-link-search=native={}", out.display());
    println!("cargo:rustc-link-lib=static={archive}");
}

/// Compiles base.c or careful.c to a set of calls with names of their own: the station's eleven, or with BOARD the board's six.
fn compile_calls(here: &Path, out: &Path, source: &str, name: &str, flags: &[&str]) {
    let named = format!("-DNAME(call)={name}_##call");
    compile(here, out, source, &format!("{name}_calls"), &[flags, &[&named]].concat());
}

fn main() {
    let here = PathBuf::from(env::var("CARGO_MANIFEST_DIR").unwrap());
    let out = PathBuf::from(env::var("OUT_DIR").unwrap());
    println!("cargo:rerun-if-changed=build.rs");
    println!("cargo:rerun-if-changed=c");
    println!("cargo:rerun-if-changed=src/room.rs");
    println!("cargo:rerun-if-changed=../include");
    println!("cargo:rerun-if-env-changed=STATION_LIBRARY");

    compile_calls(&here, &out, "base.c", "base", &[]);
    compile_calls(&here, &out, "base.c", "base_board", &["-DBOARD"]);
    compile_calls(&here, &out, "careful.c", "careful", &["-O3"]);
    compile_calls(&here, &out, "careful.c", "careful_board", &["-O3", "-DBOARD"]);
    compile_calls(&here, &out, "careful.c", "half_first", &["-O3", "-DHALF_FIRST"]);
    compile_calls(&here, &out, "careful.c", "half_first_board", &["-O3", "-DHALF_FIRST", "-DBOARD"]);
    compile(&here, &out, "pcuspl.c", "pcuspl", &[]);
    // a null pointer that the header hands to a call is a trap, which evidence reports (src/bin/evidence/hit.rs)
    compile(&here, &out, "header.c", "header", &["-fsanitize=nonnull-attribute", "-fsanitize-undefined-trap-on-error"]);

    let default = here.join("../target/staticlib/libstation.a").display().to_string();
    let library = env::var("STATION_LIBRARY").unwrap_or(default);
    if library == "base" {
        compile_calls(&here, &out, "base.c", "station", &[]);
        compile_calls(&here, &out, "base.c", "board", &["-DBOARD"]);
        println!("cargo:rustc-env=STATION_LIBRARY_NAME=the stand-in c/base.c");
    } else {
        let library = std::fs::canonicalize(&library)
            .unwrap_or_else(|error| panic!("no library at {library} ({error}): run tools/archive, or set STATION_LIBRARY=base"));
        let name = library.file_stem().unwrap().to_str().unwrap().trim_start_matches("lib").to_string();
        println!("cargo:rerun-if-changed={}", library.display());
        println!("cargo:rustc-link-search=native={}", library.parent().unwrap().display());
        println!("cargo:rustc-link-lib=static={name}");
        println!("cargo:rustc-env=STATION_LIBRARY_NAME={}", library.display());
    }
}

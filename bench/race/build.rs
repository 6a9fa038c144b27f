//! Compiles other.c, with GNU MPC and Arb where their headers are installed.

use std::path::Path;
use std::process::Command;
use std::{env, fs};

fn gcc(arguments: &[&str]) -> bool {
    Command::new("gcc").args(arguments).output().expect("gcc").status.success()
}

fn has_header(header: &str) -> bool {
    // Cargo looks again as long as the file is missing.
    println!("cargo:rerun-if-changed=/usr/include/{header}");
    gcc(&["-E", "-include", header, "-x", "c", "/dev/null"])
}

fn main() {
    let source = "../other.c";
    println!("cargo:rerun-if-changed=build.rs");
    println!("cargo:rerun-if-changed={source}");
    println!("cargo:rustc-check-cfg=cfg(mpc, arb)");
    let folder = env::var("OUT_DIR").unwrap();
    let object = format!("{folder}/other.o");
    let mut arguments = vec!["-O2", "-Wall", "-c", source, "-o", &object];
    let mut libraries = vec!["m"];
    if has_header("mpc.h") {
        println!("cargo:rustc-cfg=mpc");
        arguments.push("-DHAVE_MPC");
        libraries.extend(["mpc", "mpfr", "gmp"]);
    }
    // Arb was a library of its own before it became part of FLINT 3.
    for (header, library) in [("flint/acb.h", "flint"), ("acb.h", "flint-arb")] {
        if has_header(header) && !arguments.contains(&"-DHAVE_ARB") {
            println!("cargo:rustc-cfg=arb");
            arguments.push("-DHAVE_ARB");
            libraries.extend([library, "flint", "mpfr", "gmp"]);
        }
    }
    assert!(gcc(&arguments), "gcc {}", arguments.join(" "));
    let archive = Path::new(&folder).join("libother.a");
    let _ = fs::remove_file(&archive);
    assert!(Command::new("ar").arg("rcs").arg(&archive).arg(&object).status().unwrap().success());
    println!("cargo:rustc-link-search=native={folder}");
    println!("cargo:rustc-link-lib=static=other");
    for library in libraries {
        println!("cargo:rustc-link-lib={library}");
    }
}

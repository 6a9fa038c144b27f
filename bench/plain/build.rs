//! Writes the tables and constants for Rust and for C, computed by the second implementation, and
//! compiles the C version with the clang that compiles the product.

use reference::point::{point, Point};
use reference::tables::{cell_xs, cell_ys, tables, Tables};
use reference::width::WIDTH_48;
use std::path::{Path, PathBuf};
use std::process::Command;
use std::{env, fs};

fn list(items: impl Iterator<Item = String>) -> String {
    format!("[{}]", items.collect::<Vec<_>>().join(", "))
}

fn pair(p: Point) -> String {
    format!("({}, {})", p.x, p.y)
}

/// Each table: what it is, its name, its sizes, and its entries as Rust writes them.
fn written_tables() -> [(&'static str, &'static str, &'static [usize], String); 2] {
    let tables = tables(WIDTH_48);
    let digits = || -1..=1;
    let steps = list((1..=40).map(|n| {
        list(digits().map(|dx| list(digits().map(|dy| pair(tables.step(n, point(dx, dy)))))))
    }));
    let cells =
        list(cell_xs().map(|cx| list(cell_ys().map(|cy| pair(tables.reciprocal_log(cx, cy))))));
    [
        ("ln(1 + d/2^n) by n - 1, dx + 1, dy + 1", "STEPS", &[40, 3, 3], steps),
        (
            "the logarithms of the reciprocals, by (X - 17)/2 and (Y + 31)/2",
            "RECIPROCAL_LOGS",
            &[8, 32],
            cells,
        ),
    ]
}

/// Each constant: what it is, its name and its units.
fn constants() -> [(&'static str, &'static str, i128); 3] {
    let Tables { log_of_one_plus_i, log_of_two, .. } = tables(WIDTH_48);
    [
        ("pi/4", "EIGHTH_TURN", log_of_one_plus_i.y),
        ("ln 2", "LN_2", log_of_two.x),
        ("half of ln 2", "HALF_LN_2", log_of_one_plus_i.x),
    ]
}

fn write_tables(folder: &Path) {
    let mut rust = String::new();
    let mut c = "#include <stdint.h>\nstruct entry { int64_t re, im; };\n".to_string();
    for (what, name, sizes, entries) in written_tables() {
        let array = |item: String, size: &usize| format!("[{item}; {size}]");
        let rust_type = sizes.iter().rev().fold("(i64, i64)".to_string(), array);
        rust += &format!("/// {what}\npub static {name}: {rust_type} = {entries};\n");
        let c_sizes: String = sizes.iter().map(|size| format!("[{size}]")).collect();
        let braces = entries.replace(['[', '('], "{").replace([']', ')'], "}");
        c += &format!("/* {what} */\nstatic const struct entry {name}{c_sizes} = {braces};\n");
    }
    for (what, name, units) in constants() {
        rust += &format!("/// {what}\npub const {name}: i64 = {units};\n");
        c += &format!("/* {what} */\n#define {name} INT64_C({units})\n");
    }
    fs::write(folder.join("tables.rs"), rust).unwrap();
    fs::write(folder.join("tables.h"), c).unwrap();
}

/// BKM_CLANG, or the clang of the kit that `rt` belongs to.
fn clang() -> Option<PathBuf> {
    for name in ["BKM_CLANG", "RATTLE_HOME", "PATH"] {
        println!("cargo:rerun-if-env-changed={name}");
    }
    let kit = || -> Option<PathBuf> {
        if let Some(home) = env::var_os("RATTLE_HOME") {
            return Some(home.into());
        }
        let path = env::var_os("PATH")?;
        let rt = env::split_paths(&path).map(|folder| folder.join("rt")).find(|rt| rt.exists())?;
        Some(rt.canonicalize().ok()?.parent()?.parent()?.to_path_buf())
    };
    let clang = env::var_os("BKM_CLANG")
        .map(PathBuf::from)
        .or_else(|| Some(kit()?.join("toolchain/bin/clang")))?;
    clang.exists().then_some(clang)
}

fn run(command: &mut Command) -> String {
    let output = command.output().unwrap_or_else(|error| panic!("{command:?}: {error}"));
    assert!(output.status.success(), "{command:?}: {}", String::from_utf8_lossy(&output.stderr));
    String::from_utf8(output.stdout).unwrap()
}

fn compile(clang: &Path, folder: &Path) {
    // The kit's clang comes without the compiler's own headers.
    let headers = run(Command::new("gcc").arg("-print-file-name=include"));
    // As the kit compiles the product: for any machine of the second level of this kind.
    let flags = ["-O3", "-march=x86-64-v2", "-Wall", "-Wextra", "-Werror"];
    let objects = ["engines", "sheet"].map(|name| {
        let object = folder.join(name).with_extension("o");
        let mut command = Command::new(clang);
        command.args(flags).arg("-isystem").arg(headers.trim()).arg("-I").arg(folder);
        run(command.arg("-c").arg(format!("c/{name}.c")).arg("-o").arg(&object));
        object
    });
    let program = folder.join("plain_c");
    run(Command::new("gcc").args(&objects).arg("-o").arg(&program));
    let archive = folder.join("libplain_c.a");
    let _ = fs::remove_file(&archive);
    run(Command::new("ar").arg("rcs").arg(&archive).arg(&objects[0]));
    println!("cargo:rustc-link-search=native={}", folder.display());
    println!("cargo:rustc-link-lib=static=plain_c");
    println!("cargo:rustc-cfg=plain_c");
    println!("cargo:rustc-env=PLAIN_C_PROGRAM={}", program.display());
    let version = run(Command::new(clang).arg("--version"));
    let version = version.lines().next().unwrap_or_default();
    println!("cargo:rustc-env=PLAIN_C_COMPILER={version} {}", flags[..2].join(" "));
}

fn main() {
    println!("cargo:rerun-if-changed=build.rs");
    println!("cargo:rerun-if-changed=c");
    println!("cargo:rustc-check-cfg=cfg(plain_c)");
    let folder = PathBuf::from(env::var_os("OUT_DIR").unwrap());
    write_tables(&folder);
    if let Some(clang) = clang() {
        compile(&clang, &folder);
    }
}

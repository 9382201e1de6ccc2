//! Builds the C port of the keeper, which is compared with the reference and the proved keeper; and finds the latter, if it is built.

use std::path::Path;
use std::process::Command;

const FILES: [&str; 8] = ["keeper", "accounts", "mend", "rules", "questions", "events", "chip", "sheets"];

/// The proved keeper's calls have these names too: here they become c_port_*.
const CALLS: [&str; 8] = ["format", "restart", "apply", "apply_all", "mend", "page_look", "export", "import"];

fn run(command: &mut Command) {
    let status = command.status().unwrap_or_else(|error| panic!("{command:?}: {error}"));
    assert!(status.success(), "{command:?} failed");
}

fn main() {
    let bench = Path::new(env!("CARGO_MANIFEST_DIR")).join("../../bench");
    let out = std::env::var("OUT_DIR").expect("cargo sets OUT_DIR");
    let out = Path::new(&out);
    let names = CALLS.map(|call| format!("-Dkeeper_{call}=c_port_{call}"));
    let mut archive = Command::new("ar");
    archive.arg("rcs").arg(out.join("libkeeper_c.a"));
    for file in FILES {
        let object = out.join(file).with_extension("o");
        let source = bench.join(file).with_extension("c");
        let flags = ["-O2", "-Wall", "-Wextra", "-Werror", "-std=c11", "-fPIE", "-c", "-o"];
        run(Command::new("gcc").args(&names).args(flags).arg(&object).arg(source));
        archive.arg(object);
    }
    run(&mut archive);
    println!("cargo:rerun-if-changed={}", bench.display());
    println!("cargo:rustc-link-search=native={}", out.display());
    proved("keeper");
    proved("sectors");
}

/// A proved static library, made by `python3 tools/prove.py --lib NAME`: what links it is compiled only where it is there.
fn proved(name: &str) {
    let folder = Path::new(env!("CARGO_MANIFEST_DIR")).join("../../target/staticlib");
    let archive = folder.join(format!("lib{name}.a"));
    println!("cargo:rustc-check-cfg=cfg({name})");
    println!("cargo:rerun-if-changed={}", archive.display());
    if archive.exists() {
        println!("cargo:rustc-cfg={name}");
        println!("cargo:rustc-link-search=native={}", folder.display());
    }
}

//! Has libtlsf.a made by c/Makefile, or takes it from the folder TLSF_LIB_DIR, and links it.

use std::env;
use std::path::{Path, PathBuf};
use std::process::Command;

/// A target of c/Makefile, and how its code is compiled where that isn't the Makefile's own way.
type Target = (String, Option<&'static str>);

/// The target of c/Makefile for one of Rust's.
fn target() -> Target {
    let name = env::var("TARGET").expect("cargo sets the target");
    let of_make = match name.as_str() {
        "armv7-unknown-linux-gnueabihf" => "armv7",
        "thumbv6m-none-eabi" => "cortex-m0",
        "thumbv7m-none-eabi" => "cortex-m3",
        "thumbv7em-none-eabi" => "cortex-m4",
        "thumbv7em-none-eabihf" => {
            let floats = "-O2 -g -mfloat-abi=hard -mfpu=fpv4-sp-d16";
            return ("cortex-m4".into(), Some(floats));
        }
        "riscv32imac-unknown-none-elf" => "riscv32",
        "riscv64gc-unknown-linux-gnu" => "riscv64",
        _ => return of_linux(&name),
    };
    (of_make.into(), None)
}

/// The same for a target of 64 bits with Linux.
fn of_linux(name: &str) -> Target {
    let processor = name.split('-').next().unwrap_or_default();
    let is_known = ["x86_64", "aarch64"].contains(&processor) && name.contains("-linux-");
    assert!(is_known, "there is no libtlsf.a for {name}: docs/C.md");
    (processor.into(), None)
}

/// By make, into a folder of the build. Where the proved library isn't built that proves it first,
/// which takes minutes.
fn made(home: &Path) -> PathBuf {
    let out = PathBuf::from(env::var_os("OUT_DIR").expect("cargo sets OUT_DIR")).join("c");
    let (target, flags) = target();
    let status = Command::new("make")
        .args(["-s", "--no-print-directory", "-C"])
        .arg(home.join("../c"))
        .arg(format!("TARGET={target}"))
        .arg(format!("OUT={}", out.display()))
        .args(flags.map(|flags| format!("CFLAGS={flags}")))
        .arg(out.join("libtlsf.a"))
        .status();
    let made = matches!(status, Ok(status) if status.success());
    assert!(made, "c/Makefile makes no libtlsf.a: {status:?}");
    out
}

fn main() {
    let home = PathBuf::from(env::var_os("CARGO_MANIFEST_DIR").expect("cargo sets the folder"));
    let folder = env::var_os("TLSF_LIB_DIR").map_or_else(|| made(&home), PathBuf::from);
    println!("cargo:rustc-link-search=native={}", folder.display());
    println!("cargo:rustc-link-lib=static=tlsf");
    println!("cargo:rerun-if-env-changed=TLSF_LIB_DIR");
    println!("cargo:rerun-if-changed=../c");
    println!("cargo:rerun-if-changed=build.rs");
}

//! Links the static library: libqueue_c.a of `lib/ARCH` beside this file, or of the folder that `QUEUE_C` names.
use std::env;
use std::path::PathBuf;
use std::process::exit;

fn variable(name: &str) -> String {
    env::var(name).unwrap_or_default()
}

/// The folder with the library for the processors that the crate is built for.
fn folder() -> Result<PathBuf, String> {
    let (system, arch) = (variable("CARGO_CFG_TARGET_OS"), variable("CARGO_CFG_TARGET_ARCH"));
    if system != "linux" || !["x86_64", "aarch64"].contains(&arch.as_str()) {
        return Err(format!("the library is for Linux on x86-64 and aarch64, not for {system} on {arch}"));
    }
    let named = env::var_os("QUEUE_C").map(PathBuf::from);
    let folder = named.unwrap_or_else(|| PathBuf::from(variable("CARGO_MANIFEST_DIR")).join("lib").join(arch));
    let file = folder.join("libqueue_c.a");
    println!("cargo:rerun-if-changed={}", file.display());
    if file.is_file() { Ok(folder) } else { Err(format!("{} is not there: bindings/dist makes a folder that has it, and QUEUE_C may name another", file.display())) }
}

fn main() {
    println!("cargo:rerun-if-env-changed=QUEUE_C");
    println!("cargo:rerun-if-changed=build.rs");
    match folder() {
        Ok(folder) => {
            println!("cargo:rustc-link-search=native={}", folder.display());
            println!("cargo:rustc-link-lib=static=queue_c");
        }
        Err(why) => {
            eprintln!("concurrent-queue over queue_c: {why}");
            exit(1);
        }
    }
}

//! Names the Rust of docs/src to the compiler, as host/build-oracle has built it, and has that build it where it is missing.

use std::env;
use std::path::Path;
use std::process::Command;

fn main() {
    println!("cargo::rerun-if-changed=build.rs");
    if let Err(fault) = find() {
        println!("cargo::error={fault}");
    }
}

fn find() -> Result<(), String> {
    let machine = env::var("CARGO_CFG_TARGET_ARCH").map_err(|fault| fault.to_string())?;
    let host = Path::new(env!("CARGO_MANIFEST_DIR")).parent();
    let host = host.ok_or("the package is not in its repository")?;
    let folder = host.join("../target/host").join(&machine);
    let library = folder.join("libmos6502.rlib");
    println!("cargo::rerun-if-changed={}", library.display());
    if !library.is_file() {
        let output = Command::new(host.join("build-oracle"))
            .arg(machine)
            .output()
            .map_err(|fault| format!("host/build-oracle: {fault}"))?;
        if !output.status.success() {
            let said = String::from_utf8_lossy(&output.stderr);
            return Err(said.lines().last().unwrap_or_default().to_string());
        }
    }
    // The Rust, and the crates that it needs.
    for kind in ["crate", "dependency"] {
        println!("cargo::rustc-link-search={kind}={}", folder.display());
    }
    Ok(())
}

//! Tells a crate where the port's source is, once `oracle/port` finds its files to be the port's.
use std::path::Path;
use std::process::Command;

fn main() {
    println!("cargo:rerun-if-env-changed=PORT");
    let oracle = Path::new(env!("CARGO_MANIFEST_DIR")).join("..");
    let told = Command::new(oracle.join("port")).output().expect("oracle/port, a program");
    assert!(told.status.success(), "{}", String::from_utf8_lossy(&told.stderr));
    let port = String::from_utf8(told.stdout).expect("a folder's name");
    let port = port.trim_end();
    println!("cargo:rerun-if-changed={port}");
    println!("cargo:rerun-if-changed={}", oracle.join("port.sha256").display());
    println!("cargo:rustc-env=PORT={port}");
}

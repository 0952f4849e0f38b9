//! Looks for the proved engine's archive; where it is there, the cfg `proved` is set and it is linked. The archive is for Linux on
//! x86-64: for another target nothing is linked, whatever stands there.

use std::path::{Path, PathBuf};

fn main() {
    println!("cargo:rustc-check-cfg=cfg(proved)");
    println!("cargo:rerun-if-env-changed=DESK_PROVED");
    let archive = archive();
    println!("cargo:rerun-if-changed={}", archive.display());
    if !target_is("ARCH", "x86_64") || !target_is("OS", "linux") {
        return;
    }
    let place = archive.parent().map(Path::display);
    let name = archive.file_name().and_then(|n| n.to_str());
    if let (true, Some(place), Some(name)) = (archive.is_file(), place, name) {
        println!("cargo:rustc-cfg=proved");
        println!("cargo:rustc-link-search=native={place}");
        println!("cargo:rustc-link-lib=static:+verbatim={name}");
    }
}

/// Whether the desk is built for this processor or system.
fn target_is(part: &str, name: &str) -> bool {
    std::env::var(format!("CARGO_CFG_TARGET_{part}")).as_deref() == Ok(name)
}

/// Where the archive is looked for: DESK_PROVED, else the repository's own.
fn archive() -> PathBuf {
    let here = PathBuf::from(std::env::var_os("CARGO_MANIFEST_DIR").unwrap_or_default());
    match std::env::var_os("DESK_PROVED") {
        Some(path) => here.join(path),
        None => here.join("../crates/exported/out/libexported.a"),
    }
}

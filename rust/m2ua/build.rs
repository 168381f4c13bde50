//! Finds libm2ua.a: in M2UA_LIB_DIR, where tools/build/library puts it in this repository, or where
//! pkg-config knows of m2ua.
use std::path::{Path, PathBuf};
use std::process::Command;

fn main() {
    println!("cargo:rerun-if-env-changed=M2UA_LIB_DIR");
    println!("cargo:rerun-if-env-changed=PKG_CONFIG_PATH");
    let dir = found();
    println!("cargo:rerun-if-changed={}/libm2ua.a", dir.display());
    println!("cargo:rustc-link-search=native={}", dir.display());
    println!("cargo:rustc-link-lib=static=m2ua");
}

fn found() -> PathBuf {
    if let Some(dir) = std::env::var_os("M2UA_LIB_DIR") {
        let dir = PathBuf::from(dir);
        return has_archive(&dir).unwrap_or_else(|| {
            panic!("M2UA_LIB_DIR is {}, which has no libm2ua.a", dir.display())
        });
    }
    let repository = Path::new(env!("CARGO_MANIFEST_DIR")).join("../../target/lib");
    has_archive(&repository)
        .or_else(|| has_archive(&installed()?))
        .unwrap_or_else(|| panic!("libm2ua.a is not there: run tools/build/library, or set M2UA_LIB_DIR or PKG_CONFIG_PATH to where tools/build/install has put it"))
}

fn has_archive(dir: &Path) -> Option<PathBuf> {
    dir.join("libm2ua.a").exists().then(|| dir.to_path_buf())
}

fn installed() -> Option<PathBuf> {
    let asked = Command::new("pkg-config")
        .args(["--variable=libdir", "m2ua"])
        .output()
        .ok()?;
    let dir = String::from_utf8(asked.stdout).ok()?;
    (asked.status.success() && !dir.trim().is_empty()).then(|| PathBuf::from(dir.trim()))
}

//! M2UA_OLD: the archive of an older version, whose entries are called old_m2ua_.. (tools/measure/bench
//! --old). With it `cfg(old)` is set.
use std::path::Path;

fn main() {
    println!("cargo:rerun-if-env-changed=M2UA_OLD");
    let Some(archive) = std::env::var_os("M2UA_OLD") else {
        return;
    };
    let archive = Path::new(&archive);
    let folder = archive.parent().expect("a folder").display();
    println!("cargo:rustc-link-search=native={folder}");
    println!("cargo:rustc-link-lib=static=m2ua_old");
    println!("cargo:rerun-if-changed={}", archive.display());
    println!("cargo:rustc-cfg=old");
}

//! SCTP by Debian's libusrsctp, where it is installed (tools/build/setup): src/sctp.c is compiled and the
//! flag `sctp` is set. Without it the programs have Unix sockets alone.
use std::path::Path;
use std::process::Command;

const HEADER: &str = "/usr/include/usrsctp.h";

fn main() {
    println!("cargo:rustc-check-cfg=cfg(sctp)");
    println!("cargo:rerun-if-changed=src/sctp.c");
    println!("cargo:rerun-if-changed={HEADER}");
    if !Path::new(HEADER).exists() {
        println!(
            "cargo:warning=without SCTP: {HEADER} is not there (tools/build/setup installs it)"
        );
        return;
    }
    let out = std::env::var("OUT_DIR").expect("cargo sets OUT_DIR");
    let (object, archive) = (format!("{out}/sctp.o"), format!("{out}/libm2ua_sctp.a"));
    run(
        "gcc",
        &[
            "-std=gnu11",
            "-O2",
            "-Wall",
            "-Wextra",
            "-Werror",
            "-c",
            "src/sctp.c",
            "-o",
            &object,
        ],
    );
    run("ar", &["crs", &archive, &object]);
    println!("cargo:rustc-cfg=sctp");
    println!("cargo:rustc-link-search=native={out}");
    println!("cargo:rustc-link-lib=static=m2ua_sctp");
    println!("cargo:rustc-link-lib=usrsctp");
}

fn run(program: &str, words: &[&str]) {
    let done = Command::new(program).args(words).status();
    assert!(
        done.is_ok_and(|s| s.success()),
        "{program} {} failed",
        words.join(" ")
    );
}

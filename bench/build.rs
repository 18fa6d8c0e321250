//! Compiles openssl.c and links OpenSSL's libcrypto where Debian's package libssl-dev is there; the
//! benchmark leaves its times out where it is not.

use std::env;
use std::path::Path;
use std::process::Command;

fn main() {
    println!("cargo::rerun-if-changed=openssl.c");
    println!("cargo::rustc-check-cfg=cfg(openssl)");
    let folder = env::var("OUT_DIR").expect("cargo's folder");
    let object = Path::new(&folder).join("openssl.o");
    let archive = Path::new(&folder).join("librazidkot_openssl.a");
    let has_library = runs(Command::new("pkg-config").args(["--exists", "libcrypto"]));
    let flags = [
        "-O2",
        "-Wall",
        "-Wextra",
        "-Werror",
        "-c",
        "openssl.c",
        "-o",
    ];
    if has_library
        && runs(Command::new("cc").args(flags).arg(&object))
        && runs(Command::new("ar").arg("rcs").arg(&archive).arg(&object))
    {
        println!("cargo::rustc-cfg=openssl");
        println!("cargo::rustc-link-search=native={folder}");
        println!("cargo::rustc-link-lib=static=razidkot_openssl");
        println!("cargo::rustc-link-lib=crypto");
    }
}

fn runs(command: &mut Command) -> bool {
    command.status().is_ok_and(|status| status.success())
}

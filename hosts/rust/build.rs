//! Tells the linker where libgift_host.a is: in the folder that GIFT_HOST_LIB names, else where `tools/built library` writes it in this repository. What needs no linking,
//! as `cargo check` and `cargo doc`, works without it.

use std::env;
use std::path::PathBuf;

fn main() {
    println!("cargo:rerun-if-env-changed=GIFT_HOST_LIB");
    let of_target = |what: &str| env::var(format!("CARGO_CFG_TARGET_{what}")).unwrap_or_default();
    let (arch, os) = (of_target("ARCH"), of_target("OS"));
    let given = env::var_os("GIFT_HOST_LIB").map(PathBuf::from);
    // tools/arm makes an archive for 64-bit Arm, which is tested and no target of the kit: it is linked where it is named.
    let fits = os == "linux" && (arch == "x86_64" || arch == "aarch64" && given.is_some());
    let folder = given.unwrap_or_else(|| {
        PathBuf::from(env::var_os("CARGO_MANIFEST_DIR").unwrap()).join("../../target/staticlib")
    });
    let archive = folder.join("libgift_host.a");
    println!("cargo:rerun-if-changed={}", archive.display());
    if !fits {
        println!("cargo:warning=libgift_host.a is for x86-64 Linux, and this build is for {arch} {os}: it will not link (README.md says how to build across)");
    } else if !archive.is_file() {
        println!("cargo:warning=there is no {}, so nothing will link: 'tools/built library' makes it, and GIFT_HOST_LIB names another folder", archive.display());
    } else {
        println!("cargo:rustc-link-search=native={}", folder.display());
        println!("cargo:rustc-link-lib=static=gift_host");
    }
}

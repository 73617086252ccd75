//! Where MACHHUREL_BEFORE names a library of an earlier state, that one is linked beside today's: its `machhurel_visit` gets
//! another name, and its other names are its own.
use std::env;
use std::path::PathBuf;
use std::process::Command;

fn main() {
    println!("cargo:rustc-check-cfg=cfg(before)");
    println!("cargo:rerun-if-env-changed=MACHHUREL_BEFORE");
    let Some(archive) = env::var_os("MACHHUREL_BEFORE").map(PathBuf::from) else {
        return;
    };
    println!("cargo:rerun-if-changed={}", archive.display());
    let folder = PathBuf::from(env::var_os("OUT_DIR").expect("cargo sets OUT_DIR"));
    let renamed = Command::new("objcopy")
        .args(["--redefine-sym", "machhurel_visit=before_visit", "--keep-global-symbol=before_visit"])
        .args([&archive, &folder.join("libbefore.a")])
        .status();
    assert!(renamed.is_ok_and(|status| status.success()), "objcopy could not read {}", archive.display());
    println!("cargo:rustc-link-search=native={}", folder.display());
    println!("cargo:rustc-link-lib=static=before");
    println!("cargo:rustc-cfg=before");
}

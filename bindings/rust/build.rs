//! Links libmachhurel.a, made by tools/native-lib, from target/native of the repository, or from the folder that MACHHUREL_LIB_DIR
//! names: by its whole path, or from the folder in which cargo was called.
use std::env;
use std::path::PathBuf;
use std::process::exit;

fn folder() -> PathBuf {
    let variable = |name| env::var_os(name).map(PathBuf::from).unwrap_or_default();
    println!("cargo:rerun-if-env-changed=MACHHUREL_LIB_DIR");
    match env::var_os("MACHHUREL_LIB_DIR") {
        None => variable("CARGO_MANIFEST_DIR").join("../../target/native"),
        Some(named) => {
            // cargo runs this program in the crate's folder: the caller's own is in PWD alone
            println!("cargo:rerun-if-env-changed=PWD");
            variable("PWD").join(named)
        }
    }
}

fn main() {
    let folder = folder();
    let archive = folder.join("libmachhurel.a");
    if !archive.is_file() {
        eprintln!(
            "no library at {}: `tools/native-lib machhurel target/native` makes it, MACHHUREL_LIB_DIR names another folder",
            archive.display()
        );
        exit(1);
    }
    println!("cargo:rerun-if-changed={}", archive.display());
    println!("cargo:rustc-link-search=native={}", folder.display());
    println!("cargo:rustc-link-lib=static=machhurel");
    println!("cargo:folder={}", folder.display());
}

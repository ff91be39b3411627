//! Links the archive in the folder that `ZIRMEGAT_LIB` names; else the one that `bindings/build` made, where
//! this crate lies in the repository, or the one of the prefix in whose share/zirmegat it lies.

use std::path::Path;

fn main() {
    let here = std::env::var("CARGO_MANIFEST_DIR").unwrap();
    let named = std::env::var("ZIRMEGAT_LIB").ok();
    let folders = match &named {
        Some(folder) => vec![folder.clone()],
        None => vec![
            format!("{here}/../../out"),
            format!("{here}/../../../../lib"),
        ],
    };
    println!("cargo:rerun-if-env-changed=ZIRMEGAT_LIB");
    for folder in &folders {
        println!("cargo:rerun-if-changed={folder}/libzirmegat.a");
    }
    let has_archive = |folder: &&String| Path::new(folder).join("libzirmegat.a").exists();
    match folders.iter().find(has_archive) {
        Some(folder) => println!("cargo:rustc-link-search=native={folder}"),
        // documentation and checks need none
        None => println!(
            "cargo:warning=no libzirmegat.a in {folders:?}: take the crate of an installed prefix or of the tarball, run \
             bindings/build in the repository, or name the archive's folder in ZIRMEGAT_LIB, from the root"
        ),
    }
}

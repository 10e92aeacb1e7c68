//! Links libsilotwist.a from the folder that SILOTWIST_LIB names.
use std::{env, path::Path};

fn main() -> Result<(), String> {
    println!("cargo:rerun-if-env-changed=SILOTWIST_LIB");
    let folder = env::var("SILOTWIST_LIB").map_err(|_| {
        "SILOTWIST_LIB is not set. It is the whole path of the folder with libsilotwist.a; \
         `tools/native-lib silotwist target/library` writes one"
    })?;
    let archive = Path::new(&folder).join("libsilotwist.a");
    if !archive.is_absolute() || !archive.is_file() {
        return Err(format!(
            "SILOTWIST_LIB={folder} is not the whole path of a folder with libsilotwist.a"
        ));
    }
    println!("cargo:rerun-if-changed={}", archive.display());
    println!("cargo:rustc-link-search=native={folder}");
    println!("cargo:rustc-link-lib=static=silotwist");
    Ok(())
}

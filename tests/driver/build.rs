//! With the feature `c-library`, links libsilotwist from the directory that SILOTWIST_LIB names.
fn main() {
    println!("cargo:rerun-if-env-changed=SILOTWIST_LIB");
    println!("cargo:rerun-if-changed=build.rs");
    if std::env::var_os("CARGO_FEATURE_C_LIBRARY").is_some() {
        let dir = std::env::var("SILOTWIST_LIB").expect("SILOTWIST_LIB names a directory");
        println!("cargo:rustc-link-search=native={dir}");
        println!("cargo:rustc-link-lib=silotwist");
        println!("cargo:rustc-link-arg-bins=-Wl,-rpath,{dir}");
    }
}

//! Links the proved library from the directory that SILOTWIST_LIB names.
fn main() {
    println!("cargo:rerun-if-env-changed=SILOTWIST_LIB");
    let dir = std::env::var("SILOTWIST_LIB").expect("SILOTWIST_LIB names a directory");
    println!("cargo:rerun-if-changed={dir}/libsilotwist.a");
    println!("cargo:rustc-link-search=native={dir}");
    println!("cargo:rustc-link-lib=static=silotwist");
}

//! Links libcapi.a from the folder LIBCAPI, as `run` sets it.
fn main() {
    let folder = std::env::var("LIBCAPI").expect("LIBCAPI names the folder of libcapi.a");
    println!("cargo:rustc-link-search=native={folder}");
    println!("cargo:rustc-link-lib=static=capi");
    println!("cargo:rerun-if-changed={folder}/libcapi.a");
    println!("cargo:rerun-if-env-changed=LIBCAPI");
}

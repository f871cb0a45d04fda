//! Links libkifzaro.a, which bindings/build makes in bindings/out, or which stands in the folder that KIFZARO_LIBRARY_DIR names.
fn main() {
    println!("cargo:rerun-if-env-changed=KIFZARO_LIBRARY_DIR");
    let own = format!("{}/../out", std::env::var("CARGO_MANIFEST_DIR").unwrap());
    let folder = std::env::var("KIFZARO_LIBRARY_DIR").unwrap_or(own);
    println!("cargo:rerun-if-changed={folder}/libkifzaro.a");
    println!("cargo:rustc-link-search=native={folder}");
    println!("cargo:rustc-link-lib=static=kifzaro");
}

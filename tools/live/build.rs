// The archive that tools/archive makes, or the one that AGREE_LIB names.
fn main() {
    let here = std::env::var("CARGO_MANIFEST_DIR").unwrap();
    let archive = std::env::var("AGREE_LIB").unwrap_or(format!("{here}/../../target/staticlib/libcabi.a"));
    let folder = std::env::var("OUT_DIR").unwrap();
    std::fs::copy(&archive, format!("{folder}/libcabi.a")).unwrap_or_else(|e| panic!("{archive}: {e}"));
    println!("cargo:rustc-link-search=native={folder}");
    println!("cargo:rustc-link-lib=static=cabi");
    println!("cargo:rerun-if-env-changed=AGREE_LIB");
    println!("cargo:rerun-if-changed={archive}");
}

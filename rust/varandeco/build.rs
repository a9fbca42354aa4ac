// Links target/staticlib/libvarandeco.a of the repository (README.md says how it gets there), or the one in the folder that VARANDECO_LIB names.
fn main() {
    let here = std::env::var("CARGO_MANIFEST_DIR").unwrap();
    let folder = std::env::var("VARANDECO_LIB").unwrap_or(format!("{here}/../../target/staticlib"));
    println!("cargo:rerun-if-env-changed=VARANDECO_LIB");
    println!("cargo:rerun-if-changed={folder}/libvarandeco.a");
    println!("cargo:rustc-link-search=native={folder}");
    println!("cargo:rustc-link-lib=static=varandeco");
}

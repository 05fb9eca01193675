//! Links the library's archive, libllfree_c.a, from the folder that LLFREE_ARCHIVE names, at first the repository's target/staticlib.
fn main() {
    let here = std::env::var("CARGO_MANIFEST_DIR").expect("Cargo sets it");
    let folder = std::env::var("LLFREE_ARCHIVE").unwrap_or(format!("{here}/../../target/staticlib"));
    println!("cargo:rustc-link-search=native={folder}");
    println!("cargo:rustc-link-lib=static=llfree_c");
    println!("cargo:rerun-if-env-changed=LLFREE_ARCHIVE");
    println!("cargo:rerun-if-changed={folder}/libllfree_c.a");
}

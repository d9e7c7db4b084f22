//! Links the archive that `rt lib` in crates/ribbandage has written.
fn main() {
    let directory = format!("{}/../../crates/ribbandage/out", std::env::var("CARGO_MANIFEST_DIR").unwrap());
    println!("cargo:rustc-link-search=native={directory}");
    println!("cargo:rustc-link-lib=static=ribbandage");
    println!("cargo:rerun-if-changed={directory}/libribbandage.a");
}

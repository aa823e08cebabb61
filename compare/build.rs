// Links the archive that `rt lib` writes in crates/host.
fn main() {
    let root = std::env::var("CARGO_MANIFEST_DIR").unwrap();
    println!("cargo:rustc-link-search=native={root}/../crates/host/out");
    println!("cargo:rustc-link-lib=static=host");
    println!("cargo:rerun-if-changed={root}/../crates/host/out/libhost.a");
}

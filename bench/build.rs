// Links the two archives that bench/run builds.
fn main() {
    let root = std::env::var("CARGO_MANIFEST_DIR").unwrap();
    for (archive, folder) in [("host", "crates/host/out"), ("single", "target/staticlib")] {
        println!("cargo:rustc-link-search=native={root}/../{folder}");
        println!("cargo:rustc-link-lib=static={archive}");
        println!("cargo:rerun-if-changed={root}/../{folder}/lib{archive}.a");
    }
}

// Links libhost.a, which `rt lib` in crates/host writes to crates/host/out; STEPMACHINE_LIB names another folder.
fn main() {
    let here = std::env::var("CARGO_MANIFEST_DIR").unwrap();
    let folder = std::env::var("STEPMACHINE_LIB").unwrap_or(format!("{here}/../../crates/host/out"));
    println!("cargo:rerun-if-env-changed=STEPMACHINE_LIB");
    println!("cargo:rerun-if-changed={folder}/libhost.a");
    println!("cargo:rustc-link-search=native={folder}");
    println!("cargo:rustc-link-lib=static=host");
}

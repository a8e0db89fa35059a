// Links the proved code: `tools/staticlib` writes it to target/staticlib.
fn main() {
    let here = std::env::var("CARGO_MANIFEST_DIR").unwrap();
    println!("cargo:rustc-link-search=native={here}/../target/staticlib");
    println!("cargo:rustc-link-lib=static=ffi");
    println!("cargo:rerun-if-changed={here}/../target/staticlib/libffi.a");
}

//! Links the port's archive.
fn main() {
    let tree = std::env::var("CARGO_MANIFEST_DIR").expect("cargo sets it");
    println!("cargo:rustc-link-search=native={tree}/port");
    println!("cargo:rustc-link-lib=static=firmware");
    println!("cargo:rerun-if-changed=port/libfirmware.a");
}

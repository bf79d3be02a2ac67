// Links the proved library, which `rt lib` makes in crates/exported/out.
fn main() {
    println!("cargo:rerun-if-changed=../crates/exported/out/libexported.a");
    println!("cargo:rustc-link-search=native=../crates/exported/out");
    println!("cargo:rustc-link-lib=static=exported");
}

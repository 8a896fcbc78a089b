// Links the proved archive, which `rt lib` writes in crates/fennelrake.
fn main() {
    let root = std::env::var("CARGO_MANIFEST_DIR").unwrap();
    println!("cargo:rustc-link-search=native={root}/../crates/fennelrake/out");
    println!("cargo:rustc-link-lib=static=fennelrake");
    println!("cargo:rerun-if-changed={root}/../crates/fennelrake/out/libfennelrake.a");
}

// Links the library with the counter, which `tests/looks/run` writes to target/looks.
fn main() {
    let folder = std::env::var("CARGO_MANIFEST_DIR").unwrap() + "/../../target/looks";
    println!("cargo:rerun-if-changed={folder}/libgrants.a");
    println!("cargo:rustc-link-search=native={folder}");
    println!("cargo:rustc-link-lib=static=grants");
}

// Links the proved code for this machine, which `tests/archive sha256_c` writes to target/native.
fn main() {
    let folder = std::env::var("CARGO_MANIFEST_DIR").unwrap() + "/../target/native";
    println!("cargo:rerun-if-changed={folder}/libsha256_c.a");
    println!("cargo:rustc-check-cfg=cfg(linked)");
    println!("cargo:rustc-cfg=linked");
    println!("cargo:rustc-link-search=native={folder}");
    println!("cargo:rustc-link-lib=static=sha256_c");
}

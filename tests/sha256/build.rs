// Links the proved code, which `tests/archive sha256_c` writes to target/native/x86_64.
fn main() {
    println!("cargo:rustc-check-cfg=cfg(linked)");
    if std::env::var("CARGO_CFG_TARGET_ARCH").unwrap() == "x86_64" {
        let folder = std::env::var("CARGO_MANIFEST_DIR").unwrap() + "/../../target/native/x86_64";
        println!("cargo:rerun-if-changed={folder}/libsha256_c.a");
        println!("cargo:rustc-cfg=linked");
        println!("cargo:rustc-link-search=native={folder}");
        println!("cargo:rustc-link-lib=static=sha256_c");
    }
}

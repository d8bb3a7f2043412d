// Links the proved library for this machine, which `tests/archive grants` writes to target/native, or the one in the folder GRANTS_LIB_DIR; GRANTS_LEVEL
// says for which level of the machine that was compiled.
fn main() {
    let native = std::env::var("CARGO_MANIFEST_DIR").unwrap() + "/../../target/native";
    let folder = std::env::var("GRANTS_LIB_DIR").unwrap_or(native);
    let level = std::env::var("GRANTS_LEVEL").unwrap_or("baseline".into());
    println!("cargo:rustc-env=GRANTS_LEVEL={level}");
    println!("cargo:rerun-if-env-changed=GRANTS_LIB_DIR");
    println!("cargo:rerun-if-env-changed=GRANTS_LEVEL");
    println!("cargo:rerun-if-changed={folder}/libgrants.a");
    println!("cargo:rustc-link-search=native={folder}");
    println!("cargo:rustc-link-lib=static=grants");
}

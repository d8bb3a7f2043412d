// Links the passes of the proved check for this machine, which `tests/archive check_trial` writes to target/native.
fn main() {
    let folder = std::env::var("CARGO_MANIFEST_DIR").unwrap() + "/../../target/native";
    println!("cargo:rerun-if-changed={folder}/libcheck_trial.a");
    println!("cargo:rustc-link-search=native={folder}");
    println!("cargo:rustc-link-lib=static=check_trial");
}

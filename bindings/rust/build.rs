//! Links libstation.a, which `tools/prove station` writes to target/staticlib of the repository; VANITYCROW_LIB names another folder.

fn main() {
    let here = std::env::var("CARGO_MANIFEST_DIR").unwrap();
    let folder = std::env::var("VANITYCROW_LIB").unwrap_or(format!("{here}/../../target/staticlib"));
    println!("cargo:rustc-link-search=native={folder}");
    println!("cargo:rustc-link-lib=static=station");
    println!("cargo:rerun-if-changed={folder}/libstation.a");
    println!("cargo:rerun-if-env-changed=VANITYCROW_LIB");
}

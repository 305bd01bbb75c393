// Links the four archives that ./build-libraries writes at the top of the repository, for x86-64, or for aarch64 with --aarch64.
// SELVEDGEKITE_LIB names another folder.
use std::env::var;
use std::path::Path;

fn main() {
    let arch = var("CARGO_CFG_TARGET_ARCH").unwrap();
    let folder = var("SELVEDGEKITE_LIB").unwrap_or_else(|_| {
        if arch != "x86_64" && arch != "aarch64" {
            panic!("./build-libraries builds for x86-64 and for aarch64, and not for {arch}");
        }
        format!("{}/../../target/libraries/{arch}", var("CARGO_MANIFEST_DIR").unwrap())
    });
    println!("cargo:rerun-if-env-changed=SELVEDGEKITE_LIB");
    println!("cargo:rustc-link-search=native={folder}");
    for name in ["exports", "exports_reads", "exports_long", "exports_records"] {
        let library = Path::new(&folder).join(format!("lib{name}.a"));
        if !library.exists() {
            panic!("{} is missing: run ./build-libraries at the top of the repository", library.display());
        }
        println!("cargo:rustc-link-lib=static={name}");
        println!("cargo:rerun-if-changed={}", library.display());
    }
}

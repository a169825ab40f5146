use std::env;
use std::path::PathBuf;

// The folder of libdilbreth.a: DILBRETH_LIB, or crates/dilbreth/out of the repository.
fn main() {
    println!("cargo:rerun-if-env-changed=DILBRETH_LIB");
    let folder = match env::var_os("DILBRETH_LIB") {
        Some(given) => PathBuf::from(given),
        None => {
            let here = PathBuf::from(env::var_os("CARGO_MANIFEST_DIR").unwrap());
            here.join("../../crates/dilbreth/out")
        }
    };
    let archive = folder.join("libdilbreth.a");
    let folder = match archive.canonicalize() {
        Ok(found) => found.parent().unwrap().to_path_buf(),
        Err(e) => {
            eprintln!(
                "{}: {e}; build it by `rt lib` in crates/dilbreth, or name its folder in DILBRETH_LIB",
                archive.display()
            );
            std::process::exit(1);
        }
    };
    println!("cargo:rerun-if-changed={}", folder.join("libdilbreth.a").display());
    println!("cargo:rustc-link-search=native={}", folder.display());
    println!("cargo:rustc-link-lib=static=dilbreth");
}

use std::env;
use std::path::PathBuf;
use std::process::exit;

fn main() {
    println!("cargo:rerun-if-env-changed=STEWPIGEON_LIB_DIR");
    let directory = match env::var_os("STEWPIGEON_LIB_DIR") {
        Some(directory) => PathBuf::from(directory),
        None => {
            let manifest = env::var_os("CARGO_MANIFEST_DIR").expect("cargo sets it");
            PathBuf::from(manifest).join("../../target/staticlib")
        }
    };
    let library = directory.join("libstewpigeon.a");
    println!("cargo:rerun-if-changed={}", library.display());
    if !library.is_file() {
        eprintln!("The proved library is missing: {}", library.display());
        eprintln!("Run `tools/build library` in the repository's root, then build again;");
        eprintln!("or set STEWPIGEON_LIB_DIR to the directory that holds libstewpigeon.a.");
        exit(1);
    }
    println!("cargo:rustc-link-search=native={}", directory.display());
    println!("cargo:rustc-link-lib=static=stewpigeon");
}

//! With the feature `judge`, links the static library of the proved judge. It is looked for in
//! JUDGE_LIB_DIR, or in the repository's target/staticlib.

use std::env;
use std::path::PathBuf;

fn main() {
    println!("cargo::rerun-if-env-changed=JUDGE_LIB_DIR");
    if env::var_os("CARGO_FEATURE_JUDGE").is_none() {
        return;
    }
    let folder = match env::var_os("JUDGE_LIB_DIR") {
        Some(folder) => PathBuf::from(folder),
        None => {
            PathBuf::from(env::var_os("CARGO_MANIFEST_DIR").unwrap()).join("../target/staticlib")
        }
    };
    let library = folder.join("libbinding.a");
    println!("cargo::rerun-if-changed={}", library.display());
    println!("cargo::rustc-link-search=native={}", folder.display());
    println!("cargo::rustc-link-lib=static=binding");
}

//! With the feature `station`, links `libstation.a` from the folder that
//! STATION_LIB_DIR names.

use std::env;
use std::path::PathBuf;

fn main() {
    println!("cargo:rerun-if-env-changed=STATION_LIB_DIR");
    if env::var_os("CARGO_FEATURE_STATION").is_none() {
        return;
    }
    let folder = env::var_os("STATION_LIB_DIR")
        .map(PathBuf::from)
        .expect("STATION_LIB_DIR must name the folder of libstation.a");
    let library = folder.join("libstation.a");
    assert!(
        library.is_absolute() && library.is_file(),
        "STATION_LIB_DIR must be a whole path to the folder of libstation.a, not {}",
        folder.display()
    );
    println!("cargo:rerun-if-changed={}", library.display());
    println!("cargo:rustc-link-search=native={}", folder.display());
    println!("cargo:rustc-link-lib=static=station");
}

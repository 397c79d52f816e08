//! Links `libstation.a` from the folder that STATION_LIB_DIR names.
use std::path::Path;
use std::{env, fs, process};

fn stop(reason: &str) -> ! {
    eprintln!("filzhammer: {reason}");
    eprintln!("filzhammer: `bin/staticlib` writes target/staticlib/libstation.a; set STATION_LIB_DIR to that folder's absolute path");
    process::exit(1)
}

fn main() {
    println!("cargo:rerun-if-env-changed=STATION_LIB_DIR");
    let arch = env::var("CARGO_CFG_TARGET_ARCH").unwrap_or_default();
    if arch != "x86_64" {
        stop(&format!(
            "the library is compiled for x86_64, and the target is {arch}"
        ));
    }
    let Ok(folder) = env::var("STATION_LIB_DIR") else {
        stop("STATION_LIB_DIR is not set");
    };
    let Ok(archive) = fs::canonicalize(Path::new(&folder).join("libstation.a")) else {
        stop(&format!("there is no libstation.a in {folder}"));
    };
    let folder = archive.parent().expect("a file stands in a folder");
    println!("cargo:rerun-if-changed={}", archive.display());
    println!("cargo:rustc-link-search=native={}", folder.display());
    println!("cargo:rustc-link-lib=static=station");
}

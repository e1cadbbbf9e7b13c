//! Finds the static library: the file that VMD_LIB names, else the one that the toolchain leaves where host/built says.
use std::env;
use std::path::PathBuf;

const BUILT: &str = include_str!("built");

fn main() {
    println!("cargo::rerun-if-env-changed=VMD_LIB");
    let library = match env::var_os("VMD_LIB") {
        Some(path) => PathBuf::from(path),
        None => {
            let path = BUILT.lines().find_map(|line| line.strip_prefix("vmd_library=")).unwrap();
            PathBuf::from(env::var_os("CARGO_MANIFEST_DIR").unwrap()).join("..").join(path)
        }
    };
    let Ok(library) = library.canonicalize() else {
        println!("cargo::error={} is not there: run host/library, or name it in VMD_LIB", library.display());
        return;
    };
    if library.file_name().is_none_or(|name| name != "libvmd_c.a") {
        println!("cargo::error=VMD_LIB is to name a file libvmd_c.a");
        return;
    }
    println!("cargo::rerun-if-changed={}", library.display());
    println!("cargo::rustc-link-search=native={}", library.parent().unwrap().display());
    println!("cargo::rustc-link-lib=static=vmd_c");
}

//! Where the proved library's archive stands: oracle/build.sh says.
use std::path::PathBuf;

fn main() {
    let library = PathBuf::from(std::env::var_os("VMD_LIB").expect("VMD_LIB names the library, a file libvmd_c.a"));
    println!("cargo:rerun-if-env-changed=VMD_LIB");
    println!("cargo:rerun-if-changed={}", library.display());
    println!("cargo:rustc-link-search=native={}", library.parent().unwrap().display());
    println!("cargo:rustc-link-lib=static=vmd_c");
}

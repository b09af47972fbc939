//! Links liblinduvar.a, which `tools/library` builds. Its folder is that of LINDUVAR_LIB_DIR, or
//! target/linduvar/lib of this repository.

use std::env;
use std::path::Path;
use std::process::exit;

fn main() {
    println!("cargo:rerun-if-env-changed=LINDUVAR_LIB_DIR");
    let here = env::var_os("CARGO_MANIFEST_DIR").expect("cargo names the folder");
    let folder = env::var_os("LINDUVAR_LIB_DIR").unwrap_or("../target/linduvar/lib".into());
    let archive = Path::new(&here).join(folder).join("liblinduvar.a");
    println!("cargo:rerun-if-changed={}", archive.display());
    let Ok(archive) = archive.canonicalize() else {
        eprintln!("{} is not there", archive.display());
        eprintln!("run tools/library first, or name its folder in LINDUVAR_LIB_DIR");
        exit(1);
    };
    let folder = archive.parent().expect("a file lies in a folder");
    println!("cargo:rustc-link-search=native={}", folder.display());
    println!("cargo:rustc-link-lib=static=linduvar");
}

//! Links the library that `bin/build-lib` leaves: in the folder HEAPGUARD_LIB, or in out/lib of the
//! repository that this crate stands in.

use std::env;
use std::path::PathBuf;

fn main() {
    let folder = env::var_os("HEAPGUARD_LIB").map_or_else(
        || PathBuf::from(env::var_os("CARGO_MANIFEST_DIR").unwrap()).join("../../out/lib"),
        PathBuf::from,
    );
    for file in ["libhg.a", "libhg_malloc.a"] {
        let it = folder.join(file);
        if !it.is_file() {
            eprintln!(
                "heapguard: no {}: run bin/build-lib at the top of the repository, or name the \
                 folder that it left the library in by HEAPGUARD_LIB",
                it.display()
            );
            std::process::exit(1);
        }
    }
    println!("cargo:rerun-if-env-changed=HEAPGUARD_LIB");
    println!(
        "cargo:rerun-if-changed={}",
        folder.join("libhg.a").display()
    );
    println!("cargo:rustc-link-search=native={}", folder.display());
    println!("cargo:rustc-link-lib=static=hg");
    println!("cargo:rustc-link-lib=static=hg_malloc");
}

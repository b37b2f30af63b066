//! Links the inner functions: the archive `libtesting.a`, which `tools/build archives` makes of the crate
//! `testing_c`, in the folder in which `succoryvise-sys` has found the one of the entries.

use std::env;
use std::path::Path;

fn main() {
    let folder = env::var_os("DEP_SUCCORYVISE_FOLDER").expect("succoryvise-sys names its folder");
    let archive = Path::new(&folder).join("libtesting.a");
    assert!(archive.is_file(), "there is no {}", archive.display());
    println!("cargo:rerun-if-changed={}", archive.display());
    println!(
        "cargo:rustc-link-search=native={}",
        Path::new(&folder).display()
    );
    println!("cargo:rustc-link-lib=static=testing");
}

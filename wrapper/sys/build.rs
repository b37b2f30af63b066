//! Links the proved functions: PROVED_LIBRARIES is the folder of `libsuccoryvise.a`, which
//! `tools/build archives` makes of the crate `succoryvise_c`. A folder that is not absolute is one of the
//! folder in which cargo was called. Build scripts of crates above get it whole, as DEP_SUCCORYVISE_FOLDER.

use std::env;
use std::path::{Path, PathBuf};

fn main() {
    println!("cargo:rerun-if-env-changed=PROVED_LIBRARIES");
    let folder = env::var_os("PROVED_LIBRARIES").expect("PROVED_LIBRARIES is a folder of archives");
    let folder = whole(Path::new(&folder));
    let archive = folder.join("libsuccoryvise.a");
    assert!(archive.is_file(), "there is no {}", archive.display());
    println!("cargo:rerun-if-changed={}", archive.display());
    println!("cargo:rustc-link-search=native={}", folder.display());
    println!("cargo:rustc-link-lib=static=succoryvise");
    println!("cargo:folder={}", folder.display());
}

/// The folder from the root on. Cargo runs this program in the folder of the crate, but leaves PWD as
/// it was where cargo was called.
fn whole(folder: &Path) -> PathBuf {
    if folder.is_absolute() {
        return folder.to_path_buf();
    }
    println!("cargo:rerun-if-env-changed=PWD");
    let called_in =
        env::var_os("PWD").expect("PROVED_LIBRARIES is not absolute, and PWD not known");
    Path::new(&called_in).join(folder)
}

//! Links the proved library. `DOORHOLLOW_LIBRARY` is the folder that has it, where that
//! isn't the one that `tools/library` writes to.

use std::env;
use std::path::Path;

fn main() {
    let here = env::var("CARGO_MANIFEST_DIR").expect("cargo sets it");
    let usual = Path::new(&here).join("../target/staticlib");
    let folder = env::var_os("DOORHOLLOW_LIBRARY").map_or(usual, Into::into);
    let folder = folder.display();
    println!("cargo:rerun-if-env-changed=DOORHOLLOW_LIBRARY");
    println!("cargo:rerun-if-changed={folder}/libwkt_c.a");
    println!("cargo:rustc-link-search=native={folder}");
    println!("cargo:rustc-link-lib=static=wkt_c");
}

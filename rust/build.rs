//! Tells the linker where `libwkt_c.a` stands: in the folder that DOORHOLLOW_LIB_DIR names, or else in
//! `target/staticlib` of the repository, where `tools/library` puts it.
use std::env;
use std::path::PathBuf;

fn main() {
    println!("cargo:rerun-if-env-changed=DOORHOLLOW_LIB_DIR");
    let folder = match env::var_os("DOORHOLLOW_LIB_DIR") {
        Some(named) => PathBuf::from(named),
        None => {
            PathBuf::from(env::var_os("CARGO_MANIFEST_DIR").unwrap()).join("../target/staticlib")
        }
    };
    let library = folder.join("libwkt_c.a");
    println!("cargo:rerun-if-changed={}", library.display());
    let processor = env::var("CARGO_CFG_TARGET_ARCH").unwrap();
    if processor != "x86_64" {
        panic!("libwkt_c.a links into x86-64 programs only, and this one is for {processor}");
    }
    if !library.is_file() {
        panic!(
            "{} isn't there: run `tools/library`, or set DOORHOLLOW_LIB_DIR to its folder",
            library.display()
        );
    }
    println!("cargo:rustc-link-search=native={}", folder.display());
    println!("cargo:rustc-link-lib=static=wkt_c");
}

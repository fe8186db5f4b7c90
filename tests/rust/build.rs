//! Tells the tests where the repository and the library are: some compile C
//! against it themselves. The benchmark is linked with the probe of the hint,
//! where `PUDEYAN_PROBE` names its archive.

use std::env;
use std::path::PathBuf;

fn main() {
    println!("cargo:rerun-if-changed=build.rs");
    let package = PathBuf::from(env::var_os("CARGO_MANIFEST_DIR").expect("cargo sets it"));
    let root = package.parent().and_then(|p| p.parent()).expect("the package stands two levels below the root");
    let library = env::var("DEP_PUDEYAN_LIBRARY").expect("pudeyan-sys says which library it has linked");
    println!("cargo:rustc-env=PUDEYAN_ROOT={}", root.display());
    println!("cargo:rustc-env=PUDEYAN_ARCHIVE={library}");
    println!("cargo:rerun-if-env-changed=PUDEYAN_PROBE");
    println!("cargo:rustc-check-cfg=cfg(probe)");
    if let Some(probe) = env::var_os("PUDEYAN_PROBE") {
        println!("cargo:rerun-if-changed={}", PathBuf::from(&probe).display());
        println!("cargo:rustc-cfg=probe");
        println!("cargo:rustc-link-arg-bin=bench={}", PathBuf::from(&probe).display());
    }
}

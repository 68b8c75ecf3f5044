//! Links libxaropinto.a, on Windows the DLL by xaropinto.lib, of the folder that XAROPINTO_LIB_DIR
//! names; without it, of the repository's target/lib, where `make lib` puts it, or of the lib/ of
//! an unpacked archive.

use std::env;
use std::path::PathBuf;
use std::process;

const VARIABLE: &str = "XAROPINTO_LIB_DIR";

fn main() {
    println!("cargo:rerun-if-env-changed={VARIABLE}");
    let windows = env::var("CARGO_CFG_TARGET_OS").as_deref() == Ok("windows");
    let (library, kind) = if windows {
        ("xaropinto.lib", "dylib")
    } else {
        ("libxaropinto.a", "static")
    };
    let package = env::var_os("CARGO_MANIFEST_DIR").expect("cargo names the package's folder");
    let folders = match env::var_os(VARIABLE) {
        Some(named) => vec![PathBuf::from(named)],
        None => ["../../target/lib", "../../lib"]
            .map(|each| PathBuf::from(&package).join(each))
            .to_vec(),
    };
    let Some(folder) = folders.iter().find(|each| each.join(library).is_file()) else {
        let tried: Vec<_> = folders
            .iter()
            .map(|each| each.display().to_string())
            .collect();
        eprintln!(
            "no {library} in {}: run `make lib` at the repository's top, or set {VARIABLE}",
            tried.join(", ")
        );
        process::exit(1);
    };
    println!("cargo:rerun-if-changed={}", folder.join(library).display());
    println!("cargo:rustc-link-search=native={}", folder.display());
    println!("cargo:rustc-link-lib={kind}=xaropinto");
}

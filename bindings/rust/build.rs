//! Finds the library and has it linked: in the folder that WULAMERON_LIB_DIR names, else the one that pkg-config knows,
//! else the one that `tools/build-c` built in this repository. In a folder the static library comes before the shared
//! one; pkg-config gives the shared one.
use std::env;
use std::path::{Path, PathBuf};
use std::process::{exit, Command};

/// The folder in which to look first.
const FOLDER: &str = "WULAMERON_LIB_DIR";

/// What decides where pkg-config looks.
const OF_PKG_CONFIG: [&str; 3] = ["PKG_CONFIG_PATH", "PKG_CONFIG_LIBDIR", "PKG_CONFIG_SYSROOT_DIR"];

/// Links the library of a folder, and tells whether one is there.
fn is_linked_from(folder: &Path) -> bool {
    for (name, kind) in [("libwulameron.a", "static"), ("libwulameron.so", "dylib")] {
        let file = folder.join(name);
        if file.is_file() {
            println!("cargo:rerun-if-changed={}", file.display());
            println!("cargo:rustc-link-search=native={}", folder.display());
            println!("cargo:rustc-link-lib={kind}=wulameron");
            return true;
        }
    }
    false
}

/// Links what pkg-config tells, and tells whether it knows the library. A blank within a word has a backslash there.
fn is_linked_by_pkg_config() -> bool {
    let Ok(told) = Command::new("pkg-config").args(["--libs", "wulameron"]).output() else { return false };
    for word in String::from_utf8_lossy(&told.stdout).replace("\\ ", "\0").split_whitespace() {
        let word = word.replace('\0', " ");
        if let Some(folder) = word.strip_prefix("-L") {
            println!("cargo:rustc-link-search=native={folder}");
        } else if let Some(name) = word.strip_prefix("-l") {
            println!("cargo:rustc-link-lib={name}");
        }
    }
    told.status.success()
}

fn main() {
    for name in OF_PKG_CONFIG.into_iter().chain([FOLDER]) {
        println!("cargo:rerun-if-env-changed={name}");
    }
    let here = PathBuf::from(env::var_os("CARGO_MANIFEST_DIR").expect("cargo sets it"));
    let own = here.join("../c/out");
    if let Some(folder) = env::var_os(FOLDER).filter(|name| !name.is_empty()).map(|name| here.join(name)) {
        if !is_linked_from(&folder) {
            eprintln!("{FOLDER} names {}, which has no libwulameron.a and no libwulameron.so.", folder.display());
            eprintln!("Name the folder of an installed library, such as /usr/local/lib, or unset {FOLDER}.");
            exit(1);
        }
    } else if !is_linked_by_pkg_config() && !is_linked_from(&own) {
        eprintln!("pkg-config doesn't know the library wulameron, and there is none in {}.", own.display());
        eprintln!("Build it with `tools/build-c`, install it with `tools/build-c --install PREFIX` and put");
        eprintln!("PREFIX/lib/pkgconfig into PKG_CONFIG_PATH, or name the folder that has it by {FOLDER}.");
        exit(1);
    }
}

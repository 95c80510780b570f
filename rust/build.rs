//! Links the libraries: those in the folder that `ETHERPARSE_LIB_DIR` names, else those that pkg-config knows.
//!
//! They are static by the feature `static`, or where `ETHERPARSE_STATIC` is set. A build script that depends on this crate
//! finds their folder in `DEP_ETHERPARSE_C_LIB_DIR`.

use std::env;
use std::path::{Path, PathBuf};
use std::process::{exit, Command};

const LIBRARIES: [&str; 2] = ["etherparse", "netlines"];

fn main() {
    for name in ["ETHERPARSE_LIB_DIR", "ETHERPARSE_STATIC", "PKG_CONFIG", "PKG_CONFIG_PATH", "PKG_CONFIG_LIBDIR"] {
        println!("cargo:rerun-if-env-changed={name}");
    }
    println!("cargo:rerun-if-changed=build.rs");
    let is_static = env::var_os("CARGO_FEATURE_STATIC").is_some() || env::var_os("ETHERPARSE_STATIC").is_some();
    // Documentation is made on machines that have no library.
    if env::var_os("DOCS_RS").is_none() {
        let folder = folder().unwrap_or_else(|missing| stop(&missing));
        let ending = if is_static { "a" } else { "so" };
        for name in LIBRARIES {
            let file = folder.join(format!("lib{name}.{ending}"));
            if !file.exists() {
                stop(&format!("there is no {}", file.display()));
            }
        }
        println!("cargo:rustc-link-search=native={}", folder.display());
        println!("cargo:lib_dir={}", folder.display());
        if env::var_os("CARGO_FEATURE_RPATH").is_some() {
            println!("cargo:rustc-link-arg=-Wl,-rpath,{}", folder.display());
        }
    }
    let kind = if is_static { "static" } else { "dylib" };
    for name in LIBRARIES {
        println!("cargo:rustc-link-lib={kind}={name}");
    }
}

/// The folder of the libraries, or why there is none.
fn folder() -> Result<PathBuf, String> {
    if let Some(folder) = env::var_os("ETHERPARSE_LIB_DIR") {
        return Path::new(&folder).canonicalize().map_err(|_| format!("there is no folder {}", folder.to_string_lossy()));
    }
    let pkg_config = env::var("PKG_CONFIG").unwrap_or_else(|_| "pkg-config".to_string());
    let ran = Command::new(&pkg_config).args(["--variable=libdir", LIBRARIES[0]]).output();
    match ran {
        Ok(output) if output.status.success() => {
            Ok(PathBuf::from(String::from_utf8_lossy(&output.stdout).trim_end().to_string()))
        }
        Ok(_) => Err(format!("{pkg_config} knows no package {}", LIBRARIES[0])),
        Err(error) => Err(format!("{pkg_config} can't be run ({error})")),
    }
}

/// Ends the build with a sentence about what is missing.
fn stop(missing: &str) -> ! {
    eprintln!(
        "etherparse-proved needs libetherparse and libnetlines, and {missing}: install them, or set ETHERPARSE_LIB_DIR to their folder"
    );
    exit(1);
}

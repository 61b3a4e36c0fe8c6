//! Finds libmatcher.a: in the folder that MATCHER_LIB_DIR names; else in target/staticlib of the repository; else where pkg-config says that
//! region-matcher is installed. Otherwise it says how to make it.

use std::env;
use std::path::{Path, PathBuf};
use std::process::{exit, Command};

const ARCHIVE: &str = "libmatcher.a";
const HELP: &str = "To make libmatcher.a, run `tools/archive` in the repository of the region matcher: it writes target/staticlib/libmatcher.a.
Elsewhere set MATCHER_LIB_DIR to the folder that holds it, or install it with `./install PREFIX` and let PKG_CONFIG_PATH name PREFIX/lib/pkgconfig.";

/// The folder of the archive, or why there is none.
fn find() -> Result<PathBuf, String> {
    if let Some(named) = env::var_os("MATCHER_LIB_DIR") {
        let folder = PathBuf::from(named);
        return match folder.is_absolute() && folder.join(ARCHIVE).is_file() {
            true => Ok(folder),
            false => Err(format!("MATCHER_LIB_DIR is '{}': not the absolute path of a folder with {ARCHIVE}", folder.display())),
        };
    }
    let built = Path::new(env!("CARGO_MANIFEST_DIR")).join("../../target/staticlib");
    if built.join(ARCHIVE).is_file() {
        return Ok(built);
    }
    installed()
}

/// The folder of an installed archive. Another major version may have other calls.
fn installed() -> Result<PathBuf, String> {
    let Some(version) = pkg_config("--modversion") else {
        return Err(format!("{ARCHIVE} is not in target/staticlib of the repository, and pkg-config knows no region-matcher"));
    };
    if version.split('.').next() != Some(env!("CARGO_PKG_VERSION_MAJOR")) {
        return Err(format!("region-matcher {version} is installed, but this crate is {}", env!("CARGO_PKG_VERSION")));
    }
    let folder = PathBuf::from(pkg_config("--variable=libdir").unwrap_or_default());
    match folder.join(ARCHIVE).is_file() {
        true => Ok(folder),
        false => Err(format!("pkg-config says that region-matcher is in '{}', but {ARCHIVE} is not", folder.display())),
    }
}

/// What pkg-config answers, where there is one and it knows the library.
fn pkg_config(question: &str) -> Option<String> {
    let output = Command::new("pkg-config").args([question, "region-matcher"]).output().ok()?;
    output.status.success().then(|| String::from_utf8_lossy(&output.stdout).trim().to_string())
}

fn main() {
    for name in ["MATCHER_LIB_DIR", "PKG_CONFIG_PATH", "PKG_CONFIG_LIBDIR"] {
        println!("cargo:rerun-if-env-changed={name}");
    }
    match find() {
        Ok(folder) => {
            println!("cargo:rerun-if-changed={}", folder.join(ARCHIVE).display());
            println!("cargo:rustc-link-search=native={}", folder.display());
            println!("cargo:rustc-link-lib=static=matcher");
        }
        Err(why) => {
            eprintln!("matcher: {why}.\n{HELP}");
            exit(1);
        }
    }
}

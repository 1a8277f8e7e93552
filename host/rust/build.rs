//! Finds libtg18.a, as `host/install` lays it: where TG18_LIB_DIR says, else where pkg-config says, else under the
//! repository's target/install.

use std::env;
use std::path::PathBuf;
use std::process::{exit, Command};

/// What pkg-config says of tg18, if it is here and has heard of it.
fn by_pkg_config() -> Option<PathBuf> {
    let said = Command::new("pkg-config").args(["--variable=libdir", "tg18"]).output().ok()?;
    let folder = String::from_utf8(said.stdout).ok()?;
    let folder = folder.trim();
    (said.status.success() && !folder.is_empty()).then(|| folder.into())
}

fn in_repository() -> PathBuf {
    PathBuf::from(env::var_os("CARGO_MANIFEST_DIR").unwrap_or_default()).join("../../target/install/lib")
}

fn main() {
    let named = env::var_os("TG18_LIB_DIR").filter(|folder| !folder.is_empty()).map(PathBuf::from);
    let folder = named.or_else(by_pkg_config).unwrap_or_else(in_repository);
    let library = folder.join("libtg18.a");
    for name in ["TG18_LIB_DIR", "PKG_CONFIG_PATH", "PKG_CONFIG_LIBDIR"] {
        println!("cargo:rerun-if-env-changed={name}");
    }
    println!("cargo:rerun-if-changed={}", library.display());
    if !library.exists() {
        eprintln!("no {}: `host/install PREFIX` makes it, and TG18_LIB_DIR says where it is", library.display());
        exit(1);
    }
    println!("cargo:rustc-link-search=native={}", folder.display());
    println!("cargo:rustc-link-lib=static=tg18");
}

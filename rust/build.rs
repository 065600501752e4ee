//! Links libhokhtura: the archive in the folder that `HOKHTURA_LIB` names; else the one in out/c, where `make lib` of
//! the repository leaves it; else the library that pkg-config finds.
use std::env;
use std::path::{Path, PathBuf};
use std::process::Command;

const ARCHIVE: &str = "libhokhtura.a";

fn link_archive(folder: &Path) {
    println!("cargo:rustc-link-search=native={}", folder.display());
    println!("cargo:rustc-link-lib=static=hokhtura");
    println!("cargo:rerun-if-changed={}", folder.join(ARCHIVE).display());
}

/// The folders of the installed library, if pkg-config knows it. `PKG_CONFIG` names another program.
fn installed() -> Option<String> {
    let program = env::var_os("PKG_CONFIG").unwrap_or_else(|| "pkg-config".into());
    let found = Command::new(program).args(["--libs-only-L", "--keep-system-libs", "hokhtura >= 0.1"]).output().ok()?;
    found.status.success().then(|| String::from_utf8_lossy(&found.stdout).into_owned())
}

fn main() {
    for name in ["HOKHTURA_LIB", "PKG_CONFIG", "PKG_CONFIG_PATH"] {
        println!("cargo:rerun-if-env-changed={name}");
    }
    if let Some(folder) = env::var_os("HOKHTURA_LIB") {
        return link_archive(&PathBuf::from(folder));
    }
    let here = PathBuf::from(env::var_os("CARGO_MANIFEST_DIR").expect("cargo names the folder")).join("../out/c");
    if here.join(ARCHIVE).exists() {
        return link_archive(&here);
    }
    let Some(folders) = installed() else {
        println!("cargo:warning=libhokhtura isn't in out/c, and pkg-config doesn't find it: set HOKHTURA_LIB");
        return link_archive(&here);
    };
    for folder in folders.split_whitespace().filter_map(|word| word.strip_prefix("-L")) {
        println!("cargo:rustc-link-search=native={folder}");
    }
    println!("cargo:rustc-link-lib=dylib=hokhtura");
}

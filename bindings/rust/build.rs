//! Where the library is: in the prefix that `REGNUBAS_PREFIX` names; or, as in the archive, in
//! `lib` beside this crate; or where pkg-config says.
use std::path::{Path, PathBuf};
use std::process::Command;

fn folder() -> Option<PathBuf> {
    if let Ok(prefix) = std::env::var("REGNUBAS_PREFIX") {
        return Some(Path::new(&prefix).join("lib"));
    }
    let crate_folder = std::env::var("CARGO_MANIFEST_DIR").ok()?;
    let beside = Path::new(&crate_folder).with_file_name("lib");
    if beside.join("libregnubas.a").exists() {
        return Some(beside);
    }
    let asked = Command::new("pkg-config").args(["--variable=prefix", "regnubas"]).output().ok()?;
    let prefix = String::from_utf8(asked.stdout).ok()?;
    asked.status.success().then(|| Path::new(prefix.trim()).join("lib"))
}

fn main() {
    println!("cargo:rerun-if-env-changed=REGNUBAS_PREFIX");
    println!("cargo:rerun-if-env-changed=PKG_CONFIG_PATH");
    let folder =
        folder().expect("REGNUBAS_PREFIX, or pkg-config, says where regnubas is installed");
    println!("cargo:rerun-if-changed={}/libregnubas.a", folder.display());
    println!("cargo:rustc-link-search=native={}", folder.display());
    println!("cargo:rustc-link-lib=static=regnubas");
}

//! Links the archives that `rt lib` built: from the folders `out/` of their crates, or from the folder NRVS_ARCHIVES.
use std::env;
use std::path::{Path, PathBuf};
use std::process::{exit, Command};

fn main() {
    println!("cargo:rerun-if-env-changed=NRVS_ARCHIVES");
    link(&archives("nrvs_c"), "nrvs_c");
    if env::var_os("CARGO_FEATURE_PLANS").is_some() {
        link(&archives("nrvs_plan_c"), "nrvs_plan_c");
    }
    if env::var_os("CARGO_FEATURE_NODES").is_some() {
        link(&archives("nrvs_nodes_c"), "nrvs_nodes_c");
    }
    if env::var_os("CARGO_FEATURE_AUDIT").is_some() {
        link(&archives("nrvs_audit_c"), "nrvs_audit_c");
        link(&heap(), "libc_c");
    }
}

/// Where the archive of a crate is.
fn archives(name: &str) -> PathBuf {
    match env::var_os("NRVS_ARCHIVES") {
        Some(folder) => PathBuf::from(folder),
        None => Path::new(env!("CARGO_MANIFEST_DIR"))
            .join("../crates")
            .join(name)
            .join("out"),
    }
}

/// Where the toolchain's heap is, three functions over malloc: in NRVS_ARCHIVES too, or beside the page that `rt doc` names.
fn heap() -> PathBuf {
    let given = env::var_os("NRVS_ARCHIVES").map(PathBuf::from);
    if let Some(folder) = given.filter(|folder| folder.join("liblibc_c.a").exists()) {
        return folder;
    }
    let page = Command::new("rt").arg("doc").output();
    let page = page.map(|it| String::from_utf8_lossy(&it.stdout).trim().to_owned());
    Path::new(&page.unwrap_or_default()).with_file_name("c")
}

fn link(folder: &Path, name: &str) {
    let file = folder.join(format!("lib{name}.a"));
    println!("cargo:rerun-if-changed={}", file.display());
    if !file.exists() {
        eprintln!("{} is not there: build it by `rt lib` in crates/{name}, or name its folder in NRVS_ARCHIVES", file.display());
        exit(1);
    }
    println!("cargo:rustc-link-search=native={}", folder.display());
    println!("cargo:rustc-link-lib=static={name}");
}

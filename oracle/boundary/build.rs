//! Links the proved archive: `libpage_store_c.a` of the folder PAGE_STORE_ARCHIVE, or of crates/page_store_c/out of the repository.

use std::env;
use std::path::{self, PathBuf};

/// The archive's file.
const FILE: &str = "libpage_store_c.a";

fn main() {
    println!("cargo::rerun-if-env-changed=PAGE_STORE_ARCHIVE");
    let folder = folder();
    let archive = folder.join(FILE);
    println!("cargo::rerun-if-changed={}", archive.display());
    if !archive.is_file() {
        let archive = archive.display();
        let make = "run `rt lib` in crates/page_store_c, or set PAGE_STORE_ARCHIVE to the folder that has it";
        println!("cargo::error=the proved archive {archive} is not there: {make}");
        return;
    }
    println!("cargo::rustc-link-search=native={}", folder.display());
    println!("cargo::rustc-link-lib=static=page_store_c");
}

/// The archive's folder. A relative one is taken from this package's folder, where build scripts run.
fn folder() -> PathBuf {
    let folder = env::var_os("PAGE_STORE_ARCHIVE").unwrap_or_else(|| "../../crates/page_store_c/out".into());
    path::absolute(&folder).unwrap_or_else(|_| folder.into())
}

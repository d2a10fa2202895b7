//! Links the archive: the one that ZBK_ARCHIVE names, seen from the top folder, else target/staticlib/libzebrankai.a.

use std::env;
use std::path::PathBuf;

fn main() {
    let top = PathBuf::from(env::var("CARGO_MANIFEST_DIR").expect("cargo sets it")).join("../..");
    let named = env::var_os("ZBK_ARCHIVE").filter(|name| !name.is_empty());
    let archive = top.join(named.unwrap_or("target/staticlib/libzebrankai.a".into()));
    let archive = archive.canonicalize().unwrap_or_else(|error| {
        panic!(
            "the archive {}: {error}. Build it with 'sh tests/prove_archive.sh', or set ZBK_ARCHIVE.",
            archive.display()
        )
    });
    let folder = archive.parent().expect("a file has a folder");
    let name = archive.file_name().expect("a file has a name");
    println!("cargo:rerun-if-env-changed=ZBK_ARCHIVE");
    println!("cargo:rerun-if-changed={}", archive.display());
    println!("cargo:rustc-link-search=native={}", folder.display());
    println!("cargo:rustc-link-lib=static:+verbatim={}", name.to_string_lossy());
}

//! Links the archive of the proved server.

use std::path::Path;

fn main() {
    let package = Path::new(env!("CARGO_MANIFEST_DIR"));
    let repository = package.ancestors().nth(2).expect("two folders above");
    let folder = repository.join("target/staticlib");
    let archive = folder.join("libserver.a");
    println!("cargo::rerun-if-changed={}", archive.display());
    if archive.exists() {
        println!("cargo::rustc-link-search=native={}", folder.display());
        println!("cargo::rustc-link-lib=static=server");
    } else {
        let path = archive.display();
        println!("cargo::error={path} is missing: `tools/archive server` writes it");
    }
}

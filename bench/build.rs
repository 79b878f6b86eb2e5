//! Links the archive of the proved code: the one that ILVORESTA_ARCHIVE names, which `bench/run` makes.
use std::path::Path;

fn main() {
    println!("cargo:rerun-if-env-changed=ILVORESTA_ARCHIVE");
    let archive = std::env::var("ILVORESTA_ARCHIVE").expect("bench/run builds the archive and sets ILVORESTA_ARCHIVE");
    println!("cargo:rerun-if-changed={archive}");
    let folder = Path::new(&archive).parent().expect("a file in a folder");
    println!("cargo:rustc-link-search=native={}", folder.display());
    println!("cargo:rustc-link-lib=static=ilvoresta");
}

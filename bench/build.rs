//! Links the archive that `rt lib` wrote, named by the environment variable VIOMMU_ARCHIVE.

use std::env;
use std::path::PathBuf;

fn main() {
    println!("cargo:rerun-if-env-changed=VIOMMU_ARCHIVE");
    let archive = env::var_os("VIOMMU_ARCHIVE").expect("VIOMMU_ARCHIVE names the archive");
    let archive = PathBuf::from(archive).canonicalize().expect("the archive is there");
    let folder = archive.parent().expect("a file stands in a folder");
    let stem = archive.file_stem().and_then(|stem| stem.to_str());
    let name = stem.and_then(|stem| stem.strip_prefix("lib")).expect("it is called libNAME.a");
    println!("cargo:rerun-if-changed={}", archive.display());
    println!("cargo:rustc-link-search=native={}", folder.display());
    println!("cargo:rustc-link-lib=static={name}");
}

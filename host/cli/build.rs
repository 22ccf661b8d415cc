//! The condition `archive` says that the crate nexus has linked the archive of the calls.

fn main() {
    println!("cargo::rerun-if-changed=build.rs");
    println!("cargo::rustc-check-cfg=cfg(archive)");
    if std::env::var_os("DEP_NEXUS_C_ARCHIVE").is_some() {
        println!("cargo::rustc-cfg=archive");
    }
}

//! Links the proved library from the folder that NITAREHPU_LIBRARY names: libexport.a as `tools/native export verdicts plains arrivals` makes it, with all calls; else from where
//! `tools/prove --library` puts its archives, libexport.a, libverdicts.a, libplains.a and libarrivals.a.

use std::path::Path;

fn main() {
    println!("cargo::rerun-if-env-changed=NITAREHPU_LIBRARY");
    let built = concat!(env!("CARGO_MANIFEST_DIR"), "/../../target/staticlib");
    let folder = std::env::var("NITAREHPU_LIBRARY").unwrap_or_else(|_| built.to_owned());
    println!("cargo::rustc-link-search=native={folder}");
    for name in ["export", "verdicts", "plains", "arrivals"] {
        let archive = format!("{folder}/lib{name}.a");
        println!("cargo::rerun-if-changed={archive}");
        if name == "export" || Path::new(&archive).exists() {
            println!("cargo::rustc-link-lib=static={name}");
        }
    }
}

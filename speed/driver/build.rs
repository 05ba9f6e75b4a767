//! Links the reader's archive and, if it was built, the C++ peer, both from the folder that SPEED_LIBRARIES names.

fn main() {
    println!("cargo::rerun-if-env-changed=SPEED_LIBRARIES");
    println!("cargo::rustc-check-cfg=cfg(cpp_peer)");
    let folder = std::env::var("SPEED_LIBRARIES").expect("SPEED_LIBRARIES names the folder of the archives");
    println!("cargo::rustc-link-search=native={folder}");
    println!("cargo::rerun-if-changed={folder}/libexport.a");
    println!("cargo::rustc-link-lib=static=export");
    if std::path::Path::new(&folder).join("libpeer.a").exists() {
        println!("cargo::rustc-cfg=cpp_peer");
        println!("cargo::rustc-link-lib=static=peer");
        println!("cargo::rustc-link-lib=dylib=stdc++");
    }
}

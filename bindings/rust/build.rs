//! Links libokelizanshu.a from the directory that OKELIZANSHU_LIBRARY names.

fn main() {
    println!("cargo:rerun-if-env-changed=OKELIZANSHU_LIBRARY");
    let folder = std::env::var("OKELIZANSHU_LIBRARY")
        .expect("OKELIZANSHU_LIBRARY is the directory with libokelizanshu.a (tools/library writes it to target/library)");
    println!("cargo:rerun-if-changed={folder}/libokelizanshu.a");
    println!("cargo:rustc-link-search=native={folder}");
    println!("cargo:rustc-link-lib=static=okelizanshu");
}

// Links the proved library, which oracle/run builds.
fn main() {
    println!("cargo:rustc-link-search=native={}/../target/staticlib", env!("CARGO_MANIFEST_DIR"));
    println!("cargo:rustc-link-lib=static=c_interface");
    println!("cargo:rerun-if-changed=../target/staticlib/libc_interface.a");
}

fn main() {
    let root = std::path::Path::new(env!("CARGO_MANIFEST_DIR")).join("..");
    let libraries = root.join("crates/c_calls/out");
    println!("cargo:rustc-link-search=native={}", libraries.display());
    println!("cargo:rustc-link-lib=static=c_calls");
    println!(
        "cargo:rerun-if-changed={}",
        libraries.join("libc_calls.a").display()
    );
}

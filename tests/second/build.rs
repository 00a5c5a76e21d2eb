// Links the archive that `./build` leaves in target/staticlib.
fn main() {
    let here = std::env::var("CARGO_MANIFEST_DIR").expect("cargo sets this");
    let archive = std::path::Path::new(&here).join("../../target/staticlib");
    println!("cargo:rustc-link-search=native={}", archive.display());
    println!("cargo:rustc-link-lib=static=pukilembo");
    println!(
        "cargo:rerun-if-changed={}",
        archive.join("libpukilembo.a").display()
    );
}

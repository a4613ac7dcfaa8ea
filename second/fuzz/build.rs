// Links the archives that scripts/staticlib writes of the export crates.
fn main() {
    let here = std::env::var("CARGO_MANIFEST_DIR").unwrap();
    let dir = format!("{here}/../../target/staticlib");
    println!("cargo:rustc-link-search=native={dir}");
    for name in ["export", "export_listing", "export_writer", "export_names", "export_stored", "export_stream"] {
        println!("cargo:rerun-if-changed={dir}/lib{name}.a");
        println!("cargo:rustc-link-lib=static={name}");
    }
}

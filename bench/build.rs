// Links the archives that scripts/staticlib writes of export, export_writer, export_stored and export_stream.
fn main() {
    let here = std::env::var("CARGO_MANIFEST_DIR").unwrap();
    let dir = format!("{here}/../target/staticlib");
    println!("cargo:rustc-link-search=native={dir}");
    for name in ["export", "export_writer", "export_stored", "export_stream"] {
        println!("cargo:rerun-if-changed={dir}/lib{name}.a");
        println!("cargo:rustc-link-lib=static={name}");
    }
}

// Links the archives of both sides, as bench/against leaves them.
fn main() {
    let here = std::env::var("CARGO_MANIFEST_DIR").unwrap();
    let dir = format!("{here}/../target/sides");
    println!("cargo:rustc-link-search=native={dir}");
    for name in ["before_export", "before_export_names", "now_export", "now_export_names"] {
        println!("cargo:rerun-if-changed={dir}/lib{name}.a");
        println!("cargo:rustc-link-lib=static={name}");
    }
}

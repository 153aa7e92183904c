// Included by the build scripts of the programs that call a proved library.

/// Tells cargo where a static library stands: the file that the variable names, or what `host/build NAME` writes.
fn find_library(variable: &str, name: &str) {
    let root = std::path::PathBuf::from(env!("CARGO_MANIFEST_DIR")).join("../..");
    let built = || root.join(format!("target/staticlib/lib{name}.a"));
    let library = std::env::var_os(variable).map_or_else(built, std::path::PathBuf::from);
    let folder = library.parent().expect("the library stands in a folder");
    println!("cargo:rustc-link-search=native={}", folder.display());
    println!("cargo:rerun-if-env-changed={variable}");
    println!("cargo:rerun-if-changed={}", library.display());
}

// Where libmarshal_c.a is: RUBY_MARSHAL_LIB_DIR, or the repository's crates/marshal_c/out, where `rt lib`
// in crates/marshal_c puts it.
use std::path::PathBuf;

fn main() {
    println!("cargo:rerun-if-env-changed=RUBY_MARSHAL_LIB_DIR");
    let folder = match std::env::var_os("RUBY_MARSHAL_LIB_DIR") {
        Some(folder) => PathBuf::from(folder),
        None => PathBuf::from(env!("CARGO_MANIFEST_DIR")).join("../../crates/marshal_c/out"),
    };
    let archive = folder.join("libmarshal_c.a");
    if !archive.exists() {
        println!("cargo:warning=no {}: set RUBY_MARSHAL_LIB_DIR to the folder of libmarshal_c.a", archive.display());
    }
    println!("cargo:rerun-if-changed={}", archive.display());
    println!("cargo:rustc-link-search=native={}", folder.display());
}

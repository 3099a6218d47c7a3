//! Where `libdishkaru.a` is: the folder that `DISHKARU_FOLDER` names, or `../c/out`, where `make` in
//! `bindings/c` puts it.

fn main() {
    println!("cargo:rerun-if-env-changed=DISHKARU_FOLDER");
    let folder = std::env::var("DISHKARU_FOLDER").unwrap_or_else(|_| {
        let here = std::env::var("CARGO_MANIFEST_DIR").unwrap();
        format!("{here}/../c/out")
    });
    let library = format!("{folder}/libdishkaru.a");
    println!("cargo:rerun-if-changed={library}");
    if !std::path::Path::new(&library).is_file() {
        println!("cargo:warning={library} is not there: run `make` in bindings/c, or set DISHKARU_FOLDER");
    }
    println!("cargo:rustc-link-search=native={folder}");
}

//! Links the static libraries that `rt lib` wrote; STATICLIB names their folder. With the feature s2 also s2.o, which `compare/run`
//! compiles, and S2.
fn main() {
    let folder = std::env::var("STATICLIB").expect("STATICLIB: the folder of the static libraries");
    println!("cargo:rustc-link-search=native={folder}");
    for library in ["sphericalpoint_c", "arcstring_c"] {
        println!("cargo:rustc-link-lib=static={library}");
        println!("cargo:rerun-if-changed={folder}/lib{library}.a");
    }
    if std::env::var_os("CARGO_FEATURE_S2").is_some() {
        let here = std::env::var("CARGO_MANIFEST_DIR").unwrap();
        println!("cargo:rerun-if-changed={here}/s2.o");
        for word in [&format!("{here}/s2.o"), "-ls2", "-lstdc++"] {
            println!("cargo:rustc-link-arg={word}");
        }
    }
    println!("cargo:rerun-if-env-changed=STATICLIB");
}

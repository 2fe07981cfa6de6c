// The build script of every driver takes this in: links the static libraries that `tools/native` made of these crates.
fn link(crates: &[&str]) {
    let top = std::env::current_dir().unwrap().join("../..");
    let made = top.join("target/native");
    for name in crates {
        let library = made.join(format!("lib{name}.a"));
        assert!(library.exists(), "build the library first: tools/native {name}");
        println!("cargo:rustc-link-lib=static={name}");
        println!("cargo:rerun-if-changed={}", library.display());
    }
    println!("cargo:rustc-link-search=native={}", made.display());
}

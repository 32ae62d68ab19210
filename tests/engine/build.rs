//! Says where the engine's static library is: in the folder named by `CODHUNGU_LIB_DIR`.

fn main() {
    println!("cargo:rerun-if-env-changed=CODHUNGU_LIB_DIR");
    let Ok(folder) = std::env::var("CODHUNGU_LIB_DIR") else {
        // Checking and formatting link nothing.
        println!("cargo:warning=CODHUNGU_LIB_DIR is not set: no engine to link");
        return;
    };
    println!("cargo:rerun-if-changed={folder}/libcodhungu.a");
    println!("cargo:rustc-link-search=native={folder}");
    println!("cargo:rustc-link-lib=static=codhungu");
}

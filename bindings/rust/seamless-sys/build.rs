//! Where libseamless is: the folder that `SEAMLESS_LIB_DIR` names, else what pkg-config says, else where the linker looks.
use std::process::Command;

fn main() {
    println!("cargo:rerun-if-env-changed=SEAMLESS_LIB_DIR");
    if let Ok(folder) = std::env::var("SEAMLESS_LIB_DIR") {
        println!("cargo:rustc-link-search=native={folder}");
        println!("cargo:rerun-if-changed={folder}/libseamless.a");
    } else if let Ok(said) = Command::new("pkg-config").args(["--libs-only-L", "seamless"]).output() {
        for word in String::from_utf8_lossy(&said.stdout).split_whitespace() {
            println!("cargo:rustc-link-search=native={}", word.trim_start_matches("-L"));
        }
    }
    println!("cargo:rustc-link-lib=static=seamless");
}

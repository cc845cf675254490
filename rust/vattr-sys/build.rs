//! Finds the library: in the folder that `VATTR_LIB_DIR` names; else made from the texts of the checkout's dist/, by make and a C
//! compiler, and linked as an archive; else by pkg-config.
use std::env;
use std::path::Path;
use std::process::Command;

fn main() {
    println!("cargo:rerun-if-env-changed=VATTR_LIB_DIR");
    let dist = Path::new(&env::var("CARGO_MANIFEST_DIR").unwrap()).join("../../dist");
    if let Ok(folder) = env::var("VATTR_LIB_DIR") {
        let kind = if Path::new(&folder).join("libvattr.a").exists() { "static" } else { "dylib" };
        println!("cargo:rustc-link-search=native={folder}\ncargo:rustc-link-lib={kind}=vattr");
    } else if dist.join("attr_c.s.gz").exists() {
        let out = env::var("OUT_DIR").unwrap();
        for name in ["Makefile", "attr_c.s.gz", "frames", "runtime.c", "../include/attr.h"] {
            println!("cargo:rerun-if-changed={}", dist.join(name).display());
        }
        let made = Command::new("make")
            .arg("-s")
            .arg("-C")
            .arg(&dist)
            .arg(format!("OUT={out}"))
            .arg(format!("{out}/libvattr.a"))
            .env_remove("MAKEFLAGS")
            .env_remove("CFLAGS")
            .status()
            .expect("make is needed to make the library from dist/");
        assert!(made.success(), "make could not make libvattr.a from dist/");
        println!("cargo:rustc-link-search=native={out}\ncargo:rustc-link-lib=static=vattr");
    } else {
        let found = Command::new("pkg-config").args(["--libs", "vattr"]).output().expect("no dist/, no VATTR_LIB_DIR and no pkg-config");
        assert!(found.status.success(), "the library vattr is not installed: set VATTR_LIB_DIR to its folder");
        for word in String::from_utf8_lossy(&found.stdout).split_whitespace() {
            match word.split_at(word.len().min(2)) {
                ("-L", folder) => println!("cargo:rustc-link-search=native={folder}"),
                ("-l", name) => println!("cargo:rustc-link-lib=dylib={name}"),
                _ => {}
            }
        }
    }
}

//! Links clang's libFuzzer, which has the program's main and calls the target.

use std::path::Path;
use std::process::Command;

fn main() {
    let asked = Command::new("clang").arg("--print-file-name=libclang_rt.fuzzer-x86_64.a").output();
    let found = asked.expect("clang, from Debian's package of that name").stdout;
    let library = String::from_utf8(found).expect("a path");
    let folder = Path::new(library.trim()).parent().expect("a folder").to_path_buf();
    println!("cargo:rustc-link-search=native={}", folder.display());
    println!("cargo:rustc-link-lib=static=clang_rt.fuzzer-x86_64");
    println!("cargo:rustc-link-lib=stdc++");
}

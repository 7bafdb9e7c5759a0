//! Compiles the plain C program that the journal is timed beside, as a console's maker would: cc -O2.

use std::path::PathBuf;
use std::process::Command;

fn run(command: &str, words: &[&str]) {
    let done = Command::new(command).args(words).status();
    assert!(done.is_ok_and(|status| status.success()), "{command} is needed for plain.c");
}

fn main() {
    println!("cargo:rerun-if-changed=plain.c");
    let folder = PathBuf::from(std::env::var_os("OUT_DIR").expect("cargo names a folder"));
    let (object, archive) = (folder.join("plain.o"), folder.join("libplain.a"));
    let (object, archive) = (object.to_str().expect("a name"), archive.to_str().expect("a name"));
    run("cc", &["-std=c99", "-Wall", "-Wextra", "-O2", "-c", "plain.c", "-o", object]);
    run("ar", &["rcs", archive, object]);
    println!("cargo:rustc-link-search=native={}", folder.display());
    println!("cargo:rustc-link-lib=static=plain");
}

//! Compiles the plain C rivals and links them; the crate `avsplus-sys` links the library.
use std::env;
use std::path::{Path, PathBuf};
use std::process::{exit, Command};

fn main() {
    let here = PathBuf::from(variable("CARGO_MANIFEST_DIR"));
    let out = PathBuf::from(variable("OUT_DIR"));
    plain_c(&here.join("c").join("plain.c"), &out);
    println!("cargo:rerun-if-changed=c/plain.c");
}

fn variable(name: &str) -> String {
    env::var(name).unwrap_or_else(|_| fail(&format!("{} is not set: build with cargo", name)))
}

fn plain_c(source: &Path, out: &Path) {
    let object = out.join("plain.o");
    let archive = out.join("libplain.a");
    run(Command::new("gcc")
        .args(["-O3", "-Wall", "-Wextra", "-fPIC", "-c", "-o"])
        .arg(&object)
        .arg(source));
    run(Command::new("ar").arg("crs").arg(&archive).arg(&object));
    println!("cargo:rustc-link-search=native={}", out.display());
    println!("cargo:rustc-link-lib=static=plain");
}

fn run(command: &mut Command) {
    match command.status() {
        Ok(status) if status.success() => {}
        Ok(status) => fail(&format!("{:?}: {}", command, status)),
        Err(error) => fail(&format!("{:?}: {}", command, error)),
    }
}

fn fail(why: &str) -> ! {
    eprintln!("{}", why);
    exit(1)
}

//! Builds ../checks.c, the bare check sums, as `bench/run` does: once at -O3, once with unrolled loops, too.

use std::env;
use std::process::Command;

fn run(command: &mut Command) {
    let status = command.status().expect("cc and ar are needed");
    assert!(status.success(), "{command:?}");
}

fn main() {
    println!("cargo::rerun-if-changed=build.rs");
    println!("cargo::rerun-if-changed=../checks.c");
    let out = env::var("OUT_DIR").expect("cargo says where to");
    let mut archive = Command::new("ar");
    archive.arg("crs").arg(format!("{out}/libchecks.a"));
    for (name, flags) in [("bare_checks", &["-O3"][..]), ("bare_checks_unrolled", &["-O3", "-funroll-loops"])] {
        let object = format!("{out}/{name}.o");
        run(Command::new("cc").args(flags).args(["-c", "../checks.c", "-o", &object]).arg(format!("-DNAME={name}")));
        archive.arg(object);
    }
    run(&mut archive);
    println!("cargo::rustc-link-search=native={out}");
    println!("cargo::rustc-link-lib=static=checks");
}

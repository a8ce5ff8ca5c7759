//! Links the archive that `rust/tool/archive` has made: target/staticlib/libexports.a, or where ANHKHOVET_ARCHIVE says.

use std::env;
use std::path::PathBuf;
use std::process::exit;

const NAME: &str = "libexports.a";

fn main() {
    println!("cargo:rerun-if-env-changed=ANHKHOVET_ARCHIVE");
    let given = env::var_os("ANHKHOVET_ARCHIVE").map(PathBuf::from);
    let wanted = given.unwrap_or_else(|| {
        let package = env::var_os("CARGO_MANIFEST_DIR").unwrap_or_default();
        PathBuf::from(package).join("../../target/staticlib")
    });
    let archive = if wanted.ends_with(NAME) {
        wanted
    } else {
        wanted.join(NAME)
    };
    println!("cargo:rerun-if-changed={}", archive.display());

    if env::var("CARGO_CFG_TARGET_ARCH").as_deref() != Ok("x86_64") {
        stop("the archive holds x86-64 code: build with --target x86_64-unknown-linux-gnu");
    }
    if !archive.is_file() {
        let place = archive.display();
        stop(&format!("no archive at {place}: run `rust/tool/archive` in the repository, or set ANHKHOVET_ARCHIVE to {NAME} or its folder"));
    }
    if let Some(folder) = archive.parent() {
        println!("cargo:rustc-link-search=native={}", folder.display());
    }
    println!("cargo:rustc-link-lib=static=exports");
}

fn stop(message: &str) -> ! {
    eprintln!("anhkhovet: {message}");
    exit(1)
}

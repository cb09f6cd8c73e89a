//! Tells cargo where the library is: in the folder $FLASKNIB_LIB, else where pkg-config says, else where `make` builds it in this clone.
//! With $FLASKNIB_STATIC it is linked into the program.
use std::env;
use std::path::Path;
use std::process::Command;

fn asked() -> Option<String> {
    let found = Command::new("pkg-config").args(["--variable=libdir", "flasknib"]).output().ok()?;
    let folder = String::from_utf8(found.stdout).ok()?.trim().to_string();
    (found.status.success() && !folder.is_empty()).then_some(folder)
}

fn main() {
    for name in ["FLASKNIB_LIB", "FLASKNIB_STATIC"] {
        println!("cargo:rerun-if-env-changed={name}");
    }
    let built = Path::new(&env::var("CARGO_MANIFEST_DIR").expect("cargo sets it")).join("../../target/lib");
    let folder = env::var("FLASKNIB_LIB").ok().or_else(asked).unwrap_or_else(|| built.display().to_string());
    println!("cargo:rustc-link-search=native={folder}");
    println!("cargo:rustc-link-lib={}flasknib", if env::var_os("FLASKNIB_STATIC").is_some() { "static=" } else { "" });
}

//! Says where libpilzhoon.a is: in PILZHOON/lib, or where pkg-config finds it.

use std::process::Command;

fn main() {
    println!("cargo::rerun-if-env-changed=PILZHOON");
    let place = match std::env::var("PILZHOON") {
        Ok(prefix) => Some(format!("{prefix}/lib")),
        Err(_) => Command::new("pkg-config")
            .args(["--variable=libdir", "pilzhoon"])
            .output()
            .ok()
            .filter(|found| found.status.success())
            .and_then(|found| String::from_utf8(found.stdout).ok())
            .map(|text| text.trim().to_owned()),
    };
    if let Some(place) = place {
        println!("cargo::rustc-link-search=native={place}");
    }
}

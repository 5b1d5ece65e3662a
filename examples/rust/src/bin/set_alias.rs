//! set_alias FILE ALIAS: sets the alias of an EEPROM image file.

use std::process::ExitCode;

fn set(name: &str, alias: &str) -> Result<(), String> {
    let alias = alias.parse().map_err(|e| format!("{alias}: {e}"))?;
    let mut image = std::fs::read(name).map_err(|e| format!("{name}: {e}"))?;
    pilzhoon_sys::set_alias(&mut image, alias).map_err(|e| format!("{name}: {e:?}"))?;
    let head = pilzhoon_sys::read_head(&image).map_err(|e| format!("{name}: {e:?}"))?;
    println!("{name}: alias {}, {:?}", head.alias, pilzhoon_sys::validate(&image));
    std::fs::write(name, &image).map_err(|e| format!("{name}: {e}"))
}

fn main() -> ExitCode {
    let words: Vec<String> = std::env::args().collect();
    let [_, name, alias] = words.as_slice() else {
        eprintln!("usage: set_alias FILE ALIAS");
        return ExitCode::from(2);
    };
    match set(name, alias) {
        Ok(()) => ExitCode::SUCCESS,
        Err(why) => {
            eprintln!("{why}");
            ExitCode::FAILURE
        }
    }
}

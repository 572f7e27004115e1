//! Says where the text in a file cannot be read as a plan, with the words of a names file if one is given. An image, which has a
//! zero byte, is left to the check. It needs no library: `./run` asks it before anything is proved.

use push_down_filter::text::{read, Names};
use std::process::ExitCode;

fn main() -> ExitCode {
    let files: Vec<String> = std::env::args().skip(1).collect();
    let told = match files.as_slice() {
        [plan] => text(plan).and_then(|text| parsed(plan, &text, &Names::NONE)),
        [plan, names] => text(names)
            .and_then(|words| Names::read(&words).map_err(|trouble| format!("{names}:{trouble}")))
            .and_then(|names| text(plan).and_then(|text| parsed(plan, &text, &names))),
        _ => Err("usage: parse PLAN [NAMES]".to_string()),
    };
    match told {
        Ok(()) => ExitCode::SUCCESS,
        Err(trouble) => {
            eprintln!("{trouble}");
            ExitCode::FAILURE
        }
    }
}

fn text(file: &str) -> Result<String, String> {
    let bytes = std::fs::read(file).map_err(|error| format!("{file}: {error}"))?;
    String::from_utf8(bytes).map_err(|_| format!("{file}: is no text"))
}

fn parsed(file: &str, text: &str, names: &Names) -> Result<(), String> {
    match text.contains('\0') {
        true => Ok(()),
        false => read(text, names).map(|_| ()).map_err(|trouble| format!("{file}:{trouble}")),
    }
}

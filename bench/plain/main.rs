//! Runs a script as `mscpq run FILE` does: plain Rust of the same behaviour, to be measured against.
//!
//!     bench/plain/build . && ./plain run FILE

#![forbid(unsafe_code)]

mod drive;
mod end;
mod picker;
mod queue;
mod report;
mod script;
mod slot;
mod text;
mod words;

use std::io::Write;
use std::process::ExitCode;

fn main() -> ExitCode {
    let words: Vec<String> = std::env::args().skip(1).collect();
    let [word, file] = words.as_slice() else {
        eprintln!("usage: plain run FILE");
        return ExitCode::from(2);
    };
    let script = match std::fs::read(file) {
        Ok(script) if word == "run" => script,
        _ => return ExitCode::from(2),
    };
    match script::run(&script) {
        Ok(report) => {
            let mut out = std::io::stdout().lock();
            let is_written = report.pieces().all(|it| out.write_all(it).is_ok());
            ExitCode::from(u8::from(!is_written))
        }
        Err((line, cause)) => {
            eprintln!("line {line}: {cause}");
            ExitCode::from(1)
        }
    }
}

//! What builds and walks cost, against a second implementation in two variants that is written for speed; walks, against rewritings;
//! what counts cost, against builds without them; what reading plans costs, against expat; and all against bars.
//! With `search SECONDS`: looks for books that cost the library most, and keeps them under bench/books. With `against FILE FILE`: builds
//! and a walk by one shared library against those by another.

mod against;
mod bars;
mod book;
mod cases;
mod clock;
mod countings;
mod expat;
mod fast;
mod library;
mod measure;
mod plans;
mod random;
mod readings;
mod run;
mod search;
mod sides;
mod stack;
mod walkings;

use std::env;
use std::process::ExitCode;

fn main() -> ExitCode {
    let arguments: Vec<String> = env::args().skip(1).collect();
    let words: Vec<&str> = arguments.iter().map(String::as_str).collect();
    let ended = match words[..] {
        [] => run::run(),
        ["search", seconds] => match seconds.parse() {
            Ok(seconds) => search::run(seconds).map(|()| true),
            Err(_) => Err(format!("'{seconds}' is no number of seconds")),
        },
        ["against", now, other] => against::run(now, other),
        _ => Err("usage: bench, bench search SECONDS, or bench against FILE FILE".to_string()),
    };
    match ended {
        Ok(true) => ExitCode::SUCCESS,
        Ok(false) => ExitCode::FAILURE,
        Err(what) => {
            eprintln!("bench: {what}");
            ExitCode::FAILURE
        }
    }
}

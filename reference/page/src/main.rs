//! `page FIRST NAME < text > page`: the page of a trace; `--words` prints what it
//! shows as text, `--check FILE` compares that text with a file. FIRST is the proved
//! program, and what it prints has to be what the page shows.

use page::history::History;
use page::subject::Subject;
use page::{html, proved, story};
use std::io::{Read, Write};
use std::process::ExitCode;
use std::time::{Duration, Instant};

const USAGE: &str = "usage: page FIRST NAME [--words | --check FILE] < text";

fn main() -> ExitCode {
    let arguments: Vec<String> = std::env::args().skip(1).collect();
    let words: Vec<&str> = arguments.iter().map(String::as_str).collect();
    match run(&words) {
        Ok(true) => ExitCode::SUCCESS,
        Ok(false) => ExitCode::FAILURE,
        Err(message) => {
            eprintln!("page: {message}");
            ExitCode::from(2)
        }
    }
}

fn run(words: &[&str]) -> Result<bool, String> {
    let [first, name, rest @ ..] = words else { return Err(USAGE.to_string()) };
    let mut text = String::new();
    std::io::stdin().read_to_string(&mut text).map_err(|error| error.to_string())?;
    let subject = Subject::read(name, &text)?;
    let mut progress = Progress::new();
    let all = subject.trace.lines.len();
    let history = History::of(&subject, &mut |done| {
        progress.tell(&format!("{done} of {all} events replayed by the second program"));
    });
    proved::compare(first, &subject, &history, &mut |doing| progress.tell(doing))?;
    match rest {
        [] => write(&html::page(&subject, &history)),
        ["--words"] => write(&story::story(&subject, &history)),
        ["--check", path] => check(path, &story::story(&subject, &history)),
        _ => Err(USAGE.to_string()),
    }
}

fn write(text: &str) -> Result<bool, String> {
    std::io::stdout().write_all(text.as_bytes()).map_err(|error| error.to_string())?;
    Ok(true)
}

fn check(path: &str, story: &str) -> Result<bool, String> {
    let kept = std::fs::read_to_string(path).map_err(|error| format!("{path}: {error}"))?;
    let differs = kept.lines().zip(story.lines()).position(|(kept, made)| kept != made);
    match differs {
        None if kept == story => return Ok(true),
        None => println!(
            "{path} has {} lines, the page {}",
            kept.lines().count(),
            story.lines().count()
        ),
        Some(place) => {
            println!("{path}, line {}: {}", place + 1, kept.lines().nth(place).unwrap_or_default());
            println!("the page: {}", story.lines().nth(place).unwrap_or_default());
        }
    }
    Ok(false)
}

/// Says on standard error how far a long run is, once a second.
struct Progress {
    last: Instant,
}

impl Progress {
    fn new() -> Progress {
        Progress { last: Instant::now() }
    }

    fn tell(&mut self, words: &str) {
        if self.last.elapsed() >= Duration::from_secs(1) {
            self.last = Instant::now();
            eprintln!("page: {words}");
        }
    }
}

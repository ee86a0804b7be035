//! Draws the mesh of one hub over time, in two scenes; or, with `--check`,
//! makes the pictures again and compares them with those that are there.

mod building;
mod chart;
mod crowd;
mod history;
mod law_office;
mod network;
mod router;
mod scene;
mod svg;

use scene::Scene;
use std::path::Path;
use std::process::ExitCode;
use std::{env, fs};

const USAGE: &str = "usage: pictures FOLDER [--check]";

/// How many tests held, and how many did not.
#[derive(Default)]
struct Tally {
    passed: usize,
    failed: usize,
}

impl Tally {
    fn count(&mut self, says: &str, holds: bool) {
        println!("{}: {says}", if holds { "ok" } else { "FAILED" });
        self.passed += usize::from(holds);
        self.failed += usize::from(!holds);
    }
}

fn main() -> ExitCode {
    let arguments: Vec<String> = env::args().skip(1).collect();
    let (folder, check) = match arguments.as_slice() {
        [folder] => (Path::new(folder), false),
        [folder, flag] if flag == "--check" => (Path::new(folder), true),
        _ => {
            eprintln!("{USAGE}");
            return ExitCode::from(2);
        }
    };
    let mut tally = Tally::default();
    for scene in [crowd::scene(), law_office::scene()] {
        for fact in &scene.facts {
            tally.count(&format!("{}: {}", scene.file, fact.says), fact.holds);
        }
        if check {
            compare(&mut tally, folder, &scene);
        } else {
            write(&mut tally, folder, &scene);
        }
    }
    println!("{} passed, {} failed", tally.passed, tally.failed);
    ExitCode::from(u8::from(tally.failed > 0))
}

fn compare(tally: &mut Tally, folder: &Path, scene: &Scene) {
    let path = folder.join(scene.file);
    let same = fs::read(&path).is_ok_and(|bytes| bytes == scene.svg.as_bytes());
    tally.count(&format!("{} is the picture that is made now", path.display()), same);
}

fn write(tally: &mut Tally, folder: &Path, scene: &Scene) {
    let path = folder.join(scene.file);
    let written = fs::create_dir_all(folder).and_then(|()| fs::write(&path, &scene.svg));
    tally.count(&format!("{} is written", path.display()), written.is_ok());
}

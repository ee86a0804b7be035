//! A scene: its picture, and what the picture is said to show.

use crate::chart::Chart;
use crate::history::History;
use crate::router::{self, Numbers};

pub struct Scene {
    /// The picture's name in its folder.
    pub file: &'static str,
    pub svg: String,
    pub facts: Vec<Fact>,
}

impl Scene {
    /// What `run` gives under the ordinary parameters, drawn.
    pub fn new(
        file: &'static str,
        run: fn(Numbers) -> History,
        chart: &Chart,
        facts: fn(&History, &Numbers) -> Vec<Fact>,
    ) -> Scene {
        let numbers = router::ordinary();
        let history = run(numbers);
        let facts = facts(&history, &numbers);
        Scene { file, svg: chart.draw(&history, &numbers), facts }
    }
}

pub struct Fact {
    pub says: &'static str,
    pub holds: bool,
}

pub fn fact(says: &'static str, holds: bool) -> Fact {
    Fact { says, holds }
}

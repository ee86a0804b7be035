//! Draws a history: on top the size of the mesh, below it a row for each peer,
//! and time from left to right.

use crate::history::{History, Size, State};
use crate::network::{MINUTE, SECOND};
use crate::router::Numbers;
use crate::svg::{px, Anchor, Svg, Tenths};
use reference::params::general;

const WIDTH: Tenths = px(1120);
const MARGIN: Tenths = px(16);
/// Time goes from the one to the other.
const LEFT: Tenths = px(222);
const RIGHT: Tenths = px(1022);

/// From one line of words to the next.
const LINE: Tenths = px(17);
const TITLE: Tenths = px(30);
const WORDS: Tenths = px(52);
const LEGEND_ENTRY: Tenths = px(184);

/// The mesh's size: so much height for a member, and room for so many.
const MEMBER: Tenths = px(10);
const ROOM: i64 = 15;

/// Between two bands of rows.
const GAP: Tenths = px(10);

/// A state's look: what the legend calls it, its colour, and how many tenths
/// of a row's height it fills; a dotted line has 0.
struct Look {
    state: State,
    name: &'static str,
    colour: &'static str,
    height: i64,
}

const fn look(state: State, name: &'static str, colour: &'static str, height: i64) -> Look {
    Look { state, name, colour, height }
}

impl Look {
    /// Draws bars in rows of a height: each from left to right, about its
    /// middle.
    fn draw(&self, svg: &mut Svg, bars: &[(Tenths, Tenths, Tenths)], row: Tenths) {
        let height = row * self.height / 10;
        if bars.is_empty() {
            return;
        }
        let dotted = self.height == 0;
        let style = if dotted { stroke(self.colour, "1 3") } else { fill(self.colour) };
        svg.group(&style, |svg| {
            for &(left, right, middle) in bars {
                if dotted {
                    svg.line((left, middle), (right, middle));
                } else {
                    svg.rect(left, middle - height / 2, right - left, height);
                }
            }
        });
    }
}

/// The colours are after Okabe and Ito, so that they differ for every kind of
/// sight; their darkness and the heights differ too, so that a print without
/// colours can be read.
const LOOKS: [Look; 6] = [
    look(State::Outbound, "member, outbound", "#0072b2", 9),
    look(State::Inbound, "member, inbound", "#56b4e9", 9),
    look(State::Connected, "connected, no member", "#aaaaaa", 3),
    look(State::Backoff, "pruned, backoff runs", "#e69f00", 6),
    look(State::Below, "score below zero", "#993d00", 4),
    look(State::Retained, "gone, record kept", "#555555", 0),
];

const INK: &str = "#222222";
const PALE_INK: &str = "#555555";
const GRID: &str = "#e2e2e2";
const SHADE: &str = "#f2f2f2";

/// Where times stand: knots of a time and its place, straight between them.
pub struct Scale {
    knots: Vec<(u64, Tenths)>,
}

impl Scale {
    /// Stretches of time one after the other, given by their ends, each with
    /// its share of the width.
    pub fn new(stretches: &[(u64, i64)]) -> Scale {
        let whole: i64 = stretches.iter().map(|stretch| stretch.1).sum();
        let mut knots = vec![(0, LEFT)];
        let mut share = 0;
        for &(end, part) in stretches {
            share += part;
            knots.push((end, LEFT + (RIGHT - LEFT) * share / whole));
        }
        Scale { knots }
    }

    fn end(&self) -> u64 {
        self.knots[self.knots.len() - 1].0
    }

    fn x(&self, time: u64) -> Tenths {
        let time = time.min(self.end());
        let place = self.knots.iter().position(|knot| time <= knot.0).unwrap_or(0).max(1);
        let (begin, left) = self.knots[place - 1];
        let (end, right) = self.knots[place];
        left + (right - left) * (time - begin) as i64 / (end - begin) as i64
    }
}

/// Rows under one heading, whose lines stand beside them.
pub struct Band {
    pub heading: &'static [&'static str],
    pub rows: Vec<(u32, String)>,
}

/// Something that happens at a time.
pub struct Mark {
    pub time: u64,
    pub words: &'static str,
}

/// A stretch of time that is drawn closer than the rest.
pub struct Closer {
    pub from: u64,
    pub to: u64,
    pub words: &'static str,
}

pub struct Chart {
    pub title: &'static str,
    /// Lines under the title.
    pub words: &'static [&'static str],
    pub scale: Scale,
    pub closer: Option<Closer>,
    /// The times that the axis names.
    pub ticks: Vec<u64>,
    pub marks: Vec<Mark>,
    pub bands: Vec<Band>,
    /// The height of a row.
    pub row: Tenths,
}

/// Where the parts of a chart lie, from the top.
struct Layout {
    legend: Tenths,
    marks: Tenths,
    sizes: Tenths,
    base: Tenths,
    rows: Tenths,
    axis: Tenths,
    height: Tenths,
}

impl Chart {
    pub fn draw(&self, history: &History, numbers: &Numbers) -> String {
        let layout = self.layout();
        let mut svg = Svg::new(WIDTH, layout.height, self.title, &self.words.join(" "));
        self.headings(&mut svg);
        self.legend(&mut svg, &layout, history);
        self.grid(&mut svg, &layout);
        self.axis(&mut svg, &layout);
        self.sizes(&mut svg, &layout, history);
        limits(&mut svg, &layout, numbers);
        self.rows(&mut svg, &layout, history);
        self.marks(&mut svg, &layout);
        svg.finish()
    }

    fn layout(&self) -> Layout {
        let legend = WORDS + LINE * self.words.len() as i64;
        let marks = legend + px(42);
        let sizes = marks + LINE * self.marks.len() as i64 - px(6);
        let base = sizes + MEMBER * ROOM;
        let rows = base + GAP;
        let heights = self.bands.iter().map(|band| self.row * band.rows.len() as i64 + GAP);
        let axis = rows + heights.sum::<Tenths>();
        // Under the axis stand its times, and what is said of a closer stretch.
        let lines = if self.closer.is_some() { 2 } else { 1 };
        let height = axis + LINE * lines + px(14);
        Layout { legend, marks, sizes, base, rows, axis, height }
    }

    fn headings(&self, svg: &mut Svg) {
        svg.group(&font(18, INK, true), |svg| {
            svg.text(MARGIN, TITLE, Anchor::Start, self.title);
        });
        svg.group(&font(13, PALE_INK, false), |svg| {
            for (words, place) in self.words.iter().zip(0..) {
                svg.text(MARGIN, WORDS + LINE * place, Anchor::Start, words);
            }
        });
    }

    /// The states that come up, each as it is drawn.
    fn legend(&self, svg: &mut Svg, layout: &Layout, history: &History) {
        let ids = || self.bands.iter().flat_map(|band| band.rows.iter().map(|row| row.0));
        let comes_up = |state: State| {
            ids().any(|id| history.spans(id, self.scale.end()).iter().any(|span| span.2 == state))
        };
        let looks = LOOKS.iter().filter(|look| comes_up(look.state));
        for (look, place) in looks.zip(0..) {
            let x = MARGIN + LEGEND_ENTRY * place;
            look.draw(svg, &[(x, x + px(18), layout.legend + px(2))], px(14));
            svg.group(&font(12, INK, false), |svg| {
                svg.text(x + px(24), layout.legend + px(6), Anchor::Start, look.name);
            });
        }
    }

    /// A pale line at each tick, and a shade where time is drawn closer.
    fn grid(&self, svg: &mut Svg, layout: &Layout) {
        if let Some(closer) = &self.closer {
            let (left, right) = (self.scale.x(closer.from), self.scale.x(closer.to));
            svg.group(&fill(SHADE), |svg| {
                svg.rect(left, layout.sizes, right - left, layout.axis - layout.sizes);
            });
            svg.group(&font(12, PALE_INK, false), |svg| {
                let middle = (left + right) / 2;
                svg.text(middle, layout.axis + 2 * LINE, Anchor::Middle, closer.words);
            });
        }
        svg.group(&stroke(GRID, ""), |svg| {
            for &tick in &self.ticks {
                let x = self.scale.x(tick);
                svg.line((x, layout.sizes), (x, layout.axis));
            }
        });
    }

    fn axis(&self, svg: &mut Svg, layout: &Layout) {
        svg.group(&stroke(INK, ""), |svg| {
            svg.line((LEFT, layout.axis), (RIGHT, layout.axis));
        });
        svg.group(&font(12, INK, false), |svg| {
            for &tick in &self.ticks {
                svg.text(self.scale.x(tick), layout.axis + LINE, Anchor::Middle, &clock(tick));
            }
            svg.text(LEFT - px(22), layout.axis + LINE, Anchor::End, "minutes:seconds");
        });
    }

    /// The mesh's size: all members, and before them those that are outbound.
    fn sizes(&self, svg: &mut Svg, layout: &Layout, history: &History) {
        let spans = history.size_spans(self.scale.end());
        let area = |count: fn(Size) -> usize| {
            let mut points = vec![(LEFT, layout.base)];
            for &(begin, end, size) in &spans {
                let y = layout.height_of(count(size));
                points.extend([(self.scale.x(begin), y), (self.scale.x(end), y)]);
            }
            points.push((RIGHT, layout.base));
            upright(&points)
        };
        let all = area(Size::total);
        svg.group(&fill(colour(State::Inbound)), |svg| svg.steps(&all));
        svg.group(&fill(colour(State::Outbound)), |svg| svg.steps(&area(|size| size.outbound)));
        svg.group(&stroke(INK, ""), |svg| svg.steps(&all));
        svg.group(&font(12, INK, true), |svg| {
            svg.text(MARGIN, layout.sizes + px(16), Anchor::Start, "Peers in the hub's mesh");
        });
    }

    fn rows(&self, svg: &mut Svg, layout: &Layout, history: &History) {
        let mut y = layout.rows;
        for band in &self.bands {
            self.band(svg, history, band, y);
            y += self.row * band.rows.len() as i64 + GAP;
        }
    }

    fn band(&self, svg: &mut Svg, history: &History, band: &Band, top: Tenths) {
        let middle = |place: i64| top + self.row * place + self.row / 2;
        svg.group(&font(12, INK, true), |svg| {
            for (words, place) in band.heading.iter().zip(0..) {
                svg.text(MARGIN, top + px(11) + LINE * place, Anchor::Start, words);
            }
        });
        svg.group(&font(10, INK, false), |svg| {
            for ((_, name), place) in band.rows.iter().zip(0..) {
                svg.text(LEFT - px(8), middle(place) + px(4), Anchor::End, name);
            }
        });
        for look in &LOOKS {
            let mut bars = Vec::new();
            for ((id, _), place) in band.rows.iter().zip(0..) {
                let spans = self.places(history, *id, look.state);
                bars.extend(spans.into_iter().map(|(left, right)| (left, right, middle(place))));
            }
            look.draw(svg, &bars, self.row);
        }
    }

    /// From where to where a peer was in a state.
    fn places(&self, history: &History, id: u32, state: State) -> Vec<(Tenths, Tenths)> {
        let spans = history.spans(id, self.scale.end()).into_iter();
        let held = spans.filter(|span| span.2 == state);
        let places = held.map(|(begin, end, _)| (self.scale.x(begin), self.scale.x(end)));
        places.filter(|place| place.0 < place.1).collect()
    }

    /// Each mark has a line of words of its own, so that none meets another.
    fn marks(&self, svg: &mut Svg, layout: &Layout) {
        for (mark, place) in self.marks.iter().zip(0..) {
            let x = self.scale.x(mark.time);
            let y = layout.marks + LINE * place;
            svg.group(&stroke(INK, "6 3"), |svg| svg.line((x, y - px(10)), (x, layout.axis)));
            svg.group(&font(12, INK, false), |svg| {
                let words = format!("{} {}", clock(mark.time), mark.words);
                svg.text(x + px(5), y, Anchor::Start, &words);
            });
        }
    }
}

impl Layout {
    /// Where a mesh of so many members reaches.
    fn height_of(&self, count: usize) -> Tenths {
        self.base - MEMBER * count as i64
    }
}

/// The parameters that bound a mesh. A dashed line over a white one is seen on
/// every colour.
fn limits(svg: &mut Svg, layout: &Layout, numbers: &Numbers) {
    let number = |place: usize| numbers[place] as usize;
    let limits = [
        (number(general::D_OUT), "D_out"),
        (number(general::D_LO), "D_lo"),
        (number(general::D), "D"),
        (number(general::D_HI), "D_hi"),
        (number(general::D_HI) + 2, "D_hi + 2"),
    ];
    for style in [stroke("#ffffff", ""), stroke(INK, "3 3")] {
        svg.group(&style, |svg| {
            for (count, _) in limits {
                let y = layout.height_of(count);
                svg.line((LEFT, y), (RIGHT, y));
            }
        });
    }
    svg.group(&font(12, INK, false), |svg| {
        for (count, name) in limits {
            let y = layout.height_of(count) + px(4);
            svg.text(RIGHT + px(6), y, Anchor::Start, &format!("{name} = {count}"));
        }
    });
}

/// The same points, with no slanting step between two of them.
fn upright(points: &[(Tenths, Tenths)]) -> Vec<(Tenths, Tenths)> {
    let mut all: Vec<(Tenths, Tenths)> = Vec::new();
    for &(x, y) in points {
        if let Some(&(_, before)) = all.last() {
            all.push((x, before));
        }
        all.push((x, y));
    }
    all.dedup();
    all
}

fn colour(state: State) -> &'static str {
    LOOKS.iter().find(|look| look.state == state).map_or("none", |look| look.colour)
}

fn fill(colour: &str) -> String {
    format!(r#"fill="{colour}""#)
}

fn stroke(colour: &str, dashes: &str) -> String {
    let plain = format!(r#"stroke="{colour}" stroke-width="1" fill="none""#);
    if dashes.is_empty() {
        plain
    } else {
        format!(r#"{plain} stroke-dasharray="{dashes}""#)
    }
}

fn font(size: i64, colour: &str, bold: bool) -> String {
    let weight = if bold { r#" font-weight="bold""# } else { "" };
    format!(r#"font-size="{size}" fill="{colour}"{weight}"#)
}

/// A time as minutes and seconds.
fn clock(time: u64) -> String {
    format!("{}:{:02}", time / MINUTE, time % MINUTE / SECOND)
}

#[cfg(test)]
mod tests {
    use super::*;

    #[test]
    fn stretches_share_the_width() {
        let scale = Scale::new(&[(100, 1), (1100, 1)]);
        let middle = (LEFT + RIGHT) / 2;
        assert_eq!([0, 100, 1100, 9999].map(|time| scale.x(time)), [LEFT, middle, RIGHT, RIGHT]);
        assert_eq!(scale.x(600), (middle + RIGHT) / 2);
    }

    #[test]
    fn clocks_count_minutes() {
        assert_eq!([0, 61_000, 3_599_999].map(clock), ["0:00", "1:01", "59:59"]);
    }

    #[test]
    fn no_step_slants() {
        assert_eq!(upright(&[(0, 0), (0, 5), (9, 5), (9, 7)]), [(0, 0), (0, 5), (9, 5), (9, 7)]);
        assert_eq!(upright(&[(0, 0), (3, 5)]), [(0, 0), (3, 0), (3, 5)]);
    }
}

//! What a picture shows, read back from its text.

use crate::axis::Axis;
use crate::picture::{draw, shown};
use crate::schedule::Schedule;

/// A row of the first panel: its bars, from start to end, and its releases.
#[derive(Clone, Default)]
pub struct Row {
    pub bars: Vec<(i64, i64)>,
    pub releases: Vec<i64>,
}

/// The rows of the first panel, whose frames the schedule's lines name. Each begins with its base line,
/// and behind the last one stands the mark of the response.
pub fn rows(schedule: &Schedule) -> Vec<Row> {
    let picture = draw(schedule);
    let (text, _) = picture.split_once("class=\"response\"").expect("the response is marked");
    let axis = shown(schedule)[0].axis;
    let mut rows: Vec<Row> = Vec::new();
    for line in text.lines() {
        let class = attribute(line, "class").and_then(|class| class.split(' ').next());
        match class {
            Some("base") => rows.push(Row::default()),
            Some("better" | "judged" | "late" | "blocking") => {
                let [from, width] = ["x", "width"].map(|name| number(line, name));
                let bar = (tick(&axis, from), tick(&axis, from + width));
                rows.last_mut().expect("a row").bars.push(bar);
            }
            Some("release") => {
                let release = tick(&axis, number(line, "x1"));
                rows.last_mut().expect("a row").releases.push(release);
            }
            _ => {}
        }
    }
    rows
}

fn number(line: &str, name: &str) -> f64 {
    attribute(line, name).and_then(|value| value.parse().ok()).expect("a number")
}

fn attribute<'a>(line: &'a str, name: &str) -> Option<&'a str> {
    let (_, rest) = line.split_once(&format!(" {name}=\""))?;
    rest.split('"').next()
}

/// The tick at a pixel, which is close to a whole one.
fn tick(axis: &Axis, x: f64) -> i64 {
    let tick = axis.begin as f64 + (x - axis.left) / axis.width * (axis.end - axis.begin) as f64;
    assert!((tick - tick.round()).abs() < 0.25, "pixel {x} is no tick");
    tick.round() as i64
}

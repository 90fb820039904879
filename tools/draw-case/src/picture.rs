//! The whole picture: what is shown in words, the window, the late instance enlarged, a legend.

use crate::axis::Axis;
use crate::panel::{Panel, LEAST_BAR, RELEASES_APART};
use crate::schedule::{Line, Role, Schedule};
use crate::svg::{Anchor, Svg};

const WIDTH: f64 = 1500.0;
const LEFT: f64 = 280.0;
const RIGHT: f64 = 40.0;
const PLOT: f64 = WIDTH - LEFT - RIGHT;
/// Characters of a line of words.
const WORDS: usize = 150;
/// The time from the queueing on is drawn enlarged where it is less than this part of the window.
const ENLARGED: i64 = 3;
/// The end is drawn enlarged where the late transmission is narrower than this, with so many times its
/// length.
const NARROW: f64 = 15.0;
const AT_THE_END: i64 = 25;

const STYLE: &str = "
text { font-family: 'DejaVu Sans', Arial, sans-serif; fill: #222; }
.title { font-size: 19px; font-weight: bold; }
.words { font-size: 13px; }
.panel { font-size: 14px; font-weight: bold; }
.label { font-family: 'DejaVu Sans Mono', monospace; font-size: 11px; }
.number { font-size: 12px; fill: #555; }
.instance { font-size: 9px; fill: #fff; paint-order: stroke; stroke-width: 2px; }
.on-better { stroke: #4a7ab5; }
.on-judged { stroke: #e39a3b; }
.on-late { stroke: #c8322b; }
.grid { stroke: #ddd; stroke-width: 1; }
.base { stroke: #eee; stroke-width: 1; }
.release { stroke: #111; stroke-width: 1.6; }
.better { fill: #4a7ab5; }
.judged { fill: #e39a3b; }
.late { fill: #c8322b; }
.blocking { fill: #8d8d8d; }
.edged { stroke: #fff; stroke-width: 0.8; }
.wait { fill: #f3c9c5; }
.judged-row { fill: #fff4e2; }
.queueing { stroke: #222; stroke-width: 1; stroke-dasharray: 2 3; }
.claim { stroke: #1c7c35; stroke-width: 1.6; }
.response { stroke: #c8322b; stroke-width: 1.6; }
.claim.end { stroke-dasharray: 7 5; }
.claim-text, .response-text { font-size: 13px; font-weight: bold; paint-order: stroke; stroke: #fff; stroke-width: 4px; }
.claim-text { fill: #1c7c35; }
.response-text { fill: #c8322b; }
";

/// The picture of a case.
pub fn draw(schedule: &Schedule) -> String {
    let mut svg = Svg::default();
    let mut y = draw_words(&mut svg, schedule);
    for Shown { title, lines, axis } in shown(schedule) {
        svg.text((8.0, y + 18.0), Anchor::Start, "panel", &title);
        let row = row_height(lines.len());
        let panel = Panel { schedule, lines, axis, top: y + 30.0, row };
        panel.draw(&mut svg);
        y = panel.top + panel.height() + 14.0;
    }
    let bottom = draw_legend(&mut svg, schedule, y);
    svg.finish(WIDTH, bottom, STYLE)
}

fn row_height(rows: usize) -> f64 {
    match rows {
        0..=12 => 28.0,
        13..=30 => 22.0,
        _ => 18.0,
    }
}

/// What a panel shows: its title, its rows, and the time.
pub struct Shown<'a> {
    title: String,
    lines: Vec<&'a Line>,
    pub axis: Axis,
}

/// The window to the end of the late instance; where that is much longer, the time from the instance's
/// queueing on; and where its transmission is still narrow, the end.
pub fn shown(schedule: &Schedule) -> Vec<Shown<'_>> {
    let (begin, end) = (schedule.begin(), schedule.late.end);
    let title = "From the window's start, tick 0, to the end of the late instance".into();
    let all = schedule.lines.iter().collect();
    let mut panels = vec![Shown { title, lines: all, axis: axis(schedule, begin) }];
    if schedule.response() * ENLARGED < end - begin {
        let first = schedule.queueing - schedule.response() / 20;
        panels.push(enlarged(schedule, "From the queueing of the late instance on", first));
    }
    let Axis { begin, end: last, .. } = panels[panels.len() - 1].axis;
    let length = end - schedule.late.start;
    if PLOT * (length as f64) < NARROW * (last - begin) as f64 {
        panels.push(enlarged(schedule, "The end", end - AT_THE_END * length));
    }
    panels
}

/// From a tick to a little beyond the end.
fn axis(schedule: &Schedule, begin: i64) -> Axis {
    let end = schedule.late.end;
    Axis { begin, end: end + ((end - begin) / 60).max(1), left: LEFT, width: PLOT }
}

/// The time from a tick on, with the frames that are queued or sent in it.
fn enlarged<'a>(schedule: &'a Schedule, what: &str, first: i64) -> Shown<'a> {
    let is_shown = |line: &&Line| {
        let queued = line.releases.iter().any(|release| *release >= first);
        queued || line.role == Role::Judged || line.bars.iter().any(|bar| bar.end > first)
    };
    let lines: Vec<&Line> = schedule.lines.iter().filter(is_shown).collect();
    let (some, all) = (lines.len(), schedule.lines.len());
    let title = format!("{what}: {some} of {all} frames are queued or sent");
    Shown { title, lines, axis: axis(schedule, first) }
}

/// What is shown, in words; gives the y below them.
fn draw_words(svg: &mut Svg, schedule: &Schedule) -> f64 {
    let Schedule { claim, late, queueing, .. } = schedule;
    let judged = schedule.lines.iter().find(|line| line.role == Role::Judged).expect("the frame");
    let (frame, response) = (&judged.frame, schedule.response());
    let title = format!(
        "Frame {} (kind {}): response {response} exceeds claim {claim} by {}",
        frame.identifier,
        frame.kind,
        response - claim
    );
    svg.text((8.0, 28.0), Anchor::Start, "title", &title);
    let groups = schedule.alignments.iter();
    let groups: Vec<String> = groups.map(|(group, at)| format!("group {group} at {at}")).collect();
    let mut lines = vec![format!(
        "Instance {} is queued at {queueing}, starts at {} and ends at {}. Every transmission takes its largest length.",
        late.instance, late.start, late.end
    )];
    lines.extend(wrapped(&format!("Alignments at the window's start: {}", groups.join(", "))));
    if schedule.others > 0 {
        lines.push(others_in_words(schedule.others));
    }
    for (at, line) in lines.iter().enumerate() {
        svg.text((8.0, 50.0 + 18.0 * at as f64), Anchor::Start, "words", line);
    }
    50.0 + 18.0 * lines.len() as f64
}

fn others_in_words(count: usize) -> String {
    let rank = if count == 1 { "frame ranks below and is" } else { "frames rank below and are" };
    format!("{count} more {rank} not sent in this time.")
}

fn wrapped(text: &str) -> Vec<String> {
    let mut lines = vec![String::new()];
    for word in text.split(", ") {
        let last = lines.last_mut().expect("a line");
        if last.is_empty() {
            *last = word.into();
        } else if last.len() + word.len() < WORDS {
            last.push_str(", ");
            last.push_str(word);
        } else {
            last.push(',');
            lines.push(word.into());
        }
    }
    lines
}

/// Draws what the signs mean; gives the height of the picture.
fn draw_legend(svg: &mut Svg, schedule: &Schedule, y: f64) -> f64 {
    let has = |role| schedule.lines.iter().any(|line| line.role == role && !line.bars.is_empty());
    let bars = [
        ("better", "a better frame is sent", has(Role::Better)),
        ("judged", "the judged frame, an earlier instance", schedule.late.instance > 1),
        ("late", "the judged frame, its late instance", true),
        ("wait", "the late instance waits", schedule.late.start > schedule.queueing),
        ("blocking", "a frame below, which started at -1", has(Role::Blocking)),
    ];
    let mut x = 8.0;
    for (class, text, _) in bars.into_iter().filter(|(_, _, occurs)| *occurs) {
        svg.rect((x, y + 4.0), (26.0, 12.0), class);
        x = legend_text(svg, (x + 32.0, y + 15.0), text);
    }
    svg.line((12.0, y + 30.0), (12.0, y + 38.0), "release");
    let mut x = legend_text(svg, (22.0, y + 38.0), "a frame is queued");
    let signs = [
        ("queueing", "the late instance is queued"),
        ("claim", "the claim, from there on"),
        ("response", "the response, from there on"),
    ];
    for (class, text) in signs {
        svg.line((x, y + 34.0), (x + 26.0, y + 34.0), class);
        x = legend_text(svg, (x + 32.0, y + 38.0), text);
    }
    if (schedule.late.end as f64) < PLOT {
        return y + 54.0;
    }
    let narrow = format!(
        "Bars are {LEAST_BAR} pixels wide at least; of a frame's queueings closer than {RELEASES_APART} pixels one is drawn."
    );
    legend_text(svg, (8.0, y + 61.0), &narrow);
    y + 77.0
}

/// Gives where the next sign stands.
fn legend_text(svg: &mut Svg, (x, y): (f64, f64), text: &str) -> f64 {
    svg.text((x, y), Anchor::Start, "words", text);
    x + 20.0 + 7.4 * text.len() as f64
}

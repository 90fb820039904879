//! One stretch of time: a row for each frame, with releases and transmissions, the claim and the response.

use crate::axis::Axis;
use crate::schedule::{Bar, Line, Role, Schedule};
use crate::svg::{Anchor, Svg};

/// Pixels between the numbers of an axis, at least.
const NUMBERS_APART: f64 = 75.0;
/// Releases closer than this are drawn once.
pub const RELEASES_APART: f64 = 2.0;
/// No bar is narrower.
pub const LEAST_BAR: f64 = 2.0;
/// A bar from this width on carries the number of its instance.
const NUMBERED_BAR: f64 = 26.0;
/// A bar from this width on is set off from the next one.
const EDGED_BAR: f64 = 4.0;

/// Above the rows: the axis' numbers, the claim, the response.
const NUMBERS_AT: f64 = 8.0;
const CLAIM_AT: f64 = 30.0;
const RESPONSE_AT: f64 = 50.0;
const ROWS_AT: f64 = 58.0;
/// Below them: the axis' numbers again.
const BELOW: f64 = 22.0;

/// What the name of the claim or the response takes.
const ROOM_FOR_NAME: f64 = 120.0;

/// In a row: as far down reach releases, there begin bars, and so much stays free below them.
const RELEASES_TO: f64 = 6.0;
const BARS_AT: f64 = 7.0;
const BELOW_BARS: f64 = 1.5;

/// What a row shows of its frame.
const HEADER: &str = "group identifier kind length  period";

pub struct Panel<'a> {
    pub schedule: &'a Schedule,
    pub lines: Vec<&'a Line>,
    pub axis: Axis,
    pub top: f64,
    pub row: f64,
}

impl Panel<'_> {
    pub fn height(&self) -> f64 {
        ROWS_AT + self.row * self.lines.len() as f64 + BELOW
    }

    fn bar_height(&self) -> f64 {
        self.row - BARS_AT - BELOW_BARS
    }

    /// The baseline of text in the middle of a row's bars.
    fn baseline(&self, y: f64) -> f64 {
        y + BARS_AT + self.bar_height() / 2.0 + 3.5
    }

    fn rows_top(&self) -> f64 {
        self.top + ROWS_AT
    }

    fn rows_bottom(&self) -> f64 {
        self.rows_top() + self.row * self.lines.len() as f64
    }

    /// The top of each row, and its frame.
    fn rows(&self) -> impl Iterator<Item = (f64, &Line)> + '_ {
        let lines = self.lines.iter().enumerate();
        lines.map(|(at, line)| (self.rows_top() + at as f64 * self.row, *line))
    }

    /// The numbers of instances come last, so that no mark strikes them out.
    pub fn draw(&self, svg: &mut Svg) {
        self.draw_grid(svg);
        self.rows().for_each(|(y, line)| self.draw_row(svg, y, line));
        self.draw_marks(svg);
        self.rows().for_each(|(y, line)| self.draw_instances(svg, y, line));
    }

    /// The numbers above and below, and a thin line at each.
    fn draw_grid(&self, svg: &mut Svg) {
        for tick in self.axis.numbers(NUMBERS_APART) {
            let x = self.axis.x(tick);
            svg.line((x, self.top + NUMBERS_AT + 4.0), (x, self.rows_bottom() + 4.0), "grid");
            for y in [self.top + NUMBERS_AT, self.rows_bottom() + 16.0] {
                svg.text((x, y), Anchor::Middle, "number", &tick.to_string());
            }
        }
        svg.text((8.0, self.rows_top() - 5.0), Anchor::Start, "label", HEADER);
    }

    fn draw_row(&self, svg: &mut Svg, y: f64, line: &Line) {
        let (left, width) = (self.axis.left, self.axis.width);
        if line.role == Role::Judged {
            svg.rect((0.0, y), (left + width, self.row), "judged-row");
        }
        svg.line((left, y + self.row), (left + width, y + self.row), "base");
        let frame = &line.frame;
        let label = format!(
            "{:>5} {:>10} {:>4} {:>6} {:>7}",
            frame.group, frame.identifier, frame.kind, frame.length, frame.period
        );
        svg.text((8.0, self.baseline(y)), Anchor::Start, "label", &label);
        if line.role == Role::Judged {
            self.draw_wait(svg, y);
        }
        self.draw_bars(svg, y, line);
        self.draw_releases(svg, y, &line.releases);
    }

    /// The late instance from its queueing to its start.
    fn draw_wait(&self, svg: &mut Svg, y: f64) {
        let from = self.axis.x(self.schedule.queueing.max(self.axis.begin));
        let to = self.axis.x(self.schedule.late.start);
        svg.rect((from, y + BARS_AT), ((to - from).max(0.0), self.bar_height()), "wait");
    }

    /// What is seen of a bar: where it begins, and how wide it is.
    fn seen(&self, bar: &Bar) -> Option<(f64, f64)> {
        let from = self.axis.x(bar.start.max(self.axis.begin));
        let width = self.axis.x(bar.end.min(self.axis.end)) - from;
        (width > 0.0).then_some((from, width.max(LEAST_BAR)))
    }

    fn class(&self, role: Role, bar: &Bar) -> &'static str {
        match role {
            Role::Better => "better",
            Role::Judged if *bar == self.schedule.late => "late",
            Role::Judged => "judged",
            Role::Blocking => "blocking",
        }
    }

    /// Bars of a row, without those that the one before hides, as it is widened.
    fn draw_bars(&self, svg: &mut Svg, y: f64, line: &Line) {
        let mut drawn_to = f64::NEG_INFINITY;
        for bar in &line.bars {
            let class = self.class(line.role, bar);
            let Some((from, width)) = self.seen(bar) else {
                continue;
            };
            if class == "late" || self.axis.x(bar.end) > drawn_to {
                let edge = if width >= EDGED_BAR { " edged" } else { "" };
                let size = (width, self.bar_height());
                svg.rect((from, y + BARS_AT), size, &format!("{class}{edge}"));
                drawn_to = from + width;
            }
        }
    }

    /// The number of its instance on each bar that has room for it.
    fn draw_instances(&self, svg: &mut Svg, y: f64, line: &Line) {
        let bars = line.bars.iter().filter(|_| line.role != Role::Blocking);
        for (bar, (from, width)) in bars.filter_map(|bar| Some((bar, self.seen(bar)?))) {
            if width >= NUMBERED_BAR {
                let at = (from + width / 2.0, self.baseline(y));
                let class = format!("instance on-{}", self.class(line.role, bar));
                svg.text(at, Anchor::Middle, &class, &bar.instance.to_string());
            }
        }
    }

    /// Ticks above the bars, thinned out where they are close.
    fn draw_releases(&self, svg: &mut Svg, y: f64, releases: &[i64]) {
        let mut last = f64::NEG_INFINITY;
        for release in releases.iter().filter(|release| self.axis.shows(**release)) {
            let x = self.axis.x(*release);
            if x - last >= RELEASES_APART {
                svg.line((x, y + 0.5), (x, y + RELEASES_TO), "release");
                last = x;
            }
        }
    }

    /// The claim and the response as spans from the queueing on, and their ends down through the rows;
    /// what they are stands on top of all lines.
    fn draw_marks(&self, svg: &mut Svg) {
        let Schedule { queueing, claim, late, .. } = self.schedule;
        let response = self.schedule.response();
        let spans = [
            Span { at: RESPONSE_AT, end: late.end, class: "response", ticks: response },
            Span { at: CLAIM_AT, end: queueing + claim, class: "claim", ticks: *claim },
        ];
        let seen = || spans.iter().filter(|span| self.axis.shows(span.end));
        seen().for_each(|span| self.draw_span(svg, span));
        if self.axis.shows(*queueing) {
            let x = self.axis.x(*queueing);
            svg.line((x, self.top + CLAIM_AT - 6.0), (x, self.rows_bottom()), "queueing");
        }
        seen().for_each(|span| self.name_span(svg, span));
    }

    /// From the queueing, or from where it is seen, to its end.
    fn ends(&self, span: &Span) -> (f64, f64) {
        (self.axis.x(self.schedule.queueing.max(self.axis.begin)), self.axis.x(span.end))
    }

    fn draw_span(&self, svg: &mut Svg, span: &Span) {
        let ((from, to), y) = (self.ends(span), self.top + span.at);
        svg.line((from, y), (to, y), span.class);
        svg.line((to, y - 5.0), (to, self.rows_bottom()), &format!("{} end", span.class));
    }

    /// Above the span, or beside it if it is short, on the side where there is room.
    fn name_span(&self, svg: &mut Svg, span: &Span) {
        let ((from, to), y) = (self.ends(span), self.top + span.at);
        let (at, anchor) = if to - from > ROOM_FOR_NAME {
            (((from + to) / 2.0, y - 4.0), Anchor::Middle)
        } else if from - self.axis.left > ROOM_FOR_NAME {
            ((from - 6.0, y + 4.0), Anchor::End)
        } else {
            ((to + 6.0, y + 4.0), Anchor::Start)
        };
        let class = format!("{}-text", span.class);
        svg.text(at, anchor, &class, &format!("{} {}", span.class, span.ticks));
    }
}

/// A time from the queueing on: where it is drawn above the rows, its end, what it is, how long it is.
struct Span {
    at: f64,
    end: i64,
    class: &'static str,
    ticks: i64,
}

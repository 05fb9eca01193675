//! The plot: ratios by number of trees, and times of both sides, on logarithmic axes.

use crate::calls::TREES;
use crate::measure::Times;
use crate::report::{Kind, Report, thousands};

const COLOURS: [&str; 7] = ["#3b82d4", "#e0662a", "#1f9e77", "#c264a8", "#c79a12", "#7a70d0", "#8a8f98"];
const WIDTH: f64 = 360.0;
const HEIGHT: f64 = 260.0;
const TOP: f64 = 40.0;

/// A line of a panel: its name and values by number of trees.
struct Line {
    name: &'static str,
    dashed: bool,
    colour: usize,
    points: Vec<(usize, f64)>,
}

struct Panel {
    title: &'static str,
    left: f64,
    low: f64,
    high: f64,
    ticks: &'static [f64],
    lines: Vec<Line>,
}

impl Panel {
    fn x(&self, n: usize) -> f64 {
        self.left + WIDTH * (n as f64).log2() / 10.0
    }
    fn y(&self, v: f64) -> f64 {
        let at = (v.clamp(self.low, self.high) / self.low).ln() / (self.high / self.low).ln();
        TOP + HEIGHT * (1.0 - at)
    }
    fn axes(&self) -> String {
        let (right, bottom) = (self.left + WIDTH, TOP + HEIGHT);
        let mut s = format!("<text class=\"title\" x=\"{}\" y=\"24\">{}</text>\n", self.left, self.title);
        for &v in self.ticks.iter().filter(|&&v| v >= self.low && v <= self.high) {
            let (y, class) = (self.y(v), if v == 1.2 { "goal" } else { "grid" });
            s += &format!("<path class=\"{class}\" d=\"M{} {y:.1}H{right}\"/><text class=\"end\" x=\"{}\" y=\"{:.1}\">{v}</text>\n", self.left, self.left - 6.0, y + 4.0);
        }
        for n in TREES {
            let x = self.x(n);
            s += &format!("<path class=\"grid\" d=\"M{x:.1} {TOP}V{bottom}\"/><text class=\"middle\" x=\"{x:.1}\" y=\"{}\">{}</text>\n", bottom + 16.0, thousands(n));
        }
        s + &format!("<text class=\"middle\" x=\"{}\" y=\"{}\">trees</text>\n", self.left + WIDTH / 2.0, bottom + 32.0)
    }
    fn drawn(&self) -> String {
        let mut s = self.axes();
        for (i, l) in self.lines.iter().enumerate() {
            let colour = COLOURS[l.colour];
            let dash = if l.dashed { " stroke-dasharray=\"5 4\"" } else { "" };
            let points: Vec<String> = l.points.iter().map(|&(n, v)| format!("{:.1},{:.1}", self.x(n), self.y(v))).collect();
            s += &format!("<polyline fill=\"none\" stroke=\"{colour}\" stroke-width=\"2\"{dash} points=\"{}\"/>\n", points.join(" "));
            // The key stands below, two to a line.
            let (x, y) = (self.left + (i % 2) as f64 * WIDTH / 2.0, TOP + HEIGHT + 56.0 + (i / 2) as f64 * 18.0);
            s += &format!("<path stroke=\"{colour}\" stroke-width=\"2\"{dash} d=\"M{x} {}h24\"/><text x=\"{}\" y=\"{y}\">{}</text>\n", y - 4.0, x + 30.0, l.name);
        }
        s
    }
}

/// The greatest value over the rows whose name begins so and has the other part in it.
fn greatest(r: &Report, begins: &str, has: &str, value: impl Fn(Times) -> f64) -> Vec<(usize, f64)> {
    let rows = || r.rows.iter().filter(|row| row.kind == Kind::Call && row.name.starts_with(begins) && row.name.contains(has) && !row.name.contains("LLFree"));
    TREES.into_iter().map(|n| (n, rows().filter_map(|row| row.at(n)).map(&value).fold(0.0, f64::max))).collect()
}

fn ratios(r: &Report) -> Panel {
    let kinds = [
        ("get, unnamed", "get", " unnamed"),
        ("get, named", "get", " named"),
        ("put", "put", ""),
        ("state test", "state test", ""),
        ("statistics", "statistics", ""),
        ("drain", "drain", ""),
        ("start", "start", ""),
    ];
    let line = |(colour, (name, begins, has)): (usize, (&'static str, &str, &str))| Line { name, dashed: false, colour, points: greatest(r, begins, has, Times::ratio) };
    let lines = kinds.into_iter().enumerate().map(line).collect();
    Panel { title: "port / Rust, the greatest of each kind (goal 1.2)", left: 50.0, low: 0.5, high: 20.0, ticks: &[0.5, 1.0, 1.2, 2.0, 5.0, 10.0, 20.0], lines }
}

fn times(r: &Report) -> Panel {
    let kinds = [
        ("get, order 0, unnamed, no local", 0, "get, port", "get, Rust"),
        ("statistics", 4, "statistics, port", "statistics, Rust"),
        ("start, all free", 6, "start, port", "start, Rust"),
    ];
    let mut lines = vec![];
    for (name, colour, port, rust) in kinds {
        let row = r.rows.iter().find(|x| x.kind == Kind::Call && x.name == name).expect("a row of the plot");
        let of = |value: fn(Times) -> f64| row.times.iter().map(|&(n, t)| (n, value(t) * 1e6)).collect();
        lines.push(Line { name: port, dashed: false, colour, points: of(|t| t.port) });
        lines.push(Line { name: rust, dashed: true, colour, points: of(|t| t.rust) });
    }
    Panel { title: "microseconds of one call", left: 480.0, low: 0.03, high: 100.0, ticks: &[0.03, 0.1, 0.3, 1.0, 3.0, 10.0, 30.0, 100.0], lines }
}

pub fn svg(r: &Report) -> String {
    let style = "text { font: 12px sans-serif; fill: #222 } .title { font-weight: bold } .end { text-anchor: end } .middle { text-anchor: middle } \
        .ground { fill: #fff } .grid { stroke: #ccc; stroke-width: 0.7 } .goal { stroke: #888; stroke-width: 1.5 } \
        @media (prefers-color-scheme: dark) { text { fill: #ddd } .ground { fill: #161b22 } .grid { stroke: #444 } }";
    format!(
        "<svg xmlns=\"http://www.w3.org/2000/svg\" viewBox=\"0 0 880 430\" role=\"img\" aria-label=\"Ratios and times by number of trees\">\n<style>{style}</style>\n<rect class=\"ground\" width=\"880\" height=\"430\"/>\n{}{}</svg>\n",
        ratios(r).drawn(),
        times(r).drawn()
    )
}

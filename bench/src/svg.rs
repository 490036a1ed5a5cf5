//! The picture: time over the number of rows, one panel for each load, both axes logarithmic.
use crate::growth::{Curve, SIZES};
use crate::markdown::whole;

const PANEL: f64 = 250.0;
const HEIGHT: f64 = 260.0;
const LEFT: f64 = 84.0;
const TOP: f64 = 74.0;
const GAP: f64 = 34.0;
const BELOW: f64 = 56.0;

const LEGEND: [&str; 3] = ["direct", "by parts", "peer in plain Rust"];

/// Card and words change together, so that they can be read whether or not the page around is dark.
const STYLE: &str = "  <style>
    text { font: 12px system-ui, -apple-system, 'Segoe UI', Helvetica, Arial, sans-serif; fill: #57606a; }
    .title { fill: #1f2328; font-weight: 600; }
    .card { fill: #ffffff; }
    .grid { stroke: #d8dee4; }
    .line { fill: none; stroke-width: 2; stroke-linejoin: round; }
    .l0 { stroke: #bc4c00; } .d0 { fill: #bc4c00; }
    .l1 { stroke: #0969da; } .d1 { fill: #0969da; }
    .l2 { stroke: #6e7781; stroke-dasharray: 5 3; } .d2 { fill: #6e7781; }
    @media (prefers-color-scheme: dark) {
      text { fill: #9198a1; }
      .title { fill: #f0f6fc; }
      .card { fill: #151b23; }
      .grid { stroke: #3d444d; }
      .l0 { stroke: #f0883e; } .d0 { fill: #f0883e; }
      .l1 { stroke: #58a6ff; } .d1 { fill: #58a6ff; }
      .l2 { stroke: #9198a1; } .d2 { fill: #9198a1; }
    }
  </style>
";

/// The powers of ten between which all times lie.
struct Scale {
    low: i32,
    high: i32,
}

impl Scale {
    fn of(curves: &[Curve]) -> Scale {
        let all = || curves.iter().flat_map(|c| c.times.iter().flatten());
        Scale {
            low: all().fold(f64::MAX, |a, &b| a.min(b)).log10().floor() as i32,
            high: all().fold(0.0f64, |a, &b| a.max(b)).log10().ceil() as i32,
        }
    }

    fn y(&self, time: f64) -> f64 {
        let part = (time.log10() - self.low as f64) / (self.high - self.low) as f64;
        TOP + HEIGHT * (1.0 - part)
    }

    /// Each power of ten and its height.
    fn ticks(&self) -> impl Iterator<Item = (i32, f64)> + '_ {
        (self.low..=self.high).map(|power| (power, self.y(10f64.powi(power))))
    }
}

fn x(panel: usize, size: usize) -> f64 {
    let (least, most) = (SIZES[0] as f64, SIZES[SIZES.len() - 1] as f64);
    let part = (size as f64 / least).log2() / (most / least).log2();
    LEFT + panel as f64 * (PANEL + GAP) + PANEL * part
}

pub fn picture(curves: &[Curve]) -> String {
    let scale = Scale::of(curves);
    let width = LEFT + curves.len() as f64 * (PANEL + GAP);
    let height = TOP + HEIGHT + BELOW;
    let mut svg = format!(
        r#"<svg xmlns="http://www.w3.org/2000/svg" width="{width}" height="{height}"
  viewBox="0 0 {width} {height}" role="img">
  <title>Time of one query over the number of rows: direct, by parts and the peer</title>
{STYLE}  <rect width="{width}" height="{height}" rx="6" class="card"/>
"#
    );
    svg += &legend();
    svg += &times(&scale);
    for (panel, curve) in curves.iter().enumerate() {
        svg += &frame(panel, curve, &scale);
        for (who, times) in curve.times.iter().enumerate() {
            svg += &plot(panel, who, times, &scale);
        }
    }
    svg + "</svg>\n"
}

fn text(x: f64, y: f64, class: &str, anchor: &str, words: &str) -> String {
    let look = format!(r#"class="{class}" text-anchor="{anchor}""#);
    format!("  <text x=\"{x:.1}\" y=\"{y:.1}\" {look}>{words}</text>\n")
}

fn legend() -> String {
    let mut svg = text(LEFT, 26.0, "title", "start", "Time of one query");
    for (who, words) in LEGEND.iter().enumerate() {
        let from = LEFT + 160.0 + 130.0 * who as f64;
        svg += &format!("  <path d=\"M{from:.1} 22h28\" class=\"line l{who}\"/>\n");
        svg += &mark(who, from + 14.0, 22.0);
        svg += &text(from + 36.0, 26.0, "word", "start", words);
    }
    svg
}

/// The axis of times, left of the first panel.
fn times(scale: &Scale) -> String {
    let middle = TOP + HEIGHT / 2.0;
    let mut svg = format!(
        "  <text transform=\"translate(20 {middle}) rotate(-90)\" text-anchor=\"middle\">time</text>\n"
    );
    for (power, y) in scale.ticks() {
        svg += &text(LEFT - 8.0, y + 4.0, "word", "end", &time_words(power));
    }
    svg
}

fn time_words(power: i32) -> String {
    let (unit, from) = match power {
        ..=-1 => ("ns", -3),
        0..=2 => ("µs", 0),
        3..=5 => ("ms", 3),
        _ => ("s", 6),
    };
    format!("{} {unit}", 10f64.powi(power - from))
}

fn frame(panel: usize, curve: &Curve, scale: &Scale) -> String {
    let (from, to) = (x(panel, SIZES[0]), x(panel, SIZES[SIZES.len() - 1]));
    let bottom = TOP + HEIGHT;
    let mut svg = text(from, TOP - 14.0, "title", "start", &curve.name);
    for (_, y) in scale.ticks() {
        svg += &format!("  <path d=\"M{from:.1} {y:.1}H{to:.1}\" class=\"grid\"/>\n");
    }
    for size in SIZES {
        let at = x(panel, size);
        svg += &format!("  <path d=\"M{at:.1} {TOP:.1}V{bottom:.1}\" class=\"grid\"/>\n");
        svg += &text(at, bottom + 18.0, "word", "middle", &whole(size));
    }
    svg + &text((from + to) / 2.0, bottom + 40.0, "word", "middle", "rows")
}

fn plot(panel: usize, who: usize, times: &[f64], scale: &Scale) -> String {
    let points = SIZES.iter().zip(times);
    let points = points.map(|(&size, &time)| (x(panel, size), scale.y(time)));
    let points: Vec<_> = points.collect();
    let path: Vec<_> = points
        .iter()
        .map(|(x, y)| format!("{x:.1},{y:.1}"))
        .collect();
    let path = path.join(" ");
    let mut svg = format!("  <polyline points=\"{path}\" class=\"line l{who}\"/>\n");
    for (x, y) in points {
        svg += &mark(who, x, y);
    }
    svg
}

/// A square, a disc or a triangle, so that the lines can be told apart without their colours.
fn mark(who: usize, x: f64, y: f64) -> String {
    let path = match who {
        0 => format!("M{:.1} {:.1}h7v7h-7z", x - 3.5, y - 3.5),
        1 => format!("M{:.1} {y:.1}a4 4 0 1 0 8 0a4 4 0 1 0 -8 0z", x - 4.0),
        _ => format!("M{x:.1} {:.1}l4.5 8h-9z", y - 5.0),
    };
    format!("  <path d=\"{path}\" class=\"d{who}\"/>\n")
}

//! A plot of times by size as SVG text: a panel for each call, both axes logarithmic.

pub struct Line {
    pub name: String,
    /// Lines of one shape have one colour.
    pub colour: usize,
    pub dashed: bool,
    /// Records, microseconds.
    pub points: Vec<(f64, f64)>,
}

pub struct Panel {
    pub title: String,
    pub lines: Vec<Line>,
}

/// One for each shape of a call.
const COLOURS: [&str; 8] =
    ["#1b6ca8", "#c8553d", "#4f8a3b", "#7b4fa3", "#8a6d1b", "#2a8c8c", "#b0417f", "#555555"];

/// Of a panel, its legend beside it included.
const WIDTH: f64 = 660.0;
const HEIGHT: f64 = 360.0;
const LEFT: f64 = 80.0;
const RIGHT: f64 = 250.0;
const TOP: f64 = 40.0;
const BOTTOM: f64 = 56.0;
const COLUMNS: usize = 2;
/// Above all panels.
const HEADER: f64 = 60.0;

/// Least and greatest logarithm of an axis.
#[derive(Clone, Copy)]
struct Axis {
    low: f64,
    high: f64,
}

impl Axis {
    fn of(values: &[f64]) -> Axis {
        let logs = values.iter().map(|value| value.log10());
        let low = logs.clone().fold(f64::INFINITY, f64::min);
        Axis { low, high: logs.fold(low + 1e-9, f64::max) }
    }

    /// To whole powers of ten.
    fn rounded(self) -> Axis {
        Axis { low: self.low.floor(), high: self.high.ceil() }
    }

    fn share(self, value: f64) -> f64 {
        (value.log10() - self.low) / (self.high - self.low)
    }
}

/// Where the points of all panels fall.
struct Axes {
    sizes: Vec<f64>,
    size: Axis,
    time: Axis,
}

impl Axes {
    fn of(panels: &[Panel]) -> Axes {
        let lines = panels.iter().flat_map(|panel| &panel.lines);
        let points: Vec<(f64, f64)> = lines.flat_map(|line| line.points.clone()).collect();
        let mut sizes: Vec<f64> = points.iter().map(|point| point.0).collect();
        sizes.sort_by(f64::total_cmp);
        sizes.dedup();
        let times: Vec<f64> = points.iter().map(|point| point.1).collect();
        Axes { size: Axis::of(&sizes), time: Axis::of(&times).rounded(), sizes }
    }

    fn x(&self, size: f64) -> f64 {
        LEFT + 14.0 + self.size.share(size) * (WIDTH - LEFT - RIGHT - 28.0)
    }

    fn y(&self, time: f64) -> f64 {
        HEIGHT - BOTTOM - self.time.share(time) * (HEIGHT - TOP - BOTTOM)
    }
}

fn segment(from: (f64, f64), to: (f64, f64), style: &str) -> String {
    let ((x1, y1), (x2, y2)) = (from, to);
    format!("<line x1=\"{x1:.1}\" y1=\"{y1:.1}\" x2=\"{x2:.1}\" y2=\"{y2:.1}\" {style}/>\n")
}

fn words(x: f64, y: f64, anchor: &str, text: &str) -> String {
    format!("<text x=\"{x:.1}\" y=\"{y:.1}\" text-anchor=\"{anchor}\">{text}</text>\n")
}

fn time_words(power: i32) -> String {
    match power {
        ..=-1 => format!("{} ns", 10i64.pow((power + 3).max(0) as u32)),
        0..=2 => format!("{} µs", 10i64.pow(power as u32)),
        3..=5 => format!("{} ms", 10i64.pow(power as u32 - 3)),
        _ => format!("{} s", 10i64.pow(power as u32 - 6)),
    }
}

fn grid(axes: &Axes) -> String {
    let style = "stroke=\"#ddd\"";
    let (end, floor) = (WIDTH - RIGHT, HEIGHT - BOTTOM);
    let mut text = String::new();
    for power in axes.time.low as i32..=axes.time.high as i32 {
        let at = axes.y(10f64.powi(power));
        text += &segment((LEFT, at), (end, at), style);
        text += &words(LEFT - 8.0, at + 4.0, "end", &time_words(power));
    }
    for &size in &axes.sizes {
        let at = axes.x(size);
        text += &segment((at, TOP), (at, floor), style);
        text += &words(at, floor + 18.0, "middle", &size.to_string());
    }
    text += &words((LEFT + end) / 2.0, floor + 38.0, "middle", "records of the script");
    let middle = (TOP + floor) / 2.0;
    text + &format!(
        "<text transform=\"translate(18 {middle:.1}) rotate(-90)\" text-anchor=\"middle\">time of one call</text>\n"
    )
}

fn line(axes: &Axes, line: &Line, index: usize) -> String {
    let colour = COLOURS[line.colour];
    let dash = if line.dashed { " stroke-dasharray=\"5 4\"" } else { "" };
    let style = format!("stroke=\"{colour}\" stroke-width=\"2\"{dash}");
    let at: Vec<(f64, f64)> = line.points.iter().map(|&(s, t)| (axes.x(s), axes.y(t))).collect();
    let path: Vec<String> = at.iter().map(|(x, y)| format!("{x:.1},{y:.1}")).collect();
    let mut text = format!("<polyline points=\"{}\" fill=\"none\" {style}/>\n", path.join(" "));
    for (x, y) in at {
        text += &format!("<circle cx=\"{x:.1}\" cy=\"{y:.1}\" r=\"3\" fill=\"{colour}\"/>\n");
    }
    let (from, height) = (WIDTH - RIGHT + 14.0, TOP + 12.0 + 20.0 * index as f64);
    text += &segment((from, height), (from + 26.0, height), &style);
    text + &words(from + 32.0, height + 4.0, "start", &line.name)
}

/// Lines of the second implementation are dashed.
pub fn svg(panels: &[Panel]) -> String {
    let axes = Axes::of(panels);
    let rows = panels.len().div_ceil(COLUMNS);
    let (width, height) = (WIDTH * COLUMNS as f64, HEADER + HEIGHT * rows as f64);
    let mut text = format!(
        "<svg xmlns=\"http://www.w3.org/2000/svg\" viewBox=\"0 0 {width} {height}\" \
         font-family=\"sans-serif\" font-size=\"12\">\n\
         <rect width=\"{width}\" height=\"{height}\" fill=\"white\"/>\n\
         <text x=\"24\" y=\"34\" font-size=\"18\">Time of one call by size, both axes logarithmic: \
         the engine (whole lines) and the second implementation (dashed)</text>\n"
    );
    for (index, panel) in panels.iter().enumerate() {
        let across = WIDTH * (index % COLUMNS) as f64;
        let down = HEADER + HEIGHT * (index / COLUMNS) as f64;
        text += &format!("<g transform=\"translate({across} {down})\">\n{}", grid(&axes));
        text += &format!(
            "<text x=\"{LEFT}\" y=\"{}\" font-size=\"15\" font-weight=\"bold\">{}</text>\n",
            TOP - 12.0,
            panel.title
        );
        for (place, own) in panel.lines.iter().enumerate() {
            text += &line(&axes, own, place);
        }
        text += "</g>\n";
    }
    text + "</svg>\n"
}

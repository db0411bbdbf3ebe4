//! A picture of measurements as SVG: panels side by side, each with lines over the same two logarithmic
//! axes.
//!
//! Shows document 01's "Memory and the history machine" in figures (`bench_histories`). The picture is
//! complete in itself: shapes, and text in any plain font.

use std::fmt::Write;

/// A line: its name, and its points from left to right, all above 0.
pub struct Line {
    pub name: &'static str,
    pub points: Vec<(f64, f64)>,
}

/// A panel: its title and its lines, at most as many as there are colours.
pub struct Panel {
    pub title: String,
    pub lines: Vec<Line>,
}

/// A picture: its title, note and axis labels, and its panels.
pub struct Picture {
    pub title: &'static str,
    pub note: &'static str,
    pub across: &'static str,
    pub upwards: &'static str,
    pub panels: Vec<Panel>,
}

const COLOURS: [&str; 3] = ["#1b5faa", "#c8560b", "#4a7a2a"];

/// The size of a panel, and the margins and gap around the panels, in pixels.
const WIDTH: f64 = 310.0;
const HEIGHT: f64 = 290.0;
const GAP: f64 = 54.0;
const LEFT: f64 = 112.0;
const RIGHT: f64 = 36.0;
const TOP: f64 = 104.0;
const BOTTOM: f64 = 62.0;

/// A logarithmic axis from one power of ten to another.
struct Axis {
    least: i32,
    most: i32,
}

impl Axis {
    /// The axis from the largest power of ten below all values to the smallest above them.
    fn around(values: impl Iterator<Item = f64> + Clone) -> Axis {
        let least = values.clone().fold(f64::MAX, f64::min).log10().floor() as i32;
        let most = values.fold(f64::MIN_POSITIVE, f64::max).log10().ceil() as i32;
        Axis { least, most: most.max(least + 1) }
    }

    /// The position of a value: 0 at the beginning of the axis, 1 at its end.
    fn part(&self, value: f64) -> f64 {
        (value.log10() - f64::from(self.least)) / f64::from(self.most - self.least)
    }

    fn powers(&self) -> impl Iterator<Item = f64> {
        (self.least..=self.most).map(|power| 10f64.powi(power))
    }
}

impl Picture {
    pub fn svg(&self) -> String {
        let points = || self.panels.iter().flat_map(|panel| &panel.lines).flat_map(|line| &line.points);
        let (x, y) =
            (Axis::around(points().map(|point| point.0)), Axis::around(points().map(|point| point.1)));
        let panels = self.panels.len() as f64;
        let width = LEFT + panels * WIDTH + (panels - 1.0) * GAP + RIGHT;
        let height = TOP + HEIGHT + BOTTOM;
        let mut drawn = Drawn::default();
        drawn.add(format!(
            "<svg xmlns=\"http://www.w3.org/2000/svg\" viewBox=\"0 0 {width} {height}\" width=\"{width}\" \
                height=\"{height}\" font-family=\"Helvetica, Arial, sans-serif\" font-size=\"12\" \
                fill=\"#222222\">"
        ));
        drawn.add(format!("<title>{}</title>", self.title));
        drawn.add(format!("<rect width=\"{width}\" height=\"{height}\" fill=\"#ffffff\"/>"));
        drawn.text(LEFT, 30.0, "font-size=\"18\" font-weight=\"bold\"", self.title);
        drawn.text(LEFT, 52.0, "font-size=\"13\" fill=\"#555555\"", self.note);
        let middle = TOP + HEIGHT / 2.0;
        let turned = format!("font-size=\"13\" text-anchor=\"middle\" transform=\"rotate(-90 18 {middle})\"");
        drawn.text(18.0, middle, &turned, self.upwards);
        for value in y.powers() {
            let height = TOP + HEIGHT * (1.0 - y.part(value));
            drawn.text(LEFT - 8.0, height + 4.0, "text-anchor=\"end\"", &power_of_ten(value));
        }
        for (number, panel) in self.panels.iter().enumerate() {
            drawn.panel(panel, LEFT + number as f64 * (WIDTH + GAP), &x, &y);
        }
        let centre = LEFT + (width - LEFT - RIGHT) / 2.0;
        drawn.text(centre, height - 16.0, "font-size=\"13\" text-anchor=\"middle\"", self.across);
        drawn.add("</svg>".to_string());
        drawn.0
    }
}

/// The SVG elements so far, one per line.
#[derive(Default)]
struct Drawn(String);

impl Drawn {
    fn add(&mut self, element: String) {
        self.0.push_str(&element);
        self.0.push('\n');
    }

    fn text(&mut self, x: f64, y: f64, how: &str, text: &str) {
        self.add(format!("<text x=\"{x:.1}\" y=\"{y:.1}\" {how}>{text}</text>"));
    }

    fn rule(&mut self, from: (f64, f64), to: (f64, f64)) {
        let ((a, b), (c, d)) = (from, to);
        self.add(format!("<path d=\"M{a:.1} {b:.1}L{c:.1} {d:.1}\" stroke=\"#e2e2e2\"/>"));
    }

    fn panel(&mut self, panel: &Panel, left: f64, x: &Axis, y: &Axis) {
        let (right, bottom) = (left + WIDTH, TOP + HEIGHT);
        self.text(left, TOP - 12.0, "font-size=\"14\" font-weight=\"bold\"", &panel.title);
        for value in x.powers() {
            let place = left + WIDTH * x.part(value);
            self.rule((place, TOP), (place, bottom));
            self.text(place, bottom + 18.0, "font-size=\"11\" text-anchor=\"middle\"", &power_of_ten(value));
        }
        for value in y.powers() {
            let height = TOP + HEIGHT * (1.0 - y.part(value));
            self.rule((left, height), (right, height));
        }
        self.add(format!(
            "<rect x=\"{left}\" y=\"{TOP}\" width=\"{WIDTH}\" height=\"{HEIGHT}\" fill=\"none\" \
                stroke=\"#888888\"/>"
        ));
        for (number, line) in panel.lines.iter().enumerate() {
            let place = |&(across, upwards): &(f64, f64)| {
                (left + WIDTH * x.part(across), TOP + HEIGHT * (1.0 - y.part(upwards)))
            };
            let points: Vec<(f64, f64)> = line.points.iter().map(place).collect();
            self.stroke(number, &points);
            points.into_iter().for_each(|point| self.mark(number, point));
        }
        self.legend(&panel.lines, left + 12.0, bottom - 16.0);
    }

    /// The legend, in the lower left corner, where there are no lines: slow machines are slow at the right.
    fn legend(&mut self, lines: &[Line], left: f64, bottom: f64) {
        for (number, line) in lines.iter().enumerate() {
            let height = bottom - 18.0 * (lines.len() - 1 - number) as f64;
            self.stroke(number, &[(left, height), (left + 28.0, height)]);
            self.mark(number, (left + 14.0, height));
            self.text(left + 36.0, height + 4.0, "", line.name);
        }
    }

    /// A line through the points.
    fn stroke(&mut self, number: usize, points: &[(f64, f64)]) {
        let mut path = String::new();
        for (place, (x, y)) in points.iter().enumerate() {
            let _ = write!(path, "{}{x:.1} {y:.1}", if place == 0 { 'M' } else { 'L' });
        }
        let colour = COLOURS[number];
        self.add(format!("<path d=\"{path}\" fill=\"none\" stroke=\"{colour}\" stroke-width=\"2\"/>"));
    }

    /// A point of a line: a disc, a square or a triangle, so that lines differ not only in colour.
    fn mark(&mut self, number: usize, (x, y): (f64, f64)) {
        let shape = match number {
            0 => "m-4 0a4 4 0 1 0 8 0a4 4 0 1 0 -8 0z",
            1 => "m-3.5 -3.5h7v7h-7z",
            _ => "m0 -5l4.5 8h-9z",
        };
        self.add(format!("<path d=\"M{x:.1} {y:.1}{shape}\" fill=\"{}\"/>", COLOURS[number]));
    }
}

/// The label of a power of ten.
fn power_of_ten(value: f64) -> String {
    if value < 1.0 {
        value.to_string()
    } else {
        thousands(value)
    }
}

/// A number above 0, rounded to three significant figures.
pub fn three_figures(number: f64) -> String {
    let rounded: f64 = format!("{number:.2e}").parse().expect("a number as it was written");
    match rounded {
        100.0.. => thousands(rounded),
        10.0.. => format!("{rounded:.1}"),
        1.0.. => format!("{rounded:.2}"),
        _ => rounded.to_string(),
    }
}

/// A whole number, with commas between thousands.
pub fn thousands(whole: f64) -> String {
    let digits = format!("{whole:.0}");
    let mut apart = String::new();
    for (place, digit) in digits.chars().enumerate() {
        if place > 0 && (digits.len() - place) % 3 == 0 {
            apart.push(',');
        }
        apart.push(digit);
    }
    apart
}

//! A plot as SVG text: lines over a linear axis and a logarithmic one.

use std::fmt::Write;

const WIDTH: f64 = 560.0;
const HEIGHT: f64 = 340.0;
const LEFT: f64 = 70.0;
const RIGHT: f64 = 20.0;
const TOP: f64 = 40.0;
const BOTTOM: f64 = 55.0;

/// Points of a place from 0 to 1 and a time in nanoseconds.
pub struct Line {
    pub name: &'static str,
    pub colour: &'static str,
    pub points: Vec<(f64, f64)>,
}

pub struct Plot {
    pub title: String,
    pub below: &'static str,
    /// The labels of the lower axis at their places from 0 to 1.
    pub marks: Vec<(f64, String)>,
    pub lines: Vec<Line>,
}

fn across(place: f64) -> f64 {
    LEFT + place * (WIDTH - LEFT - RIGHT)
}

/// The time axis: from 100 ns to 1 ms, a power of ten each.
const POWERS: std::ops::RangeInclusive<i32> = 2..=6;
const TIMES: [&str; 5] = ["100 ns", "1 µs", "10 µs", "100 µs", "1 ms"];

fn down(time: f64) -> f64 {
    let (low, high) = (f64::from(*POWERS.start()), f64::from(*POWERS.end()));
    HEIGHT - BOTTOM - (time.log10() - low) / (high - low) * (HEIGHT - TOP - BOTTOM)
}

impl Plot {
    pub fn svg(&self) -> String {
        let mut text = format!(
            "<svg xmlns=\"http://www.w3.org/2000/svg\" viewBox=\"0 0 {WIDTH} {HEIGHT}\" \
             width=\"{WIDTH}\" height=\"{HEIGHT}\" font-family=\"sans-serif\" font-size=\"12\">\n\
             <rect width=\"{WIDTH}\" height=\"{HEIGHT}\" fill=\"white\"/>\n"
        );
        self.axes(&mut text);
        for (number, line) in self.lines.iter().enumerate() {
            line.draw(&mut text, number);
        }
        text + "</svg>\n"
    }

    fn axes(&self, text: &mut String) {
        let (bottom, right) = (HEIGHT - BOTTOM, WIDTH - RIGHT);
        for (power, name) in POWERS.zip(TIMES) {
            let y = down(10f64.powi(power));
            rule(text, [LEFT, y, right, y]);
            label(text, LEFT - 8.0, y + 4.0, "end", name);
        }
        for (place, name) in &self.marks {
            let x = across(*place);
            rule(text, [x, bottom, x, bottom + 5.0]);
            label(text, x, bottom + 20.0, "middle", name);
        }
        label(text, across(0.5), HEIGHT - 12.0, "middle", self.below);
        label(text, across(0.5), 16.0, "middle", &self.title);
        let middle = (TOP + bottom) / 2.0;
        let turned = format!("rotate(-90 14 {middle})");
        let _ = writeln!(
            text,
            "<text x=\"14\" y=\"{middle}\" text-anchor=\"middle\" transform=\"{turned}\">time of a retrieval</text>"
        );
    }
}

fn rule(text: &mut String, [x, y, to_x, to_y]: [f64; 4]) {
    let _ = writeln!(
        text,
        "<line x1=\"{x:.1}\" y1=\"{y:.1}\" x2=\"{to_x:.1}\" y2=\"{to_y:.1}\" stroke=\"#bbbbbb\"/>"
    );
}

fn label(text: &mut String, x: f64, y: f64, anchor: &str, name: &str) {
    let _ = writeln!(text, "<text x=\"{x:.1}\" y=\"{y:.1}\" text-anchor=\"{anchor}\">{name}</text>");
}

impl Line {
    fn draw(&self, text: &mut String, number: usize) {
        let Line { name, colour, points } = self;
        let places = points.iter().map(|&(place, time)| (across(place), down(time)));
        let path: Vec<String> = places.clone().map(|(x, y)| format!("{x:.1},{y:.1}")).collect();
        let path = path.join(" ");
        let _ = writeln!(
            text,
            "<polyline points=\"{path}\" fill=\"none\" stroke=\"{colour}\" stroke-width=\"2\"/>"
        );
        for (x, y) in places {
            let _ = writeln!(text, "<circle cx=\"{x:.1}\" cy=\"{y:.1}\" r=\"3\" fill=\"{colour}\"/>");
        }
        let x = LEFT + 10.0 + 90.0 * number as f64;
        let _ = writeln!(
            text,
            "<rect x=\"{x}\" y=\"25\" width=\"14\" height=\"4\" fill=\"{colour}\"/>"
        );
        label(text, x + 20.0, 31.0, "start", name);
    }
}

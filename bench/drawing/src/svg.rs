//! An SVG as it is written, mark after mark. Places are in pixels from the upper left corner.

use std::fmt::{Display, Write};

pub struct Svg(String);

/// Where a text stands to its place.
#[derive(Clone, Copy)]
pub enum Anchor {
    Start,
    Middle,
    End,
}

impl Svg {
    /// An empty picture on white.
    pub fn new(width: f64, height: f64) -> Svg {
        let mut svg = Svg(String::new());
        svg.put(format_args!(
            "<svg xmlns=\"http://www.w3.org/2000/svg\" viewBox=\"0 0 {width} {height}\" width=\"{width}\" \
             height=\"{height}\" font-family=\"Helvetica, Arial, sans-serif\" font-size=\"13\">"
        ));
        svg.rectangle((0.0, 0.0), (width, height), "#ffffff");
        svg
    }

    fn put(&mut self, mark: impl Display) {
        writeln!(self.0, "{mark}").expect("a string grows");
    }

    pub fn rectangle(&mut self, (x, y): (f64, f64), (width, height): (f64, f64), colour: &str) {
        let size = format!("width=\"{width:.1}\" height=\"{height:.1}\"");
        self.put(format_args!("<rect x=\"{x:.1}\" y=\"{y:.1}\" {size} fill=\"{colour}\"/>"));
    }

    /// A line through the places; `style` holds its colour, width and dashes.
    pub fn line(&mut self, places: &[(f64, f64)], style: &str) {
        let places: Vec<String> = places.iter().map(|(x, y)| format!("{x:.1},{y:.1}")).collect();
        let places = places.join(" ");
        self.put(format_args!("<polyline points=\"{places}\" fill=\"none\" stroke-linejoin=\"round\" {style}/>"));
    }

    pub fn dot(&mut self, (x, y): (f64, f64), colour: &str) {
        self.put(format_args!(
            "<circle cx=\"{x:.1}\" cy=\"{y:.1}\" r=\"4\" fill=\"#ffffff\" stroke=\"{colour}\" stroke-width=\"2\"/>"
        ));
    }

    pub fn text(&mut self, (x, y): (f64, f64), anchor: Anchor, style: &str, text: &str) {
        let anchor = anchor.name();
        self.put(format_args!("<text x=\"{x:.1}\" y=\"{y:.1}\" text-anchor=\"{anchor}\" {style}>{text}</text>"));
    }

    /// A text that is read from below, around its middle.
    pub fn upright(&mut self, (x, y): (f64, f64), style: &str, text: &str) {
        let turned = format!("transform=\"translate({x:.1} {y:.1}) rotate(-90)\"");
        self.put(format_args!("<text {turned} text-anchor=\"middle\" {style}>{text}</text>"));
    }

    pub fn end(mut self) -> String {
        self.put("</svg>");
        self.0
    }
}

impl Anchor {
    fn name(self) -> &'static str {
        match self {
            Anchor::Start => "start",
            Anchor::Middle => "middle",
            Anchor::End => "end",
        }
    }
}

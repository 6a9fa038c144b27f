//! SVG written by hand: a page that follows the reader's light or dark, and panels with axes.

use std::fmt::Write;

const SHAPES: &str = "\
    text { font: 13px system-ui, sans-serif } .title { font-weight: 600 } \
    path { fill: none; stroke-linejoin: round; stroke-linecap: round } \
    .bound { stroke-width: 2 } .line { stroke-width: 1.8 } .dots { stroke-width: 2; opacity: .6 }";

/// Colours are classes, so that a media query turns the page dark; not every viewer knows
/// variables, so they are written out.
struct Palette {
    paper: &'static str,
    ink: &'static str,
    grid: &'static str,
    bound: &'static str,
    lines: [&'static str; 4],
}

const LIGHT: Palette = Palette {
    paper: "#ffffff",
    ink: "#1f2328",
    grid: "#d8dee4",
    bound: "#cf222e",
    lines: ["#57606a", "#0969da", "#8250df", "#bc4c00"],
};

const DARK: Palette = Palette {
    paper: "#0d1117",
    ink: "#e6edf3",
    grid: "#30363d",
    bound: "#ff7b72",
    lines: ["#9198a1", "#58a6ff", "#bc8cff", "#f0883e"],
};

impl Palette {
    fn rules(&self) -> String {
        let Palette { paper, ink, grid, bound, lines: [c0, c1, c2, c3] } = self;
        format!(
            "rect {{ fill: {paper} }} text {{ fill: {ink} }} .axis {{ stroke: {ink} }} \
             .grid {{ stroke: {grid} }} .bound {{ stroke: {bound} }} .c0 {{ stroke: {c0} }} \
             .c1 {{ stroke: {c1} }} .c2 {{ stroke: {c2} }} .c3 {{ stroke: {c3} }}"
        )
    }
}

fn style() -> String {
    let (light, dark) = (LIGHT.rules(), DARK.rules());
    format!("{SHAPES}\n{light}\n@media (prefers-color-scheme: dark) {{ {dark} }}")
}

pub struct Page {
    width: f64,
    height: f64,
    body: String,
}

impl Page {
    pub fn new(width: f64, height: f64) -> Page {
        Page { width, height, body: String::new() }
    }

    pub fn text(&mut self, x: f64, y: f64, anchor: &str, class: &str, text: &str) {
        let text = text.replace('&', "&amp;").replace('<', "&lt;");
        let place = format!("x=\"{x:.1}\" y=\"{y:.1}\" text-anchor=\"{anchor}\"");
        writeln!(self.body, "<text {place} class=\"{class}\">{text}</text>").unwrap();
    }

    pub fn turned_text(&mut self, x: f64, y: f64, text: &str) {
        let place = format!("transform=\"translate({x:.1} {y:.1}) rotate(-90)\"");
        writeln!(self.body, "<text {place} text-anchor=\"middle\">{text}</text>").unwrap();
    }

    pub fn path(&mut self, class: &str, path: &str) {
        writeln!(self.body, "<path class=\"{class}\" d=\"{path}\"/>").unwrap();
    }

    /// One row of samples and what they mean, in the middle of the page; a dotted sample where
    /// the class is one of dots.
    pub fn legend(&mut self, y: f64, items: &[(String, String)]) {
        const SAMPLE: f64 = 34.0;
        const GAP: f64 = 26.0;
        let width = |text: &str| SAMPLE + 7.0 * text.chars().count() as f64 + GAP;
        let total: f64 = items.iter().map(|(_, text)| width(text)).sum::<f64>() - GAP;
        let mut x = (self.width - total) / 2.0;
        for (class, text) in items {
            let dotted = class.starts_with("dots");
            let sample = if dotted { "m4 0h0m9 0h0m9 0h0" } else { "h26" };
            self.path(class, &format!("M{x:.1} {:.1}{sample}", y - 4.5));
            self.text(x + SAMPLE, y, "start", "", text);
            x += width(text);
        }
    }

    /// The whole picture, with what it shows in words.
    pub fn finish(self, description: &str) -> String {
        let Page { width, height, body } = self;
        format!(
            "<svg xmlns=\"http://www.w3.org/2000/svg\" viewBox=\"0 0 {width} {height}\" \
             width=\"{width}\" height=\"{height}\" role=\"img\">\n\
             <title>{description}</title>\n<style>\n{}\n</style>\n\
             <rect width=\"{width}\" height=\"{height}\"/>\n{body}</svg>\n",
            style()
        )
    }
}

/// One axis: its range, where its marks stand, and what it measures.
pub struct Axis {
    pub low: f64,
    pub high: f64,
    pub marks: Vec<f64>,
    pub label: String,
}

/// A frame on the page with two axes.
pub struct Panel {
    pub left: f64,
    pub top: f64,
    pub width: f64,
    pub height: f64,
    pub x: Axis,
    pub y: Axis,
}

impl Panel {
    fn place(&self, x: f64, y: f64) -> (f64, f64) {
        let across = (x - self.x.low) / (self.x.high - self.x.low);
        let up = (y - self.y.low) / (self.y.high - self.y.low);
        (self.left + across * self.width, self.top + (1.0 - up) * self.height)
    }

    pub fn draw(&self, page: &mut Page, title: &str) {
        let (right, bottom) = (self.left + self.width, self.top + self.height);
        page.text(self.left, self.top - 12.0, "start", "title", title);
        for &mark in &self.x.marks {
            let (x, _) = self.place(mark, self.y.low);
            page.path("grid", &format!("M{x:.1} {:.1}V{bottom:.1}", self.top));
            page.text(x, bottom + 18.0, "middle", "", &number(mark));
        }
        for &mark in &self.y.marks {
            let (_, y) = self.place(self.x.low, mark);
            page.path("grid", &format!("M{:.1} {y:.1}H{right:.1}", self.left));
            page.text(self.left - 8.0, y + 4.5, "end", "", &number(mark));
        }
        page.path("axis", &format!("M{:.1} {:.1}V{bottom:.1}H{right:.1}", self.left, self.top));
        page.text(self.left + self.width / 2.0, bottom + 38.0, "middle", "", &self.x.label);
        let widest =
            self.y.marks.iter().map(|&mark| number(mark).chars().count()).max().unwrap_or(0);
        let beside = self.left - 16.0 - 8.0 * widest as f64;
        page.turned_text(beside, self.top + self.height / 2.0, &self.y.label);
    }

    /// A line through points; it breaks where x runs back by more than `jump`.
    pub fn line(&self, page: &mut Page, class: &str, points: &[(f64, f64)], jump: f64) {
        let mut path = String::new();
        for (i, &(x, y)) in points.iter().enumerate() {
            let broken = i == 0 || (x - points[i - 1].0).abs() > jump;
            let (px, py) = self.place(x, y);
            write!(path, "{}{px:.1} {py:.1}", if broken { 'M' } else { 'L' }).unwrap();
        }
        page.path(class, &path);
    }

    pub fn dots(&self, page: &mut Page, class: &str, points: &[(f64, f64)]) {
        let dot = |&(x, y): &(f64, f64)| {
            let (px, py) = self.place(x, y);
            format!("M{px:.1} {py:.1}h0")
        };
        page.path(class, &points.iter().map(dot).collect::<String>());
    }
}

fn number(value: f64) -> String {
    value.to_string().replace('-', "−")
}

//! A plain picture: panels side by side with one logarithmic scale upwards, in black on white. Lines differ
//! in their dashes and marks, not in colour.

use std::fmt::Write;

pub struct Series {
    /// Which of the styles, and of the legend's names.
    pub style: usize,
    pub means: Vec<f64>,
}

pub struct Panel {
    pub title: String,
    pub label: String,
    pub ticks: Vec<String>,
    pub series: Vec<Series>,
}

const WIDTH: f64 = 960.0;
const HEIGHT: f64 = 420.0;
const LEFT: f64 = 62.0;
const TOP: f64 = 62.0;
const BOTTOM: f64 = 312.0;
const STEP: f64 = 302.0;
const PANEL: f64 = 272.0;
/// Powers of ten on the scale.
const ORDERS: u32 = 6;

/// Dashes of each style; the marks are in `mark`.
const DASHES: [&str; 5] = ["", "", "6 3", "6 3", "1.5 3"];

fn height(mean: f64) -> f64 {
    BOTTOM - mean.max(1.0).log10() / f64::from(ORDERS) * (BOTTOM - TOP)
}

/// Points stand evenly, with half a step at either side.
fn across(panel: usize, at: usize, of: usize) -> f64 {
    LEFT + STEP * panel as f64 + PANEL * (at as f64 + 0.5) / of as f64
}

/// Filled circle, open circle, filled square, open square, cross.
fn mark(style: usize, x: f64, y: f64) -> String {
    let fill = if style % 2 == 0 { "black" } else { "white" };
    match style {
        0 | 1 => format!("<circle cx=\"{x:.1}\" cy=\"{y:.1}\" r=\"3.5\" fill=\"{fill}\"/>\n"),
        2 | 3 => {
            let (x, y) = (x - 3.5, y - 3.5);
            format!("<rect x=\"{x:.1}\" y=\"{y:.1}\" width=\"7\" height=\"7\" fill=\"{fill}\"/>\n")
        }
        _ => format!("<path d=\"M{:.1} {:.1}l8 8m0 -8l-8 8\"/>\n", x - 4.0, y - 4.0),
    }
}

fn dashed(style: usize) -> String {
    match DASHES[style] {
        "" => String::new(),
        dashes => format!(" stroke-dasharray=\"{dashes}\""),
    }
}

fn text(x: f64, y: f64, anchor: &str, what: &str) -> String {
    format!("<text x=\"{x:.1}\" y=\"{y:.1}\" text-anchor=\"{anchor}\">{what}</text>\n")
}

fn line(style: usize, points: &[(f64, f64)]) -> String {
    let points: Vec<String> = points.iter().map(|(x, y)| format!("{x:.1},{y:.1}")).collect();
    format!("<polyline points=\"{}\" fill=\"none\"{}/>\n", points.join(" "), dashed(style))
}

/// The frame of a panel: scale, ticks, names.
fn frame(at: usize, panel: &Panel) -> String {
    let left = LEFT + STEP * at as f64;
    let mut out = text(left + PANEL / 2.0, TOP - 12.0, "middle", &panel.title);
    for order in 0..=ORDERS {
        let y = height(10f64.powi(order as i32));
        let _ = writeln!(out, "<path d=\"M{left} {y:.1}h{PANEL}\" stroke=\"#ccc\"/>");
        if at == 0 {
            let name = if order < 4 {
                10u32.pow(order).to_string()
            } else {
                format!("10<tspan dy=\"-5\" font-size=\"9\">{order}</tspan>")
            };
            out += &text(left - 6.0, y + 4.0, "end", &name);
        }
    }
    let tall = BOTTOM - TOP;
    let _ =
        writeln!(out, "<rect x=\"{left}\" y=\"{TOP}\" width=\"{PANEL}\" height=\"{tall}\" fill=\"none\"/>");
    for (place, tick) in panel.ticks.iter().enumerate() {
        let x = across(at, place, panel.ticks.len());
        let _ = writeln!(out, "<path d=\"M{x:.1} {BOTTOM}v4\"/>");
        let _ = writeln!(
            out,
            "<text x=\"{x:.1}\" y=\"328\" text-anchor=\"middle\" font-size=\"9.5\">{tick}</text>"
        );
    }
    out + &text(left + PANEL / 2.0, BOTTOM + 36.0, "middle", &panel.label)
}

/// The whole picture. `names` has the legend's name of each style.
pub fn draw(title: &str, panels: &[Panel], names: &[&str]) -> String {
    let mut out = format!(
        "<svg xmlns=\"http://www.w3.org/2000/svg\" viewBox=\"0 0 {WIDTH} {HEIGHT}\" width=\"{WIDTH}\" \
         height=\"{HEIGHT}\" font-family=\"sans-serif\" font-size=\"11\">\n<title>{title}</title>\n\
         <rect width=\"{WIDTH}\" height=\"{HEIGHT}\" fill=\"white\" style=\"stroke:none\"/>\n"
    );
    let _ = writeln!(out, "<text x=\"{LEFT}\" y=\"24\" font-size=\"14\">{title}</text>");
    // Lines of letters are not drawn round: the stroke is for the rest.
    out += "<style>path,rect,circle,polyline{stroke:black}path[stroke]{stroke:#ccc}</style>\n";
    for (at, panel) in panels.iter().enumerate() {
        out += &frame(at, panel);
        for series in &panel.series {
            let of = series.means.len();
            let points: Vec<(f64, f64)> =
                series.means.iter().enumerate().map(|(i, &mean)| (across(at, i, of), height(mean))).collect();
            out += &line(series.style, &points);
            points.iter().for_each(|&(x, y)| out += &mark(series.style, x, y));
        }
    }
    for (style, name) in names.iter().enumerate() {
        let (x, y) = (LEFT + 290.0 * (style % 3) as f64, BOTTOM + 66.0 + 22.0 * (style / 3) as f64);
        out += &line(style, &[(x, y), (x + 40.0, y)]);
        out += &mark(style, x + 20.0, y);
        out += &text(x + 50.0, y + 4.0, "start", name);
    }
    out + "</svg>\n"
}

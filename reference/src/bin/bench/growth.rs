//! How the times grow with the network: over networks of 8, 16, .. 256 nodes, the medians of a build and of a step, the exponents, and a plot.
use crate::calls::{BUILDS, STEPS};
use crate::times::{Times, median};
use crate::{measure, networks};
use std::fmt::Write;

/// The port, the Rust with reading, builder.rs alone.
const SIDES: [&str; 3] = ["port", "Rust with reading", "builder.rs alone"];
const COLOURS: [&str; 3] = ["#0b6e4f", "#b5651d", "#7a7a7a"];

/// Microseconds of each side at each number of nodes.
type Curves = [Vec<(f64, f64)>; 3];

pub fn run(plot: &str, rounds: usize) {
    let [mut builds, mut steps]: [Curves; 2] = Default::default();
    println!("medians over networks, in microseconds: port, Rust with reading, builder.rs alone");
    for (nodes, cases) in networks::doubling() {
        let measured: Vec<_> = cases.iter().map(|case| measure(case, rounds)).collect();
        for (of, curves) in [(BUILDS, &mut builds), (STEPS, &mut steps)] {
            for (curve, k) in curves.iter_mut().zip(of) {
                curve.push((nodes as f64, median(measured.iter().map(|times| Times::median(&times[k]) / 1e3).collect())));
            }
        }
        let last = |curves: &Curves| curves.iter().map(|curve| format!("{:8.2}", curve.last().unwrap().1)).collect::<String>();
        println!("  {nodes:3} nodes  build {}  step {}  ({})", last(&builds), last(&steps), cases[0].counts());
    }
    for (name, curves) in [("build", &builds), ("step", &steps)] {
        for (side, curve) in SIDES.iter().zip(curves) {
            let [whole, upper] = [&curve[..], &curve[curve.len() / 2..]].map(exponent);
            println!("{name}, {side}: time as nodes to the power {whole:.2}, {upper:.2} over the upper three sizes");
        }
    }
    let text = svg([("A build", &builds), ("A step", &steps)]);
    std::fs::write(plot, text).unwrap_or_else(|error| panic!("{plot}: {error}"));
}

/// The slope of the line nearest to the logarithms.
fn exponent(curve: &[(f64, f64)]) -> f64 {
    let logs: Vec<(f64, f64)> = curve.iter().map(|(x, y)| (x.ln(), y.ln())).collect();
    let mean = |of: fn(&(f64, f64)) -> f64| logs.iter().map(of).sum::<f64>() / logs.len() as f64;
    let (x, y) = (mean(|p| p.0), mean(|p| p.1));
    let both: f64 = logs.iter().map(|p| (p.0 - x) * (p.1 - y)).sum();
    both / logs.iter().map(|p| (p.0 - x).powi(2)).sum::<f64>()
}

const WIDTH: f64 = 360.0;
const HEIGHT: f64 = 300.0;
const LEFT: f64 = 68.0;
const TOP: f64 = 40.0;

/// Two panels side by side, both axes logarithmic.
fn svg(panels: [(&str, &Curves); 2]) -> String {
    let (width, height) = (2.0 * (LEFT + WIDTH) + 24.0, TOP + HEIGHT + 76.0);
    let mut text = format!(
        "<svg xmlns=\"http://www.w3.org/2000/svg\" viewBox=\"0 0 {width} {height}\" font-family=\"sans-serif\" font-size=\"12\">\n"
    );
    text += "<rect width=\"100%\" height=\"100%\" fill=\"white\"/>\n";
    for (k, (name, curves)) in panels.into_iter().enumerate() {
        panel(&mut text, k as f64 * (LEFT + WIDTH), name, curves);
    }
    for (k, (side, colour)) in SIDES.iter().zip(COLOURS).enumerate() {
        let (x, y) = (LEFT + 170.0 * k as f64, TOP + HEIGHT + 58.0);
        writeln!(text, "<line x1=\"{x}\" y1=\"{y}\" x2=\"{}\" y2=\"{y}\" stroke=\"{colour}\" stroke-width=\"2\"/>", x + 24.0)
            .unwrap();
        writeln!(text, "<text x=\"{}\" y=\"{}\">{side}</text>", x + 30.0, y + 4.0).unwrap();
    }
    text + "</svg>\n"
}

fn panel(text: &mut String, left: f64, name: &str, curves: &Curves) {
    let all = || curves.iter().flatten();
    let decade = |y: f64| y.log10();
    let low = all().map(|p| decade(p.1)).fold(f64::INFINITY, f64::min).floor();
    let high = all().map(|p| decade(p.1)).fold(f64::NEG_INFINITY, f64::max).ceil();
    let first = all().map(|p| p.0.log2()).fold(f64::INFINITY, f64::min);
    let last = all().map(|p| p.0.log2()).fold(f64::NEG_INFINITY, f64::max);
    let x = |nodes: f64| left + LEFT + (nodes.log2() - first) / (last - first) * (WIDTH - 24.0);
    let y = |time: f64| TOP + HEIGHT - (decade(time) - low) / (high - low) * HEIGHT;
    writeln!(text, "<text x=\"{}\" y=\"20\" font-size=\"14\">{name}</text>", left + LEFT).unwrap();
    for k in low as i32..=high as i32 {
        let (time, at) = (10f64.powi(k), y(10f64.powi(k)));
        writeln!(
            text,
            "<line x1=\"{}\" y1=\"{at:.1}\" x2=\"{:.1}\" y2=\"{at:.1}\" stroke=\"#ddd\"/>",
            left + LEFT,
            x(last.exp2())
        )
        .unwrap();
        writeln!(text, "<text x=\"{}\" y=\"{:.1}\" text-anchor=\"end\">{time} us</text>", left + LEFT - 6.0, at + 4.0).unwrap();
    }
    for (nodes, _) in &curves[0] {
        let at = x(*nodes);
        writeln!(text, "<line x1=\"{at:.1}\" y1=\"{TOP}\" x2=\"{at:.1}\" y2=\"{}\" stroke=\"#eee\"/>", TOP + HEIGHT).unwrap();
        writeln!(text, "<text x=\"{at:.1}\" y=\"{}\" text-anchor=\"middle\">{nodes}</text>", TOP + HEIGHT + 18.0).unwrap();
    }
    writeln!(
        text,
        "<text x=\"{:.1}\" y=\"{}\" text-anchor=\"middle\">nodes</text>",
        left + LEFT + WIDTH / 2.0,
        TOP + HEIGHT + 36.0
    )
    .unwrap();
    for (curve, colour) in curves.iter().zip(COLOURS) {
        let points: String = curve.iter().map(|p| format!("{:.1},{:.1} ", x(p.0), y(p.1))).collect();
        writeln!(text, "<polyline points=\"{}\" fill=\"none\" stroke=\"{colour}\" stroke-width=\"2\"/>", points.trim_end())
            .unwrap();
        for p in curve {
            writeln!(text, "<circle cx=\"{:.1}\" cy=\"{:.1}\" r=\"3\" fill=\"{colour}\"/>", x(p.0), y(p.1)).unwrap();
        }
    }
}

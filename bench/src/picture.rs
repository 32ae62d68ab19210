//! The table of calls as a picture: ratios on a log scale, with the aims marked.

use crate::report::Line;
use std::fmt::Write;

const WIDTH: f64 = 960.0;
const LEFT: f64 = 370.0;
const RIGHT: f64 = 880.0;
const TOP: f64 = 92.0;
const ROW: f64 = 18.0;
const GAP: f64 = 10.0;

const INK: &str = "#222222";
const OVER: &str = "#b3400e";
const GOOD: &str = "#1c6e8c";

/// A log scale whose ends are marks that take all ratios in.
struct Scale {
    marks: Vec<f64>,
}

impl Scale {
    fn of(lines: &[Line]) -> Scale {
        let all = [
            0.05, 0.1, 0.2, 0.5, 1.0, 2.0, 5.0, 10.0, 20.0, 50.0, 100.0, 200.0, 500.0,
        ];
        let ratios = || lines.iter().map(|line| line.times.ratio());
        let low = ratios().fold(0.5, f64::min);
        let high = ratios().fold(2.0, f64::max);
        let first = all.iter().rposition(|&mark| mark <= low).unwrap_or(0);
        let last = all
            .iter()
            .position(|&mark| mark >= high)
            .unwrap_or(all.len() - 1);
        Scale {
            marks: all[first..=last].to_vec(),
        }
    }

    fn across(&self, ratio: f64) -> f64 {
        let (low, high) = (self.marks[0], self.marks[self.marks.len() - 1]);
        let share = (ratio.clamp(low, high) / low).ln() / (high / low).ln();
        LEFT + (RIGHT - LEFT) * share
    }
}

fn word(out: &mut String, x: f64, y: f64, anchor: &str, more: &str, text: &str) {
    let text = text.replace('&', "&amp;").replace('<', "&lt;");
    let _ = writeln!(
        out,
        "<text x=\"{x:.1}\" y=\"{y:.1}\" text-anchor=\"{anchor}\" {more}>{text}</text>"
    );
}

fn rule(out: &mut String, from: (f64, f64), to: (f64, f64), color: &str, width: f64) {
    let _ = writeln!(
        out,
        "<line x1=\"{:.1}\" y1=\"{:.1}\" x2=\"{:.1}\" y2=\"{:.1}\" stroke=\"{color}\" stroke-width=\"{width}\"/>",
        from.0, from.1, to.0, to.1
    );
}

pub fn svg(lines: &[Line]) -> String {
    let scale = Scale::of(lines);
    let mut bands = String::new();
    let mut rows = String::new();
    let mut y = TOP;
    let mut k = 0;
    let mut groups = 0;
    while k < lines.len() {
        let load = &lines[k].load;
        let count = lines[k..]
            .iter()
            .take_while(|line| line.load == *load)
            .count();
        if groups % 2 == 0 {
            let height = count as f64 * ROW + GAP;
            let _ = writeln!(
                bands,
                "<rect x=\"0\" y=\"{y:.1}\" width=\"{WIDTH}\" height=\"{height:.1}\" fill=\"#f3f3ef\"/>"
            );
        }
        groups += 1;
        y += GAP / 2.0;
        let bold = "font-weight=\"bold\" font-size=\"13\"";
        word(&mut rows, 16.0, y + 13.0, "start", bold, load);
        for line in &lines[k..k + count] {
            let middle = y + ROW / 2.0;
            let (ratio, aim) = (line.times.ratio(), line.call.aim());
            let color = if ratio > aim { OVER } else { GOOD };
            let (from, to) = (scale.across(aim), scale.across(ratio));
            let plain = "font-size=\"13\"";
            word(
                &mut rows,
                LEFT - 12.0,
                middle + 4.5,
                "end",
                plain,
                line.call.name(),
            );
            rule(&mut rows, (from, middle), (to, middle), color, 3.0);
            let _ = writeln!(
                rows,
                "<circle cx=\"{to:.1}\" cy=\"{middle:.1}\" r=\"4.5\" fill=\"{color}\"/>"
            );
            let number = format!("{ratio:.2}");
            word(&mut rows, WIDTH - 16.0, middle + 4.5, "end", plain, &number);
            y += ROW;
        }
        y += GAP / 2.0;
        k += count;
    }
    let mut grid = String::new();
    for &mark in scale.marks.iter().filter(|&&mark| mark != 1.0) {
        let x = scale.across(mark);
        rule(&mut grid, (x, TOP), (x, y), "#d4d4d0", 1.0);
        word(
            &mut grid,
            x,
            TOP - 8.0,
            "middle",
            "font-size=\"12\"",
            &mark.to_string(),
        );
    }
    // The two aims stand close together: their words lean away from each other.
    for (mark, side, dash) in [
        (0.8, "end", " stroke-dasharray=\"5 3\""),
        (1.0, "start", ""),
    ] {
        let x = scale.across(mark);
        let _ = writeln!(
            grid,
            "<line x1=\"{x:.1}\" y1=\"{TOP}\" x2=\"{x:.1}\" y2=\"{y:.1}\" stroke=\"{INK}\" stroke-width=\"1.5\"{dash}/>"
        );
        let bold = "font-weight=\"bold\" font-size=\"12\"";
        word(&mut grid, x, TOP - 8.0, side, bold, &format!("{mark:.1}"));
    }
    let height = y + 16.0;
    let mut head = String::new();
    let title = "Time of the engine over time of the hand-written version";
    word(
        &mut head,
        16.0,
        28.0,
        "start",
        "font-weight=\"bold\" font-size=\"17\"",
        title,
    );
    let note =
        "Log scale. At or left of its line is the aim: 1.0, dashed 0.8 for evaluate and sheet.";
    word(&mut head, 16.0, 50.0, "start", "font-size=\"13\"", note);
    format!(
        "<svg xmlns=\"http://www.w3.org/2000/svg\" viewBox=\"0 0 {WIDTH} {height:.1}\" width=\"{WIDTH}\" \
         height=\"{height:.1}\" font-family=\"Helvetica, Arial, sans-serif\" fill=\"{INK}\">\n\
         <title>{title}</title>\n\
         <rect width=\"{WIDTH}\" height=\"{height:.1}\" fill=\"#ffffff\"/>\n{bands}{head}{grid}{rows}</svg>\n"
    )
}

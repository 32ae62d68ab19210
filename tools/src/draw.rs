//! A sheet's answer as a drawing: payments as bars, what is left as a line, waits as strips. Black,
//! greys and one accent. Heights are scaled from the engine's figures, and labels are its figures
//! with a decimal point put in.

use crate::answer::Accepted;
use crate::sheet::Sheet;
use crate::waits::Wait;
use std::fmt::Write;

const LEFT: f64 = 120.0;
const WIDE: f64 = 780.0;
const HIGH: f64 = 210.0;
const ACCENT: &str = "#1f5fa8";
const STRIPS: usize = 12;

/// The upper and the lower panel, by the place of their upper edge.
const PAID: f64 = 96.0;
const REST: f64 = 372.0;

/// A whole number with a decimal point before its last places, thousands parted, no zeros at the end.
fn point(n: i64, places: usize) -> String {
    let digits = format!("{:0>1$}", n.unsigned_abs(), places + 1);
    let (whole, part) = digits.split_at(digits.len() - places);
    let mut parted = String::new();
    for (k, digit) in whole.chars().enumerate() {
        if k > 0 && (whole.len() - k) % 3 == 0 {
            parted.push(',');
        }
        parted.push(digit);
    }
    let part = part.trim_end_matches('0');
    let sign = if n < 0 { "-" } else { "" };
    if part.is_empty() {
        format!("{sign}{parted}")
    } else {
        format!("{sign}{parted}.{part}")
    }
}

fn escaped(text: &str) -> String {
    text.replace('&', "&amp;")
        .replace('<', "&lt;")
        .replace('>', "&gt;")
        .replace('"', "&quot;")
}

/// An axis from `low` to `high`, both multiples of `step`, with 0 between them.
struct Axis {
    low: f64,
    high: f64,
    ticks: Vec<i64>,
    top: f64,
}

impl Axis {
    fn of(figures: &[i64], top: f64) -> Axis {
        let low = figures.iter().copied().min().unwrap_or(0).min(0);
        let high = figures.iter().copied().max().unwrap_or(0).max(0);
        let reach = (i128::from(high) - i128::from(low)).max(1);
        let mut step: i128 = 1;
        'found: for power in 0..20u32 {
            for lead in [1, 2, 5] {
                step = lead * 10i128.pow(power);
                if reach <= step * 5 {
                    break 'found;
                }
            }
        }
        let first = i128::from(low).div_euclid(step);
        let last = -(-i128::from(high)).div_euclid(step);
        let last = if first == last { last + 1 } else { last };
        let ticks: Vec<i64> = (first..=last)
            .filter_map(|k| i64::try_from(k * step).ok())
            .collect();
        Axis {
            low: (first * step) as f64,
            high: (last * step) as f64,
            ticks,
            top,
        }
    }

    fn y(&self, figure: i64) -> f64 {
        self.top + HIGH * (self.high - figure as f64) / (self.high - self.low)
    }

    /// The frame, the lines of the ticks with their figures, and what the axis counts.
    fn frame(&self, svg: &mut String, places: usize, words: &str) {
        for tick in &self.ticks {
            let y = self.y(*tick);
            let (grey, width) = if *tick == 0 {
                ("#000", 1.0)
            } else {
                ("#ccc", 0.6)
            };
            let _ = writeln!(
                svg,
                r#"<line x1="{LEFT}" y1="{y:.1}" x2="{}" y2="{y:.1}" stroke="{grey}" stroke-width="{width}"/>"#,
                LEFT + WIDE
            );
            let _ = writeln!(
                svg,
                r#"<text x="{}" y="{:.1}" text-anchor="end">{}</text>"#,
                LEFT - 8.0,
                y + 4.0,
                point(*tick, places)
            );
        }
        let _ = writeln!(
            svg,
            r##"<line x1="{LEFT}" y1="{0}" x2="{LEFT}" y2="{1}" stroke="#000"/>"##,
            self.top,
            self.top + HIGH
        );
        let _ = writeln!(
            svg,
            r#"<text x="{}" y="{}" font-weight="bold">{words}</text>"#,
            LEFT - 100.0,
            self.top - 14.0
        );
    }
}

/// Pounds, or pence where all figures are below ten pounds: the unit and its decimal places.
fn unit(figures: &[i64], places: usize) -> (&'static str, usize) {
    let most = figures
        .iter()
        .map(|figure| figure.unsigned_abs())
        .max()
        .unwrap_or(0);
    if most < 1000 * 10u64.pow(u32::try_from(places).unwrap_or(0)) {
        ("pence", places)
    } else {
        ("pounds of 100 pence", places + 2)
    }
}

pub fn picture(file: &str, accepted: &Accepted, sheet: Option<&Sheet>, waits: &[Wait]) -> String {
    let name = file.rsplit('/').next().unwrap_or(file);
    let pence: Vec<i64> = accepted.months.iter().map(|month| month.pence).collect();
    let left: Vec<i64> = accepted.months.iter().map(|month| month.left).collect();
    let slot = WIDE / accepted.months.len() as f64;
    let middle = |month: i64| LEFT + slot * (month as f64 + 0.5);
    let begun: Vec<(usize, &Wait, i64, i64)> = waits
        .iter()
        .enumerate()
        .filter_map(|(k, wait)| wait.tried.map(|(first, last)| (k, wait, first, last)))
        .collect();
    let strips = begun.len().min(STRIPS);
    let strips_top = REST + HIGH + 62.0;
    let height = strips_top
        + if begun.is_empty() {
            10.0
        } else {
            40.0 + 18.0 * strips as f64
        };

    let mut svg = String::new();
    let width = LEFT + WIDE + 40.0;
    let _ = writeln!(
        svg,
        r#"<svg xmlns="http://www.w3.org/2000/svg" width="{width}" height="{height}" viewBox="0 0 {width} {height}" font-family="Helvetica, Arial, sans-serif" font-size="12">"#
    );
    let _ = writeln!(svg, "<title>{}</title>", escaped(name));
    let _ = writeln!(
        svg,
        r##"<rect width="{width}" height="{height}" fill="#fff"/>"##
    );
    let _ = writeln!(
        svg,
        r#"<text x="20" y="30" font-size="18" font-weight="bold">{}</text>"#,
        escaped(name)
    );
    let pair = sheet.map_or(String::new(), |sheet| {
        format!("from party {} to party {}; ", sheet.p, sheet.q)
    });
    let _ = writeln!(
        svg,
        r#"<text x="20" y="52">{pair}length {} months, magnitude {} pence</text>"#,
        accepted.length, accepted.magnitude
    );

    // Months of waiting, behind everything else.
    for (_, _, first, last) in &begun {
        let from = middle(*first) - slot / 2.0;
        let wide = middle(*last) + slot / 2.0 - from;
        let _ = writeln!(
            svg,
            r##"<rect x="{from:.1}" y="{PAID}" width="{wide:.1}" height="{HIGH}" fill="#f0f0f0"/>"##
        );
    }

    let paid = Axis::of(&pence, PAID);
    let (named, places) = unit(&pence, 0);
    paid.frame(
        &mut svg,
        places,
        &format!(
            "paid in the month, {named} (dark: the first pays; light, below zero: the second pays)"
        ),
    );
    // Bars have their figures beside them where there is room.
    let paying: Vec<i64> = accepted
        .months
        .iter()
        .filter(|month| month.pence != 0)
        .map(|month| month.month)
        .collect();
    let roomy = paying
        .windows(2)
        .all(|two| middle(two[1]) - middle(two[0]) >= 64.0);
    for month in accepted.months.iter().filter(|month| month.pence != 0) {
        let (zero, tip) = (paid.y(0), paid.y(month.pence));
        let wide = (slot * 0.7).clamp(0.8, 40.0);
        let (fill, up) = if month.pence > 0 {
            ("#444", true)
        } else {
            ("#bbb", false)
        };
        let _ = writeln!(
            svg,
            r##"<rect x="{:.2}" y="{:.2}" width="{wide:.2}" height="{:.2}" fill="{fill}" stroke="#000" stroke-width="0.4"/>"##,
            middle(month.month) - wide / 2.0,
            zero.min(tip),
            (zero - tip).abs().max(0.6)
        );
        if roomy {
            let beside = middle(month.month) + wide / 2.0 + 4.0;
            let (x, y, anchor) = if up && tip > PAID + 14.0 {
                (middle(month.month), tip - 4.0, "middle")
            } else if !up && tip < PAID + HIGH - 14.0 {
                (middle(month.month), tip + 12.0, "middle")
            } else if up {
                (beside, tip + 10.0, "start")
            } else {
                (beside, tip - 4.0, "start")
            };
            let (x, anchor) = if anchor == "middle" && x < LEFT + 40.0 {
                (beside, "start")
            } else {
                (x, anchor)
            };
            let _ = writeln!(
                svg,
                r#"<text x="{x:.1}" y="{y:.1}" text-anchor="{anchor}" font-size="10">{}p</text>"#,
                point(month.pence, 0)
            );
        }
    }

    let rest = Axis::of(&left, REST);
    let (named, places) = unit(&left, 6);
    rest.frame(
        &mut svg,
        places,
        &format!("remaining value from the month on, {named}"),
    );
    let points: Vec<String> = accepted
        .months
        .iter()
        .map(|month| format!("{:.2},{:.2}", middle(month.month), rest.y(month.left)))
        .collect();
    let _ = writeln!(
        svg,
        r#"<polyline points="{}" fill="none" stroke="{ACCENT}" stroke-width="1.8"/>"#,
        points.join(" ")
    );
    if accepted.months.len() <= 61 {
        for month in &accepted.months {
            let _ = writeln!(
                svg,
                r#"<circle cx="{:.2}" cy="{:.2}" r="2.4" fill="{ACCENT}"/>"#,
                middle(month.month),
                rest.y(month.left)
            );
        }
    }
    if let Some(month) = accepted.months.first() {
        let _ = writeln!(
            svg,
            r#"<text x="{}" y="{}" text-anchor="end" fill="{ACCENT}">in month 0: {} pence</text>"#,
            LEFT + WIDE,
            REST - 14.0,
            point(month.left, 6)
        );
    }

    // The months, below both panels.
    let last = accepted.months.last().map_or(0, |month| month.month);
    let every = [1, 2, 3, 6, 12, 24, 60]
        .into_iter()
        .find(|every| last / every <= 20)
        .unwrap_or(60);
    for month in accepted
        .months
        .iter()
        .map(|month| month.month)
        .filter(|month| month % every == 0)
    {
        for top in [PAID, REST] {
            let y = top + HIGH;
            let _ = writeln!(
                svg,
                r##"<line x1="{0:.1}" y1="{y}" x2="{0:.1}" y2="{1}" stroke="#000"/>"##,
                middle(month),
                y + 5.0
            );
            let _ = writeln!(
                svg,
                r#"<text x="{:.1}" y="{}" text-anchor="middle">{month}</text>"#,
                middle(month),
                y + 19.0
            );
        }
    }
    for top in [PAID, REST] {
        let _ = writeln!(
            svg,
            r#"<text x="{}" y="{}" text-anchor="middle">month</text>"#,
            LEFT + WIDE / 2.0,
            top + HIGH + 35.0
        );
    }

    if !begun.is_empty() {
        let _ = writeln!(
            svg,
            r#"<text x="20" y="{strips_top}" font-weight="bold">months of waiting (grey above)</text>"#
        );
    }
    for (lane, (k, wait, first, last)) in begun.iter().take(STRIPS).enumerate() {
        let y = strips_top + 12.0 + 18.0 * lane as f64;
        let from = middle(*first) - slot / 2.0;
        let to = middle(*last) + slot / 2.0;
        let _ = writeln!(
            svg,
            r#"<text x="20" y="{}">wait {}</text>"#,
            y + 10.0,
            k + 1
        );
        let _ = writeln!(
            svg,
            r##"<rect x="{from:.1}" y="{y}" width="{:.1}" height="12" fill="#ddd" stroke="#000" stroke-width="0.5"/>"##,
            to - from
        );
        if wait.held == Some(true) {
            let _ = writeln!(
                svg,
                r#"<rect x="{:.1}" y="{y}" width="3" height="12" fill="{ACCENT}"/>"#,
                to - 3.0
            );
        }
        let words = wait.words();
        let (x, anchor) = if to < LEFT + WIDE * 0.6 {
            (to + 6.0, "start")
        } else {
            (to - 8.0, "end")
        };
        let _ = writeln!(
            svg,
            r#"<text x="{x:.1}" y="{}" text-anchor="{anchor}" font-size="10">{words}</text>"#,
            y + 10.0
        );
    }
    if begun.len() > STRIPS {
        let _ = writeln!(
            svg,
            r#"<text x="20" y="{}">{} more waits are not shown</text>"#,
            strips_top + 26.0 + 18.0 * strips as f64,
            begun.len() - STRIPS
        );
    }
    svg.push_str("</svg>\n");
    svg
}

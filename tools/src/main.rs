//! A desk tool for providers: checks, prints, draws and explains a sheet. Every figure comes from the
//! engine's library.

mod answer;
mod draw;
mod outline;
mod places;
mod plan;
mod refusals;
mod sheet;
mod waits;

use std::io::Write;
use std::process::ExitCode;

const USAGE: &str =
    "usage: codhungu check FILE      accepted with length and magnitude, or the refusal
       codhungu sheet FILE      what the sheet program prints
       codhungu draw FILE       payments and remaining value as a drawing (SVG)
       codhungu explain FILE    the plan in words, or the refusal and its place";

/// A whole number as a plan or sheet writes it, at most 9,000,000,000,000 either side of zero.
fn number(field: &[u8]) -> Option<i64> {
    let digits = field.strip_prefix(b"-").unwrap_or(field);
    let formed = match digits {
        [] => false,
        [b'0'] => digits.len() == field.len(),
        [b'0', ..] => false,
        _ => digits.len() <= 13 && digits.iter().all(u8::is_ascii_digit),
    };
    let text = std::str::from_utf8(field).ok().filter(|_| formed)?;
    let number = text.parse::<i64>().ok()?;
    (-9_000_000_000_000..=9_000_000_000_000)
        .contains(&number)
        .then_some(number)
}

fn main() -> ExitCode {
    let arguments: Vec<String> = std::env::args().skip(1).collect();
    let [command, file] = &arguments[..] else {
        eprintln!("{USAGE}");
        return ExitCode::from(2);
    };
    let run: fn(&str, &[u8]) -> Result<Vec<u8>, (Vec<u8>, i32)> = match command.as_str() {
        "check" => check,
        "sheet" => print,
        "draw" => draw,
        "explain" => explain,
        _ => {
            eprintln!("{USAGE}");
            return ExitCode::from(2);
        }
    };
    let bytes = match std::fs::read(file) {
        Ok(bytes) => bytes,
        Err(fault) => {
            eprintln!("{file}: {fault}");
            return ExitCode::from(2);
        }
    };
    let (out, refusal) = match run(file, &bytes) {
        Ok(out) => (out, None),
        Err((out, refusal)) => (out, Some(refusal)),
    };
    if let Err(fault) = std::io::stdout().write_all(&out) {
        eprintln!("{fault}");
        return ExitCode::from(2);
    }
    let Some(refusal) = refusal else {
        return ExitCode::SUCCESS;
    };
    eprintln!("{file}: refused, {refusal}: {}", refusals::words(refusal));
    if command == "explain" {
        for line in places::of(&bytes, refusal) {
            eprintln!("  {line}");
        }
    }
    ExitCode::from(1)
}

fn refused(refusal: i32) -> (Vec<u8>, i32) {
    (Vec::new(), refusal)
}

fn check(_: &str, bytes: &[u8]) -> Result<Vec<u8>, (Vec<u8>, i32)> {
    let accepted = answer::of(bytes).map_err(refused)?;
    Ok(format!(
        "accepted: length {} months, magnitude {} pence\n",
        accepted.length, accepted.magnitude
    )
    .into_bytes())
}

fn print(_: &str, bytes: &[u8]) -> Result<Vec<u8>, (Vec<u8>, i32)> {
    let lines = answer::lines(bytes);
    match answer::of(bytes) {
        Ok(_) => Ok(lines),
        Err(refusal) => Err((lines, refusal)),
    }
}

fn draw(file: &str, bytes: &[u8]) -> Result<Vec<u8>, (Vec<u8>, i32)> {
    let accepted = answer::of(bytes).map_err(refused)?;
    let (sheet, waits) = known(bytes);
    Ok(draw::picture(file, &accepted, sheet.as_ref(), &waits).into_bytes())
}

fn explain(_: &str, bytes: &[u8]) -> Result<Vec<u8>, (Vec<u8>, i32)> {
    let accepted = answer::of(bytes).map_err(refused)?;
    let mut lines = vec![format!(
        "accepted: length {} months, magnitude {} pence",
        accepted.length, accepted.magnitude
    )];
    let (sheet, waits) = known(bytes);
    if let Some((sheet, root)) = sheet
        .as_ref()
        .and_then(|sheet| Some((sheet, plan::read(&sheet.plan).ok()?)))
    {
        lines.push("the plan, from month 0 on:".into());
        lines.extend(outline::lines(&root, &sheet.days));
        if !waits.is_empty() {
            lines.push("its waits:".into());
            for (k, wait) in waits.iter().enumerate() {
                lines.push(format!(
                    "  wait {} (byte {} of the plan): {}",
                    k + 1,
                    wait.byte,
                    wait.words()
                ));
            }
        }
        lines.push(format!("what party {} pays party {}:", sheet.p, sheet.q));
        let paying: Vec<_> = accepted
            .months
            .iter()
            .filter(|month| month.pence != 0)
            .collect();
        if paying.is_empty() {
            lines.push("  nothing".into());
        }
        for month in paying {
            lines.push(format!("  month {}: {} pence", month.month, month.pence));
        }
        if let Some(month) = accepted.months.first() {
            lines.push(format!(
                "worth in month 0: {} millionths of a penny",
                month.left
            ));
        }
    }
    Ok((lines.join("\n") + "\n").into_bytes())
}

/// The sheet and the waits of its plan.
fn known(bytes: &[u8]) -> (Option<sheet::Sheet>, Vec<waits::Wait>) {
    let Ok(sheet) = sheet::read(bytes) else {
        return (None, Vec::new());
    };
    let waits = plan::read(&sheet.plan).map_or(Vec::new(), |root| waits::of(&sheet, &root));
    (Some(sheet), waits)
}

//! A plan in words, one level of indentation for each level of the plan.

use crate::plan::Node;

pub fn lines(root: &Node, days: &[i64]) -> Vec<String> {
    let mut lines = Vec::new();
    plan(root, days, 1, &mut lines);
    lines
}

fn months(field: &str, days: &[i64]) -> String {
    let named = |months: &str| match months {
        "1" => "1 month".to_string(),
        other => format!("{other} months"),
    };
    match field
        .strip_prefix('P')
        .and_then(|k| k.parse::<usize>().ok())
    {
        Some(k) => match days.get(k) {
            Some(day) => format!("{} (setting {field})", named(&day.to_string())),
            None => format!("{field} months"),
        },
        None => named(field),
    }
}

fn plan(node: &Node, days: &[i64], depth: usize, lines: &mut Vec<String>) {
    let mut put = |words: String| lines.push(format!("{}{words}", "  ".repeat(depth)));
    match node.letter {
        b'Z' => put("nothing".into()),
        b'T' => put(format!(
            "one penny from party {} to party {}",
            node.fields[0], node.fields[1]
        )),
        b'S' => {
            let under = &node.children[1];
            let times = amount(&node.children[0]);
            if under.letter == b'T' {
                put(format!(
                    "{times} pence from party {} to party {}",
                    under.fields[0], under.fields[1]
                ));
            } else {
                put(format!("{times} times:"));
                plan(under, days, depth + 1, lines);
            }
        }
        b'L' => {
            put(format!("after {}:", months(&node.fields[0], days)));
            plan(&node.children[0], days, depth + 1, lines);
        }
        b'B' => {
            put("both:".into());
            plan(&node.children[0], days, depth + 1, lines);
            plan(&node.children[1], days, depth + 1, lines);
        }
        _ => {
            let tried = test(&node.children[0]);
            let otherwise = if node.fields[0] == "0" {
                put(format!("if {tried}:"));
                "else:"
            } else {
                put(format!(
                    "in this month or within {}, as soon as {tried}:",
                    months(&node.fields[0], days)
                ));
                "if it never is so, in the last of these months:"
            };
            plan(&node.children[1], days, depth + 1, lines);
            lines.push(format!("{}{otherwise}", "  ".repeat(depth)));
            plan(&node.children[2], days, depth + 1, lines);
        }
    }
}

fn amount(node: &Node) -> String {
    let part = |k: usize| amount(&node.children[k]);
    match node.letter {
        b'N' => node.fields[0].clone(),
        b'O' => {
            let when = match node.fields[1].as_str() {
                "0" => "of this month".to_string(),
                offset => match offset.strip_prefix('-') {
                    Some(back) => format!("of {} before", months(back, &[])),
                    None => format!("of {} later", months(offset, &[])),
                },
            };
            format!("index {} {when}", node.fields[0])
        }
        b'A' => format!("({} plus {})", part(0), part(1)),
        b'U' => format!("({} less {})", part(0), part(1)),
        b'K' => format!("({} times {})", part(0), part(1)),
        b'Q' => format!("({} divided by {}, rounded down)", part(0), node.fields[0]),
        _ => format!(
            "({} if {}, else {})",
            part(1),
            test(&node.children[0]),
            part(2)
        ),
    }
}

fn test(node: &Node) -> String {
    match node.letter {
        b'G' => format!(
            "{} is less than {}",
            amount(&node.children[0]),
            amount(&node.children[1])
        ),
        b'E' => format!(
            "{} equals {}",
            amount(&node.children[0]),
            amount(&node.children[1])
        ),
        b'Y' => format!(
            "({} and {})",
            test(&node.children[0]),
            test(&node.children[1])
        ),
        b'V' => format!(
            "({} or {})",
            test(&node.children[0]),
            test(&node.children[1])
        ),
        _ => format!("not ({})", test(&node.children[0])),
    }
}

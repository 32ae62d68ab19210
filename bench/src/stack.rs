//! The stack that each call takes: it is made on a painted stack, and what is painted over is counted.

use crate::ask::{Ask, Call, CALLS};
use crate::loads;
use std::fmt::Write;

const BYTES: usize = 1 << 20;
const PAINT: u64 = 0x5afe_5afe_c0de_c0de;

struct Made<'a> {
    ask: &'a Ask,
    out: &'a mut [u8],
    answer: &'a mut [i64],
}

extern "C" fn make(made: *mut Made) {
    // SAFETY: `used` hands over a pointer to a value that lives through the call.
    let made = unsafe { &mut *made };
    made.ask.engine(made.out, made.answer);
}

extern "C" fn nothing(_: *mut Made) {}

/// The bytes of stack that are written to from the call of `entry` on.
fn used(entry: extern "C" fn(*mut Made), made: &mut Made) -> usize {
    let mut stack = vec![PAINT; BYTES / 8];
    let top = stack.as_mut_ptr_range().end;
    // SAFETY: the new stack belongs to this call alone, has room, and its top is a multiple of 16;
    // the old stack pointer is kept in a register that the callee restores.
    unsafe {
        let top = ((top as usize) & !15) as *mut u64;
        std::arch::asm!(
            "mov r12, rsp",
            "mov rsp, {top}",
            "call {entry}",
            "mov rsp, r12",
            top = in(reg) top,
            entry = in(reg) entry,
            in("rdi") made as *mut Made,
            out("r12") _,
            clobber_abi("C"),
        );
    }
    let clean = stack.iter().take_while(|&&word| word == PAINT).count();
    BYTES - 8 * clean
}

/// The bytes that a call takes; it has to answer as expected.
fn taken(ask: &Ask, name: &str, refusal: Option<u8>) -> usize {
    let mut out = vec![0; 60_000];
    let told = ask.engine(&mut out, &mut [0; 2]);
    let expected = match refusal {
        Some(number) if ask.call == Call::Sheet => {
            out.starts_with(format!("refused,{number}").as_bytes())
        }
        Some(number) => told == i32::from(number),
        None => told == 0 && !out.starts_with(b"refused"),
    };
    assert!(expected, "{name}: {told}");
    let mut made = Made {
        ask,
        out: &mut out,
        answer: &mut [0; 2],
    };
    used(make, &mut made) - used(nothing, &mut made)
}

/// The most bytes over all loads, for a call. A plan that is refused once it is measured takes another walk than one that is accepted.
fn most(call: Call) -> (usize, String) {
    let mut most = (0, String::new());
    let accepted = loads::all().into_iter().chain(loads::deepest());
    let measured = matches!(call, Call::Check | Call::Payment | Call::Step | Call::Sheet);
    let refused = loads::refused().into_iter().filter(|_| measured);
    let all = accepted
        .map(|load| (load, None))
        .chain(refused.map(|load| (load, Some(6))));
    for (load, refusal) in all {
        let Some(ask) = load.ask(call) else {
            continue;
        };
        let bytes = taken(&ask, &load.name, refusal);
        if bytes > most.0 {
            most = (bytes, load.name);
        }
    }
    most
}

pub fn text() -> String {
    let mut text = String::from("| call | bytes of stack | on |\n|---|---:|---|\n");
    for call in CALLS {
        let (bytes, load) = most(call);
        let over = if call != Call::Sheet && bytes > 65_536 {
            " *"
        } else {
            ""
        };
        let _ = writeln!(
            text,
            "| {} | {}{over} | {load} |",
            call.name(),
            crate::report::grouped(bytes as f64)
        );
    }
    text
}

#[cfg(test)]
mod tests {
    use super::*;

    /// The figures of the C header: calls, and the most bytes of stack that they are said to take.
    fn said() -> Vec<(String, usize)> {
        let header = include_str!("../../include/codhungu.h");
        let lines = header
            .lines()
            .skip_while(|line| !line.contains("in bytes (x86-64)"));
        let figures = lines.skip(2).map_while(|line| {
            let (calls, bytes) = line.trim_start_matches(" *").trim().rsplit_once(' ')?;
            Some((calls.trim().into(), bytes.replace(',', "").parse().ok()?))
        });
        figures.collect()
    }

    #[test]
    fn the_header_says_what_each_call_takes() {
        let said = said();
        for call in CALLS {
            let names = |calls: &str| calls.split(", ").any(|name| name == call.name());
            let (_, limit) = said.iter().find(|(calls, _)| names(calls)).unwrap();
            let (bytes, load) = most(call);
            assert!(bytes <= *limit, "{}: {bytes} on {load}", call.name());
            assert!(limit - bytes < 2_000, "{}: only {bytes}", call.name());
            assert!(
                call == Call::Sheet || bytes <= 65_536,
                "{}: {bytes}",
                call.name()
            );
        }
    }
}

//! Instructions of one call, counted by callgrind.

use std::path::Path;
use std::process::Command;

use super::cases::Case;
use super::sides::{Bench, Expected, Lent, Side};
use super::{Options, Pages, case, text};

/// Longer texts are not counted unless asked for: a call takes some fifty times as long.
const MOST: usize = 1 << 18;

/// The function whose instructions, and those of what it calls, are counted.
fn counted_function(side: Side) -> &'static str {
    match side {
        Side::Rust => "bench_rust",
        Side::Read => "pevzoncs_read",
        Side::Write => "pevzoncs_write",
    }
}

/// Counts and prints a table. What callgrind writes for each call is left in `target/callgrind`.
pub fn count(options: &Options<'_>) -> Result<bool, String> {
    println!(
        "| case | bytes | rules | rust instructions/byte | read instructions/byte | rust/read | write instructions/byte | read instructions/rule |"
    );
    println!("|---|{}", "--:|".repeat(7));
    for case in options.cases()? {
        for size in options.sizes(case) {
            if options.size.is_none() && size > MOST {
                break;
            }
            count_case(case, size)?;
        }
    }
    Ok(true)
}

fn count_case(case: &Case, size: usize) -> Result<(), String> {
    let text = text(case, size);
    let expected = Expected::of(case, &text);
    let mut counts = [None; 3];
    for side in Side::ALL {
        if Bench::runs(case, side) {
            counts[side as usize] = Some(instructions(case, size, side, expected.lent)? as f64);
        }
    }
    let number = |value: Option<f64>| value.map_or("-".into(), |value| format!("{value:.2}"));
    let per_byte = |side| counts[side as usize].map(|n| n / text.len() as f64);
    let ratio = per_byte(Side::Rust).zip(per_byte(Side::Read));
    let rules = expected.rules as f64;
    let per_rule = counts[Side::Read as usize].filter(|_| expected.rules > 0);
    let columns = [
        per_byte(Side::Rust),
        per_byte(Side::Read),
        ratio.map(|(rust, read)| rust / read),
        per_byte(Side::Write),
        per_rule.map(|n| n / rules),
    ];
    println!(
        "| {} | {} | {} | {} |",
        case.name,
        text.len(),
        expected.rules,
        columns.map(number).join(" | ")
    );
    Ok(())
}

/// Runs `oracle bench --once` under callgrind and takes the number from what it says.
fn instructions(case: &Case, size: usize, side: Side, lent: Lent) -> Result<u64, String> {
    let directory = Path::new(env!("CARGO_MANIFEST_DIR")).join("target/callgrind");
    std::fs::create_dir_all(&directory).map_err(|e| e.to_string())?;
    let out = directory.join(format!("{}.{}.out", case.name, side.name()));
    let program = std::env::current_exe().map_err(|e| e.to_string())?;
    let output = Command::new("valgrind")
        .arg("--tool=callgrind")
        .arg(format!("--callgrind-out-file={}", out.display()))
        .arg(format!("--toggle-collect={}", counted_function(side)))
        .arg(program)
        .args(["bench", "--once", side.name(), case.name])
        .args([size, lent.log, lent.sheet, lent.output].map(|n| n.to_string()))
        .output()
        .map_err(|e| format!("valgrind: {e}"))?;
    let said = String::from_utf8_lossy(&output.stderr);
    let line = said.lines().find(|line| line.contains("Collected : "));
    let number = line.and_then(|line| line.rsplit(' ').next()?.parse().ok());
    number.ok_or_else(|| format!("callgrind counted nothing:\n{said}"))
}

/// One call of a side with buffers of the given lengths, for callgrind.
pub fn once(side: &str, name: &str, size: usize, lent: [usize; 3]) -> Result<bool, String> {
    let side = Side::named(side).ok_or_else(|| format!("{side} is no side"))?;
    let case = case(name)?;
    if !Bench::runs(case, side) {
        return Err(format!("{name} cannot be run by {}", side.name()));
    }
    let [log, sheet, output] = lent;
    let lent = Lent { log, sheet, output };
    Bench::new(text(case, size), lent, Pages::Small).call(side);
    Ok(true)
}

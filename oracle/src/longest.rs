//! `oracle compare longest`: the rule lines that expand the most, each through the original and the
//! port's reader, and a search that tries to beat them.

use std::time::Instant;

use crate::families::Random;
use crate::foreign::{self, Buffers, Longest};
use crate::reading::{self, Reading};

/// The lengths that are answered.
const LENGTHS: std::ops::RangeInclusive<u64> = 15..=96;
/// The number of the refusal.
const REFUSED: u32 = 22;
/// The words of an answer.
const ANSWER_WORDS: usize = 4;
/// Where the number of rules stands in the answer of a reading call.
const RULES: usize = 35;
/// What an output and an answer hold before a call.
const DIRTY: u8 = 0xA5;

/// How many rules a text expands to by the original; none if it is refused or has diagnostics.
fn rules(text: &[u8]) -> Option<u64> {
    match reading::read(text) {
        Reading::Machine(machine) => Some(u64::from(machine.head.counts.rules)),
        _ => None,
    }
}

/// How many rules the original has expanded a text to; the port's reader, if it is linked, must say as many.
fn expanded(text: &[u8]) -> Result<u64, String> {
    let Reading::Machine(machine) = reading::read(text) else {
        return Err("the original has no machine".into());
    };
    let found = machine
        .expanded()
        .ok_or("more rules than the original can hold")?
        .0
        .transitions
        .len() as u64;
    if let Some(read) = foreign::read() {
        let mut buffers = Buffers {
            work: vec![0; 6 * text.len() + 6],
            log: Vec::new(),
            sheet: vec![0; machine.words_needed as usize],
            output: Vec::new(),
        };
        let answer = read(text, &mut buffers);
        if (answer[0], u64::from(answer[RULES])) != (0, found) {
            return Err(format!(
                "the port answers {} with {} rules",
                answer[0], answer[RULES]
            ));
        }
    }
    Ok(found)
}

/// A row that is too short stays as it is, and the number and the output are those of a call with a whole row.
fn short_row(longest: Longest, n: u64, row_len: usize) -> Result<(), String> {
    let [mut output, mut other] = [vec![DIRTY; n as usize], vec![DIRTY; n as usize]];
    let mut row = vec![u32::MAX; row_len];
    let number = longest(n, &mut output, &mut row);
    if row.iter().any(|&word| word != u32::MAX) {
        return Err(format!("{n}: a row of {row_len} words is written"));
    }
    if number != longest(n, &mut other, &mut [0; ANSWER_WORDS]) || output != other {
        return Err(format!("{n}: another line with a row of {row_len} words"));
    }
    Ok(())
}

/// One call with an output and an answer of these lengths: the line and its number of rules, or nothing.
fn call(
    longest: Longest,
    n: u64,
    output_len: usize,
    row_len: usize,
) -> Result<Option<(Vec<u8>, u64)>, String> {
    let mut output = vec![DIRTY; output_len];
    let mut row = vec![u32::MAX; row_len];
    let number = longest(n, &mut output, &mut row);
    let answered = LENGTHS.contains(&n) && output_len as u64 >= n;
    if number != if answered { 0 } else { REFUSED } {
        return Err(format!("{n} with an output of {output_len}: {number}"));
    }
    if row[0] != number || row[ANSWER_WORDS..].iter().any(|&word| word != u32::MAX) {
        return Err(format!("{n}: the row is {row:?}"));
    }
    let length = row[1] as usize;
    if output[length..].iter().any(|&byte| byte != DIRTY) {
        return Err(format!("{n}: a byte behind the line is written"));
    }
    if !answered {
        return if row[1..ANSWER_WORDS] == [0, 0, 0] {
            Ok(None)
        } else {
            Err(format!("{n}: the row is {row:?}"))
        };
    }
    output.truncate(length);
    Ok(Some((output, u64::from(row[2]) | u64::from(row[3]) << 32)))
}

/// The line of each length, checked; of the lengths that are refused too.
fn lines(longest: Longest) -> Result<Vec<(Vec<u8>, u64)>, String> {
    for n in [0, 1, 14, 97, 98, 256 + 15, 1 << 32 | 15, u64::MAX] {
        call(longest, n, 200, ANSWER_WORDS)?;
        call(longest, n, 0, ANSWER_WORDS + 2)?;
    }
    let mut found = Vec::new();
    for n in LENGTHS {
        for output_len in [0, n as usize - 1, n as usize + 7] {
            call(longest, n, output_len, ANSWER_WORDS + 1)?;
        }
        for row_len in 0..ANSWER_WORDS {
            short_row(longest, n, row_len)?;
        }
        let Some((line, number)) = call(longest, n, n as usize, ANSWER_WORDS)? else {
            return Err(format!("{n}: no line"));
        };
        if line.len() as u64 > n || line.contains(&b'\n') {
            return Err(format!("{n}: a line of {} bytes", line.len()));
        }
        let rules = expanded(&line).map_err(|e| format!("{n}: {e}"))?;
        if rules != number {
            return Err(format!("{n}: {number} answered, {rules} expanded"));
        }
        found.push((line, number));
    }
    Ok(found)
}

/// A symbol: a letter, and in an odd line at times a quoted one, a blank or a sign.
fn symbol(random: &mut Random, odd: bool) -> String {
    match random.below(if odd { 24 } else { 1 }) {
        1 => "'x'".into(),
        2 => "_".into(),
        3 => random.pick(&["*", "+", "0", "#"]).into(),
        _ => char::from(b'a' + random.below(20) as u8).to_string(),
    }
}

/// A list with these parts between two signs, or its only part alone, at times in the signs too.
fn list(random: &mut Random, signs: [&str; 2], parts: &[String]) -> String {
    match parts {
        [part] if !random.chance(10) => part.clone(),
        _ => format!("{}{}{}", signs[0], parts.join(","), signs[1]),
    }
}

/// A rule with sets of these sizes, spelled in any way, and mostly as short as it can be.
fn rule(random: &mut Random, sizes: &[usize]) -> String {
    let odd = random.chance(40);
    let sets: Vec<String> = sizes
        .iter()
        .map(|&size| {
            let symbols: Vec<String> = (0..size).map(|_| symbol(random, odd)).collect();
            list(random, ["{", "}"], &symbols)
        })
        .collect();
    let written: Vec<String> = sizes
        .iter()
        .map(|_| {
            if random.chance(20) {
                "*".into()
            } else {
                symbol(random, odd)
            }
        })
        .collect();
    let moves: Vec<String> = sizes
        .iter()
        .map(|_| random.pick(&["L", "R", "N"]).to_string())
        .collect();
    let [read, written, moves] = [
        list(random, ["(", ")"], &sets),
        list(random, ["(", ")"], &written),
        list(random, ["(", ")"], &moves),
    ];
    let keyword = if random.chance(4) { "delta" } else { "δ" };
    format!("{keyword}(a,{read})=(b,{written},{moves})")
}

/// Sizes of sets that fill about as many bytes on any number of tapes: even, but for a few symbols or for many.
fn sizes(random: &mut Random, n: usize) -> Vec<usize> {
    let tapes = 1 + random.below(6);
    let brackets = if tapes > 1 { 3 * tapes } else { 0 };
    let left_out = if random.chance(30) {
        random.below(3)
    } else {
        0
    };
    let members = (n.saturating_sub(15) / 2)
        .saturating_sub(brackets + left_out)
        .max(tapes);
    let mut sizes: Vec<usize> = (0..tapes).map(|tape| (members + tape) / tapes).collect();
    let moves = if random.chance(30) { 2 * members } else { 3 };
    for _ in 0..random.below(moves) {
        let [from, to] = [random.below(tapes), random.below(tapes)];
        if sizes[from] > 1 {
            sizes[from] -= 1;
            sizes[to] += 1;
        }
    }
    sizes
}

/// A line: a rule of any shape, or the best line with a few bytes changed, taken out or put in.
fn candidate(random: &mut Random, n: usize, best: &[u8]) -> Vec<u8> {
    if random.chance(70) {
        let sizes = sizes(random, n);
        return rule(random, &sizes).into_bytes();
    }
    let mut line = best.to_vec();
    for _ in 0..1 + random.below(4) {
        let at = random.below(line.len());
        match random.below(3) {
            0 => line[at] = b",{}()ab* "[random.below(9)],
            1 => drop(line.remove(at)),
            _ => line.insert(at, b",{}()ab*'"[random.below(9)]),
        }
    }
    line
}

/// What a search came to: how many tries were short enough and read, and for each length how many expanded to as many rules as
/// its line and how many to more.
struct Found {
    read: u64,
    equal: Vec<u64>,
    better: Vec<u64>,
}

/// Tries to beat the lines; shows the first try of each length that does.
fn search(lines: &[(Vec<u8>, u64)], tries: u64, random: &mut Random) -> Found {
    let mut found = Found {
        read: 0,
        equal: vec![0; lines.len()],
        better: vec![0; lines.len()],
    };
    for _ in 0..tries {
        let at = random.below(lines.len());
        let n = *LENGTHS.start() as usize + at;
        let (best, number) = &lines[at];
        let line = candidate(random, n, best);
        if line.len() > n || line.contains(&b'\n') {
            continue;
        }
        let Some(rules) = rules(&line) else {
            continue;
        };
        found.read += 1;
        found.equal[at] += u64::from(rules == *number);
        found.better[at] += u64::from(rules > *number);
        if rules > *number && found.better[at] == 1 {
            let line = String::from_utf8_lossy(&line);
            println!("BEATEN: {n}: {rules} rules, {number} answered: {line:?}");
        }
    }
    found
}

/// Checks all lines, and then tries to beat them; true if nothing is wrong and none is beaten.
pub fn compare(longest: Longest, tries: u64, seed: u64) -> bool {
    let started = Instant::now();
    let lines = match lines(longest) {
        Ok(lines) => lines,
        Err(difference) => {
            println!("DIFFERENCE: {difference}");
            return false;
        }
    };
    let by = match foreign::read() {
        Some(_) => "the original and the port's reader",
        None => "the original alone: no libreader.a yet",
    };
    println!(
        "lines: {}, each expanded to its number by {by}",
        lines.len()
    );
    let found = search(&lines, tries, &mut Random::new([seed, tries, 0x1064]));
    println!(
        "tries: {tries}, short enough and read: {}, equal: {}, at {} of the lengths, better: {}, seconds: {:.1}",
        found.read,
        found.equal.iter().sum::<u64>(),
        found.equal.iter().filter(|&&equal| equal > 0).count(),
        found.better.iter().sum::<u64>(),
        started.elapsed().as_secs_f64()
    );
    for (n, (line, number)) in LENGTHS.zip(&lines) {
        let text = String::from_utf8_lossy(line);
        println!("{n} {} {number} {text}", line.len());
    }
    found.better.iter().all(|&better| better == 0)
}

#[cfg(test)]
mod tests {
    use super::{ANSWER_WORDS, LENGTHS, REFUSED, lines, search};
    use crate::families::Random;
    use crate::foreign::Longest;

    /// A list between two signs, or its only part alone.
    fn list(signs: [&str; 2], parts: &[String]) -> String {
        match parts {
            [part] => part.clone(),
            _ => format!("{}{}{}", signs[0], parts.join(","), signs[1]),
        }
    }

    /// A rule with sets of these sizes, as short as it can be.
    fn spelled(sizes: &[usize]) -> Vec<u8> {
        let sets: Vec<String> = sizes
            .iter()
            .map(|&size| list(["{", "}"], &vec!["a".into(); size]))
            .collect();
        let same = |letter: &str| list(["(", ")"], &vec![letter.into(); sizes.len()]);
        let read = list(["(", ")"], &sets);
        format!("δ(a,{read})=(a,{},{})", same("a"), same("R")).into_bytes()
    }

    /// A line of at most n bytes that expands the most, of those on up to seven tapes whose sets are as even as can be.
    fn best(n: u64) -> (Vec<u8>, u64) {
        let mut found = (Vec::new(), 0);
        for tapes in 1..=7 {
            for members in tapes..=40 {
                let sizes: Vec<usize> = (0..tapes).map(|tape| (members + tape) / tapes).collect();
                let (line, number) = (spelled(&sizes), sizes.iter().product::<usize>() as u64);
                if line.len() as u64 <= n && number > found.1 {
                    found = (line, number);
                }
            }
        }
        found
    }

    /// The call as it is to be, for any line of a length.
    fn right(n: u64, output: &mut [u8], answer: &mut [u32]) -> u32 {
        let mut words = [REFUSED, 0, 0, 0];
        if LENGTHS.contains(&n) && output.len() as u64 >= n {
            let (line, number) = best(n);
            output[..line.len()].copy_from_slice(&line);
            words = [0, line.len() as u32, number as u32, 0];
        }
        if let Some(front) = answer.first_chunk_mut::<ANSWER_WORDS>() {
            *front = words;
        }
        words[0]
    }

    /// A right call passes, and its numbers are the table's of docs/FORMAT.md.
    #[test]
    fn right_lines() {
        let found = lines(right).expect("82 lines");
        let numbers: Vec<u64> = found.iter().step_by(2).map(|line| line.1).collect();
        let mut table: Vec<u64> = (0..14).map(|pairs: u64| pairs.max(1)).collect();
        table.extend([16, 20, 25, 30, 36, 42, 49, 64, 80, 100, 125, 150, 180, 216]);
        table.extend([256, 320, 400, 500, 625, 750, 900, 1080, 1296]);
        table.extend([1600, 2000, 2500, 3125]);
        assert_eq!(numbers, table);
    }

    /// A wrong call is found.
    #[test]
    fn wrong_calls() {
        let wrong: [(&str, Longest); 7] = [
            ("14 taken", |n, output, answer| {
                right(n.max(15), output, answer)
            }),
            ("97 taken", |n, output, answer| {
                right(n.min(96), output, answer)
            }),
            ("271 as 15", |n, output, answer| {
                right(u64::from(n as u8), output, answer)
            }),
            ("less room", |n, output, answer| {
                right(n.min(output.len() as u64), output, answer)
            }),
            ("one rule more", |n, output, answer| {
                let number = right(n, output, answer);
                if let (0, [_, _, rules, _, ..]) = (number, answer) {
                    *rules += 1;
                }
                number
            }),
            ("the byte behind", |n, output, answer| {
                let number = right(n, output, answer);
                if let (0, [_, length, ..]) = (number, answer)
                    && let Some(byte) = output.get_mut(*length as usize)
                {
                    *byte = 0;
                }
                number
            }),
            ("a short row", |n, output, answer| {
                let number = right(n, output, answer);
                if let Some(word) = answer.first_mut() {
                    *word = number;
                }
                number
            }),
        ];
        for (what, call) in wrong {
            assert!(lines(call).is_err(), "{what}");
        }
    }

    /// The search comes to as many rules at every length, and beats every line that is two bytes too short.
    #[test]
    fn strength() {
        let at_best: Vec<(Vec<u8>, u64)> = LENGTHS.map(best).collect();
        let found = search(&at_best, 40_000, &mut Random::new([1, 2, 3]));
        assert!(found.better.iter().all(|&better| better == 0));
        assert!(found.equal.iter().all(|&equal| equal > 0));
        let too_short: Vec<(Vec<u8>, u64)> = LENGTHS.skip(4).map(|n| best(n - 2)).collect();
        let padded = [&at_best[..4], &too_short[..]].concat();
        let found = search(&padded, 40_000, &mut Random::new([4, 5, 6]));
        assert!(found.better[4..].iter().all(|&better| better > 0));
    }
}

//! The opening hours of a station, searched minute by minute, and `oracle compare hours`: the port's
//! calls on random rows, forged ones among them, against that search.

use std::time::Instant;

use crate::families::Random;
use crate::foreign::Hours;

/// The minutes of a week.
const WEEK: u32 = 10_080;
/// The most windows.
const MAX_WINDOWS: usize = 32;
/// The words of a row: the count, the opening minutes, the closing minutes.
const ROW_WORDS: usize = 1 + 2 * MAX_WINDOWS;
/// A minute above 10,079, or no room.
const REFUSED: u32 = 20;
/// A window that opens and closes at the same minute.
const EMPTY: u32 = 21;
/// How many differences are shown in full.
const SHOWN: u64 = 5;

/// The minutes of a window, from the opening on, one by one, and over the week's end, before the closing.
fn minutes(opening: u32, closing: u32) -> impl Iterator<Item = u32> {
    std::iter::successors(Some(opening), |&at| Some((at + 1) % WEEK))
        .take_while(move |&at| at != closing)
}

/// The windows that a row lists: its first pairs, as many as the count says and no more than 32, that are windows.
fn windows(row: &[u32]) -> Vec<(u32, u32)> {
    if row.len() < ROW_WORDS {
        return Vec::new();
    }
    let listed = (row[0] as usize).min(MAX_WINDOWS);
    (0..listed)
        .map(|i| (row[1 + i], row[1 + MAX_WINDOWS + i]))
        .filter(|&(opening, closing)| opening < WEEK && closing < WEEK && opening != closing)
        .collect()
}

/// A week, minute by minute: whether each is open.
pub struct Week(Vec<bool>);

impl Week {
    /// The week of a row.
    pub fn of(row: &[u32]) -> Self {
        let mut open = vec![false; WEEK as usize];
        for (opening, closing) in windows(row) {
            for at in minutes(opening, closing) {
                open[at as usize] = true;
            }
        }
        Self(open)
    }

    /// What is answered of a minute: 0 closed, 1 open, or 20.
    pub fn open(&self, minute: u32) -> u32 {
        self.0
            .get(minute as usize)
            .map_or(REFUSED, |&open| u32::from(open))
    }

    /// What is answered of the wait from a minute: 0 and the minutes, 1 if no minute is open, or 20.
    pub fn wait(&self, minute: u32) -> (u32, Option<u32>) {
        if minute >= WEEK {
            return (REFUSED, None);
        }
        let later = (0..WEEK).find(|later| self.0[((minute + later) % WEEK) as usize]);
        (u32::from(later.is_none()), later)
    }
}

/// A window added to a row: the number, and the row.
pub fn added(row: &[u32], opening: u32, closing: u32) -> (u32, Vec<u32>) {
    let mut next = row.to_vec();
    let room = row.len() >= ROW_WORDS && (row[0] as usize) < MAX_WINDOWS;
    if opening >= WEEK || closing >= WEEK || !room {
        return (REFUSED, next);
    }
    if opening == closing {
        return (EMPTY, next);
    }
    let at = row[0] as usize;
    next[0] += 1;
    next[1 + at] = opening;
    next[1 + MAX_WINDOWS + at] = closing;
    (0, next)
}

/// A minute: mostly of the week, near its ends in one of four, and one in sixteen any word.
fn minute(random: &mut Random) -> u32 {
    match random.below(16) {
        0 => random.bits() as u32,
        1 => WEEK - 2 + random.below(5) as u32,
        2 => random.below(3) as u32,
        3 => 10_079,
        _ => random.below(WEEK as usize) as u32,
    }
}

/// A window: of any length, of a few minutes, or empty.
fn window(random: &mut Random) -> (u32, u32) {
    let opening = minute(random);
    let closing = match random.below(8) {
        0 => minute(random),
        1 => opening,
        2 => opening.wrapping_sub(1),
        _ => opening.wrapping_add(random.below(90) as u32) % WEEK,
    };
    (opening, closing)
}

/// A row before the first call: mostly of no window, one in four with any count and any words.
fn first_row(random: &mut Random) -> Vec<u32> {
    let length = match random.below(16) {
        0 => random.below(ROW_WORDS),
        1 => ROW_WORDS - 1,
        2 => ROW_WORDS + random.below(20),
        _ => ROW_WORDS,
    };
    let forged = random.chance(25);
    let mut row: Vec<u32> = (0..length)
        .map(|_| if forged { minute(random) } else { 0 })
        .collect();
    if let [count, ..] = row.as_mut_slice() {
        *count = match random.below(4) {
            _ if !forged => 0,
            0 => random.bits() as u32,
            1 => 30 + random.below(6) as u32,
            _ => random.below(8) as u32,
        };
    }
    for word in row.iter_mut().skip(ROW_WORDS) {
        *word = random.bits() as u32;
    }
    row
}

/// How many windows a list is given: mostly few, one in thirty-two more than there is room for.
fn how_many(random: &mut Random) -> usize {
    match random.below(32) {
        0 => 30 + random.below(6),
        1..8 => random.below(20),
        _ => random.below(4),
    }
}

/// One list: the calls and the search give the same; how many calls were made.
fn list(hours: &Hours, random: &mut Random) -> Result<u64, String> {
    let mut row = first_row(random);
    let mut calls = 0;
    for _ in 0..how_many(random) {
        let (opening, closing) = window(random);
        let expected = added(&row, opening, closing);
        let before = row.clone();
        let number = (hours.add)(&mut row, opening, closing);
        calls += 1;
        if (number, &row) != (expected.0, &expected.1) {
            return Err(format!(
                "add {opening} {closing} to {before:?}: {number} {row:?}, expected {expected:?}"
            ));
        }
    }
    let week = Week::of(&row);
    for _ in 0..1 + random.below(3) {
        let minute = asked(&row, random);
        let number = (hours.open)(&row, minute);
        if number != week.open(minute) {
            return Err(format!(
                "open {minute} of {row:?}: {number}, expected {}",
                week.open(minute)
            ));
        }
        let before: Vec<u32> = (0..random.below(4)).map(|_| random.bits() as u32).collect();
        let mut answer = before.clone();
        let number = (hours.wait)(&row, minute, &mut answer);
        let (expected, minutes) = week.wait(minute);
        let mut left = before;
        if let (Some(first), Some(minutes)) = (left.first_mut(), minutes) {
            *first = minutes;
        }
        if (number, &answer) != (expected, &left) {
            return Err(format!(
                "wait {minute} of {row:?}: {number} {answer:?}, expected {expected} {left:?}"
            ));
        }
        calls += 2;
    }
    Ok(calls)
}

/// A minute that is asked for: any, or one at an end of a window.
fn asked(row: &[u32], random: &mut Random) -> u32 {
    let windows = windows(row);
    if windows.is_empty() || random.chance(40) {
        return minute(random);
    }
    let (opening, closing) = windows[random.below(windows.len())];
    let end = if random.chance(50) { opening } else { closing };
    (end + WEEK - 1 + random.below(3) as u32) % WEEK
}

/// Compares the port's calls with the search on as many lists; true if it found no difference.
pub fn compare(hours: &Hours, lists: u64, seed: u64) -> bool {
    let started = Instant::now();
    let mut random = Random::new([seed, lists, 0x40F5]);
    let (mut calls, mut differences) = (0, 0);
    for index in 0..lists {
        match list(hours, &mut random) {
            Ok(made) => calls += made,
            Err(difference) => {
                differences += 1;
                if differences <= SHOWN {
                    println!("DIFFERENCE: list {index}, seed {seed}\n{difference}\n");
                }
            }
        }
    }
    println!(
        "lists: {lists}, calls: {calls}, differences: {differences}, seconds: {:.1}",
        started.elapsed().as_secs_f64()
    );
    differences == 0
}

#[cfg(test)]
mod tests {
    use super::{ROW_WORDS, Week, added, minutes};

    const STORED: &str = include_str!("../../crates/hours_main/stdout");

    /// Each answer that crates/hours_main has stored is the search's.
    #[test]
    fn stored_answers() {
        let mut row = vec![0; ROW_WORDS];
        let mut steps = 0;
        for line in STORED.lines() {
            let (step, answers) = line.split_once(':').unwrap_or((line, ""));
            let step: Vec<&str> = step.split(' ').collect();
            let numbers: Vec<u32> = step[1..].iter().map(|n| n.parse().expect(line)).collect();
            let found = match (step[0], numbers.as_slice()) {
                ("new", []) => {
                    row.fill(0);
                    String::new()
                }
                ("forge", &[count, opening, closing]) => {
                    row[0] = count;
                    row[1] = opening;
                    row[33] = closing;
                    String::new()
                }
                ("add", &[opening, closing]) => {
                    let (number, next) = added(&row, opening, closing);
                    row = next;
                    let name = ["taken", "refused", "empty"]
                        [[0, 20, 21].iter().position(|&n| n == number).expect(line)];
                    format!(" {name} {number}")
                }
                ("open", &[minute]) => {
                    let number = Week::of(&row).open(minute);
                    let name = if number == 20 {
                        "refused"
                    } else {
                        ["closed", "open"][number as usize]
                    };
                    format!(" {name} {number}")
                }
                ("wait", &[minute]) => match Week::of(&row).wait(minute) {
                    (number, Some(minutes)) => format!(" {minutes} {number} {minutes} 9"),
                    (1, None) => " never 1 0 9".into(),
                    (number, None) => format!(" refused {number} 0 9"),
                },
                _ => panic!("{line}"),
            };
            assert_eq!(answers, found, "{line}");
            steps += 1;
        }
        assert!(steps > 150);
    }

    /// A window has its opening minute and not its closing minute, and runs over the week's end.
    #[test]
    fn ends() {
        assert!(minutes(3, 5).eq([3, 4]));
        assert!(minutes(10_078, 2).eq([10_078, 10_079, 0, 1]));
        assert!(minutes(10_079, 0).eq([10_079]));
    }
}

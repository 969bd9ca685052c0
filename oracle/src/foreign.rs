//! The port's exported functions, as far as their static libraries are linked.
//!
//! A slice passes as a pointer and a length, which counts elements; the crates lexer_c, reader_c
//! and so on export the functions. Nothing checks these declarations against the
//! port's source, so they stand here alone; the wrappers below are safe, since none of the
//! functions asks anything of its arguments.

use crate::batch::BatchLent;
use crate::head::HEAD_WORDS;

/// Words of the answer row: the reply's number, its value (low word first), and the head.
///
/// The number is 0 for a machine or a form, 1 to 7 for a refusal, `DIAGNOSTICS` for diagnostics;
/// the value is the form's length, the refusal's second value or the number of diagnostics.
/// Words that the reply does not use are zero.
pub const ANSWER_WORDS: usize = 3 + HEAD_WORDS;

/// The number of a reply that counts diagnostics.
pub const DIAGNOSTICS: u32 = u32::MAX;

/// What a call gives back in the answer row.
pub type AnswerRow = [u32; ANSWER_WORDS];

/// The buffers lent to a call.
pub struct Buffers {
    pub work: Vec<u32>,
    pub log: Vec<u32>,
    pub sheet: Vec<u32>,
    pub output: Vec<u8>,
}

/// Tokens of the text into work; their number, or `usize::MAX`.
pub type Tokenize = fn(text: &[u8], work: &mut [u32]) -> usize;
/// Reads the text, or writes its form.
pub type Call = fn(text: &[u8], buffers: &mut Buffers) -> AnswerRow;

/// The calls on the opening hours of a station, over a row of words.
pub struct Hours {
    /// A window more: 0, 20 or 21.
    pub add: fn(row: &mut [u32], opening: u32, closing: u32) -> u32,
    /// Whether a minute is open: 0, 1 or 20.
    pub open: fn(row: &[u32], minute: u32) -> u32,
    /// The shortest wait: 0 with the minutes in the answer's first word, 1 or 20.
    pub wait: fn(row: &[u32], minute: u32, answer: &mut [u32]) -> u32,
}

/// The rule line that expands the most, at the front of the output; 0 or 22, and the answer's four words.
pub type Longest = fn(n: u64, output: &mut [u8], answer: &mut [u32]) -> u32;

/// Runs a batch; the number that is also the first word of the answer.
pub type Batch = fn(lent: &mut BatchLent) -> u32;

/// The port's lexer, if it is linked.
pub fn tokenize() -> Option<Tokenize> {
    #[cfg(have_lexer)]
    return Some(linked::tokenize);
    #[cfg(not(have_lexer))]
    None
}

/// The port's reader, if it is linked.
pub fn read() -> Option<Call> {
    #[cfg(have_reader)]
    return Some(linked::read);
    #[cfg(not(have_reader))]
    None
}

/// The port's writer, if it is linked.
pub fn write() -> Option<Call> {
    #[cfg(have_writer)]
    return Some(linked::write);
    #[cfg(not(have_writer))]
    None
}

/// The port's reader with a log of records, if it is linked.
pub fn read_records() -> Option<Call> {
    #[cfg(have_reading)]
    return Some(linked::read_records);
    #[cfg(not(have_reading))]
    None
}

/// The port's writer with a log of records, if it is linked.
pub fn write_records() -> Option<Call> {
    #[cfg(have_writing)]
    return Some(linked::write_records);
    #[cfg(not(have_writing))]
    None
}

/// The port's opening hours, if they are linked.
pub fn hours() -> Option<Hours> {
    #[cfg(have_hours)]
    return Some(Hours {
        add: linked::hours_add,
        open: linked::hours_open,
        wait: linked::hours_wait,
    });
    #[cfg(not(have_hours))]
    None
}

/// The port's line that expands the most, if it is linked.
pub fn longest() -> Option<Longest> {
    #[cfg(have_longest)]
    return Some(linked::longest);
    #[cfg(not(have_longest))]
    None
}

/// The port's runner, if it is linked.
pub fn batch() -> Option<Batch> {
    #[cfg(have_runner)]
    return Some(runner::batch);
    #[cfg(not(have_runner))]
    None
}

#[cfg(any(
    have_lexer,
    have_reader,
    have_writer,
    have_reading,
    have_writing,
    have_hours,
    have_longest
))]
mod linked {
    #[cfg(any(have_reader, have_writer, have_reading, have_writing))]
    use super::{ANSWER_WORDS, AnswerRow, Buffers};

    /// A diagnostic as the port lays it out: the same bytes as five words.
    #[cfg(any(have_reading, have_writing))]
    #[repr(C)]
    struct Diagnostic {
        code: u32,
        span: [u32; 2],
        related: [u32; 2],
    }

    /// The answer row before a call: every word of it is due to be written.
    #[cfg(any(have_reader, have_writer, have_reading, have_writing))]
    const DIRTY_ROW: AnswerRow = [0xA5A5_A5A5; ANSWER_WORDS];

    unsafe extern "C" {
        #[cfg(have_lexer)]
        fn pevzoncs_tokenize(
            text: *const u8,
            text_len: usize,
            work: *mut u32,
            work_len: usize,
        ) -> usize;

        #[cfg(have_reader)]
        fn pevzoncs_read(
            text: *const u8,
            text_len: usize,
            work: *mut u32,
            work_len: usize,
            log: *mut u32,
            log_len: usize,
            sheet: *mut u32,
            sheet_len: usize,
            answer: *mut u32,
            answer_len: usize,
        ) -> u32;

        #[cfg(have_writer)]
        fn pevzoncs_write(
            text: *const u8,
            text_len: usize,
            work: *mut u32,
            work_len: usize,
            log: *mut u32,
            log_len: usize,
            sheet: *mut u32,
            sheet_len: usize,
            output: *mut u8,
            output_len: usize,
            answer: *mut u32,
            answer_len: usize,
        ) -> u32;
    }

    unsafe extern "C" {
        #[cfg(have_reading)]
        fn pevzoncs_read_records(
            text: *const u8,
            text_len: usize,
            work: *mut u32,
            work_len: usize,
            log: *mut Diagnostic,
            log_len: usize,
            sheet: *mut u32,
            sheet_len: usize,
            answer: *mut u32,
            answer_len: usize,
        ) -> u32;

        #[cfg(have_writing)]
        fn pevzoncs_write_records(
            text: *const u8,
            text_len: usize,
            work: *mut u32,
            work_len: usize,
            log: *mut Diagnostic,
            log_len: usize,
            sheet: *mut u32,
            sheet_len: usize,
            output: *mut u8,
            output_len: usize,
            answer: *mut u32,
            answer_len: usize,
        ) -> u32;
    }

    unsafe extern "C" {
        #[cfg(have_hours)]
        fn pevzoncs_hours_add(row: *mut u32, row_len: usize, opening: u32, closing: u32) -> u32;

        #[cfg(have_hours)]
        fn pevzoncs_hours_open(row: *const u32, row_len: usize, minute: u32) -> u32;

        #[cfg(have_hours)]
        fn pevzoncs_hours_wait(
            row: *const u32,
            row_len: usize,
            minute: u32,
            answer: *mut u32,
            answer_len: usize,
        ) -> u32;

        #[cfg(have_longest)]
        fn pevzoncs_longest(
            n: u64,
            output: *mut u8,
            output_len: usize,
            answer: *mut u32,
            answer_len: usize,
        ) -> u32;
    }

    #[cfg(have_hours)]
    pub fn hours_add(row: &mut [u32], opening: u32, closing: u32) -> u32 {
        // SAFETY: the slice is valid for its length.
        unsafe { pevzoncs_hours_add(row.as_mut_ptr(), row.len(), opening, closing) }
    }

    #[cfg(have_hours)]
    pub fn hours_open(row: &[u32], minute: u32) -> u32 {
        // SAFETY: the slice is valid for its length.
        unsafe { pevzoncs_hours_open(row.as_ptr(), row.len(), minute) }
    }

    #[cfg(have_hours)]
    pub fn hours_wait(row: &[u32], minute: u32, answer: &mut [u32]) -> u32 {
        // SAFETY: both slices are valid for their lengths, and don't overlap.
        unsafe {
            pevzoncs_hours_wait(
                row.as_ptr(),
                row.len(),
                minute,
                answer.as_mut_ptr(),
                answer.len(),
            )
        }
    }

    #[cfg(have_longest)]
    pub fn longest(n: u64, output: &mut [u8], answer: &mut [u32]) -> u32 {
        // SAFETY: both slices are valid for their lengths, and don't overlap.
        unsafe {
            pevzoncs_longest(
                n,
                output.as_mut_ptr(),
                output.len(),
                answer.as_mut_ptr(),
                answer.len(),
            )
        }
    }

    #[cfg(have_lexer)]
    pub fn tokenize(text: &[u8], work: &mut [u32]) -> usize {
        // SAFETY: both slices are valid for their lengths, and don't overlap.
        unsafe { pevzoncs_tokenize(text.as_ptr(), text.len(), work.as_mut_ptr(), work.len()) }
    }

    #[cfg(have_reader)]
    pub fn read(text: &[u8], buffers: &mut Buffers) -> AnswerRow {
        let mut answer = DIRTY_ROW;
        // SAFETY: all slices are valid for their lengths, and don't overlap.
        let number = unsafe {
            pevzoncs_read(
                text.as_ptr(),
                text.len(),
                buffers.work.as_mut_ptr(),
                buffers.work.len(),
                buffers.log.as_mut_ptr(),
                buffers.log.len(),
                buffers.sheet.as_mut_ptr(),
                buffers.sheet.len(),
                answer.as_mut_ptr(),
                answer.len(),
            )
        };
        assert_eq!(number, answer[0], "the number that pevzoncs_read answers");
        answer
    }

    #[cfg(have_writer)]
    pub fn write(text: &[u8], buffers: &mut Buffers) -> AnswerRow {
        let mut answer = DIRTY_ROW;
        // SAFETY: all slices are valid for their lengths, and don't overlap.
        let number = unsafe {
            pevzoncs_write(
                text.as_ptr(),
                text.len(),
                buffers.work.as_mut_ptr(),
                buffers.work.len(),
                buffers.log.as_mut_ptr(),
                buffers.log.len(),
                buffers.sheet.as_mut_ptr(),
                buffers.sheet.len(),
                buffers.output.as_mut_ptr(),
                buffers.output.len(),
                answer.as_mut_ptr(),
                answer.len(),
            )
        };
        assert_eq!(number, answer[0], "the number that pevzoncs_write answers");
        answer
    }

    /// The whole records of a log of words. The words behind them are not lent, and are cleared here where
    /// a log of words would be.
    #[cfg(any(have_reading, have_writing))]
    fn records(log: &mut [u32]) -> (*mut Diagnostic, usize) {
        (log.as_mut_ptr().cast(), log.len() / 5)
    }

    #[cfg(any(have_reading, have_writing))]
    fn clear_rest(number: u32, log: &mut [u32]) {
        if !(1..=4).contains(&number) {
            let whole = log.len() / 5 * 5;
            log[whole..].fill(0);
        }
    }

    #[cfg(have_reading)]
    pub fn read_records(text: &[u8], buffers: &mut Buffers) -> AnswerRow {
        let mut answer = DIRTY_ROW;
        let (log, log_len) = records(&mut buffers.log);
        // SAFETY: all slices are valid for their lengths, and don't overlap; a record has the bytes of five words.
        let number = unsafe {
            pevzoncs_read_records(
                text.as_ptr(),
                text.len(),
                buffers.work.as_mut_ptr(),
                buffers.work.len(),
                log,
                log_len,
                buffers.sheet.as_mut_ptr(),
                buffers.sheet.len(),
                answer.as_mut_ptr(),
                answer.len(),
            )
        };
        clear_rest(number, &mut buffers.log);
        assert_eq!(
            number, answer[0],
            "the number that pevzoncs_read_records answers"
        );
        answer
    }

    #[cfg(have_writing)]
    pub fn write_records(text: &[u8], buffers: &mut Buffers) -> AnswerRow {
        let mut answer = DIRTY_ROW;
        let (log, log_len) = records(&mut buffers.log);
        // SAFETY: as above.
        let number = unsafe {
            pevzoncs_write_records(
                text.as_ptr(),
                text.len(),
                buffers.work.as_mut_ptr(),
                buffers.work.len(),
                log,
                log_len,
                buffers.sheet.as_mut_ptr(),
                buffers.sheet.len(),
                buffers.output.as_mut_ptr(),
                buffers.output.len(),
                answer.as_mut_ptr(),
                answer.len(),
            )
        };
        clear_rest(number, &mut buffers.log);
        assert_eq!(
            number, answer[0],
            "the number that pevzoncs_write_records answers"
        );
        answer
    }
}

#[cfg(have_runner)]
mod runner {
    use crate::batch::BatchLent;

    unsafe extern "C" {
        fn pevzoncs_batch(
            texts: *const u8,
            texts_len: usize,
            lengths: *const u32,
            lengths_len: usize,
            allowance: u64,
            work: *mut u32,
            work_len: usize,
            log: *mut u32,
            log_len: usize,
            sheet: *mut u32,
            sheet_len: usize,
            cells: *mut u32,
            cells_len: usize,
            answers: *mut u64,
            answers_len: usize,
            answer: *mut u64,
            answer_len: usize,
        ) -> u32;
    }

    pub fn batch(lent: &mut BatchLent) -> u32 {
        // SAFETY: all slices are valid for their lengths, and don't overlap.
        unsafe {
            pevzoncs_batch(
                lent.texts.as_ptr(),
                lent.texts.len(),
                lent.lengths.as_ptr(),
                lent.lengths.len(),
                lent.allowance,
                lent.work.as_mut_ptr(),
                lent.work.len(),
                lent.log.as_mut_ptr(),
                lent.log.len(),
                lent.sheet.as_mut_ptr(),
                lent.sheet.len(),
                lent.cells.as_mut_ptr(),
                lent.cells.len(),
                lent.answers.as_mut_ptr(),
                lent.answers.len(),
                lent.answer.as_mut_ptr(),
                lent.answer.len(),
            )
        }
    }
}

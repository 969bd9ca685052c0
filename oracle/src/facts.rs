//! What is known of the original, each fact with the input that shows it: the table of marked
//! places P1 to P11 of paper 01, the places where that paper leaves a choice, and the traps.

use crate::agree::{Answer, agree};
use crate::chars::{self, within};
use crate::diag::Span;
use crate::head::Head;
use crate::list::listing;
use crate::machine::{BitOrder, Decoder, Kind};
use crate::outcome::{
    LeftBytes, LeftWords, Lengths, MAX_TEXT, ReadReply, Refusal, WriteReply, read, work_needed,
    write,
};
use crate::reading::{self, Reading};
use crate::spec::MachineSpec;

const STATES: usize = 0;
const SIGMA: usize = 1;
const GAMMA: usize = 2;
const FINALS: usize = 3;
const HEADER: usize = 4;
const TRAILING: usize = 5;
const RULES: usize = 6;

/// A machine's answer, taken apart.
struct Machine {
    head: Head,
    sections: [Vec<u32>; 7],
    spec: MachineSpec,
    form: String,
}

fn machine(text: &str) -> Machine {
    match reading::read(text.as_bytes()) {
        Reading::Machine(machine) => Machine {
            head: machine.head.clone(),
            sections: machine.sections(),
            spec: machine.expanded().expect("a small machine").0.clone(),
            form: machine.form(),
        },
        Reading::Diagnostics(records) => panic!("{text:?} has diagnostics {records:?}"),
        _ => panic!("{text:?} is refused"),
    }
}

/// Code and place of each diagnostic.
fn diagnostics(text: &str) -> Vec<(u32, u32, u32)> {
    let with_related = related(text);
    with_related.iter().map(|&(c, s, e, _)| (c, s, e)).collect()
}

/// Code, place and related place of each diagnostic.
fn related(text: &str) -> Vec<(u32, u32, u32, Option<Span>)> {
    match reading::read(text.as_bytes()) {
        Reading::Diagnostics(records) => records
            .iter()
            .map(|r| (r.code, r.place.start, r.place.end, r.related))
            .collect(),
        _ => panic!("{text:?} has no diagnostics"),
    }
}

fn place(start: u32, end: u32) -> Option<Span> {
    Some(Span::new(start, end))
}

/// The codes of a section of symbols.
fn codes(section: &[u32]) -> String {
    let glyphs = section.chunks(3).map(|s| char::from_u32(s[0]));
    glyphs.map(|c| c.expect("a code point")).collect()
}

/// The letters of the admitted set as paper 01 lists them, as inclusive ranges.
const LETTERS: [(u32, u32); 18] = [
    (0x41, 0x5A),
    (0x61, 0x7A),
    (0xAA, 0xAA),
    (0xB5, 0xB5),
    (0xBA, 0xBA),
    (0xC0, 0xD6),
    (0xD8, 0xF6),
    (0xF8, 0x2C1),
    (0x370, 0x374),
    (0x376, 0x377),
    (0x37A, 0x37D),
    (0x37F, 0x37F),
    (0x386, 0x386),
    (0x388, 0x38A),
    (0x38C, 0x38C),
    (0x38E, 0x3A1),
    (0x3A3, 0x3F5),
    (0x3F7, 0x481),
];

/// The white space of the admitted set, likewise.
const WHITE_SPACE: [(u32, u32); 4] = [(0x09, 0x0D), (0x20, 0x20), (0x85, 0x85), (0xA0, 0xA0)];

#[test]
fn letters_and_white_space_are_those_of_rust() {
    let mut count = 0;
    for c in chars::admitted() {
        count += 1;
        assert_eq!(c.is_alphabetic(), within(c, &LETTERS), "{c:?}");
        assert_eq!(c.is_whitespace(), within(c, &WHITE_SPACE), "{c:?}");
    }
    assert_eq!(count, 1_668);
}

#[test]
fn marked_places() {
    // P1: the list program's samples.
    let sample = "bytes=20\ndiagnostics=0\nstates=a b\nfinals=\nstart=a\nsigma=48 49\n\
                  gamma=9251 48 49\ntransitions=2\ntransition=a 48 b 48 R\n\
                  transition=a 49 b 49 R\n";
    assert_eq!(listing("δ(a,{0,1})=(b,*,R)\n".as_bytes()), sample);
    let sample = "bytes=8\ndiagnostics=1\ndiagnostic=1 7 8 none none 1:8\n";
    assert_eq!(listing(b"Q = {a,}"), sample);
    // P2, of which the list program counts the column in characters.
    assert_eq!(diagnostics("δ(a,{})=(a,a,R)"), [(1, 6, 7)]);
    let sample = "bytes=16\ndiagnostics=1\ndiagnostic=1 6 7 none none 1:6\n";
    assert_eq!(listing("δ(a,{})=(a,a,R)".as_bytes()), sample);
    // P3 and P4.
    assert_eq!(machine("tapes = 255").head.tapes, 255);
    assert_eq!(machine("tapes = 0").head.tapes, 0);
    assert_eq!(diagnostics("tapes = 256"), [(9, 8, 11)]);
    assert_eq!(diagnostics("tapes = 18446744073709551616"), [(9, 8, 28)]);
    // P5 and P6.
    assert_eq!(machine("blank = '''").head.blank, '\'');
    assert_eq!(diagnostics("blank = '"), [(1, 8, 9)]);
    // P7, P8 and P9.
    assert_eq!(diagnostics("input \"a"), [(2, 6, 8)]);
    assert_eq!(diagnostics("δ(a,a)=(a,a,r)"), [(8, 13, 14)]);
    assert_eq!(diagnostics("δ(a,(a,b))=(a,a,R)"), [(10, 0, 19)]);
    // P10.
    let twice = related("Σ = {a}\nSigma = {b}");
    assert_eq!(twice, [(11, 9, 20, place(0, 8))]);
    // P11.
    let empty = machine("");
    assert_eq!(empty.sections[GAMMA], [0x2423, 0, 0]);
    assert!(empty.sections[STATES].is_empty() && empty.sections[SIGMA].is_empty());
}

/// One rule with as many read sets of that many symbols.
fn read_sets(sets: usize, size: usize) -> String {
    let set = format!("{{{}}}", vec!["a"; size].join(","));
    let entries = |entry| vec![entry; sets].join(",");
    format!(
        "δ(a,({}))=(a,({}),({}))\n",
        entries(set.as_str()),
        entries("*"),
        entries("R")
    )
}

#[test]
fn the_number_of_rules_is_bounded() {
    let full = read_sets(6, 8);
    assert_eq!(machine(&full).head.counts.rules, 262_144);
    let start = full.len() as u32;
    let one_more = format!("{full}δ(a,a)=(a,a,R) // c\nδ(a,a)=(a,a,L)");
    assert_eq!(diagnostics(&one_more), [(9, start, start + 15)]);
    // 17: the product may pass 64 bits.
    let huge = read_sets(64, 2);
    assert_eq!(diagnostics(&huge), [(9, 0, huge.len() as u32 - 1)]);
}

#[test]
fn traps() {
    // `_` is resolved after a later `blank`.
    let later = machine("δ(a,_)=(a,_,R)\nblank = x");
    assert_eq!(later.spec.transitions[0].read, ['x']);
    // `a'b'` is one word.
    assert_eq!(machine("start = a'b'").spec.start, "a'b'");
    assert_eq!(diagnostics("blank = a'b'"), [(1, 8, 12)]);
    // A quote set against a word is part of the word.
    assert_eq!(diagnostics("output unary'x'"), [(1, 7, 15)]);
    assert!(
        machine("output unary x")
            .form
            .contains("\noutput unary 'x'\n")
    );
    // `'␣'` is a glyph when another blank is declared.
    let quoted = machine("blank = x\nδ(a,'␣')=(a,␣,R)");
    assert_eq!(quoted.spec.transitions[0].read, ['␣']);
    assert_eq!(quoted.spec.transitions[0].write, ['x']);
    // `'L'` is a direction.
    assert_eq!(machine("δ(a,a)=(a,a,'L')").sections[RULES][17], 0);
}

#[test]
fn fact_1_defaults() {
    let head = machine("").head;
    assert_eq!(head.kind, Kind::Transducer);
    assert_eq!((head.tapes, head.blank), (1, '␣'));
    assert_eq!(head.output, Decoder::Word);
    assert_eq!((head.name, head.input, head.start), (None, None, None));
}

#[test]
fn fact_2_places_of_the_map() {
    assert_eq!(machine("kind beaver").head.map.kind, place(0, 11));
    let input = machine("input \"a\"").head;
    assert_eq!((input.map.input, input.input), (place(6, 9), place(7, 8)));
    assert_eq!(machine("tapes = 2").head.map.tapes, place(8, 9));
    let start = machine("start = a").head;
    assert_eq!((start.map.start, start.start), (place(8, 9), place(8, 9)));
    assert_eq!(machine("Q = {} // c").head.map.states, place(0, 6));
}

#[test]
fn fact_3_a_repeated_name_is_final_once() {
    let repeated = machine("Q={a,a}\nF={a}");
    assert_eq!(repeated.sections[STATES], [3, 4, 1, 5, 6, 0]);
    assert!(repeated.form.contains("\nQ = {a, a}\nF = {a}\n"));
}

#[test]
fn fact_4_gamma_gets_the_blank_last() {
    let gamma = machine("Γ={a}");
    assert_eq!(gamma.sections[GAMMA], [97, 4, 5, 0x2423, 0, 0]);
    assert!(gamma.form.contains("\nΓ = {'a', '␣'}\n"));
}

#[test]
fn fact_5_repeats_are_kept() {
    let gamma = machine("Γ={a,a,_,_}");
    assert_eq!(codes(&gamma.sections[GAMMA]), "aa␣␣");
    assert_eq!(gamma.sections[SIGMA], [97, 0, 0, 97, 0, 0]);
    assert_eq!(machine("δ(a,{0,0})=(a,*,R)").head.counts.rules, 2);
}

#[test]
fn fact_6_the_input_enters_gamma() {
    assert_eq!(codes(&machine("input \"\\n\"").sections[GAMMA]), "␣\n");
    assert_eq!(codes(&machine("input \"_\"").sections[GAMMA]), "␣_");
    assert_eq!(codes(&machine("input \"a\"\nΣ={b}").sections[GAMMA]), "␣b");
}

#[test]
fn fact_7_finals_against_states() {
    let repeated = related("Q={a}\nF={b,b}");
    assert_eq!(repeated, [(3, 9, 10, None), (11, 11, 12, place(9, 10))]);
    assert_eq!(related("F={a,a}"), [(11, 5, 6, place(3, 4))]);
    assert_eq!(diagnostics("Q={a,}\nF={b}"), [(1, 5, 6)]);
    assert_eq!(diagnostics("F={b}\nQ={a}"), [(3, 3, 4)]);
}

#[test]
fn fact_8_second_declarations() {
    assert_eq!(related("tapes=1\ntapes=256"), [(11, 8, 17, place(0, 7))]);
    let both = related("tapes=256\ntapes=1");
    assert_eq!(both, [(9, 6, 9, None), (11, 10, 17, place(0, 9))]);
    let third = related("F={}\nF={}\nF={}");
    assert_eq!(third, [(11, 5, 9, place(0, 4)), (11, 10, 14, place(0, 4))]);
}

#[test]
fn facts_9_to_11_where_a_line_fails() {
    assert_eq!(diagnostics("blank =\n"), [(1, 7, 8)]);
    assert_eq!(diagnostics("blank ="), [(1, 7, 7)]);
    assert_eq!(diagnostics("Q=  \r\n"), [(1, 5, 6)]);
    assert_eq!(diagnostics("Q={a // c "), [(1, 5, 9)]);
    assert_eq!(diagnostics("blank = \"x"), [(2, 8, 10)]);
    assert_eq!(diagnostics("\"x"), [(2, 0, 2)]);
    assert_eq!(diagnostics("blank = x \"x "), [(2, 10, 12)]);
    assert_eq!(diagnostics("δ(a,a)=(a,a,\"x"), [(2, 13, 15)]);
}

#[test]
fn fact_12_where_a_direction_is_due() {
    for wrong in [";", "*", "x", "0", "'x'", "␣", "_", "'*'"] {
        let end = 13 + wrong.len() as u32;
        assert_eq!(
            diagnostics(&format!("δ(a,a)=(a,a,{wrong})")),
            [(8, 13, end)]
        );
    }
    assert_eq!(diagnostics("δ(a,a)=(a,a,RR)"), [(8, 13, 15)]);
    for unexpected in ["\"\"", "{", ")", "}", ",", "=", "'", "// c", "\n"] {
        let end = 13 + unexpected.len() as u32;
        let text = format!("δ(a,a)=(a,a,{unexpected}");
        assert_eq!(diagnostics(&text)[0], (1, 13, end), "{unexpected}");
    }
}

#[test]
fn fact_13_empty_and_nested_tuples() {
    assert_eq!(diagnostics("δ(a,())=(a,(),())"), [(1, 6, 7)]);
    assert_eq!(diagnostics("δ(a,((a)))=(a,a,R)"), [(1, 6, 7)]);
}

#[test]
fn fact_14_empty_comments() {
    assert_eq!(machine("//").sections[HEADER], [2, 2]);
    assert_eq!(machine("//  ").sections[HEADER], [2, 2]);
    let rule = machine("δ(a,a)=(a,a,R)//");
    assert_eq!(rule.sections[RULES][7..9], [17, 17]);
    assert!(rule.form.ends_with("(R)) //\n"));
    assert!(machine("δ(a,a)=(a,a,R)").form.ends_with("(R))\n"));
}

#[test]
fn fact_15_the_place_of_a_star() {
    let words = &machine("δ(a,0)=(a,*,R)").sections[RULES];
    assert_eq!(words[11..], [48, 5, 6, 48, 11, 12, 1]);
}

#[test]
fn fact_16_order_of_gamma() {
    assert_eq!(
        codes(&machine("δ(a,{0,1})=(a,x,R)").sections[GAMMA]),
        "␣0x1"
    );
}

#[test]
fn fact_18_nothing_else_is_checked() {
    machine("tapes=3\nδ(a,a)=(a,a,R)");
    machine("Q={a}\nstart=b\nδ(c,a)=(d,a,R)");
    machine("Γ={a}\nΣ={b}\nδ(a,c)=(a,d,R)\nδ(a,c)=(a,d,R)");
}

#[test]
fn fact_19_refusal_3_before_4() {
    assert!(matches!(
        reading::read(b"\xD7\x90\xFF"),
        Reading::NotUtf8(2)
    ));
    assert!(matches!(
        reading::read(b"a\xD7\x90"),
        Reading::OutsideSet(1)
    ));
}

#[test]
fn fact_20_a_rules_length() {
    let words = &machine("kind beaver\n// a\n// b\nδ(a,(a,b))=(a,(a,b),(R,L))").sections[RULES];
    assert_eq!(words[0], 11 + 7 * 2 + 2 * 2);
    assert_eq!(words.len(), words[0] as usize);
    assert_eq!(words[25..], [15, 16, 20, 21]);
}

#[test]
fn fact_21_sizes_without_expansion() {
    let reads = [vec!["{0,1}"; 18], vec!["x"; 1_000]].concat().join(",");
    let writes = [vec!["*"; 18], vec!["x"; 1_000]].concat().join(",");
    let moves = ["R"; 1_018].join(",");
    let text = format!("δ(a,({reads}))=(b,({writes}),({moves}))");
    let Reading::Machine(machine) = reading::read(text.as_bytes()) else {
        panic!("no machine");
    };
    assert_eq!(machine.words_needed, 1_870_921_755);
    assert!(machine.expanded().is_none());
    let lengths = Lengths {
        work: work_needed(text.len()),
        log: 0,
        sheet: 1_000,
        output: 0,
    };
    let refusal = Refusal {
        number: 6,
        value: 1_870_921_755,
    };
    assert_eq!(
        write(text.as_bytes(), lengths).reply,
        WriteReply::Refused(refusal)
    );
}

#[test]
fn fact_24_two_tapes_in_the_listing() {
    let listing = listing("δ(a,(0,1))=(b,(x,*),(R,L))".as_bytes());
    assert!(listing.ends_with("transition=a 48,49 b 120,49 R,L\n"));
}

#[test]
fn inferred_states_stand_where_they_are_mentioned_first() {
    let inferred = machine("F={c,b}\nδ(a,a)=(b,a,R)\nstart=d");
    assert_eq!(
        inferred.sections[STATES],
        [30, 31, 0, 11, 12, 0, 17, 18, 1, 3, 4, 1]
    );
    assert_eq!(inferred.sections[FINALS], [3, 4, 5, 6]);
}

#[test]
fn comments_attach_as_blocks() {
    // Before the first item only a block that touches the rule leads it.
    let first = machine("// a\n\n// b\nδ(a,a)=(a,a,R)\n// c");
    assert_eq!(first.spec.comments.header, ["a"]);
    assert_eq!(first.spec.transitions[0].leading, ["b"]);
    assert_eq!(first.spec.comments.trailing, ["c"]);
    assert_eq!(first.sections[TRAILING], [30, 31]);
    // Later all pending blocks lead.
    let later = machine("kind beaver // k\n// a\n\n// b\n\nδ(a,a)=(a,a,R)");
    assert_eq!(later.spec.comments.header, ["k"]);
    assert_eq!(later.spec.transitions[0].leading, ["a", "b"]);
    // Without any item all are header.
    assert_eq!(machine("// a\n\n// b").spec.comments.header, ["a", "b"]);
    // A rule takes its comment to the first of its expansion.
    let set = machine("δ(a,{0,1})=(a,*,R) // c");
    assert_eq!(set.spec.transitions[0].comment.as_deref(), Some("c"));
    assert_eq!(set.spec.transitions[1].comment, None);
}

#[test]
fn the_form_of_everything() {
    let text = "// h\nmachine \"a\\\"\\\\\\n\\t\\x\"\nkind enumerator // k\ninput \"\"\noutput binary lsb\n\
                tapes = 007\nQ={a,b}\nSigma={x}\nGamma={'*',_}\nblank='_'\nstart=b\nF={b,a}\n\
                //\n\n//   l\nδ(a,(x,{0,1}))=(b,(*,#),(N,L)) //\n// t";
    let form = "// h\n// k\nmachine \"a\\\"\\\\\\n\\t\\\\x\"\nkind enumerator\ninput \"\"\n\
                output binary lsb\ntapes = 7\nQ = {a, b}\nΣ = {'x'}\nΓ = {'*', '_'}\nblank = '_'\n\
                start = b\nF = {a, b}\n//\n//   l\n\
                δ(a, ('x', '0')) = (b, ('x', '#'), (N, L)) //\n\
                δ(a, ('x', '1')) = (b, ('x', '#'), (N, L))\n// t\n";
    let all = machine(text);
    assert_eq!(all.form, form);
    let order = BitOrder::Lsb;
    assert_eq!(all.head.output, Decoder::Binary { order });
}

/// Whether two machines agree, and whether their forms are equal.
fn agreement(a: &str, b: &str) -> (bool, bool) {
    let (left, right) = (machine(a), machine(b));
    let (left_sheet, right_sheet) = (left.sections.concat(), right.sections.concat());
    let left_answer = Answer {
        head: &left.head,
        sheet: &left_sheet,
        text: a.as_bytes(),
    };
    let right_answer = Answer {
        head: &right.head,
        sheet: &right_sheet,
        text: b.as_bytes(),
    };
    (agree(left_answer, right_answer), left.form == right.form)
}

#[test]
fn machines_that_agree() {
    for (a, b) in [
        (
            "",
            "machine \"\"\nkind transducer\ninput \"\"\noutput word\ntapes = 01\nF={}",
        ),
        ("Q={a,b}\nF={a,b}", "F={b,a}\nQ={a,b}"),
        ("Γ={a}", "Gamma = {'a', '␣'}"),
        ("machine \"\\x\\\\\"", "machine \"\\\\x\\\\\""),
        (
            "δ(a,{0,1})=(b,*,R)",
            "delta(a,('0'))=(b,0,'R')\nδ(a,1)=(b,1,R)",
        ),
        ("// a\nkind beaver // b", "// a\n\n// b\nkind beaver"),
        ("δ(a,_)=(a,␣,L)", "δ(a,'␣')=(a,*,L)"),
        ("//   a  ", "//   a\n"),
    ] {
        assert_eq!(agreement(a, b), (true, true), "{a:?} and {b:?}");
    }
}

#[test]
fn machines_that_differ() {
    for (a, b) in [
        ("F={a,b}", "F={b,a}"),
        ("Q={a,a}", "Q={a}"),
        ("blank=_", ""),
        ("blank='_'", "blank=_"),
        ("start=a", "F={a}"),
        ("δ(a,a)=(a,a,R)", "start=a\nδ(a,a)=(a,a,R)"),
        ("δ(a,a)=(a,a,R)", "δ(a,a)=(a,a,R) //"),
        ("δ(a,a)=(a,a,R)//", "δ(a,a)=(a,a,R)//c"),
        ("// a\nδ(a,a)=(a,a,R)", "// a\n\nδ(a,a)=(a,a,R)"),
        ("// a", "//  a"),
        ("input \"a\"", "Σ={a}\ninput \"a\""),
        ("output unary x", "output unary 'X'"),
        ("output binary lsb", "output binary msb"),
        ("tapes=0", "tapes=1"),
        ("δ(a,(a,b))=(a,(a,b),(R,R))", "δ(a,(a,b))=(a,(a,b),(R,N))"),
    ] {
        assert_eq!(agreement(a, b), (false, false), "{a:?} and {b:?}");
    }
}

const DIRTY: u32 = 0xDEAD_BEEF;

fn lengths(text: &[u8], log: usize, sheet: usize, output: usize) -> Lengths {
    Lengths {
        work: work_needed(text.len()),
        log,
        sheet,
        output,
    }
}

fn refused(number: u8, value: u64) -> ReadReply {
    ReadReply::Refused(Refusal { number, value })
}

#[test]
fn refusals_in_their_order() {
    let long = vec![b'\xFF'; MAX_TEXT + 1];
    let short_work = Lengths {
        work: 5,
        log: 0,
        sheet: 0,
        output: 0,
    };
    assert_eq!(read(&long, short_work).reply, refused(1, 0));
    assert_eq!(read(b"", short_work).reply, refused(2, 0));
    for (text, reply) in [
        (&b"\xD7\x90\xFF"[..], refused(3, 2)),
        (b"ab\xD7\x90", refused(4, 2)),
    ] {
        let outcome = read(text, lengths(text, 0, 0, 0));
        assert_eq!(outcome.reply, reply);
        assert_eq!(outcome.log.after(&[DIRTY; 3]), [DIRTY; 3]);
        assert_eq!(outcome.sheet, LeftWords::Untouched);
    }
    let text = b"Q = {a,}";
    let outcome = read(text, lengths(text, 4, 1, 0));
    assert_eq!(outcome.reply, refused(5, 1));
    assert_eq!(outcome.log.after(&[DIRTY; 4]), [0; 4]);
    assert_eq!(outcome.sheet.after(&[DIRTY]), [0]);
    let outcome = read(text, lengths(text, 7, 1, 0));
    assert_eq!(outcome.reply, ReadReply::Diagnostics(1));
    let none = u32::MAX;
    assert_eq!(outcome.log.after(&[DIRTY; 7]), [1, 7, 8, none, none, 0, 0]);
    assert_eq!(outcome.sheet.after(&[DIRTY]), [0]);
    let outcome = read(b"", lengths(b"", 0, 2, 0));
    assert_eq!(outcome.reply, refused(6, 3));
    assert_eq!(outcome.sheet.after(&[DIRTY; 2]), [0; 2]);
}

#[test]
fn what_the_writer_leaves() {
    let form = "machine \"\"\nkind transducer\ninput \"\"\noutput word\ntapes = 1\nF = {}\n";
    let short = write(b"", lengths(b"", 1, 4, form.len() - 1));
    let refusal = Refusal {
        number: 7,
        value: form.len() as u64,
    };
    assert_eq!(short.reply, WriteReply::Refused(refusal));
    assert_eq!(short.output, LeftBytes::Untouched);
    assert_eq!(short.sheet.after(&[DIRTY; 4]), [0x2423, 0, 0, 0]);
    assert_eq!(short.log.after(&[DIRTY]), [0]);
    let long = write(b"", lengths(b"", 0, 3, form.len() + 2));
    assert_eq!(long.reply, WriteReply::Length(form.len() as u64));
    let after = long.output.after(&vec![7; form.len() + 2]);
    assert_eq!(after, [form.as_bytes(), &[7, 7]].concat());
    let text = b"fail";
    let failed = write(text, lengths(text, 5, 0, 9));
    assert_eq!(failed.reply, WriteReply::Diagnostics(1));
    assert_eq!(failed.output, LeftBytes::Untouched);
}

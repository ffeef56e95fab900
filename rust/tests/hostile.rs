//! Hostile texts: noise, a line of 10 MB, absent ids, and a buffer of every length, in one call and in a session.

use hir_expr_store::lines::{answer, answer_into, Status};
use std::fmt::Write;

/// What stands behind the buffer, and has to stand there afterwards.
const GUARD: u8 = 0xa5;

/// The answers in a buffer of this length, behind which nothing may be written.
fn answered(text: &[u8], length: usize) -> (Vec<u8>, usize) {
    let mut memory = vec![GUARD; length + 64];
    let report = answer_into(text, &mut memory[..length]).unwrap();
    assert_eq!(report.written, report.length.min(length));
    assert!(memory[report.written..].iter().all(|byte| *byte == GUARD));
    memory.truncate(report.written);
    (memory, report.length)
}

/// A buffer of every length has a front of the answers.
fn every_length(text: &[u8]) {
    let (_, length) = answered(text, 0);
    let (whole, _) = answered(text, length);
    assert_eq!(whole.len(), length);
    for short in 0..length + 2 {
        let (front, again) = answered(text, short);
        assert_eq!(again, length);
        assert_eq!(front, whole[..short.min(length)]);
    }
}

#[test]
fn every_length_has_a_front() {
    every_length(b"");
    every_length(b"nodes\n");
    every_length(
        b"expr path a\nexpr ref 0\nroot 1\nbody FunctionId(0)\nchain 0\nprint-expr 1\nchain 7\n",
    );
    every_length(b"expr path a\nfinish\nexpr string \"\xc3\xa9\"\nroots\nprint-expr 1\n");
    every_length(b"nodes\nnoise\nnodes\n");
}

/// Numbers that look like noise, the same at each run.
struct Noise(u64);

impl Noise {
    fn next(&mut self) -> usize {
        self.0 ^= self.0 << 13;
        self.0 ^= self.0 >> 7;
        self.0 ^= self.0 << 17;
        usize::try_from(self.0 >> 40).unwrap_or(0)
    }
}

#[test]
fn noise_is_a_bad_line_or_skipped() {
    let mut noise = Noise(0x9e37_79b9_7f4a_7c15);
    for length in 0..400 {
        let text: Vec<u8> = (0..length).map(|_| noise.next().to_le_bytes()[0]).collect();
        let (_, wanted) = answered(&text, 1000);
        let (_, again) = answered(&text, wanted);
        assert_eq!(again, wanted);
    }
}

#[test]
fn lines_of_words_in_any_order_are_answered() {
    let words = [
        "expr",
        "pat",
        "type",
        "path",
        "0",
        "1",
        "-",
        "0,1",
        "a",
        "::<T0>",
        "block",
        "body",
        "FunctionId(0)",
        "chain",
        "root",
        "finish",
        "\"x\"",
        "let:0:-:0:-",
        "4294967295",
        "4294967296",
        "lang(",
        "print-expr",
        "captures",
        "..",
        "calls",
        "expr:0",
        "frames",
        "resolve",
        "tuple",
        "run",
        ">",
        "for<",
        "impl",
        "\\u{d800}",
        "\"",
        "bind",
        "label:0",
    ];
    let mut noise = Noise(7);
    for _ in 0..3000 {
        let mut text = String::new();
        for _ in 0..noise.next() % 12 {
            for _ in 0..noise.next() % 5 {
                text.push_str(words[noise.next() % words.len()]);
                text.push(if noise.next() % 8 == 0 { ':' } else { ' ' });
            }
            text.pop();
            text.push('\n');
        }
        let (_, length) = answered(text.as_bytes(), 10);
        assert_eq!(answered(text.as_bytes(), length).1, length);
    }
}

#[test]
fn bytes_that_are_no_text_are_a_bad_line() {
    let mut buffer = [0; 100];
    let report = answer_into(b"nodes\n# \xff\nnodes\n", &mut buffer).unwrap();
    assert_eq!(report.status, Status::BadLine(2));
    assert_eq!(
        &buffer[..report.written],
        b"= exprs 0 pats 0 bindings 0 labels 0 types 0 lifetimes 0\n"
    );
    assert_eq!(
        answer_into(b"\xff", &mut buffer).unwrap().status,
        Status::BadLine(1)
    );
    // The bad line is the first that is bad.
    assert_eq!(
        answer_into(b"noise\n\xff", &mut buffer).unwrap().status,
        Status::BadLine(1)
    );
    assert_eq!(
        answer_into(b"nodes\n\n\xc3", &mut buffer).unwrap().status,
        Status::BadLine(3)
    );
}

#[test]
fn a_line_of_10_mb_is_read() {
    let size = 10_000_000;
    let name = "n".repeat(size);
    let outcome = answer(&format!("expr path {name}\nroots\nprint-expr 0\n")).unwrap();
    assert_eq!(outcome.status, Status::Answered);
    assert_eq!(outcome.answers.len(), size + 3);
    let outcome = answer(&"x".repeat(size)).unwrap();
    assert_eq!(outcome.status, Status::BadLine(1));
    let list = vec!["0"; size / 2].join(",");
    let outcome = answer(&format!("expr missing\nexpr tuple {list}\nroots\nnodes\n")).unwrap();
    assert_eq!(outcome.answers, "! SharedChild ExprId(0)\n");
}

#[test]
fn a_deep_tree_is_printed() {
    let depth = 200_000;
    let mut text = String::from("expr path a\n");
    for number in 0..depth {
        writeln!(text, "expr await {number}").unwrap();
    }
    writeln!(
        text,
        "root {depth}\nbody FunctionId(0)\nchain 0\nprint-expr {depth}"
    )
    .unwrap();
    let outcome = answer(&text).unwrap();
    assert_eq!(outcome.status, Status::Answered);
    assert!(outcome.answers.ends_with(".await.await\n"));
}

#[test]
fn absent_ids_are_refused() {
    let most = u32::MAX;
    let text = format!(
        "expr missing\nroots\nchildren {most}\nprecedence 7\nchain {most}\ncaptures {most}\nroot-of expr:{most}\n\
         walk-pats {most}\nresolve {most} a\nprint-expr {most}\nprint-pat {most}\nowner-of {most}\nhygiene-of pat:{most}\n"
    );
    let outcome = answer(&text).unwrap();
    assert_eq!(outcome.status, Status::Refused(3));
    assert_eq!(outcome.answers.lines().count(), 11);
}

#[test]
fn threads_don_t_disturb_each_other() {
    let text = "bind x\npat bind 0 -\nexpr path x\nroot 0\nparam 0\nbody FunctionId(0)\nchain 0\nresolve 0 x\n";
    let wanted = answer(text).unwrap();
    std::thread::scope(|scope| {
        for _ in 0..8 {
            scope.spawn(|| {
                for _ in 0..200 {
                    assert_eq!(answer(text).unwrap(), wanted);
                }
            });
        }
    });
}

//! What the tests of questions share: a question asked, and floats as answers have them.
#![allow(dead_code)]

use oracle::answer::answer_line;

pub fn ask(question: &str) -> String {
    let mut answer = Vec::new();
    answer_line(question.as_bytes(), &mut answer);
    String::from_utf8(answer).expect("answers are text")
}

pub fn bits(float: f64) -> String {
    format!("{:016x}", float.to_bits())
}

pub fn value(float: f64) -> String {
    format!("value {}", bits(float))
}

//! The exchange of docs/MARKET.md in plain Rust, without contracts and proofs, to measure the engine against.
//!
//!     rustc --edition 2021 -O bench/plain/main.rs -o target/bench/plain
//!     target/bench/plain < crates/voipyndu/stdin | cmp - crates/voipyndu/stdout
//!
//! It reads a call file from standard input and writes the answers to standard output (docs/CALLS.md). It trusts its
//! own tables: no call looks at them again, which is why refusals 1, 2 and 12 are not here.

mod exchange;
mod forms;

use exchange::{Answer, Exchange};
use std::io::{self, BufRead, BufReader, Read, Write};

const LONGEST_LINE: usize = 120;
const BUFFER: usize = 1 << 16;

fn push_digits(out: &mut Vec<u8>, mut n: u64) {
    let mut digits = [0u8; 20];
    let mut at = digits.len();
    loop {
        at -= 1;
        digits[at] = b'0' + (n % 10) as u8;
        n /= 10;
        if n == 0 {
            break;
        }
    }
    out.extend_from_slice(&digits[at..]);
}

fn push_number(out: &mut Vec<u8>, n: i64) {
    if n < 0 {
        out.push(b'-');
    }
    push_digits(out, n.unsigned_abs());
}

/// Pushes each number with the text that stands before it, and then the end.
fn push_line(out: &mut Vec<u8>, parts: &[(&[u8], i64)], end: &[u8]) {
    for &(before, n) in parts {
        out.extend_from_slice(before);
        push_number(out, n);
    }
    out.extend_from_slice(end);
}

fn push_answer(out: &mut Vec<u8>, exchange: &Exchange, answer: Answer) {
    match answer {
        Answer::Ok => out.extend_from_slice(b"(ok)\n"),
        Answer::Cleared => {
            let c = exchange.clearing();
            let parts: [(&[u8], i64); 4] = [
                (b"(cleared (price ", c.prices[0]),
                (b" ", c.prices[1]),
                (b") (flow ", c.flow),
                (b") (surplus ", c.surplus),
            ];
            push_line(out, &parts, b"))\n");
        }
        Answer::Settled { income, residue } => {
            for e in exchange.entries() {
                let parts: [(&[u8], i64); 4] = [
                    (b"(entry ", e.agent as i64),
                    (b" ", e.unit as i64),
                    (b" ", e.number as i64),
                    (b" ", e.cents),
                ];
                push_line(out, &parts, b")\n");
            }
            push_line(out, &[(b"(entry 0 0 0 ", income)], b")\n");
            push_line(out, &[(b"(settled (income ", income), (b") (residue ", residue)], b"))\n");
        }
    }
}

fn answer_line(out: &mut Vec<u8>, exchange: &mut Exchange, line: &[u8]) {
    let call = if line.len() <= LONGEST_LINE { forms::read(line) } else { None };
    match call.ok_or(14).and_then(|call| exchange.make(call)) {
        Ok(answer) => push_answer(out, exchange, answer),
        Err(number) => push_line(out, &[(b"(no ", number as i64)], b")\n"),
    }
}

/// Reads the next line without its newline, but of a long one no more than shows that it is too long; false at the end.
fn read_line(input: &mut impl BufRead, line: &mut Vec<u8>) -> io::Result<bool> {
    line.clear();
    let read = input.take(LONGEST_LINE as u64 + 1).read_until(b'\n', line)?;
    if line.last() == Some(&b'\n') {
        line.pop();
    } else if line.len() > LONGEST_LINE {
        input.skip_until(b'\n')?;
    }
    Ok(read > 0)
}

fn main() -> io::Result<()> {
    let mut input = BufReader::with_capacity(BUFFER, io::stdin().lock());
    let mut output = io::stdout().lock();
    let mut out = Vec::with_capacity(2 * BUFFER);
    let mut line = Vec::with_capacity(LONGEST_LINE + 1);
    let mut exchange = Exchange::new();
    while read_line(&mut input, &mut line)? {
        answer_line(&mut out, &mut exchange, &line);
        if out.len() >= BUFFER {
            output.write_all(&out)?;
            out.clear();
        }
    }
    output.write_all(&out)?;
    output.flush()
}

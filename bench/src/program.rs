//! The expert program: the watch's own program over the expert's engine. It reads the file `table` and events from standard input,
//! with 64 rows and depth 40, and writes the same lines.
//!
//! Assumed: the file is a table.

use crate::expert::Expert;
use std::io::{Read, Write};

fn put_number(out: &mut Vec<u8>, mut x: u64) {
    let mut digits = [0; 20];
    let mut at = 20;
    loop {
        at -= 1;
        digits[at] = b'0' + (x % 10) as u8;
        x /= 10;
        if x == 0 {
            break;
        }
    }
    out.extend_from_slice(&digits[at..]);
}

fn put_line(out: &mut Vec<u8>, parts: &[(&[u8], u64)], end: &[u8]) {
    for &(text, x) in parts {
        out.extend_from_slice(text);
        put_number(out, x);
    }
    out.extend_from_slice(end);
}

/// The program. What was reported is written out before more input is waited for.
pub fn run() -> std::io::Result<()> {
    let mut expert = Expert::new(&std::fs::read("table")?, 64, 40);
    let mut input = std::io::stdin().lock();
    let mut output = std::io::stdout().lock();
    let mut block = vec![0; 65536];
    let mut out = Vec::with_capacity(131_072);
    let mut reports = [0; 65];
    let mut events = 0;
    out.extend_from_slice(b"event verdict position\n");
    loop {
        output.write_all(&out)?;
        output.flush()?;
        out.clear();
        let size = input.read(&mut block)?;
        if size == 0 {
            put_line(&mut out, &[(b"cut ", events), (b" events ", expert.positions as u64)], b" positions\n");
            return output.write_all(&out);
        }
        for &byte in &block[..size] {
            match expert.event(byte, &mut reports) {
                Err(number) => {
                    put_line(&mut out, &[(b"refused ", number), (b" at ", events + 1)], b"\n");
                    return output.write_all(&out);
                }
                Ok(told) => {
                    events += 1;
                    for &report in &reports[..told] {
                        let verdict: &[u8] = if report % 2 == 1 { b" selected " } else { b" failed " };
                        put_line(&mut out, &[(b"", events), (verdict, report as u64 / 2)], b"\n");
                    }
                }
            }
            if expert.finished {
                put_line(&mut out, &[(b"end ", events), (b" events ", expert.positions as u64)], b" positions\n");
                return output.write_all(&out);
            }
            if out.len() > 120_000 {
                output.write_all(&out)?;
                out.clear();
            }
        }
    }
}

//! The same work in plain Rust over std: read, cut into lines, parse `route add PREFIX RESULT`.
use std::io::{self, BufRead};

fn number(word: &[u8], most: u64) -> Option<u64> {
    if word.is_empty() || (word.len() > 1 && word[0] == b'0') {
        return None;
    }
    let mut value: u64 = 0;
    for &digit in word {
        if !digit.is_ascii_digit() {
            return None;
        }
        value = value.checked_mul(10)?.checked_add(u64::from(digit - b'0'))?;
        if value > most {
            return None;
        }
    }
    Some(value)
}

fn address(word: &[u8]) -> Option<u32> {
    let mut parts = word.split(|&byte| byte == b'.');
    let mut value = 0;
    for _ in 0..4 {
        value = value << 8 | number(parts.next()?, 255)? as u32;
    }
    if parts.next().is_some() {
        return None;
    }
    Some(value)
}

fn prefix(word: &[u8]) -> Option<(u32, u8)> {
    let slash = word.iter().position(|&byte| byte == b'/')?;
    let base = address(&word[..slash])?;
    let length = number(&word[slash + 1..], 32)? as u8;
    let host = if length == 0 { u32::MAX } else { (1u64 << (32 - length)) as u32 - 1 };
    if base & host != 0 {
        return None;
    }
    Some((base, length))
}

fn is_addition(line: &[u8]) -> Option<bool> {
    let mut words = line.split(|&byte| byte == b' ' || byte == b'\t' || byte == b'\r').filter(|word| !word.is_empty());
    match words.next() {
        None => return Some(false),
        Some(first) if first[0] == b'#' => return Some(false),
        Some(b"route") => {}
        Some(_) => return None,
    }
    if words.next()? != b"add" {
        return None;
    }
    let _prefix = prefix(words.next()?)?;
    let _result = number(words.next()?, u64::from(u32::MAX))?;
    if words.next().is_some() {
        return None;
    }
    Some(true)
}

fn main() {
    let mut input = io::stdin().lock();
    let mut line = Vec::new();
    let mut count = 0u64;
    let mut total = 0usize;
    loop {
        line.clear();
        let taken = input.read_until(b'\n', &mut line).unwrap();
        if taken == 0 {
            break;
        }
        total += taken;
        if line.last() == Some(&b'\n') {
            line.pop();
        }
        if total > 16_777_216 || line.len() > 512 {
            break;
        }
        if !line.iter().all(|&byte| (32..127).contains(&byte) || byte == b'\t' || byte == b'\r') {
            break;
        }
        match is_addition(&line) {
            Some(true) => count += 1,
            Some(false) => {}
            None => break,
        }
    }
    println!("{count} additions");
}

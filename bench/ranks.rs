//! The exchanges of a line in plain Rust: reads the claims of a line's rights, and then pairs of a
//! receding and a rising right; prints how many pieces the line has, and the milliseconds.
use std::io::Read;
use std::time::Instant;

type Piece = (usize, u64);

fn add(pieces: &mut Vec<Piece>, right: usize, cents: u64) {
    match pieces.last_mut() {
        _ if cents == 0 => {}
        Some(last) if last.0 == right => last.1 += cents,
        _ => pieces.push((right, cents)),
    }
}

fn exchange(pieces: &[Piece], into: &mut Vec<Piece>, recede: usize, rise: usize) {
    into.clear();
    let mut left: u64 = pieces.iter().filter(|p| p.0 == rise).map(|p| p.1).sum();
    for &(right, cents) in pieces {
        if right == recede || right == rise {
            let rising = left.min(cents);
            add(into, rise, rising);
            add(into, recede, cents - rising);
            left -= rising;
        } else {
            add(into, right, cents);
        }
    }
}

fn main() {
    let mut text = String::new();
    std::io::stdin().read_to_string(&mut text).unwrap();
    let mut lines = text.lines();
    let claims = lines.next().unwrap().split(' ').map(|n| n.parse().unwrap());
    let mut pieces: Vec<Piece> = claims.enumerate().collect();
    let swaps: Vec<(usize, usize)> = lines
        .map(|line| line.split_once(' ').unwrap())
        .map(|(x, y)| (x.parse().unwrap(), y.parse().unwrap()))
        .collect();
    let start = Instant::now();
    let mut spare = Vec::new();
    for (recede, rise) in swaps {
        exchange(&pieces, &mut spare, recede, rise);
        std::mem::swap(&mut pieces, &mut spare);
    }
    println!("{} {}", pieces.len(), start.elapsed().as_millis());
}

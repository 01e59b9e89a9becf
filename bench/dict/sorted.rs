// A sorted array of words with binary search: the same words, the same scattered look-ups.
use std::io::Read;

extern "C" {
    fn clock() -> i64;
}

// Processor time in nanoseconds.
fn now() -> i64 {
    unsafe { clock() * 1000 }
}

fn main() {
    let mut text = Vec::new();
    std::io::stdin().read_to_end(&mut text).unwrap();
    let words: Vec<Vec<u8>> = text.split(|b| *b == b'\n').filter(|w| !w.is_empty()).map(|w| w.to_vec()).collect();
    let start = now();
    // One block of bytes and an array of (place, frequency, list place, list bytes).
    let mut bytes = Vec::new();
    let mut rows: Vec<(u32, u32, u32, u32)> = Vec::new();
    let mut at = 0u32;
    for word in &words {
        rows.push((bytes.len() as u32, 1 + at % 100, at, 9));
        bytes.extend_from_slice(word);
        at = at.wrapping_add(9);
    }
    rows.push((bytes.len() as u32, 0, 0, 0));
    let build = now() - start;
    println!("words {} bytes {} build_ns {}", words.len(), bytes.len() + 16 * rows.len(), build);
    let n = words.len();
    let start = now();
    let mut found = 0u64;
    let mut i = 0usize;
    for _ in 0..n {
        i = (i + 7919) % n;
        let word = &words[i][..];
        let (mut low, mut high) = (0usize, n);
        while low < high {
            let middle = low + (high - low) / 2;
            let term = &bytes[rows[middle].0 as usize..rows[middle + 1].0 as usize];
            if term < word { low = middle + 1 } else { high = middle }
        }
        if low < n && &bytes[rows[low].0 as usize..rows[low + 1].0 as usize] == word {
            found += rows[low].1 as u64;
        }
    }
    println!("look_up_ns {} sum {}", now() - start, found);
}

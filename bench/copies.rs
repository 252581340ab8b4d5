// Copies articles as the relay stores them, and nothing else: copies OCTETS COUNT.
//
// So many articles of so many octets, each of which lies in memory of its own, are copied into a
// ring of 65,536 blocks of 512, at most 480 octets to a block, as many as the relay's buffers have
// in relay.py; each message-id is put into a map with the place of the article's first block. It
// prints the seconds that this took. What the relay does besides (reading lines, judging, heads of
// blocks, replies, claims) is not done here.
use std::collections::HashMap;
use std::time::Instant;

const BLOCKS: usize = 65_536;
const BLOCK: usize = 512;
const CHUNK: usize = 480;

fn main() {
    let words: Vec<usize> = std::env::args().skip(1).map(|word| word.parse().unwrap()).collect();
    let (octets, count) = (words[0], words[1]);
    let articles: Vec<(String, Vec<u8>)> = (0..count)
        .map(|number| (format!("<{number}@x>"), vec![number as u8; octets]))
        .collect();
    let mut ring = vec![[1u8; BLOCK]; BLOCKS];
    let mut places = HashMap::new();
    let mut head = 0;
    let start = Instant::now();
    for (id, text) in &articles {
        places.insert(id.clone(), head);
        for chunk in text.chunks(CHUNK) {
            ring[head][..chunk.len()].copy_from_slice(chunk);
            head = (head + 1) % BLOCKS;
        }
    }
    let took = start.elapsed().as_secs_f64();
    // What was copied is asked for so that no copying can be left out.
    let sum: u64 = ring.iter().flatten().map(|octet| u64::from(*octet)).sum();
    assert!(sum > 0 && places.len() == count);
    println!("{took:.6}");
}

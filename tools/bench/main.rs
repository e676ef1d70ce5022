//! The queue and the interval table beside Rust's heap, whose text `run` puts into heap.rs, and HashMap.
use std::cmp::{Ordering, Reverse};
use std::collections::HashMap;
use std::hint::black_box;
use std::time::Instant;
include!("heap.rs");

type Row = [u64; 2];
type Key = [u32; 2];

extern "C" {
    fn bench_push(rows: *mut Row, n: usize, len: u32, card: u32, key: u64) -> u32;
    fn bench_peek(rows: *const Row, n: usize, len: u32) -> u32;
    fn bench_change(rows: *mut Row, n: usize, len: u32, key: u64);
    fn bench_pop(rows: *mut Row, n: usize, len: u32) -> u32;
    fn bench_clear(intervals: *mut f32, n: usize);
    fn bench_use(keys: *mut Key, k: usize, intervals: *mut f32, n: usize, s: u32, r: u32, fresh: f32) -> f32;
}

fn next(state: &mut u64) -> u64 {
    *state = state.wrapping_mul(6364136223846793005).wrapping_add(1442695040888963407);
    *state >> 33
}

struct Start {
    day: i32,
    new: bool,
    priority: i32,
}

fn starts(cards: usize) -> Vec<Start> {
    let mut state = 7;
    (0..cards)
        .map(|_| Start {
            day: (next(&mut state) % 3) as i32,
            new: next(&mut state) % 8 == 0,
            priority: (100 + next(&mut state) % 900) as i32,
        })
        .collect()
}

fn packed(s: &Start) -> u64 {
    ((s.day as u64) << 33) + ((s.new as u64) << 32) + (s.priority as i64 + (1 << 31)) as u64
}

#[inline(never)]
fn change(queue: &mut CardPriorityQueue, card: usize, priority: CardPriority) {
    queue.change_priority(card, priority);
}

#[inline(never)]
fn peek(queue: &CardPriorityQueue) -> Option<usize> {
    queue.peek_index()
}

// The first card is put off to the next day, `turns` times; then all leave.
fn rust_heap(cards: usize, turns: usize) -> (f64, u64) {
    let starts = starts(cards);
    let mut queue = CardPriorityQueue::with_capacity(cards);
    for (i, s) in starts.iter().enumerate() {
        queue.push(i, Reverse((s.day, s.new, s.priority)));
    }
    let mut sum = 0u64;
    let begin = Instant::now();
    for _ in 0..turns {
        let card = peek(&queue).unwrap();
        let Reverse((day, new, priority)) = queue.priorities[card];
        sum = sum.wrapping_mul(31).wrapping_add(card as u64);
        change(&mut queue, card, Reverse((day + 1, new, priority)));
    }
    let time = begin.elapsed().as_secs_f64();
    while let Some(card) = queue.peek_index() {
        sum = sum.wrapping_mul(31).wrapping_add(card as u64);
        queue.pop();
    }
    (time / turns as f64 * 1e9, sum)
}

fn rattle_heap(cards: usize, turns: usize) -> (f64, u64) {
    let starts = starts(cards);
    let mut rows = vec![[0u64; 2]; cards];
    let (p, n) = (rows.as_mut_ptr(), rows.len());
    let mut len = 0;
    let mut sum = 0u64;
    unsafe {
        for (i, s) in starts.iter().enumerate() {
            len = bench_push(p, n, len, i as u32, packed(s));
        }
        let begin = Instant::now();
        for _ in 0..turns {
            let card = bench_peek(p, n, len);
            let key = (*p)[0];
            sum = sum.wrapping_mul(31).wrapping_add(card as u64);
            bench_change(p, n, len, key + (1 << 33));
        }
        let time = begin.elapsed().as_secs_f64();
        while len > 0 {
            sum = sum.wrapping_mul(31).wrapping_add(bench_peek(p, n, len) as u64);
            len = bench_pop(p, n, len);
        }
        (time / turns as f64 * 1e9, sum)
    }
}

// 60,000 lookups of 10,000 keys with one desired retention: the first of each key enters it.
fn lookups() -> Vec<Key> {
    let mut state = 11;
    let keys: Vec<Key> = (0..10000).map(|i| [(i as i32 - 3000) as u32, 1800]).collect();
    (0..60000).map(|i| if i < 10000 { keys[i * 7919 % 10000] } else { keys[(next(&mut state) % 10000) as usize] }).collect()
}

fn hash_map(keys: &[Key], map: &mut HashMap<Key, f32>) -> (f64, f64) {
    let begin = Instant::now();
    map.clear();
    let mut sum = 0.0;
    for (i, k) in keys.iter().enumerate() {
        let v = match map.get(k) {
            Some(v) => *v,
            None => {
                map.insert(*k, 1.0 + (i % 100) as f32);
                1.0 + (i % 100) as f32
            }
        };
        sum += v as f64;
    }
    (begin.elapsed().as_secs_f64() * 1e3, black_box(sum))
}

fn table(keys: &[Key], rows: &mut [Key], intervals: &mut [f32]) -> (f64, f64) {
    let begin = Instant::now();
    let mut sum = 0.0;
    unsafe {
        bench_clear(intervals.as_mut_ptr(), intervals.len());
        for (i, k) in keys.iter().enumerate() {
            sum += bench_use(rows.as_mut_ptr(), rows.len(), intervals.as_mut_ptr(), intervals.len(), k[0], k[1], 1.0 + (i % 100) as f32) as f64;
        }
    }
    (begin.elapsed().as_secs_f64() * 1e3, black_box(sum))
}

fn least<T>(runs: usize, mut one: impl FnMut() -> (f64, T)) -> (f64, T) {
    let mut best = one();
    for _ in 1..runs {
        let next = one();
        if next.0 < best.0 {
            best = next;
        }
    }
    best
}

fn main() {
    for (cards, turns) in [(4000, 1_000_000), (65536, 1_000_000)] {
        let rust = least(9, || rust_heap(cards, turns));
        let rattle = least(9, || rattle_heap(cards, turns));
        assert_eq!(rust.1, rattle.1, "another order of service");
        println!("front change, {cards} cards: Rust {:.1} ns, Rattle {:.1} ns, ratio {:.2}", rust.0, rattle.0, rattle.0 / rust.0);
    }
    let keys = lookups();
    let mut map = HashMap::new();
    let rust = least(15, || hash_map(&keys, &mut map));
    for n in [10000, 12000, 16384, 32768] {
        let mut rows = vec![[0u32; 2]; n];
        let mut intervals = vec![0f32; n];
        let rattle = least(15, || table(&keys, &mut rows, &mut intervals));
        assert_eq!(rust.1, rattle.1, "another interval");
        println!("60,000 lookups, 10,000 keys, {n} places: HashMap {:.2} ms, Rattle {:.2} ms, ratio {:.2}", rust.0, rattle.0, rattle.0 / rust.0);
    }
}

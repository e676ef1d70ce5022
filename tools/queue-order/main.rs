//! The operations of the program `queue_order` on the heap of fsrs-rs, whose text `run` puts into heap.rs.
use std::cmp::{Ordering, Reverse};
include!("heap.rs");

fn next(state: u64) -> u64 {
    (state * 1103515245 + 12345) % 2147483648
}

fn key(v: u64) -> CardPriority {
    let difficulty: f32 = if v / 6 % 2 == 1 { 5.5 } else { -1.25 };
    Reverse(((v % 3) as i32, v / 3 % 2 == 1, (difficulty * 100.0) as i32))
}

fn pop(queue: &mut CardPriorityQueue) {
    if let Some(card) = queue.peek_index() {
        println!("pop {card}");
        queue.pop();
    }
}

fn main() {
    let mut queue = CardPriorityQueue::with_capacity(64);
    let mut state = 1;
    for _ in 0..6000 {
        let kind = next(state);
        let card = next(kind);
        state = next(card);
        let c = (card / 65536 % 64) as usize;
        match kind / 65536 % 4 {
            0 | 1 if queue.active[c] => {}
            0 | 1 => queue.push(c, key(state / 65536)),
            2 => pop(&mut queue),
            _ => {
                if let Some(card) = queue.peek_index() {
                    println!("change {card}");
                    queue.change_priority(card, key(state / 65536));
                }
            }
        }
    }
    for _ in 0..64 {
        pop(&mut queue);
    }
}

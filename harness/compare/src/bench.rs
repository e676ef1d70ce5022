//! Runs of the default configuration, side by side in one process and in turns: the least time of each. The usual rate is
//! 4,000 new cards over 365 days.
use crate::cases::usual;
use crate::lent::{Call, Lists};
use std::time::Instant;

/// Cards and days.
const SHAPES: [(u32, u32); 7] = [(100, 100), (1000, 365), (4000, 365), (65_536, 365), (1000, 3650), (4000, 3650), (20, 36_500)];

#[repr(C)]
struct Time {
    seconds: i64,
    nanoseconds: i64,
}

unsafe extern "C" {
    fn clock_gettime(clock: i32, time: *mut Time) -> i32;
}

/// What this thread has had of a processor, in ms: other work on the machine adds little to it.
fn spent() -> f64 {
    const THREAD_CPUTIME: i32 = 3;
    let mut time = Time { seconds: 0, nanoseconds: 0 };
    assert!(unsafe { clock_gettime(THREAD_CPUTIME, &mut time) } == 0);
    time.seconds as f64 * 1e3 + time.nanoseconds as f64 / 1e6
}

fn timed(run: &mut dyn FnMut()) -> f64 {
    let start = spent();
    run();
    spent() - start
}

/// The port's run over lists that are kept from one run to the next.
fn port(call: &Call) -> impl FnMut() {
    let mut lists = Lists::of(call);
    move || {
        let answer = lists.simulate(call);
        assert!(answer[0] == 0, "the port refused the usual case: {answer:?}");
    }
}

fn line(name: &str, time: f64, published: f64) {
    println!("  {name:<44} {time:>8.1} ms {:>6.2}", time / published);
}

/// A call of each elementary function, beside the platform's.
fn calls(rounds: u64) {
    let mut words = crate::generate::Words::new(5);
    let x: Vec<f32> = (0..65_536).map(|_| words.scaled(1e-4, 1e9)).collect();
    let y: Vec<f32> = (0..65_536).map(|_| words.between(-4.0, 1.0)).collect();
    let e: Vec<f32> = (0..65_536).map(|_| words.between(-15.0, 11.0)).collect();
    let least = |f: &dyn Fn(usize) -> f32| {
        let mut best = f64::MAX;
        for _ in 0..3 * rounds {
            let start = Instant::now();
            let sum: f32 = (0..65_536).map(f).sum();
            std::hint::black_box(sum);
            best = best.min(start.elapsed().as_secs_f64() * 1e9 / 65_536.0);
        }
        best
    };
    for (name, a, b) in [
        ("exp", least(&|i| crate::port::drill_exp(e[i])), least(&|i| e[i].exp())),
        ("ln", least(&|i| crate::port::drill_ln(x[i])), least(&|i| x[i].ln())),
        ("powf", least(&|i| crate::port::drill_powf(x[i], y[i])), least(&|i| x[i].powf(y[i]))),
    ] {
        println!("  {name:<44} {a:>8.1} ns, the platform's {b:.1} ns, ratio {:.2}", a / b);
    }
}

fn least(rounds: u64, run: &mut dyn FnMut()) -> f64 {
    (0..rounds).map(|_| timed(run)).fold(f64::MAX, f64::min)
}

/// The port alone, for a profile.
pub fn port_alone(rounds: u64) {
    let call = Call::exact("the usual rate", usual(4000, 365));
    println!("bench: the port alone {:.1} ms, least of {rounds}", least(rounds, &mut port(&call)));
}

/// The port alone with interval tables of some lengths: near multiples of 2,531.4, and others.
pub fn tables(rounds: u64) {
    for places in [7594, 7700, 10_126, 10_200, 16_384, 40_000] {
        let mut c = usual(4000, 365);
        c.places = places;
        let call = Call::exact("the usual rate", c);
        println!("  {places:>6} places {:>8.1} ms, least of {rounds}", least(rounds, &mut port(&call)));
    }
}

/// The port, the published and the hoisted Rust at each shape, and the ratios of the port to both.
fn shapes(rounds: u64) {
    println!(
        "bench: thread time in ms, least of some rounds: the port, the published Rust, the hoisted Rust; port to published, port to hoisted"
    );
    for (cards, days) in SHAPES {
        let call = Call::exact("a shape", usual(cards, days));
        let c = &call.case;
        let mut times = [f64::MAX; 3];
        let mut port = port(&call);
        let size = cards as u64 * days as u64;
        for _ in 0..rounds.max(rounds * 1_460_000 / size).min(20 * rounds) {
            times[0] = times[0].min(timed(&mut port));
            times[1] = times[1].min(timed(&mut || drop(oracle::published::simulation::probe::run(c).unwrap())));
            times[2] = times[2].min(timed(&mut || drop(oracle::hoisted::simulation::probe::run(c).unwrap())));
        }
        let [a, b, h] = times;
        println!("  {cards:>6} cards x {days:>6} days {a:>9.3} {b:>9.3} {h:>9.3} {:>6.2} {:>6.2}", a / b, a / h);
    }
}

pub fn main(rounds: u64) {
    let call = Call::exact("the usual rate", usual(4000, 365));
    let c = &call.case;
    let mut times = [f64::MAX; 3];
    let mut port = port(&call);
    for _ in 0..rounds {
        times[0] = times[0].min(timed(&mut || drop(oracle::published::simulation::probe::run(c).unwrap())));
        times[1] = times[1].min(timed(&mut || drop(oracle::ours::simulation::probe::run(c).unwrap())));
        times[2] = times[2].min(timed(&mut port));
    }
    let t = oracle::trace::last();
    println!(
        "bench: 4,000 cards, 365 days, {} turns ({} learnings, {} reviews, {} puttings off, {} retirings), {} draws, {} keys; least of {rounds}",
        t.turns(),
        t.learned,
        t.reviewed,
        t.put_off,
        t.retired,
        t.drawn,
        t.table.len()
    );
    line("the Rust as published, platform's functions", times[0], times[0]);
    line("the Rust with the port's exp, ln, powf, draws", times[1], times[0]);
    line("the port", times[2], times[0]);
    calls(rounds);
    shapes(rounds);
}

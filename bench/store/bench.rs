// Pushes per second into the lists of a store, against a `Vec<Vec<u32>>`.
use std::hint::black_box;
use std::time::Instant;

unsafe extern "C" {
    fn store_bench_rounds(words: *mut u32, len: usize, last: usize, fill: u32, size: usize, pushes: u32, rounds: u32) -> u64;
    fn store_bench_touch(words: *mut u32, len: usize, last: usize, fill: u32, count: u32) -> u32;
    fn store_bench_moved(words: *mut u32, len: usize, last: usize, fill: u32, size: usize, pushes: u32, rounds: u32) -> usize;
}

fn grow(lists: &mut [Vec<u32>], last: usize, count: u32) -> u32 {
    let mut done = 0;
    let mut at = 0;
    for k in 0..count {
        lists[at].push(k);
        done += 1;
        at = if at < last { at + 1 } else { 0 };
    }
    done
}

#[inline(never)]
fn vec_rounds(last: usize, fill: u32, size: usize, pushes: u32, rounds: u32) -> u64 {
    let mut lists: Vec<Vec<u32>> = (0..=last).map(|_| Vec::new()).collect();
    grow(&mut lists, last, fill);
    let mut done = 0;
    for _ in 0..rounds {
        done += grow(&mut lists, last, pushes) as u64;
        for l in &mut lists {
            l.truncate(size);
        }
        black_box(&mut lists);
    }
    done
}

// The same five calls on vectors.
#[inline(never)]
fn vec_touch(last: usize, fill: u32, count: u32) -> u32 {
    let mut lists: Vec<Vec<u32>> = (0..=last).map(|_| Vec::new()).collect();
    grow(&mut lists, last, fill);
    let mut seen: u32 = 0;
    let mut at = 0;
    for k in 0..count {
        let l = &mut lists[at];
        let len = l.len();
        seen = seen.wrapping_add(l[len - 1]);
        l.push(k);
        l[len] = seen;
        l.truncate(len);
        at = if at < last { at + 1 } else { 0 };
    }
    seen
}

// The seconds that the rounds take beyond the filling, the least of several tries.
fn seconds(mut run: impl FnMut(u32) -> u64, rounds: u32) -> f64 {
    let mut best = f64::MAX;
    for _ in 0..5 {
        let a = Instant::now();
        black_box(run(0));
        let base = a.elapsed().as_secs_f64();
        let b = Instant::now();
        black_box(run(rounds));
        best = best.min(b.elapsed().as_secs_f64() - base);
    }
    best
}

fn main() {
    let words = 1usize << 22;
    let mut work = vec![0u32; words];
    // what the sum lets the lists hold beside the eighth that is kept free: a word and a quarter for each
    let most = (words / 2 - words / 16) * 4 / 5;
    println!("{:>6} {:>8} {:>14} {:>14} {:>7} {:>12}", "lists", "full", "store push/s", "Vec push/s", "ratio", "moved/push");
    let mut worst: f64 = 0.0;
    for lists in [1usize, 10, 1000] {
        for quarters in [1usize, 3] {
            // one list alone asks for half of its size again, and a half more, before it may grow
            let level = if lists == 1 { most * quarters / 4 * 5 / 12 } else { most * quarters / 4 * 8 / 10 };
            let size = level / lists;
            let fill = (size * lists) as u32;
            let pushes = (level / 8) as u32;
            let rounds = (20_000_000 / pushes).max(1);
            let last = lists - 1;
            let total = pushes as f64 * rounds as f64;
            let done = unsafe { store_bench_rounds(work.as_mut_ptr(), words, last, fill, size, pushes, rounds) };
            assert_eq!(done, pushes as u64 * rounds as u64, "a push was refused");
            let s = seconds(|r| unsafe { store_bench_rounds(work.as_mut_ptr(), words, last, fill, size, pushes, r) }, rounds);
            let v = seconds(|r| vec_rounds(last, fill, size, pushes, r), rounds);
            let moved = unsafe { store_bench_moved(work.as_mut_ptr(), words, last, fill, size, pushes, rounds) };
            worst = worst.max(s / v);
            println!("{:>6} {:>7}/4 {:>14.0} {:>14.0} {:>7.2} {:>12.3}", lists, quarters, total / s, total / v, s / v, moved as f64 / (total + fill as f64));
        }
    }
    println!("{:>6} {:>23} {:>14}", "lists", "store, five calls/s", "Vec");
    for lists in [1usize, 10, 1000] {
        let (last, fill) = (lists - 1, (100 * lists) as u32);
        let count = 20_000_000;
        let store = unsafe { store_bench_touch(work.as_mut_ptr(), words, last, fill, 1000) };
        assert_eq!(store, vec_touch(last, fill, 1000), "the store and the vectors differ");
        let s = seconds(|r| unsafe { store_bench_touch(work.as_mut_ptr(), words, last, fill, r) as u64 }, count);
        let v = seconds(|r| vec_touch(last, fill, r) as u64, count);
        println!("{:>6} {:>23.0} {:>14.0}", lists, count as f64 / s, count as f64 / v);
    }
    println!("worst ratio {worst:.2} (at most 4 is asked for)");
    if worst > 4.0 {
        std::process::exit(1);
    }
}

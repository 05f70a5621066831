//! One table: a row for each piece of work, a column for each side, and their ratio.
use std::time::Instant;

pub struct Side<'a> {
    run: Box<dyn FnMut() + 'a>,
}

impl<'a> Side<'a> {
    pub fn of(run: impl FnMut() + 'a) -> Side<'a> {
        Side { run: Box::new(run) }
    }

    fn batch(&mut self, times: u32) -> f64 {
        let start = Instant::now();
        for _ in 0..times {
            (self.run)();
        }
        start.elapsed().as_secs_f64() * 1e9 / times as f64
    }
}

pub fn head() {
    println!("{:<58} {:>10} {:>10} {:>7}", "", "Rust ns", "Rattle ns", "ratio");
}

pub fn title(what: &str) {
    println!("{what}");
}

pub fn row(name: &str, sides: &mut [Side]) {
    row_per(name, 1.0, sides)
}

/// The best of many batches of each side, the sides taking turns, so that both meet the same machine.
pub fn row_per(name: &str, parts: f64, sides: &mut [Side]) {
    const BATCHES: usize = 40;
    let once = sides[0].batch(3).max(1.0);
    let times = (1_000_000.0 / once).clamp(1.0, 20_000.0) as u32;
    let mut best = vec![f64::MAX; sides.len()];
    for _ in 0..BATCHES {
        for (k, side) in sides.iter_mut().enumerate() {
            best[k] = best[k].min(side.batch(times) / parts);
        }
    }
    let rattle = best.get(1).map_or("-".into(), |t| format!("{t:.1}"));
    let ratio = best.get(1).map_or("-".into(), |t| format!("{:.2}", t / best[0]));
    println!("  {name:<56} {:>10.1} {rattle:>10} {ratio:>7}", best[0]);
}

//! How many equations a proof's last line rests on, against how few still show the same: dropping each in turn.
use crate::calls::Calls;
use crate::plain::{self, Equations, Goal, Judgement, Reach, Reply, Workspace};
use crate::workloads::{self, Seed};

/// The goal follows from these equations.
fn follows(w: &Workspace, goal: Goal) -> bool {
    let mut height = [0; 64];
    let (c, v) = plain::solve(&w.terms, &w.equations, w.equations.count, &mut height);
    match goal {
        Goal::Clash => v == 8,
        Goal::Cycle => v != 0,
        Goal::Same(u, v) => c.table[u as usize] == c.table[v as usize],
        Goal::Below(u, v) => {
            let mut r = Reach::new();
            plain::search(&w.terms, &c.table, u, &mut r);
            r.level[c.table[v as usize] as usize] != 0
        }
    }
}

fn only(w: &Workspace, names: &[u16]) -> Workspace {
    let mut e = Equations::fresh();
    for k in 0..w.equations.count {
        if names.contains(&w.equations.name[k]) {
            e.put(w.equations.name[k], w.equations.left[k], w.equations.right[k]);
        }
    }
    Workspace { terms: w.terms, equations: e }
}

fn least(w: &Workspace, names: &[u16], goal: Goal) -> usize {
    let mut kept = names.to_vec();
    for &name in names {
        let fewer: Vec<u16> = kept.iter().copied().filter(|&x| x != name).collect();
        if follows(&only(w, &fewer), goal) {
            kept = fewer;
        }
    }
    kept.len()
}

#[derive(Default)]
pub struct Mean {
    proofs: usize,
    lines: usize,
    cited: usize,
    least: usize,
}

impl Mean {
    fn add(&mut self, w: &Workspace, bytes: &[u8], goal: Goal) {
        assert_eq!(plain::check(w, None, bytes, goal), Judgement::Passed);
        let names = plain::cited(bytes);
        self.proofs += 1;
        self.lines += bytes.len() / 8;
        self.cited += names.len();
        self.least += least(w, &names, goal);
    }

    fn print(&self, what: &str) {
        let n = self.proofs.max(1) as f64;
        println!(
            "  {what:<30} {:>7} proofs, {:>7.1} lines, {:>6.2} equations cited, {:>6.2} needed, ratio {:.2}",
            self.proofs,
            self.lines as f64 / n,
            self.cited as f64 / n,
            self.least as f64 / n,
            self.cited as f64 / self.least.max(1) as f64
        );
    }
}

pub fn rows(side: Calls) {
    println!("equations that the last line rests on, over random workspaces of 24 nodes and 12 equations");
    let mut seed = Seed(0x1234_5678_9abc_def1);
    let mut buf = vec![0u8; 65536];
    let [mut same, mut below, mut clash, mut cycle] = [(); 4].map(|_| Mean::default());
    for _ in 0..300 {
        let w = workloads::random_workspace(&mut seed, 24, 12);
        for _ in 0..20 {
            let (u, v) = (seed.next(24) as u16, seed.next(24) as u16);
            if u == v {
                continue;
            }
            match side.compare(&w, u, v, &mut buf).reply() {
                Reply::Same(n) => same.add(&w, &buf[..8 * n], Goal::Same(u as u8, v as u8)),
                Reply::Below(n) => below.add(&w, &buf[..8 * n], Goal::Below(u as u8, v as u8)),
                _ => {}
            }
            let reply = side.equate(&w, 7, u, v, &mut buf).reply();
            let mut both = w;
            both.equations.put(7, u as u8, v as u8);
            match reply {
                Reply::Refused(8, n) => clash.add(&both, &buf[..8 * n], Goal::Clash),
                Reply::Refused(9, n) => cycle.add(&both, &buf[..8 * n], Goal::Cycle),
                _ => {}
            }
        }
    }
    same.print("same");
    below.print("below");
    clash.print("refused 8");
    cycle.print("refused 9");
}

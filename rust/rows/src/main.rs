//! Rows in a lent buffer beside the `HashMap` that sema.rs keeps arrays in: insertions and lookups, in one run.
//!
//! `PATSKNELI_BENCH=1 cargo run --release -p rows` makes the archive of crate `bench_rows_c` and prints a table.

fn main() {
    #[cfg(rows)]
    rows::run();
    #[cfg(not(rows))]
    println!("no archive: run with PATSKNELI_BENCH=1 where the toolchain `rt` is");
}

#[cfg(rows)]
mod rows {
    use std::collections::HashMap;
    use std::hint::black_box;
    use std::time::Instant;

    unsafe extern "C" {
        fn measure_insert(
            b: *mut u32,
            words: usize,
            count: usize,
            row: *const u32,
            n: usize,
        ) -> usize;
        fn measure_find(b: *const u32, words: usize, count: usize, k: u64) -> usize;
    }

    /// The original's scope, as sema.rs has it.
    #[derive(Clone, PartialEq, Eq, Hash)]
    enum Scope {
        Module,
        Proc(String),
    }

    /// As much as sema.rs keeps of an array.
    #[allow(dead_code)]
    struct ArrayInfo {
        rank: usize,
        line: u32,
        lowered: bool,
    }

    const ROUNDS: usize = 15;

    /// The best of some rounds, in nanoseconds for each of n.
    fn best(n: usize, mut f: impl FnMut() -> usize) -> f64 {
        let mut best = f64::MAX;
        for _ in 0..ROUNDS {
            let t = Instant::now();
            for _ in 0..5 {
                black_box(f());
            }
            best = best.min(t.elapsed().as_secs_f64() / 5.0);
        }
        best * 1e9 / n as f64
    }

    /// The i-th array: half of the names in the module, half in a procedure.
    fn row(i: u32) -> [u32; 6] {
        let scope = if i.is_multiple_of(2) { 0 } else { 7 };
        [(133 << 24) | i, scope, 1, i + 1, 0, 0]
    }

    fn key(i: u32) -> u64 {
        let r = row(i);
        (u64::from(r[0]) << 32) | u64::from(r[1])
    }

    fn scope(i: u32) -> Scope {
        if i.is_multiple_of(2) {
            Scope::Module
        } else {
            Scope::Proc("LOGSCAN".to_string())
        }
    }

    fn shuffled(n: u32) -> Vec<u32> {
        let mut order: Vec<u32> = (0..n).collect();
        let mut s = 12345u64;
        for i in (1..order.len()).rev() {
            s = s
                .wrapping_mul(6364136223846793005)
                .wrapping_add(1442695040888963407);
            order.swap(i, (s >> 33) as usize % (i + 1));
        }
        order
    }

    fn fill(order: &[u32], buffer: &mut [u32]) -> usize {
        buffer.fill(0);
        let mut n = 0;
        for &i in order {
            let r = row(i);
            // the row and the buffer are lent for the call
            n = unsafe {
                measure_insert(buffer.as_mut_ptr(), buffer.len(), n, r.as_ptr(), r.len())
            };
        }
        n
    }

    fn map(order: &[u32], names: &[String]) -> HashMap<(Scope, String), ArrayInfo> {
        let mut m = HashMap::new();
        for &i in order {
            let info = ArrayInfo {
                rank: 1,
                line: i + 1,
                lowered: false,
            };
            m.insert((scope(i), names[i as usize].clone()), info);
        }
        m
    }

    pub fn run() {
        println!("| rows | order | insert: rows | insert: HashMap | find: rows | find: HashMap |");
        println!("|---|---|---|---|---|---|");
        for n in [64u32, 256, 1024, 2048] {
            let names: Vec<String> = (0..n).map(|i| format!("NAME{i:05}")).collect();
            let rising: Vec<u32> = (0..n).collect();
            let falling: Vec<u32> = (0..n).rev().collect();
            for (called, order) in [
                ("rising", &rising),
                ("random", &shuffled(n)),
                ("falling", &falling),
            ] {
                let size = n as usize;
                let mut buffer = vec![0u32; size * 6];
                let insert_rows = best(size, || fill(order, &mut buffer));
                let insert_map = best(size, || map(order, &names).len());
                assert_eq!(fill(order, &mut buffer), size);
                let held = map(order, &names);
                let find_rows = best(size, || {
                    let mut sum = 0;
                    for &i in order.iter() {
                        sum += unsafe { measure_find(buffer.as_ptr(), buffer.len(), size, key(i)) };
                    }
                    sum
                });
                // as `lookup_array` asks: a key made for the question
                let find_map = best(size, || {
                    let mut sum = 0;
                    for &i in order.iter() {
                        let k = (scope(i), names[i as usize].to_string());
                        sum += held[&k].line as usize;
                    }
                    sum
                });
                println!(
                    "| {n} | {called} | {insert_rows:.0} ns | {insert_map:.0} ns | {find_rows:.0} ns | {find_map:.0} ns |"
                );
            }
        }
    }
}

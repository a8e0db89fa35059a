//! Measures the layout judge on a term of 2,048 cells: the proved one, one written by hand, and a plain loop over the cells.
use std::hint::black_box;
use std::time::Instant;

unsafe extern "C" {
    fn layout_depth(cells: *const u64, count: usize) -> usize;
}

fn proved(cells: &[u64]) -> usize {
    unsafe { layout_depth(cells.as_ptr(), cells.len()) }
}

#[derive(Clone, Copy)]
struct Open {
    left: u16,
    above: u16,
    last: u16,
}

/// The layout judge as one would write it without proofs.
fn by_hand(cells: &[u64]) -> usize {
    let mut walk = [Open { left: 0, above: 0, last: 0 }; 256];
    let (mut height, mut deepest, mut ended) = (0usize, 0usize, false);
    for (i, &c) in cells.iter().enumerate() {
        let (kind, binder, children) = (c >> 58, (c >> 57) & 1, (c >> 48) & 511);
        if ended || i == 2048 || height >= 256 || (c >> 32) & 0xffff != 0 || (binder == 1 && children == 0) {
            return 0;
        }
        let above = match height {
            0 => 0,
            h if walk[h - 1].left == 1 => walk[h - 1].last,
            h => walk[h - 1].above,
        };
        if kind == 0 && (binder != 0 || children != 0 || (c & 0xffff_ffff) >= above as u64 + 1024) {
            return 0;
        }
        deepest = deepest.max(height + 1);
        if children > 0 {
            walk[height] = Open { left: children as u16, above, last: above + binder as u16 };
            height += 1;
        } else {
            while height > 0 && walk[height - 1].left == 1 {
                height -= 1;
            }
            if height == 0 {
                ended = true;
            } else {
                walk[height - 1].left -= 1;
            }
        }
    }
    if ended { deepest } else { 0 }
}

/// A plain loop over the same cells.
fn plain(cells: &[u64]) -> usize {
    cells.iter().fold(0u64, |a, &c| a.wrapping_add((c >> 48) & 511)) as usize
}

/// A term of 2,048 cells: branches under binders down to a depth of about 22.
fn term() -> Vec<u64> {
    fn fill(cells: &mut Vec<u64>, n: usize, binders: u64) {
        if n == 1 {
            return cells.push(binders / 2);
        }
        if n % 5 == 0 {
            cells.push(4 << 58 | 1 << 57 | 1 << 48);
            return fill(cells, n - 1, binders + 1);
        }
        if n == 2 {
            cells.push(11 << 58 | 1 << 48);
            return fill(cells, 1, binders);
        }
        cells.push(6 << 58 | 2 << 48);
        fill(cells, (n - 1) / 2, binders);
        fill(cells, n - 1 - (n - 1) / 2, binders);
    }
    let mut cells = Vec::new();
    fill(&mut cells, 2048, 0);
    cells
}

fn rate(name: &str, f: fn(&[u64]) -> usize, cells: &[u64]) -> f64 {
    let turns = 20_000;
    let mut best = f64::INFINITY;
    for _ in 0..5 {
        let start = Instant::now();
        for _ in 0..turns {
            black_box(f(black_box(cells)));
        }
        best = best.min(start.elapsed().as_secs_f64());
    }
    let rate = (cells.len() * turns) as f64 / best / 1e6;
    println!("{name}: {rate:.0} million cells a second");
    rate
}

fn main() {
    let cells = term();
    assert_eq!(cells.len(), 2048);
    assert_eq!(proved(&cells), by_hand(&cells));
    println!("a term of 2,048 cells, depth {}", proved(&cells));
    let ours = rate("proved layout judge", proved, &cells);
    let hand = rate("layout judge by hand", by_hand, &cells);
    let loop_ = rate("plain loop", plain, &cells);
    println!("by hand / proved {:.2}, plain loop / proved {:.2}", hand / ours, loop_ / ours);
}

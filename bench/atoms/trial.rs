//! The two programs in Rust that `atoms` times: the table of atoms over `AtomicU64`, by the same steps, and a hash map under
//! a lock.
//!
//! `table fresh THREADS ROUNDS ROW` and `lock fresh THREADS ROUNDS ROW` intern 16,384 texts for each thread, all different, `found`
//! the same 16,384 by each thread, and `hot` one text as often; all say how many texts a second that were. The table has 2 ^ ROW
//! buckets. `table new` makes a table of 1,048,576 slots for 64 engines.
use std::collections::HashMap;
use std::sync::Mutex;
use std::sync::atomic::{AtomicU64, Ordering::SeqCst};
use std::time::Instant;

const TEXTS: usize = 16384;
const FIXED: usize = 193;

struct Table {
    epoch: AtomicU64,
    atoms: Vec<AtomicU64>,
    links: Vec<AtomicU64>,
    heads: Vec<AtomicU64>,
    texts: Vec<AtomicU64>,
    buckets: u64,
}

fn words(count: usize, word: u64) -> Vec<AtomicU64> {
    (0..count).map(|_| AtomicU64::new(word)).collect()
}

fn hash(text: &[u8]) -> u64 {
    text.iter().fold(14_695_981_039_346_656_037, |hash: u64, byte| {
        (hash ^ *byte as u64).wrapping_mul(1_099_511_628_211)
    })
}

fn row_of(text: &[u8]) -> [u64; 32] {
    let mut row = [0; 32];
    row[0] = text.len() as u64;
    for (i, byte) in text.iter().enumerate() {
        row[1 + i / 8] |= (*byte as u64) << (8 * (i % 8));
    }
    row
}

impl Table {
    fn new(slots: usize, row: u32) -> Table {
        let table = Table {
            epoch: AtomicU64::new(0),
            atoms: words(slots, 0),
            links: words(slots, 0),
            heads: words(2 * slots.next_power_of_two() - 256, 0),
            texts: words(32 * slots, 0),
            buckets: 1 << row,
        };
        for slot in FIXED..256 {
            table.atoms[slot].store(1, SeqCst);
        }
        for slot in 0..FIXED {
            table.atoms[slot].store(7, SeqCst);
        }
        table
    }

    // The slot of a text, or nothing where another thread stepped in between.
    fn intern(&self, text: &[u8]) -> Option<u32> {
        let row = row_of(text);
        let hash = hash(text);
        let head = &self.heads[(hash % self.buckets) as usize];
        let word = head.load(SeqCst);
        let mut place = word % 2_097_152;
        while place != 0 {
            let slot = (place - 1) as usize;
            let words = &self.texts[32 * slot..32 * slot + 32];
            if words.iter().zip(&row).all(|(word, own)| word.load(SeqCst) == *own) {
                if self.atoms[slot].fetch_or(4, SeqCst) % 4 == 1 || head.load(SeqCst) >> 22 != word >> 22 {
                    return None;
                }
                return Some(slot as u32);
            }
            place = self.links[slot].load(SeqCst);
        }
        self.epoch.load(SeqCst);
        let slots = self.atoms.len();
        let from = (hash / self.buckets) as usize % slots;
        let slot = (0..slots).map(|i| (from + i) % slots).find(|slot| {
            self.atoms[*slot].compare_exchange(0, 1, SeqCst, SeqCst).is_ok()
        })?;
        for (own, word) in self.texts[32 * slot..32 * slot + 32].iter().zip(&row) {
            own.store(*word, SeqCst);
        }
        self.links[slot].store(word % 2_097_152, SeqCst);
        let new = slot as u64 + 1 + ((word >> 22) + 1 << 22);
        if head.compare_exchange(word, new, SeqCst, SeqCst).is_err() {
            self.atoms[slot].store(0, SeqCst);
            return None;
        }
        self.atoms[slot].store(7, SeqCst);
        Some(slot as u32)
    }
}

#[derive(Default)]
struct Lock {
    slots: Mutex<HashMap<String, u32>>,
}

impl Lock {
    fn intern(&self, text: &str) -> Option<u32> {
        let mut slots = self.slots.lock().unwrap();
        if let Some(slot) = slots.get(text) {
            return Some(*slot);
        }
        let slot = slots.len() as u32;
        slots.insert(text.to_string(), slot);
        Some(slot)
    }
}

fn texts(number: usize) -> Vec<String> {
    (0..TEXTS).map(|i| format!("atom_{number}_{i}")).collect()
}

fn intern_all(texts: &[String], rounds: usize, intern: &(dyn Fn(&str) -> Option<u32> + Sync)) -> u64 {
    let mut done = 0;
    for _ in 0..rounds {
        for text in texts {
            while intern(text).is_none() {}
            done += 1;
        }
    }
    done
}

fn speed(what: &str, threads: usize, rounds: usize, intern: &(dyn Fn(&str) -> Option<u32> + Sync)) {
    let sets: Vec<_> = (0..threads)
        .map(|i| match what {
            "fresh" => texts(i),
            "hot" => vec!["atom_0_77".to_string(); TEXTS],
            _ => texts(0),
        })
        .collect();
    if what != "fresh" {
        intern_all(&sets[0], 1, intern);
    }
    let start = Instant::now();
    let done: u64 = std::thread::scope(|scope| {
        let running: Vec<_> = sets.iter().map(|set| scope.spawn(|| intern_all(set, rounds, intern))).collect();
        running.into_iter().map(|thread| thread.join().unwrap()).sum()
    });
    println!("{}", done * 1_000_000 / (start.elapsed().as_micros() as u64 + 1));
}

fn main() {
    let words: Vec<String> = std::env::args().skip(1).collect();
    if words[1] == "new" {
        println!("{}", Table::new(1_048_576, 20).atoms.len());
        return;
    }
    let (threads, rounds) = (words[2].parse().unwrap(), words[3].parse().unwrap());
    let row = words[4].parse().unwrap();
    if words[0] == "table" {
        let table = Table::new(131_072, row);
        speed(&words[1], threads, rounds, &|text| table.intern(text.as_bytes()));
    } else {
        let lock = Lock::default();
        speed(&words[1], threads, rounds, &|text| lock.intern(text));
    }
}

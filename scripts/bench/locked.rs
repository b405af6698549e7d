//! What the line `calls N THREADS` of `crates/seat_cases` does, in plain Rust: threads share a store behind a mutex, with a
//! history of their calls. Run as `locked N THREADS`, it makes the same calls of a store in which a table's first commit
//! stands, and prints `calls N`. It stands beside that program to see how long both take (`scripts/bench/locked.sh`).

use std::collections::BTreeMap;
use std::sync::{Mutex, MutexGuard};
use std::{env, process, thread};

/// How many bytes are put under each name.
const BYTES: usize = 100;

/// The name of commit 0, and how many bytes it has.
const FIRST_COMMIT: (&str, usize) = ("_delta_log/00000000000000000000.json", 483);

/// A call that was made.
enum Call {
    List,
    Get(String),
    PutFile(String, bool),
}

/// A store, and the calls that were made of it, each with the number of its seat.
struct Book {
    objects: BTreeMap<String, Vec<u8>>,
    history: Vec<(u64, Call)>,
}

/// The lock round a book.
struct Hub {
    book: Mutex<Book>,
}

impl Hub {
    fn new() -> Hub {
        let (name, size) = FIRST_COMMIT;
        let objects = BTreeMap::from([(name.to_string(), vec![0; size])]);
        let history = Vec::new();
        let book = Mutex::new(Book { objects, history });
        Hub { book }
    }

    fn lock(&self) -> MutexGuard<'_, Book> {
        self.book.lock().expect("no thread panics")
    }

    /// All names that stand.
    fn list(&self, seat: u64) -> Vec<String> {
        let mut book = self.lock();
        book.history.push((seat, Call::List));
        book.objects.keys().cloned().collect()
    }

    /// A copy of the bytes under a name.
    fn get(&self, seat: u64, name: &str) -> Option<Vec<u8>> {
        let name = name.to_string();
        let mut book = self.lock();
        let found = book.objects.get(&name).cloned();
        book.history.push((seat, Call::Get(name)));
        found
    }

    /// Puts bytes under a name, unless it stands.
    fn put_file(&self, seat: u64, name: &str, bytes: Vec<u8>) -> bool {
        let name = name.to_string();
        let mut book = self.lock();
        let is_absent = !book.objects.contains_key(&name);
        if is_absent {
            book.objects.insert(name.clone(), bytes);
        }
        book.history.push((seat, Call::PutFile(name, is_absent)));
        is_absent
    }

    /// The calls of a thread: so many rounds of four, and a list at first and at last.
    fn make_rounds(&self, seat: u64, rounds: u64) {
        let mut told = self.list(seat).len();
        for round in 0..rounds {
            let name = format!("t{seat}-{round}");
            told += usize::from(self.put_file(seat, &name, vec![0; BYTES]));
            told += self.get(seat, &name).map_or(0, |bytes| bytes.len());
            told += self.get(seat, FIRST_COMMIT.0).map_or(0, |bytes| bytes.len());
            told += usize::from(self.get(seat, "absent").is_some());
        }
        told += self.list(seat).len();
        assert!(told >= (1 + BYTES + FIRST_COMMIT.1) * rounds as usize);
    }
}

/// How many calls the history has, and how many bytes the names in it.
fn weight(history: &[(u64, Call)]) -> (usize, usize) {
    let named = |call: &Call| match call {
        Call::List => 0,
        Call::Get(name) => name.len(),
        Call::PutFile(name, created) => name.len() + usize::from(*created),
    };
    (history.len(), history.iter().map(|(_, call)| named(call)).sum())
}

fn main() {
    let words: Vec<u64> = env::args().skip(1).filter_map(|word| word.parse().ok()).collect();
    let &[calls, threads @ 1..=64] = words.as_slice() else {
        eprintln!("usage: locked N THREADS");
        process::exit(2);
    };
    let rounds = calls / threads / 4;
    let hub = Hub::new();
    thread::scope(|scope| {
        for seat in 0..threads {
            let hub = &hub;
            scope.spawn(move || hub.make_rounds(seat, rounds));
        }
    });
    let (made, _) = weight(&hub.lock().history);
    assert_eq!(made as u64, threads * (4 * rounds + 2));
    println!("calls {calls}");
}

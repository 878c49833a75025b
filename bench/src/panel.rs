// What one panel costs beside one query on the same book, both through the
// static library of the crate panel_boundary, in this process.

use crate::book::record;
use crate::measure;
use std::hint::black_box;

extern "C" {
    /// Runs a journal from a fresh book and shows the panel of a principal.
    fn panel_of_journal(journal: *const u8, length: usize, principal: u8, words: *mut [u8; 8]) -> u8;
}

const REPS: usize = 200;
const ROUNDS: usize = 40;
/// Queries behind the book in one measurement.
const QUERIES: usize = 32;
/// A principal whose panel is refused once the form is tested.
const REFUSED: u8 = 16;

/// A book of 64 rows that no evaluation made: 16 queries, each of which
/// numbers a grant inside a grant inside a grant inside a grant.
fn book() -> Vec<u8> {
    let query = |k: u8| {
        let mut content = vec![1, 0, 0];
        (0..3).for_each(|_| content.extend([0, 0, 0, 1, 0, 0]));
        content.extend([0, 0, 0, 0, k, 0]);
        record(b"qu", &content)
    };
    (0..16).flat_map(query).collect()
}

fn once(journal: &[u8], principal: u8) -> f64 {
    let mut words = [0; 8];
    let start = measure::now();
    for _ in 0..REPS {
        let journal = black_box(journal);
        black_box(unsafe { panel_of_journal(journal.as_ptr(), journal.len(), principal, &mut words) });
    }
    (measure::now() - start) / REPS as f64
}

/// Seconds for a panel and for a query. A query is one more qu behind the
/// book. A panel is its words, which is what it takes beyond a refused one,
/// and the test of the form, for which a whole query stands.
pub fn measure() -> (f64, f64) {
    let book = book();
    let more = [book.clone(), record(b"qu", &[2, 2, 2]).repeat(QUERIES)].concat();
    let found = measure::best(
        ROUNDS,
        &mut [
            &mut || once(&book, 0),
            &mut || once(&book, REFUSED),
            &mut || once(&more, REFUSED),
        ],
    );
    let query = (found[2] - found[1]) / QUERIES as f64;
    (query + (found[0] - found[1]).max(0.0), query)
}

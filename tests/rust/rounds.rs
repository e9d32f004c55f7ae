//! The words that a test is started with, [published] SEED AMOUNT [ROUND], and what is said where a round fails.

use std::sync::atomic::{AtomicU64, Ordering::Relaxed};

static ROUND: AtomicU64 = AtomicU64::new(0);

pub struct Words {
    /// Boards with the published block are to be tried, not the house's.
    pub published: bool,
    pub seed: u64,
    /// How much is to be tried, in all.
    pub wanted: u64,
    first: u64,
}

fn number(words: &[String], at: usize, otherwise: u64) -> u64 {
    words.get(at).map_or(otherwise, |word| word.parse().expect("a number"))
}

impl Words {
    /// A failure from now on also prints the seed, the round and how to repeat it. Where nothing else is said, so much is
    /// wanted; of the published boards, whose calls take longer, a tenth of it.
    pub fn read(name: &'static str, wanted: u64) -> Words {
        let mut words: Vec<String> = std::env::args().collect();
        let published = words.get(1).is_some_and(|word| word == "published");
        let (name, wanted) =
            if published { (format!("{name} {}", words.remove(1)), wanted / 10) } else { (name.to_string(), wanted) };
        let (seed, wanted, first) = (number(&words, 1, 1), number(&words, 2, wanted), number(&words, 3, 0));
        println!("{name}: seed {seed}, from round {first} on");
        let told = std::panic::take_hook();
        std::panic::set_hook(Box::new(move |what| {
            told(what);
            let round = ROUND.load(Relaxed);
            eprintln!("{name}: seed {seed}, round {round}; to repeat it: target/rust/{name} {seed} 1 {round}");
        }));
        Words { published, seed, wanted, first }
    }

    pub fn rounds(&self) -> impl Iterator<Item = u64> {
        (self.first..).inspect(|&round| ROUND.store(round, Relaxed))
    }
}

//! How often each kind of something was met.

#[derive(Default)]
pub struct Kinds {
    met: Vec<(&'static str, u64)>,
}

impl Kinds {
    /// Of one thing each kind, and whether it is of it; the same kinds each time.
    pub fn count(&mut self, kinds: impl IntoIterator<Item = (&'static str, bool)>) {
        let kinds: Vec<_> = kinds.into_iter().collect();
        if self.met.is_empty() {
            self.met = kinds.iter().map(|&(name, _)| (name, 0)).collect();
        }
        for ((_, met), (_, of_kind)) in self.met.iter_mut().zip(kinds) {
            *met += u64::from(of_kind);
        }
    }

    pub fn report(&self, what: &str) {
        for (name, met) in &self.met {
            println!("{what} {name}: {met}");
        }
    }

    pub fn all_met(&self, what: &str) {
        assert!(!self.met.is_empty(), "no {what}");
        for (name, met) in &self.met {
            assert!(*met > 0, "no {what} {name}");
        }
    }
}

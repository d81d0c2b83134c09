//! Identification of clones that were not edited since.
use std::sync::atomic::{AtomicU64, Ordering::Relaxed};

static LAST: AtomicU64 = AtomicU64::new(0);

/// A number that a rope shares with its clones, or 0 as long as it has none. The first clone draws
/// the number, so an edit only sets it to 0.
#[derive(Default)]
pub(crate) struct Instance(AtomicU64);

impl Instance {
    /// Separates an edited rope from its clones.
    pub(crate) fn forget(&mut self) {
        *self.0.get_mut() = 0;
    }

    pub(crate) fn is(&self, other: &Instance) -> bool {
        let number = self.0.load(Relaxed);
        number != 0 && number == other.0.load(Relaxed)
    }
}

impl Clone for Instance {
    fn clone(&self) -> Instance {
        let mut number = self.0.load(Relaxed);
        if number == 0 {
            let drawn = LAST.fetch_add(1, Relaxed) + 1;
            // Another thread may have been the first.
            number = self.0.compare_exchange(0, drawn, Relaxed, Relaxed).map_or_else(|earlier| earlier, |_| drawn);
        }
        Instance(AtomicU64::new(number))
    }
}

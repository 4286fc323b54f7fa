//! Where the time of batches went, for the bench and for curious operators.
use super::say;
use std::time::Duration;

#[derive(Default)]
pub struct Figures {
    pub batches: u64,
    /// Batches that kept something.
    pub stored: u64,
    pub lines: u64,
    pub calls: u64,
    pub engine: Duration,
    pub storing: Duration,
    pub sending: Duration,
    pub reading: Duration,
    pub idle: Duration,
}

impl Figures {
    /// Of storing, so much was waiting for the disk.
    pub fn say(&self, syncing: Duration) {
        let batches = self.batches.max(1) as f64;
        let each = |time: Duration| time.as_secs_f64() * 1e6 / batches;
        say(&format!(
            "figures: lines {} calls {} batches {} stored {} | microseconds a batch: engine {:.0} store {:.0} of which sync {:.0} send {:.0} read {:.0} idle {:.0}",
            self.lines,
            self.calls,
            self.batches,
            self.stored,
            each(self.engine),
            each(self.storing),
            each(syncing),
            each(self.sending),
            each(self.reading),
            each(self.idle)
        ));
    }
}

//! What a person has given up is put aside, never deleted (docs/DESK.md, 5.3).
use super::start::Found;
use super::{segment_name, snapshot_name, Folder};
use crate::{system, Outcome};

impl Found {
    /// The rest of the segment that the site goes on in, later segments, and snapshots of later places get names that begin with
    /// `lost-`.
    pub fn put_loss_aside(&self, folder: &Folder) -> Outcome<()> {
        if !self.loss {
            return Ok(());
        }
        let kept = self.tail.map(|tail| tail.segment);
        let segments = folder.segments()?.into_iter().filter(|seq| *seq >= self.site.place.seq && Some(*seq) != kept);
        let snapshots = folder.snapshots()?.into_iter().filter(|seq| *seq > self.site.place.seq);
        let names = segments.map(segment_name).chain(snapshots.map(snapshot_name));
        let mut result = self.keep_rest(folder);
        for name in names {
            result = result.and_then(|()| folder.rename(&name, &free_name(folder, &format!("lost-{name}"))));
        }
        system("putting the loss aside", result.and_then(|()| folder.sync()))
    }

    /// The bytes that will be cut off, in a file of their own.
    fn keep_rest(&self, folder: &Folder) -> std::io::Result<()> {
        let Some(tail) = self.tail else { return Ok(()) };
        let name = segment_name(tail.segment);
        let bytes = std::fs::read(folder.path(&name))?;
        let rest = bytes.get(tail.end as usize..).unwrap_or_default();
        if rest.iter().all(|byte| *byte == 0) {
            return Ok(());
        }
        let aside = folder.path(&free_name(folder, &format!("lost-{name}-{}", tail.end)));
        std::fs::write(&aside, rest)?;
        std::fs::File::open(&aside)?.sync_all()
    }
}

/// The name, or it with a number behind it where it is taken.
fn free_name(folder: &Folder, name: &str) -> String {
    let mut names = std::iter::once(name.to_string()).chain((2..).map(|number| format!("{name}-{number}")));
    names.find(|name| !folder.path(name).exists()).expect("names without end")
}

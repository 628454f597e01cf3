//! The kinds of images, told by the last four bytes of a file.

/// A kind of image. Load takes every kind, save writes the newest.
#[derive(Clone, Copy, Debug, PartialEq, Eq)]
pub enum Kind {
    /// Without a position, which is 0 once it is loaded.
    One,
    /// With a position.
    Two,
}

impl Kind {
    const ALL: [Kind; 2] = [Kind::One, Kind::Two];
    /// What a save writes.
    pub const SAVED: Kind = Kind::Two;

    /// The kind of a file, if its last four bytes are those of one.
    pub fn of(file: &[u8]) -> Option<Kind> {
        Kind::ALL
            .into_iter()
            .find(|kind| file.ends_with(&kind.last()))
    }

    /// The last four bytes.
    fn last(self) -> [u8; 4] {
        match self {
            Kind::One => *b"QRM1",
            Kind::Two => *b"QRM2",
        }
    }

    /// The bytes of the trailer, which follows memory and table.
    pub const fn trailer(self) -> usize {
        match self {
            Kind::One => 92,
            Kind::Two => 100,
        }
    }

    /// What a save wrote, in this kind: without the words that it does not have, which stand last
    /// before the four bytes, and with its own back and four bytes.
    pub(crate) fn of_saved(self, mut image: Vec<u8>) -> Vec<u8> {
        let length = image.len() - (Kind::SAVED.trailer() - self.trailer());
        image.truncate(length);
        image[length - 4..].copy_from_slice(&self.last());
        let back = length - self.trailer();
        image[back..back + 4].copy_from_slice(&(length as u32).to_le_bytes());
        image
    }
}

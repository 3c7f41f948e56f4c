//! The rights of one domain, as sorted segments of memory words.

/// How many words the memory has.
pub const WORDS: u32 = 1 << 30;

/// From `start` on (a memory word) the right is `right`, up to the start of the next segment.
#[derive(Clone, Copy, Debug, PartialEq, Eq)]
pub struct Segment {
    pub start: u32,
    pub right: u32,
}

/// A stretch of words with one right: `start` up to and without `end`.
#[derive(Clone, Copy, Debug, PartialEq, Eq)]
pub struct Piece {
    pub start: u32,
    pub end: u32,
    pub right: u32,
}

/// The rights of a domain. The first segment starts at word 0, and neighbours differ in their right, so that two
/// domains have the same rights exactly where the lists are equal.
#[derive(Clone, Debug, PartialEq, Eq)]
pub struct Rights {
    segments: Vec<Segment>,
}

impl Rights {
    /// A domain without any right.
    pub fn none() -> Rights {
        Rights::from_segments([Segment { start: 0, right: 0 }])
    }

    /// The rights of segments in order; the first starts at 0, equal neighbours are joined.
    pub fn from_segments(given: impl IntoIterator<Item = Segment>) -> Rights {
        let mut segments: Vec<Segment> = Vec::new();
        for segment in given {
            if segments.last().map(|last| last.right) != Some(segment.right) {
                segments.push(segment);
            }
        }
        assert_eq!(segments.first().map(|first| first.start), Some(0));
        Rights { segments }
    }

    /// The stretch in which a word lies.
    pub fn piece(&self, word: u32) -> Piece {
        let next = self.segments.partition_point(|segment| segment.start <= word);
        let end = self.segments.get(next).map_or(WORDS, |segment| segment.start);
        let Segment { start, right } = self.segments[next - 1];
        Piece { start, end, right }
    }

    /// The right of one word.
    pub fn at(&self, word: u32) -> u32 {
        self.piece(word).right
    }

    /// All stretches in order; each is as long as it can be.
    pub fn pieces(&self) -> impl Iterator<Item = Piece> + '_ {
        let ends = self.edges().chain([WORDS]);
        self.segments.iter().zip(ends).map(|(segment, end)| Piece { start: segment.start, end, right: segment.right })
    }

    /// The words whose right differs from that of the word before them.
    pub fn edges(&self) -> impl Iterator<Item = u32> + '_ {
        self.segments[1..].iter().map(|segment| segment.start)
    }

    /// The same rights but for the words `lo` up to and without `hi`, which have `right`.
    pub fn painted(&self, lo: u32, hi: u32, right: u32) -> Rights {
        let before = self.segments.iter().copied().filter(|segment| segment.start < lo);
        let mut segments: Vec<Segment> = before.collect();
        segments.push(Segment { start: lo, right });
        if hi < WORDS {
            segments.push(Segment { start: hi, right: self.at(hi) });
        }
        segments.extend(self.segments.iter().filter(|segment| segment.start > hi));
        Rights::from_segments(segments)
    }
}

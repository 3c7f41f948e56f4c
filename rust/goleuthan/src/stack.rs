//! Call stacks. A stack is the words that the library knows.

/// Where the frames end, and the depth stands.
const DEPTH: usize = 32;
/// Where the current domain stands.
const CURRENT: usize = 33;

/// A call that has not come back.
#[derive(Clone, Copy, Debug, PartialEq, Eq, Hash)]
pub struct Frame {
    /// The caller's domain.
    pub domain: u32,
    /// The address that the return must name as its target.
    pub return_address: u32,
}

impl Frame {
    /// A frame's two words.
    fn of(words: &[u32]) -> Frame {
        Frame { domain: words[0], return_address: words[1] }
    }
}

/// A call stack of up to 16 frames, and the current domain.
#[derive(Clone, Debug, PartialEq, Eq)]
pub struct CallStack {
    pub(crate) words: [u32; 34],
}

impl CallStack {
    /// An empty stack with a domain current.
    pub const fn of(domain: u32) -> CallStack {
        let mut words = [0; 34];
        words[CURRENT] = domain;
        CallStack { words }
    }

    /// A stack of given words: 16 times domain, return address, then the depth, then the current domain.
    pub const fn from_words(words: [u32; 34]) -> CallStack {
        CallStack { words }
    }

    /// The words that the library knows it by.
    pub fn words(&self) -> &[u32; 34] {
        &self.words
    }

    /// How many frames it holds. Above 16 every step with this stack is refused 18.
    pub fn depth(&self) -> u32 {
        self.words[DEPTH]
    }

    /// The current domain.
    pub fn current(&self) -> u32 {
        self.words[CURRENT]
    }

    /// The frames that it holds, the oldest call first.
    pub fn frames(&self) -> impl DoubleEndedIterator<Item = Frame> + ExactSizeIterator + '_ {
        self.words[..DEPTH].chunks_exact(2).take(self.depth() as usize).map(Frame::of)
    }

    /// The frame of the latest call, to which a return gate goes back.
    pub fn top(&self) -> Option<Frame> {
        self.frames().next_back()
    }
}

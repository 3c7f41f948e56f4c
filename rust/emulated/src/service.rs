//! Calls over pipes: one service program for each thread.

use std::cell::RefCell;
use std::io::{Read, Write};
use std::process::{Child, ChildStdin, ChildStdout, Command, Stdio};

/// How many memories a call may lend.
const MEMORIES: usize = 5;

/// A memory lent for a call.
pub enum Lent<'a> {
    In(&'a [u32]),
    Out(&'a mut [u32]),
}

impl Lent<'_> {
    pub const NONE: Lent<'static> = Lent::In(&[]);

    fn words(&self) -> &[u32] {
        match self {
            Lent::In(words) => words,
            Lent::Out(words) => words,
        }
    }
}

struct Service {
    child: Child,
    calls: ChildStdin,
    answers: ChildStdout,
    /// What the service's memories hold, so that one that has not changed is not sent again.
    held: [Vec<u32>; MEMORIES],
    bytes: Vec<u8>,
}

thread_local! {
    static SERVICE: RefCell<Option<Service>> = const { RefCell::new(None) };
}

/// Makes a call and gives its number.
pub fn call(function: u32, numbers: &[u32], lent: [Lent; MEMORIES]) -> u32 {
    SERVICE.with_borrow_mut(|service| {
        let service = service.get_or_insert_with(Service::start);
        service.send(function, numbers, &lent);
        service.receive(lent)
    })
}

impl Service {
    fn start() -> Service {
        let mut child = Command::new("sh")
            .args([env!("GOLEUTHAN_RUN"), env!("GOLEUTHAN_SERVICE")])
            .stdin(Stdio::piped())
            .stdout(Stdio::piped())
            .spawn()
            .expect("the service starts");
        let calls = child.stdin.take().expect("it has a standard input");
        let answers = child.stdout.take().expect("it has a standard output");
        Service { child, calls, answers, held: Default::default(), bytes: Vec::new() }
    }

    fn send(&mut self, function: u32, numbers: &[u32], lent: &[Lent; MEMORIES]) {
        let (mut mutable, mut sent) = (0u32, 0u32);
        for (i, memory) in lent.iter().enumerate() {
            mutable |= u32::from(matches!(memory, Lent::Out(_))) << i;
            sent |= u32::from(memory.words() != self.held[i]) << i;
        }
        let mut head = [0; 13 + MEMORIES];
        head[0] = function;
        head[1..1 + numbers.len()].copy_from_slice(numbers);
        head[11] = mutable;
        head[12] = sent;
        for (i, memory) in lent.iter().enumerate() {
            head[13 + i] = memory.words().len() as u32;
        }
        self.bytes.clear();
        self.bytes.extend(head.iter().flat_map(|word| word.to_ne_bytes()));
        for (i, memory) in lent.iter().enumerate() {
            if sent >> i & 1 == 1 {
                self.held[i].clear();
                self.held[i].extend_from_slice(memory.words());
                self.bytes.extend(memory.words().iter().flat_map(|word| word.to_ne_bytes()));
            }
        }
        self.calls.write_all(&self.bytes).expect("the service takes the call");
    }

    fn receive(&mut self, lent: [Lent; MEMORIES]) -> u32 {
        let mut number = [0];
        self.read(&mut number);
        for (i, memory) in lent.into_iter().enumerate() {
            if let Lent::Out(words) = memory {
                self.read(words);
                self.held[i].copy_from_slice(words);
            }
        }
        number[0]
    }

    fn read(&mut self, words: &mut [u32]) {
        self.bytes.resize(4 * words.len(), 0);
        self.answers.read_exact(&mut self.bytes).expect("the service answers");
        for (word, bytes) in words.iter_mut().zip(self.bytes.chunks_exact(4)) {
            *word = u32::from_ne_bytes([bytes[0], bytes[1], bytes[2], bytes[3]]);
        }
    }
}

impl Drop for Service {
    fn drop(&mut self) {
        // a service between two calls has nothing left to do
        let _ = self.child.kill();
        let _ = self.child.wait();
    }
}

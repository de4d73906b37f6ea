//! Random reads and changes, beside a vector that holds the same text.

use crate::support::{Disk, Disks, Random, put};
use hunkravy::raf::*;

/// A file, its text now and at the last commit, and the disks.
struct Model<A: Algorithm> {
    file: Raf<A, Disk, Random, Disk>,
    text: Vec<u8>,
    committed: Vec<u8>,
    disks: Disks,
    key: A::Key,
    random: Random,
    limit: usize,
    most: u64,
}

impl<A: Algorithm> Model<A> {
    fn new(chunk_size: u32, limit: usize) -> Self {
        let disks = Disks::new();
        let builder = RafBuilder::with_rng(Random(7)).journal(disks.journal.clone()).buffer_limit(limit);
        let key = A::Key::default();
        Model {
            file: builder.chunk_size(chunk_size).create(disks.file.clone(), &key).unwrap(),
            text: Vec::new(),
            committed: Vec::new(),
            disks,
            key,
            random: Random(u64::from(chunk_size) * 7 + limit as u64 % 1000 + 1),
            limit,
            most: 9 * u64::from(chunk_size) + 17,
        }
    }

    fn change(&mut self) {
        let offset = self.random.below(self.most);
        if self.random.below(5) == 0 {
            self.file.truncate(offset).unwrap();
            self.text.resize(offset as usize, 0);
            return;
        }
        let count = self.random.below(self.most - offset) as usize;
        let is_short = self.random.below(2) == 0;
        let data = self.random.bytes(if is_short { count % 40 } else { count });
        assert_eq!(self.file.write(&data, offset).unwrap(), data.len());
        if !data.is_empty() || offset as usize > self.text.len() {
            put(&mut self.text, offset, &data);
        }
    }

    fn reopen(&mut self) {
        // Its changes are forgotten, so that dropping it commits none.
        self.file.discard();
        let builder = RafBuilder::with_rng(Random(self.random.next())).buffer_limit(self.limit);
        self.file = builder.journal(self.disks.journal.clone()).open(self.disks.file.clone(), &self.key).unwrap();
    }

    fn step(&mut self) {
        match self.random.below(10) {
            0 => self.file.discard(),
            1 => {
                self.file.commit().unwrap();
                self.committed = self.text.clone();
            }
            2 => self.reopen(),
            _ => return self.change(),
        }
        self.text = self.committed.clone();
    }

    fn compare(&mut self) {
        assert_eq!(self.file.size(), self.text.len() as u64);
        let (offset, count) = (self.random.below(self.most), self.random.below(self.most));
        let mut buf = vec![1; count as usize];
        let count = self.file.read(&mut buf, offset).unwrap();
        let rest = self.text.get(offset as usize..).unwrap_or(&[]);
        assert_eq!(buf[..count], rest[..rest.len().min(buf.len())]);
        assert!(buf[count..].iter().all(|byte| *byte == 1));
        assert!(self.disks.journal.bytes.borrow().is_empty());
    }
}

fn random_changes<A: Algorithm>(algorithm: AlgorithmId) {
    for chunk_size in [256, 1000, 4096] {
        let mut model = Model::<A>::new(chunk_size, usize::MAX);
        for _ in 0..400 {
            model.step();
            model.compare();
        }
        let info = probe(&mut model.disks.file).unwrap();
        assert_eq!((info.algorithm, info.chunk_size), (algorithm, chunk_size));
    }
}

#[test]
fn random_changes_of_each_algorithm() {
    random_changes::<Aegis128L>(AlgorithmId::Aegis128L);
    random_changes::<Aegis128X2>(AlgorithmId::Aegis128X2);
    random_changes::<Aegis128X4>(AlgorithmId::Aegis128X4);
    random_changes::<Aegis256>(AlgorithmId::Aegis256);
    random_changes::<Aegis256X2>(AlgorithmId::Aegis256X2);
    random_changes::<Aegis256X4>(AlgorithmId::Aegis256X4);
}

/// With no buffer each change is a commit.
#[test]
fn random_changes_that_are_committed() {
    let mut model = Model::<Aegis256>::new(300, 0);
    for turn in 0..400 {
        model.change();
        model.compare();
        if turn % 20 == 0 {
            model.file.commit().unwrap();
            model.reopen();
            model.compare();
        }
    }
}

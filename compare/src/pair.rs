//! A session in both implementations: each call is given to both, and their
//! numbers and all words are compared.

use crate::engine;
use crate::guarded::Guarded;
use reference::call::Call;

/// How many calls gave each number.
#[derive(Default)]
pub struct Counts {
    pub open: [u64; 2],
    pub lay: [u64; 9],
    pub split: [u64; 6],
    pub join: [u64; 9],
    pub load: [u64; 15],
    pub write: [u64; 16],
}

pub struct Pair {
    proved: Guarded<u32>,
    pub second: Vec<u32>,
}

impl Pair {
    pub fn new(words: Vec<u32>) -> Self {
        Pair { proved: Guarded::new(&words), second: words }
    }

    pub fn set(&mut self, place: usize, word: u32) {
        self.proved.inside_mut()[place] = word;
        self.second[place] = word;
    }

    /// The words of a shelf.
    pub fn shelf(&self, number: u32) -> &[u32] {
        let words = self.second[3] as usize;
        &self.second[4 + number as usize * words..][..words]
    }

    /// Puts a shelf's words in the place of what it holds.
    pub fn put_shelf(&mut self, number: u32, words: &[u32]) {
        let first = 4 + number as usize * self.second[3] as usize;
        for (place, &word) in words.iter().enumerate() {
            self.set(first + place, word);
        }
    }

    fn agreed(&self, call: &str, number: u32, expected: u32) -> Result<u32, String> {
        match number == expected && self.proved.holds(&self.second) {
            true => Ok(number),
            false => Err(format!("{call}: {number}, expected {expected}")),
        }
    }

    pub fn open(&mut self, header: [u32; 4], counts: &mut Counts) -> Result<u32, String> {
        let [delta, epsilon, shelves, shelf_words] = header;
        let number = engine::open(self.proved.inside_mut(), header);
        let expected = reference::open(&mut self.second, delta, epsilon, shelves, shelf_words);
        self.agreed(&format!("open {header:?}"), number, expected)?;
        counts.open[number as usize] += 1;
        Ok(number)
    }

    pub fn lay(
        &mut self,
        shelf: u32,
        beats: u32,
        list: &[u32],
        counts: &mut Counts,
    ) -> Result<u32, String> {
        let notes = Guarded::new(list);
        let number = engine::lay(self.proved.inside_mut(), shelf, beats, notes.inside());
        let expected = reference::lay(&mut self.second, shelf, beats, list);
        let call = format!("lay {shelf} {beats} {list:?}");
        self.agreed(&call, number, expected)?;
        if !notes.holds(list) {
            return Err(format!("{call}: the list is changed"));
        }
        counts.lay[number as usize] += 1;
        Ok(number)
    }

    pub fn split(
        &mut self,
        take: u32,
        beat: u32,
        left: u32,
        right: u32,
        counts: &mut Counts,
    ) -> Result<u32, String> {
        let number = engine::split(self.proved.inside_mut(), take, beat, left, right);
        let expected = reference::split(&mut self.second, take, beat, left, right);
        self.agreed(&format!("split {take} {beat} {left} {right}"), number, expected)?;
        counts.split[number as usize] += 1;
        Ok(number)
    }

    pub fn join(
        &mut self,
        first: u32,
        second: u32,
        result: u32,
        counts: &mut Counts,
    ) -> Result<u32, String> {
        let number = engine::join(self.proved.inside_mut(), first, second, result);
        let expected = reference::join(&mut self.second, first, second, result);
        self.agreed(&format!("join {first} {second} {result}"), number, expected)?;
        counts.join[number as usize] += 1;
        Ok(number)
    }

    pub fn load(&mut self, shelf: u32, file: &[u8], counts: &mut Counts) -> Result<u32, String> {
        let bytes = Guarded::new(file);
        let number = engine::load(self.proved.inside_mut(), shelf, bytes.inside());
        let expected = reference::load(&mut self.second, shelf, file);
        let call = format!("load {shelf} {file:X?}");
        self.agreed(&call, number, expected)?;
        if !bytes.holds(file) {
            return Err(format!("{call}: the file is changed"));
        }
        counts.load[number as usize] += 1;
        Ok(number)
    }

    /// A write to an output that holds `output`.
    pub fn write(&self, shelf: u32, output: &[u8], counts: &mut Counts) -> Result<u64, String> {
        let (mut bytes, mut expected_bytes) = (Guarded::new(output), output.to_vec());
        let (mut count, mut expected_count) = (u64::MAX, u64::MAX);
        let number = engine::write(self.proved.inside(), shelf, bytes.inside_mut(), &mut count);
        let expected =
            reference::write(&self.second, shelf, &mut expected_bytes, &mut expected_count);
        let call = format!("write {shelf} to {} bytes", output.len());
        self.agreed(&call, number, expected)?;
        if count != expected_count || !bytes.holds(&expected_bytes) {
            return Err(format!(
                "{call}: {count} bytes, expected {expected_count}, or other bytes"
            ));
        }
        counts.write[number as usize] += 1;
        Ok(count)
    }

    /// A lay, split, join or load; other calls are passed over.
    pub fn perform(&mut self, call: &Call, counts: &mut Counts) -> Result<(), String> {
        match call {
            Call::Lay { shelf, beats, notes } => self.lay(*shelf, *beats, notes, counts)?,
            Call::Split { take, beat, left, right } => {
                self.split(*take, *beat, *left, *right, counts)?
            }
            Call::Join { first, second, result } => self.join(*first, *second, *result, counts)?,
            Call::Load { shelf, file } => self.load(*shelf, file, counts)?,
            _ => 0,
        };
        Ok(())
    }
}

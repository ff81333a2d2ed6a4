//! What a call answers, in the vector format's words.

use crate::field::{numbers, Field, Symbol};
use crate::inputs::{byte_word, list_word, symbol_word, Inputs};
use crate::lent::{Guarded, Lent};
use std::fmt;

/// The grounds of both programs have document 01's numbers.
pub trait Ground {
    fn ground(&self) -> u32;
}

impl Ground for gesarumbo::Refusal {
    fn ground(&self) -> u32 {
        self.number()
    }
}

impl Ground for reference::Refusal {
    fn ground(&self) -> u32 {
        self.number()
    }
}

/// What a buffer holds.
#[derive(Clone, Debug, PartialEq, Eq)]
enum Buffer {
    Bytes(Vec<u8>),
    Symbols(Field, Vec<Symbol>),
    List(Vec<u32>),
}

/// A final buffer of an answer.
#[derive(Clone, Debug, PartialEq, Eq)]
enum Final {
    /// A lent buffer: as it was before, and as it is now.
    Lent(Buffer, Buffer),
    /// A part of one.
    Part(Buffer),
}

#[derive(Clone, Debug, PartialEq, Eq)]
pub struct Answer {
    /// The ground of refusal, 0 where done.
    pub refusal: u32,
    /// The result numbers, all zero in a refusal but for a record handed back.
    pub numbers: Vec<i128>,
    buffers: Vec<Final>,
    /// What the call has changed and may not.
    pub spoilt: Vec<&'static str>,
}

impl Answer {
    pub fn new<const N: usize, R: Ground>(result: Result<[i128; N], R>) -> Answer {
        let (refusal, numbers) = match result {
            Ok(numbers) => (0, numbers.to_vec()),
            Err(refusal) => (refusal.ground(), vec![0; N]),
        };
        Answer {
            refusal,
            numbers,
            buffers: vec![],
            spoilt: vec![],
        }
    }

    /// An answer whose last numbers are a record, which a refusal hands back too.
    pub fn handing_back<const N: usize, R: Ground>(
        result: Result<[i128; N], R>,
        record: [u32; 3],
    ) -> Answer {
        let mut answer = Answer::new(result);
        answer.numbers.extend(record.map(i128::from));
        answer
    }

    /// An answer that is an input of symbols alone: what it holds afterwards, or a
    /// refusal.
    pub fn filled<S, R>(inputs: &Inputs, at: usize, after: Result<Vec<S>, R>) -> Answer
    where
        S: Copy + Into<Symbol>,
        R: Ground + Copy,
    {
        let done = after.as_ref().map(|_| []).map_err(|&refusal| refusal);
        Answer::new(done).lent(inputs.field, inputs.symbols(at), after.as_deref().ok())
    }

    /// The same for bytes.
    pub fn filled_bytes<R: Ground + Copy>(before: &[u8], after: Result<Vec<u8>, R>) -> Answer {
        let done = after.as_ref().map(|_| []).map_err(|&refusal| refusal);
        Answer::new(done).lent_bytes(before, after.as_deref().ok())
    }

    /// With symbols that were lent: what they were, and what they are now where
    /// the call was not refused.
    pub fn lent<S: Copy + Into<Symbol>>(
        mut self,
        field: Field,
        before: &[Symbol],
        after: Option<&[S]>,
    ) -> Answer {
        let after = after.map_or(before.to_vec(), numbers);
        let [before, after] = [before.to_vec(), after].map(|held| Buffer::Symbols(field, held));
        self.buffers.push(Final::Lent(before, after));
        self
    }

    /// The same for bytes.
    pub fn lent_bytes(mut self, before: &[u8], after: Option<&[u8]>) -> Answer {
        let after = after.unwrap_or(before);
        let [before, after] = [before, after].map(|held| Buffer::Bytes(held.to_vec()));
        self.buffers.push(Final::Lent(before, after));
        self
    }

    /// The same for a list.
    pub fn lent_list(mut self, before: &[u32], after: Option<&[u32]>) -> Answer {
        let after = after.unwrap_or(before);
        let [before, after] = [before, after].map(|held| Buffer::List(held.to_vec()));
        self.buffers.push(Final::Lent(before, after));
        self
    }

    /// With symbols that are a part of a lent buffer.
    pub fn part<S: Copy + Into<Symbol>>(mut self, field: Field, part: &[S]) -> Answer {
        let part = Buffer::Symbols(field, numbers(part));
        self.buffers.push(Final::Part(part));
        self
    }

    /// The symbols the library was lent to write: their ends must be kept.
    pub fn written<S>(self, field: Field, lent: &Lent<S>) -> Answer
    where
        S: Guarded + Into<Symbol>,
    {
        let before = numbers(lent.before());
        self.ends_of(lent).lent(field, &before, Some(lent.part()))
    }

    /// The same for bytes.
    pub fn written_bytes(self, lent: &Lent<u8>) -> Answer {
        self.ends_of(lent)
            .lent_bytes(lent.before(), Some(lent.part()))
    }

    /// The same for a list of numbers of a kind.
    pub fn written_list<T: Copy + PartialEq>(self, lent: &Lent<T>, number: fn(T) -> u32) -> Answer {
        let numbers = |list: &[T]| -> Vec<u32> { list.iter().copied().map(number).collect() };
        let [before, after] = [lent.before(), lent.part()].map(numbers);
        self.ends_of(lent).lent_list(&before, Some(&after))
    }

    fn ends_of<T: Copy + PartialEq>(mut self, lent: &Lent<T>) -> Answer {
        if !lent.ends_kept() {
            self.spoilt.push("what lies around the written buffer");
        }
        self
    }

    /// A buffer the library was lent to read: all of it must be kept.
    pub fn read<T: Copy + PartialEq>(mut self, name: &'static str, lent: &Lent<T>) -> Answer {
        if !lent.kept() {
            self.spoilt.push(name);
        }
        self
    }

    /// The symbols of the final buffer that has some. Asking for another kind of
    /// buffer than the call has is a mistake of its own file, and panics; here and
    /// below.
    pub fn symbols(&self) -> &[Symbol] {
        self.any_symbols().expect("the answer has symbols")
    }

    /// The same where some final buffer has symbols.
    pub fn any_symbols(&self) -> Option<&[Symbol]> {
        self.held().find_map(|held| match held {
            Buffer::Symbols(_, held) => Some(&held[..]),
            _ => None,
        })
    }

    /// Whether every buffer that was lent to be written is as it was.
    pub fn unwritten(&self) -> bool {
        self.buffers.iter().all(|buffer| match buffer {
            Final::Lent(before, after) => before == after,
            Final::Part(_) => true,
        })
    }

    /// The bytes of the final buffer that has some.
    pub fn bytes(&self) -> &[u8] {
        let held = self.held().find_map(|held| match held {
            Buffer::Bytes(held) => Some(held),
            _ => None,
        });
        held.expect("the answer has bytes")
    }

    /// The numbers of the final buffer that is a list.
    pub fn list(&self) -> &[u32] {
        let held = self.held().find_map(|held| match held {
            Buffer::List(held) => Some(held),
            _ => None,
        });
        held.expect("the answer has a list")
    }

    /// What the final buffers hold.
    fn held(&self) -> impl Iterator<Item = &Buffer> {
        self.buffers.iter().map(|buffer| match buffer {
            Final::Lent(_, held) | Final::Part(held) => held,
        })
    }
}

impl fmt::Display for Buffer {
    fn fmt(&self, f: &mut fmt::Formatter) -> fmt::Result {
        match self {
            Buffer::Bytes(held) => f.write_str(&byte_word(held)),
            Buffer::Symbols(field, held) => f.write_str(&symbol_word(*field, held)),
            Buffer::List(held) => f.write_str(&list_word(held)),
        }
    }
}

impl fmt::Display for Answer {
    fn fmt(&self, f: &mut fmt::Formatter) -> fmt::Result {
        write!(f, "{}", self.refusal)?;
        self.numbers
            .iter()
            .try_for_each(|number| write!(f, " {number}"))?;
        self.buffers.iter().try_for_each(|buffer| match buffer {
            Final::Lent(before, after) if before == after => f.write_str(" ~"),
            Final::Lent(_, held) | Final::Part(held) => write!(f, " {held}"),
        })
    }
}

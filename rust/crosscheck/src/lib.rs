//! Compares the library with the second program and with the vectors, over both
//! fields, for the sixteen-tray box and for the checksum.
//!
//! Every case is a line of the vector format: a call's name and its inputs. The
//! library answers it through the wrapper, the second program by itself, and
//! the two answers must be the same text. Each buffer is lent to the library as
//! the middle part of a larger one, whose ends must come back as they were.
//!
//! - [`calls`]: the calls, a file and an entry each;
//! - [`vectors`]: the replay of the vector files;
//! - [`writing`]: the vector files as the second program writes them;
//! - [`sweeps`]: cases gone through one after another;
//! - [`draws`]: random cases, and claims about lists of calls;
//! - [`spoil`]: how a good case is made a refused or a boundary one.

#![forbid(unsafe_code)]

pub mod answer;
pub mod batches;
pub mod cabinet;
pub mod calls;
pub mod crosscheck;
pub mod damage;
pub mod draws;
pub mod field;
pub mod given;
pub mod images;
pub mod inputs;
pub mod lent;
pub mod options;
pub mod pair;
pub mod random;
pub mod run;
pub mod source;
pub mod spoil;
pub mod sweeps;
pub mod vectors;
pub mod writing;

//! Where the shares of a repair come from: the cabinet's own trays, or files, stripe after stripe.

use super::Repair;
use crate::code::symbol::Symbol;
use crate::disk::{read_part, Handle};
use crate::failure::Failure;
use crate::files;
use crate::files::cabinet::Cabinet;
use crate::files::shape::Shape;
use crate::files::stripe::Stripe;
use crate::terminal::words::count;
use gesarumbo::Refusal;
use std::ffi::OsStr;
use std::path::{Path, PathBuf};

/// All helpers' shares.
pub enum Shares {
    /// Worked out from the helpers' trays.
    OfTrays,
    /// A file for each helper, in their order.
    Files(Vec<ShareFile>),
}

/// A helper's share in a file, as far as it is read.
pub struct ShareFile {
    path: PathBuf,
    file: Box<dyn Handle>,
    at: u64,
}

impl Shares {
    /// The shares of these files, if there are any; each must be as long as all stripes' shares.
    pub fn open<S: Symbol>(
        cabinet: &Cabinet,
        repair: &Repair,
        names: &[&OsStr],
    ) -> Result<Shares, Failure> {
        let helpers = repair.helpers.len();
        if names.is_empty() {
            return Ok(Shares::OfTrays);
        }
        if names.len() != helpers {
            let words = format!("{} shares are given for {helpers} helpers", names.len());
            return Err(Failure::Usage(words));
        }
        let wanted = size::<S>(cabinet, repair) * u64::from(cabinet.description.stripes);
        let open = |name: &&OsStr| {
            let path = Path::new(name);
            let (file, length) = files::open_existing(cabinet.disk, path)?;
            match length == wanted {
                true => Ok(ShareFile {
                    path: path.to_path_buf(),
                    file,
                    at: 0,
                }),
                false => {
                    let place = path.display();
                    let bytes = count(length as usize, "byte");
                    let about = format!("{place}: {bytes}, a share has {wanted}");
                    Err(Failure::refused(about)(Refusal::Length))
                }
            }
        };
        let files: Result<Vec<_>, Failure> = names.iter().map(open).collect();
        files.map(Shares::Files)
    }

    /// Whether they are worked out from the helpers' trays.
    pub fn are_of_trays(&self) -> bool {
        matches!(self, Shares::OfTrays)
    }

    /// Skips the stripes before one.
    pub fn skip_to<S: Symbol>(
        &mut self,
        cabinet: &Cabinet,
        repair: &Repair,
        stripe: u32,
    ) -> Result<(), Failure> {
        if let Shares::Files(files) = self {
            let from = size::<S>(cabinet, repair) * u64::from(stripe);
            files.iter_mut().for_each(|file| file.at = from);
        }
        Ok(())
    }

    /// All helpers' shares of the next stripe.
    pub fn next<S: Symbol>(
        &mut self,
        stripe: &Stripe<S>,
        repair: &Repair,
    ) -> Result<Vec<S>, Failure> {
        match self {
            Shares::OfTrays => of_trays(stripe, repair),
            Shares::Files(files) => {
                let size = size::<S>(stripe.cabinet, repair);
                let shares: Result<Vec<Vec<S>>, Failure> =
                    files.iter_mut().map(|share| read(share, size)).collect();
                Ok(shares?.concat())
            }
        }
    }
}

/// Bytes of one helper's shares for one stripe.
fn size<S: Symbol>(cabinet: &Shape, repair: &Repair) -> u64 {
    (repair.lost.len() * cabinet.numbers.groups * S::WIDTH) as u64
}

/// The next symbols of a share's file, as many as are there.
fn read<S: Symbol>(share: &mut ShareFile, size: u64) -> Result<Vec<S>, Failure> {
    let bytes = read_part(&*share.file, share.at, size as usize);
    let bytes = bytes.map_err(Failure::file(&share.path))?;
    share.at += size;
    Ok(S::from_bytes(&bytes).unwrap_or_default())
}

/// All helpers' shares, worked out from their trays.
pub fn of_trays<S: Symbol>(stripe: &Stripe<S>, repair: &Repair) -> Result<Vec<S>, Failure> {
    let (count, host) = (repair.lost.len() as u32, repair.host(stripe.cabinet));
    let share = |helper| stripe.share(count, host, helper);
    let shares: Result<Vec<_>, _> = repair.helpers.iter().copied().map(share).collect();
    Ok(shares?.concat())
}

//! A version of the calls: the library, or ordinary Rust.

use gesarumbo::{field257, Numbers, Rack, ScrubRecord, Tested, Tray};

/// The calls that are timed, over inputs that no version refuses, for symbols of one field.
pub trait Version<S> {
    fn name(&self) -> &'static str;
    fn store(&self, numbers: &Numbers, data: &[S], codeword: &mut [S]);
    fn test(&self, numbers: &Numbers, codeword: &[S]) -> Tested;
    /// How many layers are bad, all looked at in one call.
    fn walk(&self, numbers: &Numbers, codeword: &[S]) -> u32;
    /// False where no codeword has the survivors.
    fn recover(&self, numbers: &Numbers, codeword: &mut [S], erased: &[Tray]) -> bool;
    fn share(&self, numbers: &Numbers, host: Rack, helper: Rack, rack: &[S], share: &mut [S]);
    /// Repairs the whole tray.
    fn repair(
        &self,
        numbers: &Numbers,
        lost: Tray,
        helpers: &[Rack],
        shares: &[S],
        host: &[S],
        spare: &mut [S],
    );
    /// The same where one share may be wrong; gives the rack whose share is.
    fn correct(
        &self,
        numbers: &Numbers,
        lost: Tray,
        helpers: &[Rack],
        shares: &[S],
        host: &[S],
        spare: &mut [S],
    ) -> Option<Rack>;
}

/// The proved library.
pub struct Library;

const RIGHT: &str = "the inputs are right";

/// The library's calls over the symbols of one field, which stand in this module.
macro_rules! library {
    ($symbol:ty, $calls:ident) => {
        impl Version<$symbol> for Library {
            fn name(&self) -> &'static str {
                "library"
            }

            fn store(&self, numbers: &Numbers, data: &[$symbol], codeword: &mut [$symbol]) {
                $calls::store(numbers.layout, data, codeword).expect(RIGHT);
            }

            fn test(&self, numbers: &Numbers, codeword: &[$symbol]) -> Tested {
                $calls::test(numbers.layout, codeword).expect(RIGHT)
            }

            fn walk(&self, numbers: &Numbers, codeword: &[$symbol]) -> u32 {
                let mut record = ScrubRecord::new(0, 0, 0);
                $calls::scrub_reset(numbers.layout, &mut record).expect(RIGHT);
                $calls::scrub(numbers.layout, codeword, &mut record, u64::MAX).expect(RIGHT);
                record.bad
            }

            fn recover(
                &self,
                numbers: &Numbers,
                codeword: &mut [$symbol],
                erased: &[Tray],
            ) -> bool {
                $calls::recover(numbers.layout, codeword, erased).is_ok()
            }

            fn share(
                &self,
                numbers: &Numbers,
                host: Rack,
                helper: Rack,
                rack: &[$symbol],
                share: &mut [$symbol],
            ) {
                $calls::share(numbers.layout, host, helper, rack, share).expect(RIGHT);
            }

            fn repair(
                &self,
                numbers: &Numbers,
                lost: Tray,
                helpers: &[Rack],
                shares: &[$symbol],
                host: &[$symbol],
                spare: &mut [$symbol],
            ) {
                $calls::repair(
                    numbers.layout,
                    lost,
                    helpers,
                    shares,
                    host,
                    spare,
                    0,
                    u64::MAX,
                )
                .expect(RIGHT);
            }

            fn correct(
                &self,
                numbers: &Numbers,
                lost: Tray,
                helpers: &[Rack],
                shares: &[$symbol],
                host: &[$symbol],
                spare: &mut [$symbol],
            ) -> Option<Rack> {
                $calls::repair_correcting(numbers.layout, lost, helpers, shares, host, spare)
                    .expect(RIGHT)
                    .rack
            }
        }
    };
}

library!(u8, gesarumbo);
library!(u16, field257);

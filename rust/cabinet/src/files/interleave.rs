//! The order of symbols in a segment: a batch of codewords has symbol j of codeword q at j*many + q
//! within a tray's part. The library's single calls take one codeword after another; batch calls,
//! which take this order as it is, would need nothing of this file.

/// The symbols of one stripe of a tray's part, in the order of layers.
pub fn apart<S: Copy>(part: &[S], many: usize, stripe: usize, out: &mut [S]) {
    for (symbol, row) in out.iter_mut().zip(part.chunks_exact(many)) {
        *symbol = row[stripe];
    }
}

/// Puts the symbols of one stripe into a tray's part.
pub fn together<S: Copy>(symbols: &[S], many: usize, stripe: usize, part: &mut [S]) {
    for (symbol, row) in symbols.iter().zip(part.chunks_exact_mut(many)) {
        row[stripe] = *symbol;
    }
}

#[cfg(test)]
mod tests {
    use super::{apart, together};

    #[test]
    fn what_is_put_together_comes_apart() {
        let mut part = [0; 6];
        together(&[1, 2, 3], 2, 0, &mut part);
        together(&[4, 5, 6], 2, 1, &mut part);
        assert_eq!(part, [1, 4, 2, 5, 3, 6]);
        let mut out = [0; 3];
        apart(&part, 2, 1, &mut out);
        assert_eq!(out, [4, 5, 6]);
    }
}

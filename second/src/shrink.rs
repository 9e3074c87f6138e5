//! Makes a script shorter while it still shows something.

use crate::script::lines;

/// Drops chunks of lines, ever smaller ones, as long as what is left still shows it.
pub fn shrink(script: &[u8], mut shows: impl FnMut(&[u8]) -> bool) -> Vec<u8> {
    let mut kept: Vec<&[u8]> = lines(script).collect();
    let mut chunk = kept.len().div_ceil(2);
    while chunk > 0 {
        let dropped = drop_chunks(&mut kept, chunk, &mut shows);
        // Single lines are tried until none can go, since one line may need another.
        if chunk > 1 || !dropped {
            chunk /= 2;
        }
    }
    join(&kept)
}

fn drop_chunks(kept: &mut Vec<&[u8]>, chunk: usize, shows: &mut impl FnMut(&[u8]) -> bool) -> bool {
    let mut dropped = false;
    let mut at = 0;
    while at < kept.len() {
        let end = (at + chunk).min(kept.len());
        let without = [&kept[..at], &kept[end..]].concat();
        if shows(&join(&without)) {
            *kept = without;
            dropped = true;
        } else {
            at = end;
        }
    }
    dropped
}

fn join(lines: &[&[u8]]) -> Vec<u8> {
    lines.iter().flat_map(|line| [*line, b"\n"].concat()).collect()
}

// Made by rust/erase from crates/hexfilter_core/src/groups.rt. Do not edit.
//! Writing a text in groups, with a separator between them.

use crate::std_shim::prelude::*;
use crate::proved::mode::Groups;

/// How many characters are copied at once, if a group has at most as many.
const BLOCK: usize = 16;

/// Writes the text to the front of the output, with a separator before each character that follows a full group.
/// The first group has `group_fill` characters already. Returns the number of bytes written, and the number of
/// characters in the last group.
#[inline(never)]
pub(crate) fn put_groups(
    groups: Groups,
    group_fill: usize,
    text: &[u8],
    output: &mut [u8],
) -> (usize, usize) {
    let mut group_fill = group_fill;
    let mut done = 0;
    let mut end = 0;
    'groups: while done < text.len() {
        if group_fill == groups.size && groups.size <= BLOCK && text.len() - done > BLOCK {
            let (taken, put) = put_short(groups, &text[done..], &mut output[end..]);
            done += taken;
            end += put;
            continue;
        }
        let (start, fill) = separate(groups, group_fill, output, end);
        let count = (groups.size - fill).min(text.len() - done);
        end = start + count;
        output[start..end].copy_from_slice(&text[done..done + count]);
        done += count;
        group_fill = fill + count;
    }
    (end, group_fill)
}

/// Writes full groups to the front of the output, each after a separator, until at most `BLOCK` characters are left.
/// Returns the number of characters, and the number of bytes written, which includes the separators.
// Block by block, which takes at most half of the time of group by group.
#[inline(never)]
fn put_short(groups: Groups, text: &[u8], output: &mut [u8]) -> (usize, usize) {
    let mut done = 0;
    let mut end = 0;
    'groups: while text.len() - done > BLOCK {
        let (taken, put) = put_block(groups, &text[done..], &mut output[end..]);
        done += taken;
        end += put;
    }
    (done, end)
}

/// As `put_short`, for one block: a group, or eight groups of two.
#[inline(always)]
fn put_block(groups: Groups, text: &[u8], output: &mut [u8]) -> (usize, usize) {
    if groups.size == 2 {
        put_pairs(groups, text, output);
        put_pairs(groups, &text[8..], &mut output[12..]);
        return (16, 24);
    }
    output[0] = groups.separator;
    output[1..BLOCK + 1].copy_from_slice(&text[..BLOCK]);
    (groups.size, groups.size + 1)
}

/// Writes four groups of two to the front of the output, each after a separator. Two more bytes may change.
#[inline(always)]
fn put_pairs(groups: Groups, text: &[u8], output: &mut [u8]) {
    let separator = groups.separator;
    let first = spread(separator, text[0], text[1], text[2], text[3]);
    let second = spread(separator, text[4], text[5], text[6], text[7]);
    output[..8].copy_from_slice(&first);
    output[6..14].copy_from_slice(&second);
}

/// Two groups of two, each after a separator, and two NUL bytes.
// SIMD within a register (SWAR): the four characters are spread in one word, and 0x1000001 copies the separator to the
// bytes 0 and 3.
#[inline(always)]
fn spread(separator: u8, a: u8, b: u8, c: u8, d: u8) -> [u8; 8] {
    let pairs = u64::from(u32::from_le_bytes([a, b, c, d]));
    let separators = u64::from(separator) * 0x100_0001;
    let first = pairs % 0x1_0000 * 0x100;
    let second = pairs / 0x1_0000 * 0x1_0000_0000;
    (separators + first + second).to_le_bytes()
}

/// Writes a separator to the output at the index `end` if the group is full. Returns the next index, and the number
/// of characters in the group.
fn separate(groups: Groups, group_fill: usize, output: &mut [u8], end: usize) -> (usize, usize) {
    if group_fill == groups.size {
        return (put(Some(groups.separator), output, end), 0);
    }
    (end, group_fill)
}

/// Writes a byte, if there is one, to the output at the index `end`, and returns the next index.
pub(crate) fn put(byte: Option<u8>, output: &mut [u8], end: usize) -> usize {
    match byte {
        Some(byte) => {
            output[end] = byte;
            end + 1
        }
        None => end,
    }
}

//! Which octets are the state part of a memory that is not damaged: docs/memory.md, octet by octet. The library has to refuse every
//! other image with 5, and no image that is one.

use crate::call::{CHANNELS, STATE};
use crate::ledger::Drawn;
use crate::retries::Chain;
use std::ops::Range;

/// The phase of reading and the stage of sending from which on data octets are counted.
const READING_DATA: u8 = 9;
const SENDING_DATA: u8 = 7;

/// The most that the codes may be, octets 16 to 31.
const CODES: [u8; 16] = [3, 10, 8, 3, 126, 2, 23, 11, 5, 5, 7, 15, 1, 7, 3, 12];

/// Where the lengths begin, outputs and inputs first, and the least of each; they go to 244. Of outputs and inputs one
/// is there.
pub const LENGTHS: usize = 48;
const LEAST: [u8; 6] = [0, 0, 7, 1, 6, 1];

/// How many buffers there are of each length.
const BUFFERS: [usize; 6] = [4, 3, 3, 3, 2, 1];

/// The last request whose frame count bit counts: twice what it drew, as in octet 18, with the bit below it; and its
/// master, 127 where there is none. With the most that each may be.
pub const CHAIN: [(usize, u8); 2] = [(54, 17), (55, 127)];

/// Numbers of several octets, the low one first, of which every value is a state's: the ident number, and the ticks of
/// the watchdog that remain and that it is refilled to, 0 where it is off.
const IDENT: Range<usize> = 42..44;
const TICKS_LEFT: Range<usize> = 44..48;
const TICKS_REFILLED: Range<usize> = 64..68;

/// Octets that are not used, behind the counts: they are 0.
pub const UNUSED: [usize; 2] = [62, 63];

/// All that is said above.
pub const FIELDS: Range<usize> = 0..68;

/// Where the rows begin that have an octet for each channel: the lengths of the indications and of the responses, and how
/// many octets of each are in use.
pub const ROWS: [usize; 4] = [128, 144, 160, 176];
pub const ALL_ROWS: Range<usize> = 128..192;

/// The octets that belong to no field, ahead of the rows and behind them: any value is a state's, and no call but Start
/// changes them.
pub const FREE: [Range<usize>; 2] = [68..128, 192..STATE];

/// Whether the image is a state's whose roles, lengths and counts keep the rules, with buffers that end in the memory.
pub fn is_state(image: &[u8], memory_length: usize) -> bool {
    let codes = image[16..32].iter().zip(CODES);
    codes.into_iter().all(|(octet, most)| *octet <= most)
        && lengths(image)
        && end_of_buffers(image) <= memory_length
        && line_counts(image[31], READING_DATA, image[32], image[33])
        && line_counts(image[17], SENDING_DATA, image[14], image[15])
        && (6..=image[52]).contains(&image[56])
        && none_or(6, image[57], image[52])
        && set_counts(7, image[58], image[59], image[50])
        && set_counts(1, image[60], image[61], image[51])
        && CHAIN.into_iter().all(|(at, most)| image[at] <= most)
        && UNUSED.into_iter().all(|at| image[at] == 0)
        && (0..CHANNELS).all(|number| is_channel(channel(image, number)))
}

/// The four octets of a channel: the lengths of its indication and of its response, and how many octets of each are in
/// use.
fn channel(image: &[u8], number: usize) -> [u8; 4] {
    let [indication, response, asked, given] = ROWS;
    [
        image[indication + number],
        image[response + number],
        image[asked + number],
        image[given + number],
    ]
}

/// Not set up, or both lengths are 4 to 240; and no more octets are in use than there are.
fn is_channel([indication, response, asked, given]: [u8; 4]) -> bool {
    let set_up = [indication, response]
        .iter()
        .all(|length| (4..=240).contains(length));
    ([indication, response] == [0, 0] || set_up) && asked <= indication && given <= response
}

/// Whether the channels have these lengths, as Start takes them, and are all free.
pub fn are_free_channels(image: &[u8], lengths: &[u8]) -> bool {
    let mut each = lengths.chunks_exact(2).enumerate();
    each.all(|(number, given)| channel(image, number) == [given[0], given[1], 0, 0])
}

/// The octets that belong to no field.
pub fn free(image: &[u8]) -> [&[u8]; 2] {
    let [ahead_of_rows, behind_rows] = FREE;
    [&image[ahead_of_rows], &image[behind_rows]]
}

/// What the chain's octets are.
pub fn chain_octets(chain: Option<Chain>) -> [u8; 2] {
    let Some(chain) = chain else {
        return [0, 127];
    };
    let drawn = match chain.drawn {
        Drawn::Nothing => 0,
        Drawn::E5 => 1,
        Drawn::Status => 2,
        Drawn::Rs => 3,
        Drawn::Exchange => 4,
        Drawn::ReadInputs => 5,
        Drawn::ReadOutputs => 6,
        Drawn::GetCfg => 7,
        Drawn::SlaveDiag => 8,
    };
    [2 * drawn + u8::from(chain.frame_count), chain.master]
}

pub fn ident(image: &[u8]) -> u16 {
    number(image, IDENT) as u16
}

/// The ticks of the watchdog that remain and those that it is refilled to.
pub fn ticks(image: &[u8]) -> (u32, u32) {
    (number(image, TICKS_LEFT), number(image, TICKS_REFILLED))
}

pub fn put_ticks(image: &mut [u8], left: u32, refilled: u32) {
    image[TICKS_LEFT].copy_from_slice(&left.to_le_bytes());
    image[TICKS_REFILLED].copy_from_slice(&refilled.to_le_bytes());
}

fn number(image: &[u8], octets: Range<usize>) -> u32 {
    let high_first = image[octets].iter().rev();
    high_first.fold(0, |number, octet| number << 8 | u32::from(*octet))
}

fn lengths(image: &[u8]) -> bool {
    let mut each = image[LENGTHS..].iter().zip(LEAST);
    each.all(|(length, least)| (least..=244).contains(length)) && sides(image) != [0, 0]
}

/// The lengths of outputs and inputs.
pub fn sides(image: &[u8]) -> [u8; 2] {
    [image[LENGTHS], image[LENGTHS + 1]]
}

/// Where the last buffer ends, a channel's if one is set up.
pub fn end_of_buffers(image: &[u8]) -> usize {
    let rounded = |length: u8| usize::from(length).div_ceil(8) * 8;
    let each = image[LENGTHS..].iter().zip(BUFFERS);
    let buffers: usize = each.map(|(length, count)| rounded(*length) * count).sum();
    let of_channels = ROWS[0]..ROWS[2];
    STATE + buffers + of_channels.map(|at| rounded(image[at])).sum::<usize>()
}

/// Of the telegram that is read or of the reply: no data octet is done before the data, and never more than there are.
fn line_counts(phase: u8, first_of_data: u8, count: u8, done: u8) -> bool {
    count <= 246 && done <= count && (done == 0 || phase >= first_of_data)
}

fn none_or(least: u8, count: u8, length: u8) -> bool {
    count == 0 || (least..=length).contains(&count)
}

/// Of a set that is shown and of one that waits behind it.
fn set_counts(least: u8, shown: u8, waiting: u8, length: u8) -> bool {
    match shown {
        0 => waiting == 0,
        _ => (least..=length).contains(&shown) && none_or(least, waiting, length),
    }
}

#[cfg(test)]
mod tests {
    use super::*;

    /// Roles, codes and marks 0, one output, the least lengths else, diagnosis count 6, no request to be repeated.
    fn fresh() -> Vec<u8> {
        let mut image = vec![0; STATE];
        image[LENGTHS..LENGTHS + LEAST.len()].copy_from_slice(&LEAST);
        image[LENGTHS] = 1;
        image[55] = 127;
        image[56] = 6;
        image
    }

    fn is_state_with(octets: &[(usize, u8)]) -> bool {
        is_state_in(1536, octets)
    }

    fn is_state_in(memory_length: usize, octets: &[(usize, u8)]) -> bool {
        let mut image = fresh();
        for (at, octet) in octets {
            image[*at] = *octet;
        }
        is_state(&image, memory_length)
    }

    #[test]
    fn codes_go_up_to_their_limits() {
        assert!(is_state_with(&[]));
        for (at, most) in (16..32).zip(CODES) {
            assert!(is_state_with(&[(at, most)]), "octet {at}");
            assert!(!is_state_with(&[(at, most + 1)]), "octet {at}");
        }
    }

    #[test]
    fn the_chain_goes_up_to_its_limits() {
        for (at, most) in CHAIN {
            assert!(is_state_with(&[(at, 0)]), "octet {at}");
            assert!(is_state_with(&[(at, most)]), "octet {at}");
            assert!(!is_state_with(&[(at, most + 1)]), "octet {at}");
            assert!(!is_state_with(&[(at, 0xFF)]), "octet {at}");
        }
    }

    #[test]
    fn octets_that_are_not_used_are_zero() {
        for at in UNUSED {
            assert!(!is_state_with(&[(at, 1)]), "octet {at}");
            assert!(!is_state_with(&[(at, 0x80)]), "octet {at}");
        }
    }

    #[test]
    fn octets_that_belong_to_no_field_are_any() {
        for at in FREE.into_iter().flatten() {
            for octet in [0x01, 0x80, 0xFF] {
                assert!(is_state_with(&[(at, octet)]), "octet {at}");
            }
        }
    }

    #[test]
    fn every_octet_of_the_state_part_is_of_one_kind() {
        let kinds = [FIELDS, FREE[0].clone(), ALL_ROWS, FREE[1].clone()];
        let octets: Vec<usize> = kinds.into_iter().flatten().collect();
        assert!(octets.into_iter().eq(0..STATE));
    }

    /// The octets of a channel with their places.
    fn channel_of(number: usize, octets: [u8; 4]) -> Vec<(usize, u8)> {
        let places = ROWS.into_iter().map(|row| row + number);
        places.zip(octets).collect()
    }

    #[test]
    fn a_channels_lengths_are_0_and_0_or_both_4_to_240() {
        for number in 0..CHANNELS {
            for lengths in [[0, 0], [4, 4], [4, 240], [240, 4], [240, 240], [5, 77]] {
                let [indication, response] = lengths;
                let octets = channel_of(number, [indication, response, 0, 0]);
                assert!(is_state_with(&octets), "{lengths:?}");
            }
            for bad in [1, 3, 241, 255] {
                for lengths in [[bad, 4], [4, bad], [bad, bad], [bad, 0], [0, bad]] {
                    let [indication, response] = lengths;
                    let octets = channel_of(number, [indication, response, 0, 0]);
                    assert!(!is_state_with(&octets), "{lengths:?}");
                }
            }
            assert!(!is_state_with(&channel_of(number, [4, 0, 0, 0])));
            assert!(!is_state_with(&channel_of(number, [0, 4, 0, 0])));
        }
    }

    #[test]
    fn no_more_of_a_channels_octets_are_in_use_than_there_are() {
        for number in 0..CHANNELS {
            for octets in [
                [4, 5, 4, 5],
                [4, 5, 0, 5],
                [4, 5, 4, 0],
                [240, 240, 240, 240],
            ] {
                assert!(is_state_with(&channel_of(number, octets)), "{octets:?}");
            }
            for octets in [[4, 5, 5, 5], [4, 5, 4, 6], [0, 0, 1, 0], [0, 0, 0, 1]] {
                assert!(!is_state_with(&channel_of(number, octets)), "{octets:?}");
            }
        }
    }

    /// In the shortest memory the fresh station's own buffers end at 616, so that 920 octets are there for channels.
    #[test]
    fn the_channels_buffers_end_in_the_memory() {
        let with_last = |lengths: [u8; 2]| {
            let one = channel_of(0, [240, 240, 0, 0]);
            [one, channel_of(15, [lengths[0], lengths[1], 0, 0])].concat()
        };
        assert_eq!(end_of_buffers(&fresh()), 616);
        assert!(is_state_with(&with_last([240, 200])));
        assert!(is_state_with(&with_last([193, 240])));
        assert!(!is_state_with(&with_last([240, 201])));
        assert!(!is_state_with(&with_last([201, 240])));
    }

    #[test]
    fn free_channels_have_their_lengths_and_nothing_in_use() {
        let lengths: Vec<u8> = (1..=32).collect();
        let mut image = fresh();
        for number in 0..CHANNELS {
            image[ROWS[0] + number] = lengths[2 * number];
            image[ROWS[1] + number] = lengths[2 * number + 1];
        }
        assert!(are_free_channels(&image, &lengths));
        for at in ALL_ROWS {
            image[at] ^= 0x40;
            assert!(!are_free_channels(&image, &lengths), "octet {at}");
            image[at] ^= 0x40;
        }
    }

    #[test]
    fn every_ident_and_every_number_of_ticks_is_a_states() {
        for at in [IDENT, TICKS_LEFT, TICKS_REFILLED].into_iter().flatten() {
            for octet in 0..=255 {
                assert!(is_state_with(&[(at, octet)]), "octet {at}");
            }
        }
    }

    #[test]
    fn ticks_are_32_bits_low_octet_first() {
        let mut image = fresh();
        put_ticks(&mut image, 0x0403_0201, 650_250);
        assert_eq!(image[44..48], [1, 2, 3, 4]);
        assert_eq!(image[64..68], [0x0A, 0xEC, 0x09, 0x00]);
        assert_eq!(ticks(&image), (0x0403_0201, 650_250));
        image[42..44].copy_from_slice(&[0xB3, 0x80]);
        assert_eq!(ident(&image), 0x80B3);
    }

    #[test]
    fn outputs_or_inputs_may_have_no_octet_but_not_both() {
        let sides = |outputs, inputs| [(LENGTHS, outputs), (LENGTHS + 1, inputs)];
        for (outputs, inputs) in [(0, 1), (1, 0), (0, 244), (244, 0)] {
            assert!(is_state_in(1576, &sides(outputs, inputs)));
        }
        for (outputs, inputs) in [(0, 0), (0, 245), (245, 0), (0, 255), (255, 0)] {
            assert!(!is_state_in(16_384, &sides(outputs, inputs)));
        }
    }

    /// In the shortest memory 1,024 octets are there for buffers, 9 times the others' length and what a side takes.
    #[test]
    fn a_side_without_octets_takes_no_room() {
        let with = |sides: [u8; 2], others: u8| -> Vec<(usize, u8)> {
            let lengths = [sides[0], sides[1], others, others, others, others];
            (LENGTHS..).zip(lengths).collect()
        };
        assert!(is_state_with(&with([0, 72], 88)));
        assert!(!is_state_with(&with([0, 73], 88)));
        assert!(is_state_with(&with([40, 0], 96)));
        assert!(!is_state_with(&with([41, 0], 96)));
    }

    #[test]
    fn all_lengths_64_fit_the_shortest_memory_and_65_do_not() {
        let all = |length| -> Vec<(usize, u8)> {
            (LENGTHS..LENGTHS + 6).map(|at| (at, length)).collect()
        };
        assert!(is_state_with(&all(64)));
        assert!(!is_state_with(&all(65)));
    }
}

//! Channels, sentence by sentence of the part of document 02, Req 08, that is there, on the second implementation: the
//! memory and Start. No channel does anything yet.

use crate::call::CHANNELS;
use crate::draft::{self, Draft};
use crate::line::{self, seen, Line, MASTER, STATION};

const RS: [u8; 6] = [0x10, 2, 5, 3, 10, 0x16];

/// What a Start of `Line::fresh` answers with this memory and these octets for the channels.
fn started(memory: usize, channels: &[u8]) -> i64 {
    start_of(memory, 5, 1, channels)
}

fn start_of(memory: usize, address: u32, outputs: u32, channels: &[u8]) -> i64 {
    let start = format!("start {memory} {address} 32947 {outputs} 1 10 1 9 20");
    Line::without_start().call(&with(&start, channels))
}

fn with(start: &str, channels: &[u8]) -> String {
    let digits: String = channels
        .iter()
        .map(|octet| format!("{octet:02X}"))
        .collect();
    match channels {
        [] => format!("{start} -"),
        _ => format!("{start} {digits}"),
    }
}

/// One channel of these lengths, no other.
fn one(number: usize, indication: u8, response: u8) -> Vec<u8> {
    let mut lengths = vec![0; 2 * CHANNELS];
    lengths[2 * number] = indication;
    lengths[2 * number + 1] = response;
    lengths
}

fn all(length: u8) -> Vec<u8> {
    vec![length; 2 * CHANNELS]
}

fn set_up(channels: &[u8]) -> Line {
    let mut line = Line::without_start();
    let start = "start 16384 5 32947 1 1 10 1 9 20";
    assert_eq!(line.call(&with(start, channels)), 0);
    line
}

#[test]
fn a_memory_has_up_to_16384_octets() {
    for memory in 0..=16_400 {
        let good = (1536..=16_384).contains(&memory) && memory % 8 == 0;
        assert_eq!(started(memory, &all(0)), if good { 0 } else { -1 });
    }
}

#[test]
fn start_takes_32_octets_for_the_channels() {
    for count in (0..=300).chain([65_568]) {
        let answer = if count == 32 { 0 } else { -3 };
        assert_eq!(started(16_384, &vec![0; count]), answer, "{count} octets");
        assert_eq!(started(16_384, &vec![4; count]), answer, "{count} octets");
    }
}

#[test]
fn both_lengths_of_a_channel_are_4_to_240_or_both_are_0() {
    let good = |length| (4..=240).contains(&length);
    for indication in 0..=255 {
        for response in 0..=255 {
            let number = usize::from(indication ^ response) % CHANNELS;
            let keeps = (indication, response) == (0, 0) || good(indication) && good(response);
            let answer = started(16_384, &one(number, indication, response));
            assert_eq!(
                answer,
                if keeps { 0 } else { -3 },
                "{indication}, {response}"
            );
        }
    }
}

#[test]
fn each_of_the_sixteen_channels_is_looked_at() {
    for number in 0..CHANNELS {
        for (indication, response) in [(4, 4), (4, 240), (240, 4), (240, 240)] {
            assert_eq!(started(16_384, &one(number, indication, response)), 0);
        }
        for (indication, response) in [(3, 4), (4, 3), (241, 4), (4, 241), (0, 4), (4, 0)] {
            let mut others = all(17);
            others[2 * number..2 * number + 2].copy_from_slice(&[indication, response]);
            assert_eq!(started(16_384, &others), -3, "channel {number}");
            let alone = one(number, indication, response);
            assert_eq!(started(16_384, &alone), -3, "channel {number}");
        }
    }
}

#[test]
fn refusals_1_2_3_and_4_are_looked_at_in_this_order() {
    for bad in [one(7, 3, 4), all(0)[..31].to_vec(), Vec::new()] {
        assert_eq!(start_of(16_392, 127, 245, &bad), -1);
        assert_eq!(start_of(16_384, 127, 245, &bad), -2);
        assert_eq!(start_of(1536, 5, 245, &bad), -3);
        assert_eq!(start_of(1536, 5, 244, &bad), -3);
    }
    assert_eq!(start_of(1536, 5, 245, &all(240)), -3);
    assert_eq!(start_of(1536, 5, 244, &all(240)), -4);
    assert_eq!(start_of(1536, 5, 244, &all(0)), -4);
}

/// One output, one input, 10, 1, 9 and 1 octets end at 680.
#[test]
fn the_channels_buffers_lie_beside_the_present_ones() {
    for (lengths, room) in [
        (all(9), 512),
        (all(32), 1024),
        (all(240), 7680),
        ([one(0, 240, 240), all(8)].concat()[..32].to_vec(), 480),
    ] {
        let end = 680 + room;
        assert_eq!(started(end.max(1536), &lengths), 0, "{lengths:?}");
        if end > 1536 {
            assert_eq!(started(end - 8, &lengths), -4, "{lengths:?}");
        }
    }
}

/// Each of the two lengths is rounded up by itself. 240, 240 and 240 leave 136 of the 856 octets.
#[test]
fn a_length_takes_its_room_in_steps_of_8() {
    for number in 1..CHANNELS {
        for (length, answer) in [(128, 0), (129, 0), (136, 0), (137, -4)] {
            let mut lengths = one(0, 240, 240);
            lengths[2 * number..2 * number + 2].copy_from_slice(&[240, length]);
            assert_eq!(started(1536, &lengths), answer, "{length}");
            lengths[2 * number..2 * number + 2].copy_from_slice(&[length, 240]);
            assert_eq!(started(1536, &lengths), answer, "{length}");
        }
    }
}

#[test]
fn the_longest_lengths_end_at_12160() {
    let slice = "20".repeat(244);
    for (memory, answer) in [(12_152, -4), (12_160, 0), (16_384, 0)] {
        let start = format!("start {memory} 5 1 244 244 244 244 244 {slice}");
        assert_eq!(Line::without_start().call(&with(&start, &all(240))), answer);
    }
}

/// A Start that is refused leaves the station as it was.
#[test]
fn a_refused_start_changes_nothing() {
    let start = "start 16384 6 1 2 2 7 1 6 21";
    for line in line::stations() {
        line::does_nothing(&line, &with(start, &one(3, 4, 3)), -3);
        line::does_nothing(&line, &with(start, &all(0)[..31]), -3);
        line::does_nothing(&line, &with("start 1536 6 1 2 2 7 1 6 21", &all(240)), -4);
    }
}

/// Whatever the owner or another master sends to a channel in DATA_EXCH.
#[test]
fn a_channels_point_is_not_there_yet() {
    for channels in [all(0), all(240), one(5, 4, 4)] {
        let mut line = set_up(&channels);
        line.enter_exchange(draft::ALLOW_NONE);
        for dsap in 0..CHANNELS as u8 {
            for ssap in [0, 1, 51, 52, draft::MASTER_POINT] {
                for data in [vec![], vec![1], vec![1; 4], vec![1; 240], vec![1; 241]] {
                    let draft = Draft {
                        points: Some((dsap, ssap)),
                        ..Draft::to_point(STATION, MASTER, dsap, data)
                    };
                    assert_eq!(line.put(&draft), RS);
                }
            }
        }
        assert_eq!(line.events(), 0);
    }
}

#[test]
fn a_station_with_channels_answers_as_one_without() {
    for channels in [all(4), all(240), one(0, 4, 4), one(15, 240, 9)] {
        let (mut without, mut with_channels) = (set_up(&all(0)), set_up(&channels));
        assert_eq!(seen(with_channels.clone()), seen(without.clone()));
        for line in [&mut without, &mut with_channels] {
            line.enter_exchange(draft::ALLOW_BOTH);
            line.exchange(0x11);
            line.hand_over(0x21);
        }
        assert_eq!(seen(with_channels), seen(without));
    }
}

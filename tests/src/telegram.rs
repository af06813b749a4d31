//! Telegrams as whole lists of octets: document 01, section "Telegrams". Nothing here knows a DP service.
//!
//! Two questions are asked of a list: is it a telegram (`read`), and can it still become one (`can_become`).
//! The second is answered by completing the list in the most permissive way and asking the first.

pub const SD1: u8 = 0x10;
pub const SD2: u8 = 0x68;
pub const SD3: u8 = 0xA2;
pub const SD4: u8 = 0xDC;
pub const END: u8 = 0x16;

/// The bit that marks an extension in DA and SA.
pub const EXTENSION: u8 = 0x80;

const SD3_DATA: usize = 8;
const LEAST_LE: u8 = 4;
const GREATEST_LE: u8 = 249;

#[derive(Clone, Copy, PartialEq, Eq, Debug)]
pub enum Form {
    Sd1,
    Sd2,
    Sd3,
    Sd4,
}

/// The parts of a complete telegram. SD4 has no control octet; it is 0 here, and nobody asks for it.
#[derive(Clone, PartialEq, Eq, Debug)]
pub struct Telegram {
    pub form: Form,
    pub destination: u8,
    pub source: u8,
    pub control: u8,
    pub data: Vec<u8>,
}

/// The service points of a telegram with an extension, and the data behind them.
pub struct Extended<'a> {
    pub dsap: u8,
    pub ssap: u8,
    pub data: &'a [u8],
}

impl Telegram {
    pub fn extended(&self) -> Option<Extended<'_>> {
        match (is_extended(self.destination), self.data.as_slice()) {
            (true, [dsap, ssap, data @ ..]) => Some(Extended {
                dsap: *dsap,
                ssap: *ssap,
                data,
            }),
            _ => None,
        }
    }
}

fn is_extended(address: u8) -> bool {
    address & EXTENSION != 0
}

/// The sum of the octets, wrapping at 256.
pub fn check_sum(octets: &[u8]) -> u8 {
    octets
        .iter()
        .fold(0, |sum: u8, octet| sum.wrapping_add(*octet))
}

pub fn begins(octet: u8) -> bool {
    [SD1, SD2, SD3, SD4].contains(&octet)
}

/// The parts of the list if it is a telegram, from its first octet to its last.
pub fn read(octets: &[u8]) -> Option<Telegram> {
    match octets {
        [SD1, body @ .., fcs, END] if body.len() == 3 => checked(Form::Sd1, body, *fcs),
        [SD3, body @ .., fcs, END] if body.len() == 3 + SD3_DATA => checked(Form::Sd3, body, *fcs),
        [SD2, le, again, SD2, body @ .., fcs, END]
            if le == again && is_length(*le) && body.len() == usize::from(*le) =>
        {
            checked(Form::Sd2, body, *fcs)
        }
        [SD4, destination, source] => parts(Form::Sd4, *destination, *source, 0, &[]),
        _ => None,
    }
}

fn is_length(le: u8) -> bool {
    (LEAST_LE..=GREATEST_LE).contains(&le)
}

/// The body is DA, SA, FC and the data, which is what the FCS sums.
fn checked(form: Form, body: &[u8], fcs: u8) -> Option<Telegram> {
    match body {
        [destination, source, control, data @ ..] if check_sum(body) == fcs => {
            parts(form, *destination, *source, *control, data)
        }
        _ => None,
    }
}

/// Both addresses are marked or neither; an extension needs two data octets.
fn parts(form: Form, destination: u8, source: u8, control: u8, data: &[u8]) -> Option<Telegram> {
    let extended = is_extended(destination);
    if extended != is_extended(source) || (extended && data.len() < 2) {
        return None;
    }
    Some(Telegram {
        form,
        destination,
        source,
        control,
        data: data.to_vec(),
    })
}

/// Whether some telegram begins with these octets (or is these octets).
pub fn can_become(octets: &[u8]) -> bool {
    match completed(octets) {
        Some(whole) => whole.starts_with(octets) && read(&whole).is_some(),
        None => false,
    }
}

/// The list with every octet that is still missing put in such that a telegram results if one can: the octets that
/// are free become 0, SA takes the mark of DA, and the octets that follow from others are worked out.
fn completed(octets: &[u8]) -> Option<Vec<u8>> {
    let (mut whole, body_length) = head(octets)?;
    let body_at = whole.len();
    whole.resize(body_at + body_length, 0);
    lay_over(&mut whole, octets);
    if octets.len() <= body_at + 1 {
        whole[body_at + 1] = whole[body_at] & EXTENSION;
    }
    if octets[0] != SD4 {
        whole.push(check_sum(&whole[body_at..]));
        whole.push(END);
    }
    lay_over(&mut whole, octets);
    Some(whole)
}

/// The octets before DA and the number of octets that DA, SA, FC and the data make.
fn head(octets: &[u8]) -> Option<(Vec<u8>, usize)> {
    match *octets.first()? {
        SD1 => Some((vec![SD1], 3)),
        SD3 => Some((vec![SD3], 3 + SD3_DATA)),
        SD4 => Some((vec![SD4], 2)),
        SD2 => {
            let le = octets.get(1).copied().unwrap_or(GREATEST_LE);
            is_length(le).then(|| (vec![SD2, le, le, SD2], usize::from(le)))
        }
        _ => None,
    }
}

fn lay_over(whole: &mut [u8], octets: &[u8]) {
    for (place, octet) in whole.iter_mut().zip(octets) {
        *place = *octet;
    }
}

/// What an octet of a telegram is, by its place. The tables of the comparison tell break-offs apart by it.
#[derive(Clone, Copy, PartialEq, Eq, Debug)]
pub enum Place {
    First,
    Length,
    SecondLength,
    SecondStart,
    Destination,
    Source,
    ControlOrData,
    CheckSum,
    Last,
}

/// The place of the last octet of a list whose octets before it can become a telegram.
pub fn place_of_last(octets: &[u8]) -> Place {
    let at = octets.len() - 1;
    let body_at = if octets[0] == SD2 { 4 } else { 1 };
    if at == 0 {
        return Place::First;
    }
    if at < body_at {
        return [Place::Length, Place::SecondLength, Place::SecondStart][at - 1];
    }
    let body_length = head(octets).map_or(0, |(_, length)| length);
    match at - body_at {
        0 => Place::Destination,
        1 => Place::Source,
        within if within < body_length => Place::ControlOrData,
        within if within == body_length => Place::CheckSum,
        _ => Place::Last,
    }
}

pub fn sd1(destination: u8, source: u8, control: u8) -> Vec<u8> {
    closed(vec![SD1], &[destination, source, control])
}

pub fn sd2(destination: u8, source: u8, control: u8, data: &[u8]) -> Vec<u8> {
    let body = [&[destination, source, control], data].concat();
    let le = body.len() as u8;
    closed(vec![SD2, le, le, SD2], &body)
}

/// Data that is shorter than 8 octets is filled up, data that is longer is cut: SD3 has always 8.
pub fn sd3(destination: u8, source: u8, control: u8, data: &[u8]) -> Vec<u8> {
    let mut body = [&[destination, source, control], data].concat();
    body.resize(3 + SD3_DATA, 0);
    closed(vec![SD3], &body)
}

pub fn sd4(destination: u8, source: u8) -> Vec<u8> {
    vec![SD4, destination, source]
}

fn closed(head: Vec<u8>, body: &[u8]) -> Vec<u8> {
    [&head, body, &[check_sum(body), END]].concat()
}

#[cfg(test)]
mod tests {
    use super::*;

    /// The number of octets taken until the list can no longer become a telegram, or None if it never breaks.
    fn breaks_at(octets: &[u8]) -> Option<usize> {
        (1..=octets.len()).find(|count| !can_become(&octets[..*count]))
    }

    #[test]
    fn every_beginning_of_a_telegram_can_become_one() {
        let data: Vec<u8> = (0..246).collect();
        let telegrams = [
            sd1(5, 2, 0x49),
            sd2(5, 2, 0x5D, &data[..1]),
            sd2(0x85, 0x82, 0x5D, &data[..2]),
            sd2(0x85, 0x82, 0x5D, &data),
            sd3(5, 2, 0x5D, &data[..8]),
            sd3(0x85, 0x82, 0x5D, &data[..8]),
            sd4(5, 2),
        ];
        for telegram in telegrams {
            assert_eq!(breaks_at(&telegram), None);
            assert!(read(&telegram).is_some());
            for count in 1..telegram.len() {
                assert!(read(&telegram[..count]).is_none());
            }
        }
    }

    #[test]
    fn break_off_comes_at_the_first_octet_that_shuts_every_telegram_out() {
        assert_eq!(breaks_at(&[SD1, 0x85]), Some(2));
        assert_eq!(breaks_at(&[SD1, 0x05, 0x82]), Some(3));
        assert_eq!(breaks_at(&[SD4, 0x85]), Some(2));
        assert_eq!(breaks_at(&[SD4, 0x05, 0x82]), Some(3));
        assert_eq!(breaks_at(&[SD2, 3]), Some(2));
        assert_eq!(breaks_at(&[SD2, 250]), Some(2));
        assert_eq!(breaks_at(&[SD2, 249, 248]), Some(3));
        assert_eq!(breaks_at(&[SD2, 4, 4, 0x67]), Some(4));
        assert_eq!(breaks_at(&[SD2, 4, 4, SD2, 0x85]), Some(5));
        assert_eq!(breaks_at(&[SD2, 5, 5, SD2, 0x85, 0x02]), Some(6));
        assert_eq!(breaks_at(&[SD2, 5, 5, SD2, 0x85, 0x82]), None);
        assert_eq!(breaks_at(&[SD3, 0x85, 0x02]), Some(3));
        assert_eq!(breaks_at(&[SD1, 5, 2, 0x49, 0x51]), Some(5));
        assert_eq!(breaks_at(&[SD1, 5, 2, 0x49, 0x50, 0x17]), Some(6));
        assert_eq!(breaks_at(&[SD1, 5, 2, 0x49, 0x50, 0x16, 0x16]), Some(7));
        assert_eq!(breaks_at(&[0x11]), Some(1));
    }

    /// Independent of `completed`: a list can become a telegram exactly if one of the 256 next octets can follow.
    #[test]
    fn a_list_can_go_on_exactly_if_some_next_octet_can() {
        let seeds: [&[u8]; 6] = [
            &[SD1, 5, 2],
            &[SD2, 5, 5, SD2, 0x85],
            &[SD2, 4, 4, SD2, 0x05],
            &[SD2, 4, 4, SD2, 0x85],
            &[SD3, 0x85],
            &[SD4, 0x05],
        ];
        for begun in seeds {
            let followed = (0..=255).any(|next| can_become(&[begun, &[next]].concat()));
            assert_eq!(can_become(begun), followed, "{begun:02X?}");
        }
    }
}

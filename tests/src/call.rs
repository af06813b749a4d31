//! The calls of the station as values, and their lines in the files of `tests/vectors`.

use std::fmt;

/// What Start is told of the channels: for each the length of its indication and of its response.
pub const CHANNELS: usize = 16;
pub const NO_CHANNELS: [u8; 2 * CHANNELS] = [0; 2 * CHANNELS];

/// The octets before the buffers: document 02, Req 08, "the state part 512".
pub const STATE: usize = 512;

/// Start's arguments; the memory is known by its length alone.
#[derive(Clone, PartialEq, Eq, Debug)]
pub struct StartValues {
    pub memory: usize,
    pub address: u32,
    pub ident: u16,
    pub outputs: u32,
    pub inputs: u32,
    pub parameters: u32,
    pub configuration: u32,
    pub diagnosis: u32,
    pub get_cfg: Vec<u8>,
    /// 32 octets, or Start refuses them: `NO_CHANNELS` if no channel is set up.
    pub channels: Vec<u8>,
}

impl StartValues {
    /// Where all buffers end: those of the channels lie behind the others.
    pub fn end_of_buffers(&self) -> u64 {
        let channels = self.channels.iter();
        let room: u64 = channels.map(|length| rounded((*length).into())).sum();
        self.end_without_channels() + room
    }

    /// Where the buffers end if no channel is set up: document 01, section "The station and its memory", with the fourth
    /// output buffer of document 02, Req 01, and the state part of its Req 08. Buffers of a length 0 take no room.
    pub fn end_without_channels(&self) -> u64 {
        STATE as u64
            + 4 * rounded(self.outputs.into())
            + 3 * rounded(self.inputs.into())
            + 3 * rounded(self.parameters.into())
            + 3 * rounded(self.configuration.into())
            + 2 * rounded(self.diagnosis.into())
            + rounded(self.get_cfg.len() as u64)
    }
}

/// The room that a buffer takes.
fn rounded(length: u64) -> u64 {
    length.div_ceil(8) * 8
}

/// The order of the octets of a word, in which a window access counts the addresses.
#[derive(Clone, Copy, PartialEq, Eq, Debug)]
pub enum Order {
    Intel,
    Motorola,
}

#[derive(Clone, PartialEq, Eq, Debug)]
pub enum Call {
    Start(StartValues),
    Octet {
        octet: u8,
        bad: bool,
    },
    Gap,
    Send,
    Tick,
    Take,
    Read {
        kind: u32,
        index: u32,
    },
    Write {
        kind: u32,
        index: u32,
        octet: u8,
    },
    HandOver,
    NewDiagnosis {
        count: u32,
        flags: u32,
    },
    JudgeParameters(u32),
    JudgeConfiguration(u32),
    Events,
    Acknowledge(u16),
    Pending,
    Leave,
    WindowRead {
        order: Order,
        address: u32,
    },
    WindowWrite {
        order: Order,
        address: u32,
        octet: u8,
    },
}

/// The longest memory that a file may ask for; Start refuses everything above 16,384 anyway.
const LONGEST_MEMORY: usize = 1 << 20;

impl fmt::Display for Call {
    fn fmt(&self, f: &mut fmt::Formatter<'_>) -> fmt::Result {
        match self {
            Call::Start(values) => write_start(f, values),
            Call::Octet { octet, bad: false } => write!(f, "octet {octet:02X}"),
            Call::Octet { octet, bad: true } => write!(f, "bad {octet:02X}"),
            Call::Gap => write!(f, "gap"),
            Call::Send => write!(f, "send"),
            Call::Tick => write!(f, "tick"),
            Call::Take => write!(f, "take"),
            Call::Read { kind, index } => write!(f, "read {kind} {index}"),
            Call::Write { kind, index, octet } => write!(f, "write {kind} {index} {octet:02X}"),
            Call::HandOver => write!(f, "handover"),
            Call::NewDiagnosis { count, flags } => write!(f, "diag {count} {flags}"),
            Call::JudgeParameters(judgement) => write!(f, "judgeprm {judgement}"),
            Call::JudgeConfiguration(judgement) => write!(f, "judgecfg {judgement}"),
            Call::Events => write!(f, "events"),
            Call::Acknowledge(mask) => write!(f, "ack {mask}"),
            Call::Pending => write!(f, "pending"),
            Call::Leave => write!(f, "leave"),
            Call::WindowRead { order, address } => write!(f, "winread {order} {address}"),
            Call::WindowWrite {
                order,
                address,
                octet,
            } => write!(f, "winwrite {order} {address} {octet:02X}"),
        }
    }
}

impl fmt::Display for Order {
    fn fmt(&self, f: &mut fmt::Formatter<'_>) -> fmt::Result {
        f.write_str(match self {
            Order::Intel => "i",
            Order::Motorola => "m",
        })
    }
}

fn write_start(f: &mut fmt::Formatter<'_>, values: &StartValues) -> fmt::Result {
    write!(
        f,
        "start {} {} {} {} {} {} {} {} ",
        values.memory,
        values.address,
        values.ident,
        values.outputs,
        values.inputs,
        values.parameters,
        values.configuration,
        values.diagnosis
    )?;
    write_slice(f, &values.get_cfg)?;
    write!(f, " ")?;
    write_slice(f, &values.channels)
}

fn write_slice(f: &mut fmt::Formatter<'_>, octets: &[u8]) -> fmt::Result {
    if octets.is_empty() {
        return write!(f, "-");
    }
    octets.iter().try_for_each(|octet| write!(f, "{octet:02X}"))
}

/// The call of a line, None for a line that is skipped, or what is wrong with the line.
pub fn parse(line: &str) -> Result<Option<Call>, String> {
    let line = line.trim();
    if line.is_empty() || line.starts_with('#') {
        return Ok(None);
    }
    let mut words = Words {
        left: line.split_whitespace().collect(),
    };
    let call = parse_call(&mut words)?;
    words.none_left()?;
    Ok(Some(call))
}

fn parse_call(words: &mut Words) -> Result<Call, String> {
    let name = words.next("a call")?;
    Ok(match name {
        "start" => Call::Start(parse_start(words)?),
        "octet" => Call::Octet {
            octet: words.octet()?,
            bad: false,
        },
        "bad" => Call::Octet {
            octet: words.octet()?,
            bad: true,
        },
        "gap" => Call::Gap,
        "send" => Call::Send,
        "tick" => Call::Tick,
        "take" => Call::Take,
        "read" => Call::Read {
            kind: words.number("the kind", u32::MAX.into())? as u32,
            index: words.number("the index", u32::MAX.into())? as u32,
        },
        "write" => Call::Write {
            kind: words.number("the kind", u32::MAX.into())? as u32,
            index: words.number("the index", u32::MAX.into())? as u32,
            octet: words.octet()?,
        },
        "handover" => Call::HandOver,
        "diag" => Call::NewDiagnosis {
            count: words.number("the count", u32::MAX.into())? as u32,
            flags: words.number("the flags", u32::MAX.into())? as u32,
        },
        "judgeprm" => Call::JudgeParameters(words.number("the judgement", u32::MAX.into())? as u32),
        "judgecfg" => {
            Call::JudgeConfiguration(words.number("the judgement", u32::MAX.into())? as u32)
        }
        "events" => Call::Events,
        "ack" => Call::Acknowledge(words.number("the mask", u16::MAX.into())? as u16),
        "pending" => Call::Pending,
        "leave" => Call::Leave,
        "winread" => Call::WindowRead {
            order: words.order()?,
            address: words.number("the address", u32::MAX.into())? as u32,
        },
        "winwrite" => Call::WindowWrite {
            order: words.order()?,
            address: words.number("the address", u32::MAX.into())? as u32,
            octet: words.octet()?,
        },
        unknown => return Err(format!("'{unknown}' is no call")),
    })
}

fn parse_start(words: &mut Words) -> Result<StartValues, String> {
    let largest = u32::MAX.into();
    Ok(StartValues {
        memory: words.number("the memory's length", LONGEST_MEMORY as u64)? as usize,
        address: words.number("the address", largest)? as u32,
        ident: words.number("the ident number", u16::MAX.into())? as u16,
        outputs: words.number("the length of outputs", largest)? as u32,
        inputs: words.number("the length of inputs", largest)? as u32,
        parameters: words.number("the length of parameters", largest)? as u32,
        configuration: words.number("the length of configuration", largest)? as u32,
        diagnosis: words.number("the length of diagnosis", largest)? as u32,
        get_cfg: words.slice("the Get_Cfg slice")?,
        channels: words.slice("the slice of the channels' lengths")?,
    })
}

struct Words<'a> {
    left: Vec<&'a str>,
}

impl<'a> Words<'a> {
    fn next(&mut self, what: &str) -> Result<&'a str, String> {
        if self.left.is_empty() {
            return Err(format!("{what} is missing"));
        }
        Ok(self.left.remove(0))
    }

    fn none_left(&self) -> Result<(), String> {
        match self.left.first() {
            Some(word) => Err(format!("'{word}' is one word too many")),
            None => Ok(()),
        }
    }

    /// A decimal number. Only digits count: `parse` alone would let a sign through.
    fn number(&mut self, what: &str, largest: u64) -> Result<u64, String> {
        let word = self.next(what)?;
        let digits = word.bytes().all(|digit| digit.is_ascii_digit());
        match word.parse::<u64>() {
            Ok(number) if digits && number <= largest => Ok(number),
            _ => Err(format!(
                "{what} is '{word}', not a decimal number from 0 to {largest}"
            )),
        }
    }

    fn octet(&mut self) -> Result<u8, String> {
        let word = self.next("the octet")?;
        match hexadecimal(word).as_deref() {
            Some([octet]) => Ok(*octet),
            _ => Err(format!("the octet is '{word}', not two hexadecimal digits")),
        }
    }

    fn order(&mut self) -> Result<Order, String> {
        match self.next("the order")? {
            "i" => Ok(Order::Intel),
            "m" => Ok(Order::Motorola),
            word => Err(format!(
                "the order is '{word}', neither i for Intel nor m for Motorola"
            )),
        }
    }

    fn slice(&mut self, what: &str) -> Result<Vec<u8>, String> {
        let word = self.next(what)?;
        if word == "-" {
            return Ok(Vec::new());
        }
        hexadecimal(word).ok_or(format!(
            "{what} is '{word}', neither pairs of hexadecimal digits nor -"
        ))
    }
}

fn hexadecimal(word: &str) -> Option<Vec<u8>> {
    let digits: Option<Vec<u8>> = word
        .chars()
        .map(|digit| digit.to_digit(16).map(|value| value as u8))
        .collect();
    let digits = digits.filter(|digits| digits.len() % 2 == 0)?;
    Some(
        digits
            .chunks(2)
            .map(|pair| pair[0] * 16 + pair[1])
            .collect(),
    )
}

#[cfg(test)]
mod tests {
    use super::*;

    #[test]
    fn every_line_reads_back_as_its_call() {
        let lines = [
            "start 1536 5 32947 1 1 7 1 6 20 04F0",
            "start 0 4294967295 0 0 0 0 0 0 - -",
            "start 1536 5 32947 1 1 7 1 6 - 00000405",
            "start 1536 5 32947 1 1 7 1 6 2021 -",
            "octet 68",
            "bad 0A",
            "gap",
            "send",
            "tick",
            "take",
            "read 1 0",
            "write 4 243 FF",
            "handover",
            "diag 6 7",
            "judgeprm 1",
            "judgecfg 0",
            "events",
            "ack 65535",
            "pending",
            "leave",
            "winread i 0",
            "winread m 4294967295",
            "winwrite i 2 0F",
            "winwrite m 21 FF",
        ];
        for line in lines {
            assert_eq!(parse(line).unwrap().unwrap().to_string(), line);
        }
    }

    fn with_all_lengths(length: u32, channels: &[u8]) -> StartValues {
        StartValues {
            memory: 16_384,
            address: 5,
            ident: 0,
            outputs: length,
            inputs: length,
            parameters: length,
            configuration: length,
            diagnosis: length,
            get_cfg: vec![0; length as usize],
            channels: channels.to_vec(),
        }
    }

    /// The ends of document 01, each longer by an output buffer, and by 448: document 02, Req 01 and Req 08.
    #[test]
    fn buffers_end_where_the_documents_say() {
        for (length, end) in [(64, 1536), (96, 2048), (97, 2176), (244, 4480)] {
            let values = with_all_lengths(length, &NO_CHANNELS);
            assert_eq!(values.end_of_buffers(), end, "all lengths {length}");
            assert_eq!(values.end_without_channels(), end, "all lengths {length}");
        }
    }

    /// Each length is rounded up by itself: two of 4 take 16 octets and two of 9 take 32.
    #[test]
    fn the_channels_buffers_lie_behind_the_others() {
        for (length, end) in [(4, 4736), (8, 4736), (9, 4992), (240, 12_160)] {
            let values = with_all_lengths(244, &[length; 2 * CHANNELS]);
            assert_eq!(values.end_of_buffers(), end, "channels of {length}");
            assert_eq!(values.end_without_channels(), 4480);
        }
        let mut one = NO_CHANNELS;
        one[30..].copy_from_slice(&[9, 240]);
        assert_eq!(
            with_all_lengths(244, &one).end_of_buffers(),
            4480 + 16 + 240
        );
    }

    #[test]
    fn bad_lines_are_told() {
        for line in [
            "jump",
            "octet",
            "octet 6",
            "octet 688",
            "octet +8",
            "read 1",
            "read 1 x",
            "read 1 +2",
            "gap gap",
            "ack 65536",
            "start 1536",
            "start 1536 5 65536 1 1 7 1 6 20 00",
            "start 1536 5 1 1 1 7 1 6 2 00",
            "start 99999999999 5 1 1 1 7 1 6 20 00",
            "start 1536 5 1 1 1 7 1 6 20",
            "start 1536 5 1 1 1 7 1 6 20 0",
            "start 1536 5 1 1 1 7 1 6 20 0x",
            "start 1536 5 1 1 1 7 1 6 20 00 00",
            "winread",
            "winread 0",
            "winread i",
            "winread x 0",
            "winread I 0",
            "winread im 0",
            "winread 0 i",
            "winread i -1",
            "winread i 0B",
            "winread i 4294967296",
            "winread i 0 0",
            "winwrite m 2",
            "winwrite m 2 1",
            "winwrite m 2 100",
            "winwrite 2 01",
            "winwrite m 2 01 02",
        ] {
            assert!(parse(line).is_err(), "{line}");
        }
        assert_eq!(parse("  "), Ok(None));
        assert_eq!(parse("# a remark"), Ok(None));
    }
}

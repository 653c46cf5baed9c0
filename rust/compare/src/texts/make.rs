//! Makes packets, buffers and texts from a seed.

use reference::{TextPacket, LONGEST_TEXT};
use steps::Rng;

/// Where a letter lies.
#[derive(Debug, Clone, Copy, PartialEq, Eq)]
pub enum Letter {
    Any,
    First,
    Last,
    Under,
    Over,
}

impl Letter {
    pub const ALL: [Self; 5] = [Self::Any, Self::First, Self::Last, Self::Under, Self::Over];

    pub fn name(self) -> &'static str {
        match self {
            Self::Any => "any of the range",
            Self::First => "0x21",
            Self::Last => "0x7e",
            Self::Under => "under the range",
            Self::Over => "over the range",
        }
    }

    pub fn in_range(self) -> bool {
        !matches!(self, Self::Under | Self::Over)
    }

    fn make(self, rng: &mut Rng) -> u8 {
        match self {
            Self::Any if rng.chance(50) => rng.pick(b"idIDrRcs"),
            Self::Any => 0x21 + rng.below(0x5e) as u8,
            Self::First => 0x21,
            Self::Last => 0x7e,
            Self::Under => {
                if rng.chance(50) {
                    0x20
                } else {
                    rng.below(0x21) as u8
                }
            }
            Self::Over => {
                if rng.chance(50) {
                    0x7f
                } else {
                    0x7f + rng.below(0x81) as u8
                }
            }
        }
    }
}

/// How long a buffer is.
#[derive(Debug, Clone, Copy, PartialEq, Eq)]
pub enum Room {
    Empty,
    Short,
    OneShort,
    Exact,
    OneMore,
    More,
}

impl Room {
    pub const ALL: [Self; 6] =
        [Self::Empty, Self::Short, Self::OneShort, Self::Exact, Self::OneMore, Self::More];

    pub fn name(self) -> &'static str {
        match self {
            Self::Empty => "no byte",
            Self::Short => "1 to 32 bytes",
            Self::OneShort => "33 bytes",
            Self::Exact => "34 bytes",
            Self::OneMore => "35 bytes",
            Self::More => "more",
        }
    }

    pub fn is_short(self) -> bool {
        matches!(self, Self::Empty | Self::Short | Self::OneShort)
    }

    pub fn make(self, rng: &mut Rng) -> usize {
        match self {
            Self::Empty => 0,
            Self::Short => 1 + rng.index(LONGEST_TEXT - 2),
            Self::OneShort => LONGEST_TEXT - 1,
            Self::Exact => LONGEST_TEXT,
            Self::OneMore => LONGEST_TEXT + 1,
            Self::More => LONGEST_TEXT + 2 + rng.index(60),
        }
    }

    /// That of a buffer of this length.
    pub fn of(length: usize) -> Self {
        match length {
            0 => Self::Empty,
            33 => Self::OneShort,
            34 => Self::Exact,
            35 => Self::OneMore,
            _ if length < LONGEST_TEXT => Self::Short,
            _ => Self::More,
        }
    }
}

/// What is done to a packet's text before it is read.
#[derive(Debug, Clone, Copy, PartialEq, Eq)]
pub enum Damage {
    None,
    LeadingZero,
    UpperCase,
    DoubleBlank,
    ByteAfter,
    ByteBefore,
    NineDigits,
    NoDigit,
    NoPrefix,
    OtherLetter,
    TwoLetters,
    FieldLeftOff,
    Cut,
    ByteChanged,
    Noise,
    TooLong,
    Nothing,
}

impl Damage {
    pub const ALL: [Self; 17] = [
        Self::None,
        Self::LeadingZero,
        Self::UpperCase,
        Self::DoubleBlank,
        Self::ByteAfter,
        Self::ByteBefore,
        Self::NineDigits,
        Self::NoDigit,
        Self::NoPrefix,
        Self::OtherLetter,
        Self::TwoLetters,
        Self::FieldLeftOff,
        Self::Cut,
        Self::ByteChanged,
        Self::Noise,
        Self::TooLong,
        Self::Nothing,
    ];

    pub fn name(self) -> &'static str {
        match self {
            Self::None => "as written",
            Self::LeadingZero => "a leading zero",
            Self::UpperCase => "upper case",
            Self::DoubleBlank => "two blanks",
            Self::ByteAfter => "a byte after",
            Self::ByteBefore => "a byte before",
            Self::NineDigits => "nine digits",
            Self::NoDigit => "no digit",
            Self::NoPrefix => "no 0x",
            Self::OtherLetter => "a letter outside the range",
            Self::TwoLetters => "two letters",
            Self::FieldLeftOff => "a field left off",
            Self::Cut => "cut short",
            Self::ByteChanged => "a byte changed",
            Self::Noise => "random bytes",
            Self::TooLong => "longer than any text",
            Self::Nothing => "nothing at all",
        }
    }

    /// Whether reading such a text can have this number.
    pub fn can_have(self, number: u8) -> bool {
        match self {
            Self::None => number == 0,
            Self::Cut | Self::ByteChanged => number == 0 || number == 10,
            _ => number == 10,
        }
    }
}

/// One call on both sides.
#[derive(Debug, Clone)]
pub enum Case {
    Write { letter: Letter, room: Room, packet: TextPacket, buffer: Vec<u8> },
    Read { damage: Damage, packet: TextPacket, text: Vec<u8> },
}

/// A number of one to eight digits, or an edge.
fn number(rng: &mut Rng) -> u32 {
    match rng.weighted(&[10, 80, 5, 5]) {
        0 => 0,
        1 => rng.word() >> (4 * rng.below(8)),
        2 => 1 << (4 * rng.below(8)),
        _ => u32::MAX >> (4 * rng.below(8)),
    }
}

fn packet(rng: &mut Rng, letter: Letter) -> TextPacket {
    match rng.index(40) {
        0 => TextPacket { pid: 0, letter: letter.make(rng), third: 0, fourth: 0 },
        1 => TextPacket { pid: !0, letter: letter.make(rng), third: !0, fourth: !0 },
        _ => TextPacket {
            pid: number(rng),
            letter: letter.make(rng),
            third: number(rng),
            fourth: number(rng),
        },
    }
}

/// The four fields of a packet's text, made here and by neither side.
fn fields(packet: TextPacket) -> [Vec<u8>; 4] {
    let hex = |value: u32| [b"0x", format!("{value:x}").as_bytes()].concat();
    [hex(packet.pid), vec![packet.letter], hex(packet.third), hex(packet.fourth)]
}

/// The text of a packet with this damage.
pub fn damaged(rng: &mut Rng, damage: Damage, packet: TextPacket) -> Vec<u8> {
    let mut fields = fields(packet);
    damage_field(rng, damage, &mut fields);
    let mut text = fields.join(&b' ');
    damage_text(rng, damage, &mut text);
    text
}

/// Damage of one field.
fn damage_field(rng: &mut Rng, damage: Damage, fields: &mut [Vec<u8>; 4]) {
    let field = rng.pick(&[0, 2, 3]);
    let digits = fields[field].len() - 2;
    match damage {
        Damage::LeadingZero => {
            let zeros = 1 + rng.index(3);
            fields[field].splice(2..2, vec![b'0'; zeros]);
        }
        Damage::UpperCase => {
            let lower: Vec<usize> =
                (1..digits + 2).filter(|&i| fields[field][i].is_ascii_lowercase()).collect();
            let place = rng.pick(&lower);
            fields[field][place].make_ascii_uppercase();
        }
        Damage::NineDigits => {
            let more = 9 - digits + rng.index(3);
            let first = b'1' + rng.below(9) as u8;
            fields[field].splice(2..2, vec![first; more]);
        }
        Damage::NoDigit => fields[field].truncate(2),
        Damage::NoPrefix => drop(fields[field].drain(..1 + rng.index(2))),
        Damage::OtherLetter => {
            let letter = rng.pick(&[Letter::Under, Letter::Over]);
            fields[1][0] = letter.make(rng);
        }
        Damage::TwoLetters => fields[1].push(0x21 + rng.below(0x5e) as u8),
        _ => {}
    }
}

/// Damage of the whole text.
fn damage_text(rng: &mut Rng, damage: Damage, text: &mut Vec<u8>) {
    let blanks: Vec<usize> = (0..text.len()).filter(|&i| text[i] == b' ').collect();
    match damage {
        Damage::DoubleBlank => text.insert(rng.pick(&blanks), b' '),
        Damage::ByteAfter => {
            // Another digit may make another number: that is no damage.
            let byte = rng.byte();
            text.push(if byte.is_ascii_hexdigit() { b' ' } else { byte });
        }
        Damage::ByteBefore => text.insert(0, rng.byte()),
        Damage::FieldLeftOff => text.truncate(blanks[rng.index(3)] + rng.index(2)),
        Damage::Cut => text.truncate(rng.index(text.len())),
        Damage::ByteChanged => {
            let place = rng.index(text.len());
            text[place] =
                if rng.chance(50) { rng.pick(b"0123456789abcdefAF xXi") } else { rng.byte() };
        }
        Damage::Noise => {
            let length = rng.index(80);
            *text = rng.bytes(length);
        }
        Damage::TooLong => {
            let length = LONGEST_TEXT + 1 + rng.index(200);
            text.resize(length, rng.pick(b"0f "));
        }
        Damage::Nothing => text.clear(),
        _ => {}
    }
}

impl Case {
    pub fn new(rng: &mut Rng) -> Self {
        if rng.chance(40) {
            let letter = Letter::ALL[rng.weighted(&[60, 10, 10, 10, 10])];
            let room = Room::ALL[rng.weighted(&[5, 10, 15, 40, 10, 20])];
            let length = room.make(rng);
            let buffer = rng.bytes(length);
            return Self::Write { letter, room, packet: packet(rng, letter), buffer };
        }
        let weights = [40, 6, 6, 6, 6, 4, 6, 4, 4, 6, 4, 4, 6, 12, 4, 4, 1];
        let damage = Damage::ALL[rng.weighted(&weights)];
        let packet = packet(rng, Letter::Any);
        Self::Read { damage, packet, text: damaged(rng, damage, packet) }
    }
}

//! Items made of recorded stages: as they are, or damaged as a bad line or a caption editor damages them.

use crate::blank::{blank_length, ASCII_BLANKS, BLANKS, NEAR_MISSES};
use crate::item::{Item, Reading};
use crate::name::{border, words};
use crate::random::Random;
use crate::stages::{Stage, Stages};

/// A stage travels in packets of one of these sizes; 1,400 is what the headset's line carries.
const PACKET_SIZES: [usize; 4] = [64, 256, 536, MOST_LOST];
/// At most so many bytes are lost at once.
const MOST_LOST: usize = 1_400;
/// Bytes that mean something in a stage: put in place of another, they do more than any byte would.
const MARKS: &[u8] = b"<>/{}=\"'.:-,()[]!?&|+* \n\\a1";
/// Where a string or a comment ends, or may begin: strings in braces are rare in stages, so braces are among them.
const ENDS_AND_BRACES: &[u8] = b"\"'*{";
/// What breaks a string in braces, and what opens a string or a comment.
const LINE_ENDS: [&[u8]; 3] = [b"\n", b"\r", b"\r\n"];
const OPENERS: [&[u8]; 3] = [b"\"", b"'", b"/*"];
/// What a caption editor pastes most; any blank beyond ASCII may come instead.
const OFTEN_PASTED: [char; 4] = ['\u{A0}', '\u{FEFF}', '\u{2028}', '\u{2029}'];
/// What comes into names where it is no border of a range: letters of partners, characters that only go on with a name,
/// and signs like a dash, a colon and a dot, which no name has.
const PUT_IN_NAMES: [char; 16] = [
    '한', '국', 'λ', 'Ω', 'é', '𐐀', '\u{301}', '\u{200C}', '\u{200D}', '·', '٣', '\u{2010}', '－',
    '：', '．', '×',
];

#[derive(Clone, Copy, PartialEq, Eq, Debug)]
pub enum Damage {
    None,
    PacketLost,
    BytesLost,
    BitsFlipped,
    BytesChanged,
    Truncated,
    Spliced,
    SplicedWithin,
    LeftOpen,
    Pasted,
    Renamed,
    Composed,
}

/// How often each is drawn: in so many of 26 items.
const SHARES: [(Damage, usize); 12] = [
    (Damage::None, 1),
    (Damage::PacketLost, 3),
    (Damage::BytesLost, 3),
    (Damage::BitsFlipped, 3),
    (Damage::BytesChanged, 3),
    (Damage::Truncated, 2),
    (Damage::Spliced, 2),
    (Damage::SplicedWithin, 1),
    (Damage::LeftOpen, 2),
    (Damage::Pasted, 2),
    (Damage::Renamed, 2),
    (Damage::Composed, 2),
];

/// What a composed damage is made of.
const SINGLE: [Damage; 10] = [
    Damage::PacketLost,
    Damage::BytesLost,
    Damage::BitsFlipped,
    Damage::BytesChanged,
    Damage::Truncated,
    Damage::Spliced,
    Damage::SplicedWithin,
    Damage::LeftOpen,
    Damage::Pasted,
    Damage::Renamed,
];

impl Damage {
    pub fn word(self) -> &'static str {
        match self {
            Damage::None => "none",
            Damage::PacketLost => "packet-lost",
            Damage::BytesLost => "bytes-lost",
            Damage::BitsFlipped => "bits-flipped",
            Damage::BytesChanged => "bytes-changed",
            Damage::Truncated => "truncated",
            Damage::Spliced => "spliced",
            Damage::SplicedWithin => "spliced-within",
            Damage::LeftOpen => "left-open",
            Damage::Pasted => "pasted",
            Damage::Renamed => "renamed",
            Damage::Composed => "composed",
        }
    }

    fn drawn(random: &mut Random) -> Damage {
        let mut left = random.below(SHARES.iter().map(|(_, share)| share).sum());
        for (damage, share) in SHARES {
            if left < share {
                return damage;
            }
            left -= share;
        }
        Damage::None
    }
}

/// What an item was made of.
#[derive(Clone, Copy, PartialEq, Eq, Debug)]
pub struct Origin<'a> {
    pub number: u64,
    pub damage: Damage,
    pub stage: &'a str,
}

/// The item of this number: the same for the same seed and stages, whoever asks.
pub fn made(stages: &Stages, seed: u64, number: u64) -> (Item, Origin<'_>) {
    let random = &mut Random::of_item(seed, number);
    let stage = random.one_of(&stages.all);
    let damage = Damage::drawn(random);
    let reading = reading(stage, random);
    let bytes = damaged(&stage.item.bytes, damage, stages, random);
    let origin = Origin {
        number,
        damage,
        stage: &stage.name,
    };
    (Item { reading, bytes }, origin)
}

/// Any bytes may be read either way: once in eight the other one is asked for.
fn reading(stage: &Stage, random: &mut Random) -> Reading {
    match (stage.item.reading, random.once_in(8)) {
        (Reading::Stage, false) | (Reading::Run, true) => Reading::Stage,
        (Reading::Run, false) | (Reading::Stage, true) => Reading::Run,
    }
}

fn damaged(bytes: &[u8], damage: Damage, stages: &Stages, random: &mut Random) -> Vec<u8> {
    match damage {
        Damage::None => bytes.to_vec(),
        Damage::PacketLost => packet_lost(bytes, random),
        Damage::BytesLost => bytes_lost(bytes, random),
        Damage::BitsFlipped => bits_flipped(bytes, random),
        Damage::BytesChanged => bytes_changed(bytes, random),
        Damage::Truncated => bytes[..random.within(0, bytes.len())].to_vec(),
        Damage::Spliced => {
            let other = &random.one_of(&stages.all).item.bytes;
            spliced(bytes, other, random)
        }
        Damage::SplicedWithin => spliced(bytes, bytes, random),
        Damage::LeftOpen => left_open(bytes, random),
        Damage::Pasted => pasted(bytes, random),
        Damage::Renamed => renamed(bytes, random),
        Damage::Composed => composed(bytes, stages, random),
    }
}

/// One of the packets of a stated size did not arrive.
fn packet_lost(bytes: &[u8], random: &mut Random) -> Vec<u8> {
    let size = *random.one_of(&PACKET_SIZES);
    let packets = bytes.len().div_ceil(size).max(1);
    let start = size * random.below(packets);
    without(bytes, start, size)
}

/// From 1 to 1,400 bytes are missing, anywhere; a short loss is as likely as a long one.
fn bytes_lost(bytes: &[u8], random: &mut Random) -> Vec<u8> {
    let most = *random.one_of(&[2, 8, 40, 200, MOST_LOST]);
    let length = random.within(1, most);
    without(bytes, random.within(0, bytes.len()), length)
}

fn without(bytes: &[u8], start: usize, length: usize) -> Vec<u8> {
    let end = bytes.len().min(start + length);
    [&bytes[..start], &bytes[end..]].concat()
}

fn bits_flipped(bytes: &[u8], random: &mut Random) -> Vec<u8> {
    changed(bytes, random, |byte, random| byte ^ (1 << random.below(8)))
}

/// Half of them become a mark, half any byte.
fn bytes_changed(bytes: &[u8], random: &mut Random) -> Vec<u8> {
    changed(bytes, random, |_, random| match random.once_in(2) {
        true => *random.one_of(MARKS),
        false => random.byte(),
    })
}

/// From 1 to 4 bytes, most often 1, become another.
fn changed(bytes: &[u8], random: &mut Random, other: fn(u8, &mut Random) -> u8) -> Vec<u8> {
    let mut bytes = bytes.to_vec();
    if bytes.is_empty() {
        return bytes;
    }
    for _ in 0..*random.one_of(&[1, 1, 1, 2, 3, 4]) {
        let at = random.below(bytes.len());
        bytes[at] = other(bytes[at], random);
    }
    bytes
}

/// The front of one and the back of the other.
fn spliced(front: &[u8], back: &[u8], random: &mut Random) -> Vec<u8> {
    let end = random.within(0, front.len());
    let start = random.within(0, back.len());
    [&front[..end], &back[start..]].concat()
}

/// A quote, the star of a comment or an opening brace is lost, or an opener, a line end or the end of input comes right
/// behind it. Half of what is left open ends with its line: a string in braces would be broken there.
fn left_open(bytes: &[u8], random: &mut Random) -> Vec<u8> {
    let is_place = |at: &usize| ENDS_AND_BRACES.contains(&bytes[*at]);
    let places: Vec<usize> = (0..bytes.len()).filter(is_place).collect();
    if places.is_empty() {
        return bytes.to_vec();
    }
    let at = *random.one_of(&places);
    let (front, back) = bytes.split_at(at + 1);
    let line = back.split(|byte| matches!(byte, b'\n' | b'\r')).next();
    let rest = match random.once_in(2) {
        true => line.unwrap_or_default(),
        false => back,
    };
    match random.below(4) {
        0 => [&bytes[..at], rest].concat(),
        1 => [front, *random.one_of(&OPENERS), rest].concat(),
        2 => [front, *random.one_of(&LINE_ENDS), back].concat(),
        _ => front.to_vec(),
    }
}

/// From 1 to 4 times, what a caption editor pastes comes in place of a blank, or where a token may begin or end.
fn pasted(bytes: &[u8], random: &mut Random) -> Vec<u8> {
    let mut bytes = bytes.to_vec();
    for _ in 0..random.within(1, 4) {
        let places = match random.once_in(2) {
            true => blanks(&bytes),
            false => borders(&bytes),
        };
        if places.is_empty() {
            continue;
        }
        let (start, end) = *random.one_of(&places);
        bytes.splice(start..end, drawn_paste(random).to_string().bytes());
    }
    bytes
}

/// Half of what is pasted is one of the four that are met most; once in eight it is no blank.
fn drawn_paste(random: &mut Random) -> char {
    match random.below(8) {
        0 => *random.one_of(&NEAR_MISSES),
        1..=4 => *random.one_of(&OFTEN_PASTED),
        _ => *random.one_of(&BLANKS[ASCII_BLANKS..]),
    }
}

/// Where each blank character starts and ends.
fn blanks(bytes: &[u8]) -> Vec<(usize, usize)> {
    let lengths = (0..bytes.len()).map(|at| (at, at + blank_length(&bytes[at..])));
    lengths.filter(|(start, end)| start < end).collect()
}

/// The empty parts beside a mark or a blank, and those around the whole: a character of several bytes is not cut.
fn borders(bytes: &[u8]) -> Vec<(usize, usize)> {
    let is_mark =
        |byte: &u8| byte.is_ascii() && !byte.is_ascii_alphanumeric() && !b"_$".contains(byte);
    let is_border = |at: &usize| {
        let (front, back) = bytes.split_at(*at);
        match (front.last(), back.first()) {
            (Some(before), Some(behind)) => is_mark(before) || is_mark(behind),
            _ => true,
        }
    };
    let places = (0..=bytes.len()).filter(is_border);
    places.map(|at| (at, at)).collect()
}

/// From 1 to 4 times, a character beyond ASCII comes in place of one of a word, or beside it; half of the time in every
/// word that is the same, so that opening and closing names stay equal.
fn renamed(bytes: &[u8], random: &mut Random) -> Vec<u8> {
    let mut bytes = bytes.to_vec();
    for _ in 0..random.within(1, 4) {
        let words = words(&bytes);
        if words.is_empty() {
            continue;
        }
        let word = *random.one_of(&words);
        let new = changed_word(&bytes[word.0..word.1], random);
        let old = bytes[word.0..word.1].to_vec();
        let all = random.once_in(2);
        for (start, end) in words.into_iter().rev() {
            if (start, end) == word || all && bytes[start..end] == old {
                bytes.splice(start..end, new.iter().copied());
            }
        }
    }
    bytes
}

/// The word with a new character: as likely its first one as any.
fn changed_word(word: &[u8], random: &mut Random) -> Vec<u8> {
    let mut characters: Vec<char> = String::from_utf8_lossy(word).chars().collect();
    let at = match random.once_in(2) {
        true => 0,
        false => random.below(characters.len()),
    };
    let new = match random.once_in(2) {
        true => border(random),
        false => *random.one_of(&PUT_IN_NAMES),
    };
    let taken = random.below(2);
    characters.splice(at..at + taken, [new]);
    characters.into_iter().collect::<String>().into_bytes()
}

/// Two or three damages, one after the other.
fn composed(bytes: &[u8], stages: &Stages, random: &mut Random) -> Vec<u8> {
    let mut bytes = bytes.to_vec();
    for _ in 0..random.within(2, 3) {
        let damage = *random.one_of(&SINGLE);
        bytes = damaged(&bytes, damage, stages, random);
    }
    bytes
}

#[cfg(test)]
mod tests {
    use super::*;

    const SEED: u64 = 1;

    fn stages() -> Stages {
        let texts = ["<a>0123456789</a>", "<b c={d}/>", ""];
        let stage = |text: &&str| Stage {
            name: text.to_string(),
            item: Item {
                reading: Reading::Stage,
                bytes: text.as_bytes().to_vec(),
            },
        };
        Stages::of(texts.iter().map(stage).collect())
    }

    #[test]
    fn an_item_is_always_the_same() {
        let (one, other) = (stages(), stages());
        for number in 0..200 {
            assert_eq!(made(&one, SEED, number), made(&other, SEED, number));
        }
    }

    #[test]
    fn every_damage_and_both_readings_are_met() {
        let stages = stages();
        let all: Vec<(Item, Origin)> = (0..500).map(|number| made(&stages, SEED, number)).collect();
        for (damage, _) in SHARES {
            assert!(
                all.iter().any(|(_, origin)| origin.damage == damage),
                "{damage:?}"
            );
        }
        for reading in [Reading::Stage, Reading::Run] {
            assert!(all.iter().any(|(item, _)| item.reading == reading));
        }
    }

    #[test]
    fn a_lost_packet_stands_at_its_boundary() {
        let bytes: Vec<u8> = (0..200).collect();
        for number in 0..200 {
            let rest = packet_lost(&bytes, &mut Random::of_item(SEED, number));
            let lost = bytes.len() - rest.len();
            let start = bytes
                .iter()
                .zip(&rest)
                .take_while(|(one, other)| one == other)
                .count();
            let size = PACKET_SIZES
                .into_iter()
                .find(|size| *size >= lost)
                .expect("no packet is larger");
            assert_eq!(start % size, 0, "{lost} bytes lost at {start}");
            assert!(lost == size || start + lost == bytes.len());
        }
    }

    #[test]
    fn other_losses_have_1_to_1400_bytes() {
        let bytes = vec![b'x'; 3_000];
        for number in 0..300 {
            let rest = bytes_lost(&bytes, &mut Random::of_item(SEED, number));
            assert!((0..=MOST_LOST).contains(&(bytes.len() - rest.len())));
        }
    }

    #[test]
    fn a_flip_changes_one_bit_of_a_few_bytes() {
        let bytes = [0u8; 64];
        for number in 0..100 {
            let flipped = bits_flipped(&bytes, &mut Random::of_item(SEED, number));
            let ones: u32 = flipped.iter().map(|byte| byte.count_ones()).sum();
            assert_eq!(flipped.len(), bytes.len());
            assert!((0..=4).contains(&ones));
        }
    }

    #[test]
    fn something_is_left_open_or_broken() {
        let text = b"<a>{'b'/**/}\n</a>";
        let made: Vec<Vec<u8>> = (0..500)
            .map(|number| left_open(text, &mut Random::of_item(SEED, number)))
            .collect();
        let wanted: [&[u8]; 7] = [
            b"<a>{b'/**/}\n</a>",
            b"<a>{'b/**/}",
            b"<a>{'b'/*",
            b"<a>{'\rb'/**/}\n</a>",
            b"<a>{'b'/*\n*/}\n</a>",
            b"<a>{/*'b'/**/}\n</a>",
            b"<a>{'b'\"/**/}",
        ];
        for wanted in wanted {
            assert!(
                made.iter().any(|bytes| bytes == wanted),
                "{}",
                wanted.escape_ascii()
            );
        }
        assert_eq!(left_open(b"<a/>", &mut Random::of_item(SEED, 0)), b"<a/>");
    }

    fn all_pasted(text: &str, count: u64) -> Vec<String> {
        let one = |number| pasted(text.as_bytes(), &mut Random::of_item(SEED, number));
        let text = |bytes| String::from_utf8(bytes).expect("no character is cut");
        (0..count).map(one).map(text).collect()
    }

    #[test]
    fn every_blank_beyond_ascii_and_every_near_miss_is_pasted() {
        let all = all_pasted("<a b/>", 1_000).concat();
        for wanted in BLANKS[ASCII_BLANKS..].iter().chain(&NEAR_MISSES) {
            assert!(all.contains(*wanted), "{wanted:?}");
        }
    }

    #[test]
    fn a_paste_stands_for_a_blank_or_beside_a_mark() {
        let all = all_pasted("<ab c='é'//x\n/>", 10_000);
        let wanted = [
            "<ab\u{A0}c='é'//x\n/>",
            "\u{FEFF}<ab c='é'//x\n/>",
            "<ab c='é'//x\u{2028}/>",
            "<ab c=\u{2029}'é'//x\n/>",
            "<ab c='é'//x\n/\u{200B}>",
        ];
        for wanted in wanted {
            assert!(all.iter().any(|text| text == wanted), "{wanted:?}");
        }
        for text in &all {
            let kept: String = text.chars().filter(char::is_ascii).collect();
            let kept = kept.replace([' ', '\n'], "");
            assert_eq!(kept, "<abc=''//x/>");
            assert!(text.contains("ab"), "{text:?}");
        }
    }

    fn all_renamed(text: &str, count: u64) -> Vec<String> {
        let one = |number| renamed(text.as_bytes(), &mut Random::of_item(SEED, number));
        let text = |bytes| String::from_utf8(bytes).expect("no character is cut");
        (0..count).map(one).map(text).collect()
    }

    #[test]
    fn a_character_of_a_name_becomes_another() {
        let all = all_renamed("<ab></ab>", 20_000);
        for wanted in [
            "<한b></한b>",
            "<한b></ab>",
            "<ab></λab>",
            "<a\u{200D}></a\u{200D}>",
            "<a－b></ab>",
        ] {
            assert!(all.iter().any(|text| text == wanted), "{wanted:?}");
        }
        let marks = |text: &str| text.matches(['<', '>', '/']).collect::<String>();
        assert!(all.iter().all(|text| marks(text) == "<></>"));
    }

    #[test]
    fn nothing_is_too_short_for_a_new_name() {
        assert_eq!(all_renamed("< />", 1), ["< />"]);
        assert!(all_renamed("é", 50).iter().any(|text| text != "é"));
        let cut = renamed(b"<\xE2\x80", &mut Random::of_item(SEED, 0));
        assert!(cut.starts_with(b"<"));
    }

    #[test]
    fn nothing_is_too_short_for_a_paste() {
        assert!(all_pasted("", 50).iter().any(|text| !text.is_empty()));
        let cut = pasted(b"\xE2\x80", &mut Random::of_item(SEED, 0));
        assert!(cut.windows(2).any(|bytes| bytes == b"\xE2\x80"));
    }

    #[test]
    fn a_splice_is_a_front_and_a_back() {
        for number in 0..100 {
            let random = &mut Random::of_item(SEED, number);
            let spliced = spliced(b"aaaa", b"bbbb", random);
            let front = spliced.iter().take_while(|byte| **byte == b'a').count();
            assert!(spliced[front..].iter().all(|byte| *byte == b'b'));
        }
    }
}

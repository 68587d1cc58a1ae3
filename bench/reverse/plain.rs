//! `agent reverse` written in plain Rust, without proofs, to measure the agent beside it. It reads the same scripts, prints the
//! same lines and ends with the same statuses; docs/transcripts.md says what they mean.
//!
//!     rustc -O -C target-cpu=x86-64-v2 --edition 2021 plain.rs
//!     ./plain reverse < SCRIPT
//!
//! It is one file that depends on nothing, and isn't tuned: MD5 and HMAC by hand, std's HashMap and VecDeque, and each message,
//! packet and answer in a Vec of its own. As the agent does, it reads its input by chunks of 64 KiB, writes each line by a write
//! of its own, and finds in one look which request a key or an identifier is of, and what is due at a tick.

use std::collections::{HashMap, VecDeque};
use std::fs::File;
use std::io::{self, BufRead, BufReader, Read, Write};
use std::os::fd::AsFd;
use std::process::ExitCode;
use std::rc::Rc;

// ---- MD5 (RFC 1321) and HMAC-MD5 (RFC 2104)

type Digest = [u8; 16];

const TURNS: [[u32; 4]; 4] = [[7, 12, 17, 22], [5, 9, 14, 20], [4, 11, 16, 23], [6, 10, 15, 21]];

const SINES: [u32; 64] = [
    0xd76aa478, 0xe8c7b756, 0x242070db, 0xc1bdceee, 0xf57c0faf, 0x4787c62a, 0xa8304613, 0xfd469501, 0x698098d8, 0x8b44f7af,
    0xffff5bb1, 0x895cd7be, 0x6b901122, 0xfd987193, 0xa679438e, 0x49b40821, 0xf61e2562, 0xc040b340, 0x265e5a51, 0xe9b6c7aa,
    0xd62f105d, 0x02441453, 0xd8a1e681, 0xe7d3fbc8, 0x21e1cde6, 0xc33707d6, 0xf4d50d87, 0x455a14ed, 0xa9e3e905, 0xfcefa3f8,
    0x676f02d9, 0x8d2a4c8a, 0xfffa3942, 0x8771f681, 0x6d9d6122, 0xfde5380c, 0xa4beea44, 0x4bdecfa9, 0xf6bb4b60, 0xbebfbc70,
    0x289b7ec6, 0xeaa127fa, 0xd4ef3085, 0x04881d05, 0xd9d4d039, 0xe6db99e5, 0x1fa27cf8, 0xc4ac5665, 0xf4292244, 0x432aff97,
    0xab9423a7, 0xfc93a039, 0x655b59c3, 0x8f0ccc92, 0xffeff47d, 0x85845dd1, 0x6fa87e4f, 0xfe2ce6e0, 0xa3014314, 0x4e0811a1,
    0xf7537e82, 0xbd3af235, 0x2ad7d2bb, 0xeb86d391,
];

struct Md5 {
    state: [u32; 4],
    /// What came behind the last whole block.
    rest: [u8; 64],
    length: u64,
}

impl Md5 {
    fn new() -> Md5 {
        Md5 { state: [0x67452301, 0xefcdab89, 0x98badcfe, 0x10325476], rest: [0; 64], length: 0 }
    }

    fn compress(state: &mut [u32; 4], block: &[u8]) {
        let words: [u32; 16] =
            std::array::from_fn(|i| u32::from_le_bytes([block[4 * i], block[4 * i + 1], block[4 * i + 2], block[4 * i + 3]]));
        let [mut a, mut b, mut c, mut d] = *state;
        let mut step = |i: usize, mix: fn(u32, u32, u32) -> u32, place: usize| {
            let sum = a.wrapping_add(mix(b, c, d)).wrapping_add(SINES[i]).wrapping_add(words[place % 16]);
            (a, d, c) = (d, c, b);
            b = b.wrapping_add(sum.rotate_left(TURNS[i / 16][i % 4]));
        };
        (0..16).for_each(|i| step(i, |b, c, d| (b & c) | (!b & d), i));
        (16..32).for_each(|i| step(i, |b, c, d| (d & b) | (!d & c), 5 * i + 1));
        (32..48).for_each(|i| step(i, |b, c, d| b ^ c ^ d, 3 * i + 5));
        (48..64).for_each(|i| step(i, |b, c, d| c ^ (b | !d), 7 * i));
        for (old, new) in state.iter_mut().zip([a, b, c, d]) {
            *old = old.wrapping_add(new);
        }
    }

    fn update(&mut self, mut octets: &[u8]) {
        let have = (self.length % 64) as usize;
        self.length += octets.len() as u64;
        if have > 0 {
            let taken = octets.len().min(64 - have);
            self.rest[have..have + taken].copy_from_slice(&octets[..taken]);
            if have + taken < 64 {
                return;
            }
            Md5::compress(&mut self.state, &self.rest);
            octets = &octets[taken..];
        }
        let mut blocks = octets.chunks_exact(64);
        for block in &mut blocks {
            Md5::compress(&mut self.state, block);
        }
        let rest = blocks.remainder();
        self.rest[..rest.len()].copy_from_slice(rest);
    }

    fn finish(mut self) -> Digest {
        let bits = self.length * 8;
        let padding = 1 + (119 - self.length % 64) % 64;
        let mut octets = [0; 64];
        octets[0] = 0x80;
        self.update(&octets[..padding as usize]);
        self.update(&bits.to_le_bytes());
        let mut digest = [0; 16];
        for (four, word) in digest.chunks_exact_mut(4).zip(self.state) {
            four.copy_from_slice(&word.to_le_bytes());
        }
        digest
    }
}

fn md5(pieces: &[&[u8]]) -> Digest {
    let mut md5 = Md5::new();
    pieces.iter().for_each(|piece| md5.update(piece));
    md5.finish()
}

fn hmac(key: &[u8], pieces: &[&[u8]]) -> Digest {
    let mut block = [0; 64];
    if key.len() > 64 {
        block[..16].copy_from_slice(&md5(&[key]));
    } else {
        block[..key.len()].copy_from_slice(key);
    }
    let mut inner = Md5::new();
    inner.update(&block.map(|octet| octet ^ 0x36));
    pieces.iter().for_each(|piece| inner.update(piece));
    md5(&[&block.map(|octet| octet ^ 0x5c), &inner.finish()])
}

// ---- What crosses over

// Where the values of a type are carried: in an Access-Request, in an Accounting-Request, in a success, in a challenge and in a
// refusal.
const A: u8 = 1;
const C: u8 = 2;
const S: u8 = 4;
const H: u8 = 8;
const J: u8 = 16;

/// The ways of a type of attribute, which is the code of an AVP too.
fn ways(code: u32) -> u8 {
    match code {
        1 | 6..=9 | 12..=14 | 19 | 62 | 96..=98 => A | C | S,
        4 | 5 | 30..=32 | 44 | 61 | 77 | 87 | 95 => A | C,
        10 | 11 | 15 | 16 | 20 | 22 | 25 | 88 | 99 | 100 => C | S,
        18 => S | H | J,
        27 | 41 | 45 | 46 | 50 | 51 | 55 => C,
        28 => C | S | H,
        60 => A,
        75 => J,
        76 => H,
        78 | 85 => S,
        _ => 0,
    }
}

/// Whether a type that goes some way may have this value.
fn fits(code: u32, value: &[u8]) -> bool {
    match code {
        1 | 11 | 18..=20 | 22 | 30..=32 | 50 | 77 | 87 | 99 => std::str::from_utf8(value).is_ok(),
        25 | 44 | 60 | 78 | 88 | 100 => true,
        95 | 98 => value.len() == 16,
        96 => value.len() == 8,
        97 => (2..=18).contains(&value.len()),
        _ => value.len() == 4,
    }
}

/// Whether an AVP or an attribute is a key for a session; 311 is Microsoft.
fn is_key(code: u32, vendor: Option<u32>) -> bool {
    match vendor {
        None => matches!(code, 69 | 102 | 464),
        Some(vendor) => vendor == 311 && matches!(code, 12 | 16 | 17),
    }
}

const MOST_VALUE: usize = 253;
const MOST_VENDOR_VALUE: usize = 247;
const MOST_PASSWORD: usize = 128;
const MOST_PACKET: usize = 4096;
const MOST_SESSION: usize = 4096;
const EVENT_TIMESTAMP: u32 = 55;
/// Between the beginnings of 1900 and 1970.
const SECONDS: u32 = 2_208_988_800;

fn u32_at(octets: &[u8], at: usize) -> u32 {
    u32::from_be_bytes([octets[at], octets[at + 1], octets[at + 2], octets[at + 3]])
}

fn number(body: &[u8]) -> Option<u32> {
    body.try_into().ok().map(u32::from_be_bytes)
}

fn count(body: &[u8]) -> Option<u64> {
    body.try_into().ok().map(u64::from_be_bytes)
}

// ---- Diameter (RFC 6733, sections 3 and 4.1)

const FLAG_REQUEST: u8 = 0x80;
const FLAG_PROXIABLE: u8 = 0x40;
const FLAG_ERROR: u8 = 0x20;
const FLAG_VENDOR: u8 = 0x80;
const FLAG_MANDATORY: u8 = 0x40;

const AA: u32 = 265;
const ACCOUNTING: u32 = 271;

const MULTI_ROUND: u32 = 1001;
const SUCCESS: u32 = 2001;
const UNABLE_TO_DELIVER: u32 = 3002;
const TOO_BUSY: u32 = 3004;
const REJECTED: u32 = 4001;
const AVP_UNSUPPORTED: u32 = 5001;
const UNABLE_TO_COMPLY: u32 = 5012;

struct Avp<'a> {
    code: u32,
    vendor: Option<u32>,
    mandatory: bool,
    body: &'a [u8],
}

/// The AVPs of a list, where all can be read.
fn read_avps(mut octets: &[u8]) -> Option<Vec<Avp<'_>>> {
    let mut avps = Vec::with_capacity(16);
    while !octets.is_empty() {
        let flags = octets.first_chunk::<8>()?[4];
        let length = (u32_at(octets, 4) & 0xff_ffff) as usize;
        let head = if flags & FLAG_VENDOR == 0 { 8 } else { 12 };
        let padded = length.next_multiple_of(4);
        if length < head || padded > octets.len() {
            return None;
        }
        avps.push(Avp {
            code: u32_at(octets, 0),
            vendor: (head == 12).then(|| u32_at(octets, 8)),
            mandatory: flags & FLAG_MANDATORY != 0,
            body: &octets[head..length],
        });
        octets = &octets[padded..];
    }
    Some(avps)
}

/// The bodies of the AVPs that have this code and no vendor.
fn bodies<'a: 'b, 'b>(avps: &'b [Avp<'a>], code: u32) -> impl Iterator<Item = &'a [u8]> + 'b {
    avps.iter().filter(move |avp| avp.vendor.is_none() && avp.code == code).map(|avp| avp.body)
}

/// The body of the one AVP that has this code and no vendor.
fn only_body<'a>(avps: &[Avp<'a>], code: u32) -> Option<&'a [u8]> {
    let mut bodies = bodies(avps, code);
    let body = bodies.next()?;
    bodies.next().is_none().then_some(body)
}

/// Whether an AVP is one that may be left out or carried over, and not one that nobody here knows.
fn is_known(avp: &Avp) -> bool {
    if is_key(avp.code, avp.vendor) {
        return true;
    }
    if avp.vendor.is_some() {
        return avp.code <= 255;
    }
    ways(avp.code) != 0
        || matches!(
            avp.code,
            2 | 24 | 29 | 33 | 258..=260 | 263 | 264 | 268 | 270..=272 | 274 | 276..=279 | 281..=285
                | 287 | 291 | 293..=297 | 363..=366 | 401 | 402 | 408 | 462 | 465 | 480 | 483 | 485
        )
}

fn put_avp(out: &mut Vec<u8>, code: u32, flags: u8, vendor: Option<u32>, body: &[u8]) {
    let length = body.len() + if vendor.is_some() { 12 } else { 8 };
    out.extend(code.to_be_bytes());
    out.push(flags);
    out.extend(&(length as u32).to_be_bytes()[1..]);
    if let Some(vendor) = vendor {
        out.extend(vendor.to_be_bytes());
    }
    out.extend(body);
    out.resize(out.len().next_multiple_of(4), 0);
}

fn put_octets(out: &mut Vec<u8>, code: u32, body: &[u8]) {
    put_avp(out, code, FLAG_MANDATORY, None, body);
}

fn put_number(out: &mut Vec<u8>, code: u32, number: u32) {
    put_octets(out, code, &number.to_be_bytes());
}

type Reason = &'static str;

const NOT_REQUEST: Reason = "28 NotRequest";
const NO_IDENTITY: Reason = "29 NoIdentity";
const OPEN: Reason = "30 Open";
const STRANGE_REPLY: Reason = "31 StrangeReply";

/// What the answer to a request says of it.
struct Asked {
    head: [u8; 20],
    is_login: bool,
    session: Vec<u8>,
    /// Codes and numbers of the AVPs that go back.
    told: Vec<(u32, u32)>,
}

/// A request for the RADIUS server.
struct Request<'a> {
    asked: Asked,
    host: &'a [u8],
    avps: Vec<Avp<'a>>,
}

impl Request<'_> {
    fn read(octets: &[u8]) -> Result<Request<'_>, Reason> {
        let Some(head) = octets.first_chunk::<20>() else { return Err(NOT_REQUEST) };
        let is_whole = octets.len() % 4 == 0 && u32_at(head, 0) as usize == 1 << 24 | octets.len();
        if !is_whole || head[4] & FLAG_REQUEST == 0 {
            return Err(NOT_REQUEST);
        }
        let told: &[u32] = match u32_at(head, 4) & 0xff_ffff {
            AA => &[274],
            ACCOUNTING => &[480, 485],
            _ => return Err(NOT_REQUEST),
        };
        let avps = read_avps(&octets[20..]).ok_or(NO_IDENTITY)?;
        let session = only_body(&avps, 263).ok_or(NO_IDENTITY)?;
        let host = only_body(&avps, 264).ok_or(NO_IDENTITY)?;
        if session.len() > MOST_SESSION {
            return Err(NO_IDENTITY);
        }
        let first_number = |code| bodies(&avps, code).find_map(number);
        let asked = Asked {
            head: *head,
            is_login: told == [274],
            session: session.to_vec(),
            told: told.iter().filter_map(|code| Some((*code, first_number(*code)?))).collect(),
        };
        Ok(Request { asked, host, avps })
    }

    /// The packet that it becomes, or the Result-Code that refuses it.
    fn packet(&self, identifier: u8, random: &Digest, secret: &[u8]) -> Result<Vec<u8>, u32> {
        if self.avps.iter().any(|avp| avp.mandatory && !is_known(avp)) {
            return Err(AVP_UNSUPPORTED);
        }
        if self.avps.iter().any(|avp| is_key(avp.code, avp.vendor)) {
            return Err(UNABLE_TO_COMPLY);
        }
        let is_login = self.asked.is_login;
        let packet = if is_login { self.login(identifier, random, secret) } else { self.record(identifier, secret) };
        packet.ok_or(UNABLE_TO_COMPLY)
    }

    fn login(&self, identifier: u8, random: &Digest, secret: &[u8]) -> Option<Vec<u8>> {
        if bodies(&self.avps, 2).count() + bodies(&self.avps, 402).count() > 1 {
            return None;
        }
        let mut packet = Vec::with_capacity(512);
        packet.extend([1, identifier, 0, 0]);
        packet.extend(random);
        put_attribute(&mut packet, MESSAGE_AUTHENTICATOR, &[0; 16]);
        for avp in &self.avps {
            match avp.code {
                _ if avp.vendor.is_some() => put_foreign(&mut packet, avp)?,
                2 if avp.body.len() > MOST_PASSWORD => return None,
                2 => put_attribute(&mut packet, 2, &hidden(secret, random, avp.body)),
                402 => put_attribute(&mut packet, 3, &chap_password(avp.body)?),
                24 if avp.body.len() > MOST_VALUE => return None,
                24 => put_attribute(&mut packet, 24, avp.body),
                _ => put_same(&mut packet, A, avp)?,
            }
        }
        put_length(&mut packet)?;
        let seal = hmac(secret, &[&packet]);
        packet[22..38].copy_from_slice(&seal);
        Some(packet)
    }

    fn record(&self, identifier: u8, secret: &[u8]) -> Option<Vec<u8>> {
        let status: u32 = match number(only_body(&self.avps, 480)?)? {
            2 => 1,
            3 => 3,
            4 => 2,
            _ => return None,
        };
        let mut packet = Vec::with_capacity(512);
        packet.extend([4, identifier, 0, 0]);
        packet.extend([0; 16]);
        put_attribute(&mut packet, 40, &status.to_be_bytes());
        for avp in &self.avps {
            match avp.code {
                _ if avp.vendor.is_some() => put_foreign(&mut packet, avp)?,
                363 | 364 => {
                    let octets = count(avp.body)?;
                    let (low, high) = if avp.code == 363 { (42, 52) } else { (43, 53) };
                    put_attribute(&mut packet, low, &(octets as u32).to_be_bytes());
                    if octets >> 32 != 0 {
                        put_attribute(&mut packet, high, &((octets >> 32) as u32).to_be_bytes());
                    }
                }
                365 | 366 => {
                    let packets = u32::try_from(count(avp.body)?).unwrap_or(u32::MAX);
                    put_attribute(&mut packet, if avp.code == 365 { 47 } else { 48 }, &packets.to_be_bytes());
                }
                295 => {
                    let cause = number(avp.body)?;
                    if (11..=28).contains(&cause) {
                        put_attribute(&mut packet, 49, &(cause - 10).to_be_bytes());
                    }
                }
                _ => put_same(&mut packet, C, avp)?,
            }
        }
        put_length(&mut packet)?;
        let authenticator = md5(&[&packet, secret]);
        packet[4..20].copy_from_slice(&authenticator);
        Some(packet)
    }
}

// ---- RADIUS (RFC 2865, section 3): the packet that a request becomes

const MESSAGE_AUTHENTICATOR: u8 = 80;
const VENDOR_SPECIFIC: u8 = 26;

fn put_attribute(packet: &mut Vec<u8>, code: u8, value: &[u8]) {
    packet.extend([code, value.len() as u8 + 2]);
    packet.extend(value);
}

fn put_length(packet: &mut [u8]) -> Option<()> {
    if packet.len() > MOST_PACKET {
        return None;
    }
    let length = packet.len() as u16;
    packet[2..4].copy_from_slice(&length.to_be_bytes());
    Some(())
}

/// Puts the attribute of an AVP that has a vendor; None where it refuses the packet.
fn put_foreign(packet: &mut Vec<u8>, avp: &Avp) -> Option<()> {
    if avp.code > 255 {
        return Some(());
    }
    if avp.body.len() > MOST_VENDOR_VALUE {
        return (!avp.mandatory).then_some(());
    }
    packet.extend([VENDOR_SPECIFIC, avp.body.len() as u8 + 8]);
    packet.extend(avp.vendor?.to_be_bytes());
    put_attribute(packet, avp.code as u8, avp.body);
    Some(())
}

/// Puts the attribute of the same type, where that goes this way; None where the AVP refuses the packet.
fn put_same(packet: &mut Vec<u8>, way: u8, avp: &Avp) -> Option<()> {
    if ways(avp.code) & way == 0 {
        return Some(());
    }
    if avp.body.len() > MOST_VALUE || !fits(avp.code, avp.body) {
        // Without flag M it is left out.
        return (!avp.mandatory).then_some(());
    }
    if avp.code == EVENT_TIMESTAMP {
        let seconds = number(avp.body)?.wrapping_sub(SECONDS);
        put_attribute(packet, avp.code as u8, &seconds.to_be_bytes());
    } else {
        put_attribute(packet, avp.code as u8, avp.body);
    }
    Some(())
}

/// A hidden User-Password (RFC 2865, section 5.2).
fn hidden(secret: &[u8], random: &Digest, password: &[u8]) -> Vec<u8> {
    let mut value = password.to_vec();
    value.resize(password.len().max(1).next_multiple_of(16), 0);
    let mut last: &[u8] = random;
    for block in value.chunks_exact_mut(16) {
        for (octet, mask) in block.iter_mut().zip(md5(&[secret, last])) {
            *octet ^= mask;
        }
        last = block;
    }
    value
}

/// The CHAP-Password for the members of a CHAP-Auth (RFC 4005, section 5.4).
fn chap_password(members: &[u8]) -> Option<Vec<u8>> {
    let members = read_avps(members)?;
    let algorithm = only_body(&members, 403)?;
    let ident = only_body(&members, 404)?;
    let response = only_body(&members, 405)?;
    if number(algorithm) != Some(5) || ident.len() != 1 || response.len() != 16 {
        return None;
    }
    Some([ident, response].concat())
}

// ---- What a reply says

const ACCEPT: u8 = 2;
const REJECT: u8 = 3;
const RESPONSE: u8 = 5;
const CHALLENGE: u8 = 11;

/// Attributes, each as its type and its value, where all can be read.
fn read_attributes(mut octets: &[u8]) -> Option<Vec<(u8, &[u8])>> {
    let mut attributes = Vec::with_capacity(16);
    while !octets.is_empty() {
        let length = usize::from(*octets.get(1)?);
        if length < 2 || length > octets.len() {
            return None;
        }
        attributes.push((octets[0], &octets[2..length]));
        octets = &octets[length..];
    }
    Some(attributes)
}

/// The vendor and the parts of a Vendor-Specific attribute, where it has the suggested form (RFC 2865, section 5.26).
fn vendor_parts(value: &[u8]) -> Option<(u32, Vec<(u8, &[u8])>)> {
    if value.len() <= 4 {
        return None;
    }
    Some((u32_at(value, 0), read_attributes(&value[4..])?))
}

fn is_key_attribute(code: u8, value: &[u8]) -> bool {
    if code != VENDOR_SPECIFIC {
        return is_key(code.into(), None);
    }
    vendor_parts(value).is_some_and(|(vendor, parts)| parts.iter().any(|(code, _)| is_key((*code).into(), Some(vendor))))
}

/// A packet of the RADIUS server.
struct Reply<'a> {
    octets: &'a [u8],
    code: u8,
    identifier: u8,
    attributes: Vec<(u8, &'a [u8])>,
    has_key: bool,
}

impl Reply<'_> {
    fn read(octets: &[u8]) -> Option<Reply<'_>> {
        let [code, identifier, high, low, ..] = *octets else { return None };
        let length = usize::from(u16::from_be_bytes([high, low]));
        if !(20..=MOST_PACKET).contains(&length) || length > octets.len() {
            return None;
        }
        let octets = &octets[..length];
        let attributes = read_attributes(&octets[20..])?;
        let has_key = attributes.iter().any(|(code, value)| is_key_attribute(*code, value));
        Some(Reply { octets, code, identifier, attributes, has_key })
    }

    /// Whether it answers an open request (RFC 2865, section 3; RFC 3579, section 3.2).
    fn answers(&self, open: &Open, secret: &[u8]) -> bool {
        let is_right = match self.code {
            ACCEPT | REJECT | CHALLENGE => open.asked.is_login,
            RESPONSE => !open.asked.is_login,
            _ => false,
        };
        let (octets, authenticator) = (self.octets, &open.packet[4..20]);
        if !is_right || md5(&[&octets[..4], authenticator, &octets[20..], secret]) != octets[4..20] {
            return false;
        }
        let (mut seals, mut place) = (Vec::new(), 20);
        for (code, value) in &self.attributes {
            if *code == MESSAGE_AUTHENTICATOR {
                seals.push((place + 2, *value));
            }
            place += 2 + value.len();
        }
        match seals[..] {
            [] => true,
            [(at, seal)] if seal.len() == 16 => {
                let (before, behind) = (&octets[20..at], &octets[at + 16..]);
                hmac(secret, &[&octets[..4], authenticator, before, &[0; 16], behind]) == seal
            }
            _ => false,
        }
    }

    /// Puts what its attributes become in an answer.
    fn put_images(&self, answer: &mut Vec<u8>) {
        let way = match self.code {
            _ if self.has_key => return,
            ACCEPT => S,
            CHALLENGE => H,
            REJECT => J,
            _ => return,
        };
        for &(code, value) in &self.attributes {
            match code {
                VENDOR_SPECIFIC if way != J => {
                    let Some((vendor, parts)) = vendor_parts(value) else { continue };
                    for (code, body) in parts {
                        put_avp(answer, code.into(), FLAG_VENDOR, Some(vendor), body);
                    }
                }
                27 if way != J && value.len() == 4 => put_octets(answer, 27, value),
                24 if way == H => put_octets(answer, 24, value),
                _ if ways(code.into()) & way != 0 && fits(code.into(), value) => put_octets(answer, code.into(), value),
                _ => {}
            }
        }
    }
}

// ---- What is open and what is kept

const MOST_REQUESTS: usize = 4096;
const IDENTIFIERS: usize = 256;
const PAUSE: u64 = 2000;
const SENDINGS: u32 = 3;

/// What the first line says.
struct Own {
    host: Vec<u8>,
    realm: Vec<u8>,
    secret: Vec<u8>,
    retention: u64,
}

impl Own {
    fn answer(&self, asked: &Asked, result: u32, reply: Option<&Reply>) -> Vec<u8> {
        let error = if (3000..4000).contains(&result) { FLAG_ERROR } else { 0 };
        let mut answer = Vec::with_capacity(512);
        answer.extend(asked.head);
        answer[4] = asked.head[4] & FLAG_PROXIABLE | error;
        put_octets(&mut answer, 263, &asked.session);
        put_number(&mut answer, 268, result);
        put_octets(&mut answer, 264, &self.host);
        put_octets(&mut answer, 296, &self.realm);
        if asked.is_login {
            put_number(&mut answer, 258, 1);
        }
        for (code, number) in &asked.told {
            put_number(&mut answer, *code, *number);
        }
        if let Some(reply) = reply {
            reply.put_images(&mut answer);
        }
        let length = answer.len() as u32;
        answer[1..4].copy_from_slice(&length.to_be_bytes()[1..]);
        answer
    }
}

/// What a request is known by: its Origin-Host and its End-to-End Identifier.
#[derive(PartialEq, Eq, Hash)]
struct Key {
    host: Vec<u8>,
    end: u32,
}

/// A request that waits for its reply.
struct Open {
    number: u64,
    key: Rc<Key>,
    asked: Asked,
    packet: Vec<u8>,
    sendings: u32,
}

/// That a packet was sent at a moment.
struct Sent {
    number: u64,
    moment: u64,
}

struct Core {
    own: Own,
    moment: u64,
    /// How many requests were taken up.
    taken: u64,
    /// Those that are kept, and None for each open request.
    answers: HashMap<Rc<Key>, Option<Vec<u8>>>,
    /// The open requests by the identifiers of their packets.
    open: [Option<Open>; IDENTIFIERS],
    /// In the order of sending. Some of these requests are answered, but the first one is open.
    sent: VecDeque<Sent>,
    /// The kept ones and the moments of their answers, in the order of answering.
    kept: VecDeque<(Rc<Key>, u64)>,
}

impl Core {
    fn new(own: Own) -> Core {
        Core {
            own,
            moment: 0,
            taken: 0,
            answers: HashMap::new(),
            open: [const { None }; IDENTIFIERS],
            sent: VecDeque::new(),
            kept: VecDeque::new(),
        }
    }

    /// Time goes on to this moment, if it is a later one.
    fn pass(&mut self, moment: u64) {
        self.moment = self.moment.max(moment);
        while let Some((key, answered)) = self.kept.front() {
            if self.moment - answered < self.own.retention {
                break;
            }
            self.answers.remove(key);
            self.kept.pop_front();
        }
    }

    fn request(&mut self, octets: &[u8], random: &Digest, out: &mut Printer) -> Result<(), Fault> {
        let request = match Request::read(octets) {
            Ok(request) => request,
            Err(reason) => return out.drop(reason),
        };
        let Request { asked, host, .. } = &request;
        let key = Key { host: host.to_vec(), end: u32_at(octets, 16) };
        match self.answers.get_mut(&key) {
            Some(None) => return out.drop(OPEN),
            Some(Some(answer)) => {
                answer[12..16].copy_from_slice(&octets[12..16]);
                return out.answer(answer);
            }
            None => {}
        }
        let identifier = self.taken as u8;
        let place = &mut self.open[usize::from(identifier)];
        let packet = if self.answers.len() >= MOST_REQUESTS || place.is_some() {
            Err(TOO_BUSY)
        } else {
            request.packet(identifier, random, &self.own.secret)
        };
        let packet = match packet {
            Ok(packet) => packet,
            Err(result) => return out.answer(&self.own.answer(asked, result, None)),
        };
        out.send(&packet)?;
        let key = Rc::new(key);
        self.answers.insert(key.clone(), None);
        self.sent.push_back(Sent { number: self.taken, moment: self.moment });
        *place = Some(Open { number: self.taken, key, asked: request.asked, packet, sendings: 1 });
        self.taken += 1;
        Ok(())
    }

    fn reply(&mut self, octets: &[u8], out: &mut Printer) -> Result<(), Fault> {
        let Some(reply) = Reply::read(octets) else { return out.drop(STRANGE_REPLY) };
        let place = &mut self.open[usize::from(reply.identifier)];
        let Some(open) = place.take_if(|open| reply.answers(open, &self.own.secret)) else { return out.drop(STRANGE_REPLY) };
        let result = match reply.code {
            _ if reply.has_key => UNABLE_TO_COMPLY,
            REJECT => REJECTED,
            CHALLENGE => MULTI_ROUND,
            _ => SUCCESS,
        };
        let answer = self.own.answer(&open.asked, result, Some(&reply));
        self.settle(open.key, answer, out)
    }

    fn tick(&mut self, out: &mut Printer) -> Result<(), Fault> {
        let mut overdue = Vec::new();
        while let Some(sent) = self.sent.front() {
            if self.moment - sent.moment < PAUSE {
                break;
            }
            overdue.push(sent.number);
            self.sent.pop_front();
            self.skip_answered();
        }
        overdue.sort_unstable();
        for number in overdue {
            let place = &mut self.open[number as usize % IDENTIFIERS];
            if let Some(open) = place.take_if(|open| open.sendings == SENDINGS) {
                let answer = self.own.answer(&open.asked, UNABLE_TO_DELIVER, None);
                self.settle(open.key, answer, out)?;
            } else if let Some(open) = place {
                open.sendings += 1;
                out.send(&open.packet)?;
                self.sent.push_back(Sent { number, moment: self.moment });
            }
        }
        Ok(())
    }

    /// Keeps the answer to a request that was open until now.
    fn settle(&mut self, key: Rc<Key>, answer: Vec<u8>, out: &mut Printer) -> Result<(), Fault> {
        out.answer(&answer)?;
        self.answers.insert(key.clone(), Some(answer));
        self.kept.push_back((key, self.moment));
        self.skip_answered();
        Ok(())
    }

    /// Takes answered requests off the front of those that were sent.
    fn skip_answered(&mut self) {
        while let Some(sent) = self.sent.front() {
            match &self.open[sent.number as usize % IDENTIFIERS] {
                Some(open) if open.number == sent.number => break,
                _ => self.sent.pop_front(),
            };
        }
    }
}

// ---- Scripts

const LONGEST_LINE: usize = 140_000;
const LONGEST_MESSAGE: usize = 65_536;
const CHUNK: usize = 65_536;
/// How many octets are taken of an input.
const MOST_OCTETS: u64 = 1 << 40;

/// How a run ends that isn't done.
enum Fault {
    Bad { line: u64, reason: u8 },
    Read,
    Write,
    TooLong,
}

/// Prints what a line of the script gives, and counts the lines of each kind.
struct Printer {
    output: File,
    line: u64,
    sends: u64,
    answers: u64,
    drops: u64,
}

impl Printer {
    fn write(&mut self, text: &[u8]) -> Result<(), Fault> {
        self.output.write_all(text).map_err(|_| Fault::Write)
    }

    fn print(&mut self, kind: &str, octets: &[u8]) -> Result<(), Fault> {
        let mut text = format!("{} {kind} ", self.line).into_bytes();
        text.reserve(2 * octets.len() + 1);
        put_hex(&mut text, octets);
        text.push(b'\n');
        self.write(&text)
    }

    fn send(&mut self, packet: &[u8]) -> Result<(), Fault> {
        self.sends += 1;
        self.print("send", packet)
    }

    fn answer(&mut self, answer: &[u8]) -> Result<(), Fault> {
        self.answers += 1;
        self.print("answer", answer)
    }

    fn drop(&mut self, reason: Reason) -> Result<(), Fault> {
        self.drops += 1;
        self.write(format!("{} drop {reason}\n", self.line).as_bytes())
    }

    fn end(&mut self) -> Result<(), Fault> {
        self.write(format!("end {} {} {}\n", self.sends, self.answers, self.drops).as_bytes())
    }
}

fn put_hex(text: &mut Vec<u8>, octets: &[u8]) {
    const DIGITS: &[u8; 16] = b"0123456789abcdef";
    for octet in octets {
        text.push(DIGITS[usize::from(octet >> 4)]);
        text.push(DIGITS[usize::from(octet & 15)]);
    }
}

fn digit(sign: u8) -> Option<u8> {
    match sign {
        b'0'..=b'9' => Some(sign - b'0'),
        b'a'..=b'f' => Some(sign - b'a' + 10),
        b'A'..=b'F' => Some(sign - b'A' + 10),
        _ => None,
    }
}

/// The octets of a word in hex, or of `-` for none.
fn read_hex(word: &[u8]) -> Option<Vec<u8>> {
    if word == b"-" {
        return Some(Vec::new());
    }
    if word.is_empty() || word.len() % 2 != 0 {
        return None;
    }
    let mut octets = Vec::with_capacity(word.len() / 2);
    for pair in word.chunks_exact(2) {
        octets.push(digit(pair[0])? << 4 | digit(pair[1])?);
    }
    Some(octets)
}

fn read_number(word: &[u8], limit: u64) -> Option<u64> {
    if !word.iter().all(u8::is_ascii_digit) || word.len() > 1 && word[0] == b'0' {
        return None;
    }
    let number = std::str::from_utf8(word).ok()?.parse().ok()?;
    (number <= limit).then_some(number)
}

fn is_name(word: &[u8]) -> bool {
    let is_right = |octet: &u8| octet.is_ascii_alphanumeric() || b"-._".contains(octet);
    (1..=64).contains(&word.len()) && word.iter().all(is_right)
}

fn is_address(word: &[u8]) -> bool {
    let parts = || word.split(|octet| *octet == b'.');
    parts().count() == 4 && parts().all(|part| read_number(part, 255).is_some())
}

fn read_own(words: [&[u8]; 6]) -> Option<Own> {
    let [host, realm, server, port, secret, retention] = words;
    read_number(port, 65_535)?;
    let own = Own {
        host: host.to_vec(),
        realm: realm.to_vec(),
        secret: read_hex(secret)?,
        retention: read_number(retention, 300_000)?,
    };
    let is_right =
        is_name(host) && is_name(realm) && is_address(server) && (1..=128).contains(&own.secret.len()) && own.retention >= 1000;
    is_right.then_some(own)
}

/// Takes a line of the script.
fn take(line: &[u8], core: &mut Option<Core>, out: &mut Printer) -> Result<(), Fault> {
    let number = out.line;
    let bad = |reason| Fault::Bad { line: number, reason };
    if line.len() > LONGEST_LINE {
        return Err(bad(1));
    }
    let moment_in = |word| read_number(word, u64::MAX).ok_or(bad(3));
    let octets_in = |word| read_hex(word).ok_or(bad(3));
    let words: Vec<&[u8]> = line.split(|octet| *octet == b' ').collect();
    match (&words[..], core) {
        (&[b"reverse", host, realm, server, port, secret, retention], core @ None) => {
            let own = read_own([host, realm, server, port, secret, retention]);
            *core = Some(Core::new(own.ok_or(bad(3))?));
            Ok(())
        }
        (&[moment, b"request", message, random], Some(core)) => {
            let (moment, octets) = (moment_in(moment)?, octets_in(message)?);
            let random = octets_in(random)?.try_into().map_err(|_| bad(3))?;
            if octets.len() > LONGEST_MESSAGE {
                return Err(bad(3));
            }
            core.pass(moment);
            core.request(&octets, &random, out)
        }
        (&[moment, b"reply", datagram], Some(core)) => {
            let (moment, octets) = (moment_in(moment)?, octets_in(datagram)?);
            core.pass(moment);
            core.reply(&octets, out)
        }
        (&[moment, b"tick"], Some(core)) => {
            core.pass(moment_in(moment)?);
            core.tick(out)
        }
        _ => Err(bad(2)),
    }
}

fn run() -> Result<(), Fault> {
    let input = io::stdin().as_fd().try_clone_to_owned().map_err(|_| Fault::Read)?;
    let output = io::stdout().as_fd().try_clone_to_owned().map_err(|_| Fault::Write)?;
    let mut input = BufReader::with_capacity(CHUNK, File::from(input));
    let mut out = Printer { output: File::from(output), line: 0, sends: 0, answers: 0, drops: 0 };
    let (mut core, mut line, mut octets) = (None, Vec::new(), 0);
    loop {
        line.clear();
        // One octet more than the longest line has: its end, or it is too long.
        let mut some = input.by_ref().take(LONGEST_LINE as u64 + 1);
        octets += some.read_until(b'\n', &mut line).map_err(|_| Fault::Read)? as u64;
        if octets > MOST_OCTETS {
            return Err(Fault::TooLong);
        }
        if line.is_empty() {
            return out.end();
        }
        if line.last() == Some(&b'\n') {
            line.pop();
        }
        out.line += 1;
        take(&line, &mut core, &mut out)?;
    }
}

fn main() -> ExitCode {
    if std::env::args_os().skip(1).ne(["reverse"]) {
        eprintln!("usage: plain reverse < SCRIPT");
        return ExitCode::from(1);
    }
    let Err(fault) = run() else { return ExitCode::SUCCESS };
    let (status, said) = match fault {
        Fault::Bad { line, reason } => (3, format!("BadTranscript {line} {reason}")),
        Fault::Read => (4, "ReadFault".to_string()),
        Fault::Write => (5, "WriteFault".to_string()),
        Fault::TooLong => (12, "TooLong".to_string()),
    };
    eprintln!("agent: {said}");
    ExitCode::from(status)
}

//! The calls that bench/run measures, by hand, in safe Rust: for these messages alone, with nothing said of an error but that there is one.
//! floor CALL MESSAGE COUNT, with the message on standard input; with 0 for COUNT the result goes to standard output.
#![forbid(unsafe_code)]

use std::hint::black_box;
use std::io::{Read, Write};

const fn padded(n: usize) -> usize {
    (n + 7) & !7
}

/// An item's header: its tag, its type and its length.
const fn head(tag: u32, typ: u8, len: u32) -> u64 {
    (tag as u64) << 40 | (typ as u64) << 32 | len as u64
}

// The messages: requests to create or register a key, the responses to these and to Get, and a long value.

struct Key {
    format: u32,
    material: Vec<u8>,
    algorithm: u32,
    bits: u32,
}

enum Value {
    Algorithm(u32),
    Integer(u32),
    Name(String, u32),
}

struct Attribute {
    name: String,
    value: Value,
}

struct RequestItem {
    operation: u32,
    object_type: u32,
    attributes: Vec<Attribute>,
    key: Option<Box<Key>>,
}

struct Request {
    version: (u32, u32),
    batch: u32,
    items: Vec<RequestItem>,
}

struct ResponseItem {
    operation: u32,
    status: u32,
    object_type: u32,
    identifier: String,
    key: Option<Box<Key>>,
}

struct Response {
    version: (u32, u32),
    stamp: u64,
    batch: u32,
    items: Vec<ResponseItem>,
}

struct Blob {
    content: Vec<u8>,
    number: u32,
}

const CREATE: u32 = 1;
const REGISTER: u32 = 3;
const GET: u32 = 10;
const DESTROY: u32 = 20;

// Encoding: each length is computed where it is written.

struct Out(Vec<u8>);

impl Out {
    fn head(&mut self, tag: u32, typ: u8, len: usize) {
        self.0.extend_from_slice(&head(tag, typ, len as u32).to_be_bytes())
    }

    fn four(&mut self, tag: u32, typ: u8, v: u32) {
        let mut b = [0; 16];
        b[..8].copy_from_slice(&head(tag, typ, 4).to_be_bytes());
        b[8..12].copy_from_slice(&v.to_be_bytes());
        self.0.extend_from_slice(&b)
    }

    fn bytes(&mut self, tag: u32, typ: u8, b: &[u8]) {
        self.head(tag, typ, b.len());
        self.0.extend_from_slice(b);
        self.0.extend_from_slice(&[0; 8][..padded(b.len()) - b.len()])
    }

    fn version(&mut self, (major, minor): (u32, u32)) {
        self.head(0x420069, 1, 32);
        self.four(0x42006A, 2, major);
        self.four(0x42006B, 2, minor)
    }

    fn key(&mut self, key: &Key) {
        let value = 8 + padded(key.material.len());
        self.head(0x42008F, 1, value + 64);
        self.head(0x420040, 1, value + 56);
        self.four(0x420042, 5, key.format);
        self.head(0x420045, 1, value);
        self.bytes(0x420043, 8, &key.material);
        self.four(0x420028, 5, key.algorithm);
        self.four(0x42002A, 2, key.bits)
    }

    fn attribute(&mut self, a: &Attribute) {
        self.head(0x420008, 1, a.size() - 8);
        self.bytes(0x42000A, 7, a.name.as_bytes());
        match &a.value {
            Value::Algorithm(n) => self.four(0x42000B, 5, *n),
            Value::Integer(n) => self.four(0x42000B, 2, *n),
            Value::Name(text, n) => {
                self.head(0x42000B, 1, 24 + padded(text.len()));
                self.bytes(0x420055, 7, text.as_bytes());
                self.four(0x420054, 5, *n)
            }
        }
    }
}

impl Attribute {
    fn size(&self) -> usize {
        let value = match &self.value {
            Value::Name(text, _) => 32 + padded(text.len()),
            _ => 16,
        };
        16 + padded(self.name.len()) + value
    }
}

fn key_size(key: &Option<Box<Key>>) -> usize {
    key.as_ref().map_or(0, |key| 80 + padded(key.material.len()))
}

impl RequestItem {
    fn attributes_size(&self) -> usize {
        self.attributes.iter().map(Attribute::size).sum()
    }
}

trait Message: Sized {
    fn encode(&self) -> Option<Vec<u8>>;
    fn decode(bytes: &[u8]) -> Option<Self>;
}

fn out(body: usize) -> Option<Out> {
    u32::try_from(body).ok()?;
    Some(Out(Vec::with_capacity(8 + body)))
}

impl Message for Request {
    fn encode(&self) -> Option<Vec<u8>> {
        let size = |i: &RequestItem| 56 + i.attributes_size() + key_size(&i.key);
        let body = 64 + self.items.iter().map(size).sum::<usize>();
        let mut o = out(body)?;
        o.head(0x420078, 1, body);
        o.head(0x420077, 1, 56);
        o.version(self.version);
        o.four(0x42000D, 2, self.batch);
        for i in &self.items {
            let (attributes, key) = (i.attributes_size(), key_size(&i.key));
            o.head(0x42000F, 1, 48 + attributes + key);
            o.four(0x42005C, 5, i.operation);
            o.head(0x420079, 1, 24 + attributes + key);
            o.four(0x420057, 5, i.object_type);
            o.head(0x420091, 1, attributes);
            for a in &i.attributes {
                o.attribute(a)
            }
            if let Some(key) = &i.key {
                o.key(key)
            }
        }
        Some(o.0)
    }

    fn decode(bytes: &[u8]) -> Option<Self> {
        let mut message = Cursor(bytes).enter(0x420078)?;
        let mut header = message.enter(0x420077)?;
        let version = header.version()?;
        let batch = header.four(0x42000D, 2)?;
        let mut items = Vec::new();
        while message.is_next(0x42000F) {
            let mut item = message.enter(0x42000F)?;
            let operation = item.four(0x42005C, 5)?;
            let mut payload = item.enter(0x420079)?;
            let object_type = payload.four(0x420057, 5)?;
            let mut template = payload.enter(0x420091)?;
            let mut attributes = Vec::new();
            while template.is_next(0x420008) {
                attributes.push(template.attribute()?)
            }
            let key = match operation {
                CREATE => None,
                REGISTER => Some(payload.key()?),
                _ => return None,
            };
            items.push(RequestItem { operation, object_type, attributes, key })
        }
        Some(Request { version, batch, items })
    }
}

impl Message for Response {
    fn encode(&self) -> Option<Vec<u8>> {
        let typ = |i: &ResponseItem| if i.operation == DESTROY { 0 } else { 16 };
        let payload = |i: &ResponseItem| typ(i) + 8 + padded(i.identifier.len()) + key_size(&i.key);
        let body = 80 + self.items.iter().map(|i| 48 + payload(i)).sum::<usize>();
        let mut o = out(body)?;
        o.head(0x42007B, 1, body);
        o.head(0x42007A, 1, 72);
        o.version(self.version);
        o.head(0x420092, 9, 8);
        o.0.extend_from_slice(&self.stamp.to_be_bytes());
        o.four(0x42000D, 2, self.batch);
        for i in &self.items {
            o.head(0x42000F, 1, 40 + payload(i));
            o.four(0x42005C, 5, i.operation);
            o.four(0x42007F, 5, i.status);
            o.head(0x42007C, 1, payload(i));
            if i.operation != DESTROY {
                o.four(0x420057, 5, i.object_type)
            }
            o.bytes(0x420094, 7, i.identifier.as_bytes());
            if let Some(key) = &i.key {
                o.key(key)
            }
        }
        Some(o.0)
    }

    fn decode(bytes: &[u8]) -> Option<Self> {
        let mut message = Cursor(bytes).enter(0x42007B)?;
        let mut header = message.enter(0x42007A)?;
        let version = header.version()?;
        let stamp = header.eight(0x420092, 9)?;
        let batch = header.four(0x42000D, 2)?;
        let mut items = Vec::new();
        while message.is_next(0x42000F) {
            let mut item = message.enter(0x42000F)?;
            let operation = item.four(0x42005C, 5)?;
            let status = item.four(0x42007F, 5)?;
            let mut payload = item.enter(0x42007C)?;
            let object_type = match operation {
                CREATE | GET => payload.four(0x420057, 5)?,
                DESTROY => 0,
                _ => return None,
            };
            let identifier = payload.text(0x420094)?;
            let key = if operation == GET { Some(payload.key()?) } else { None };
            items.push(ResponseItem { operation, status, object_type, identifier, key })
        }
        Some(Response { version, stamp, batch, items })
    }
}

impl Message for Blob {
    fn encode(&self) -> Option<Vec<u8>> {
        let body = 24 + padded(self.content.len());
        let mut o = out(body)?;
        o.head(0xAAAAAA, 1, body);
        o.bytes(0xBBBBBB, 8, &self.content);
        o.four(0xCCCCCC, 2, self.number);
        Some(o.0)
    }

    fn decode(bytes: &[u8]) -> Option<Self> {
        let mut message = Cursor(bytes).enter(0xAAAAAA)?;
        Some(Blob { content: message.bytes(0xBBBBBB, 8)?.to_vec(), number: message.four(0xCCCCCC, 2)? })
    }
}

// Decoding: the bytes that are left of the structure around.

struct Cursor<'a>(&'a [u8]);

impl<'a> Cursor<'a> {
    fn word(&self) -> Option<u64> {
        Some(u64::from_be_bytes(*self.0.first_chunk::<8>()?))
    }

    fn is_next(&self, tag: u32) -> bool {
        self.word().is_some_and(|h| (h >> 40) as u32 == tag)
    }

    /// So many bytes after a header of this tag and type, which states the length.
    #[inline(always)]
    fn taken(&mut self, tag: u32, typ: u8, size: fn(usize) -> usize) -> Option<(&'a [u8], usize)> {
        let h = self.word()?;
        if (h >> 32) as u32 != tag << 8 | typ as u32 {
            return None;
        }
        let n = h as u32 as usize;
        let (value, rest) = self.0.get(8..)?.split_at_checked(size(n))?;
        self.0 = rest;
        Some((value, n))
    }

    #[inline(always)]
    fn enter(&mut self, tag: u32) -> Option<Cursor<'a>> {
        Some(Cursor(self.taken(tag, 1, |n| n)?.0))
    }

    #[inline(always)]
    fn bytes(&mut self, tag: u32, typ: u8) -> Option<&'a [u8]> {
        let (value, n) = self.taken(tag, typ, padded)?;
        value.get(..n)
    }

    #[inline(always)]
    fn four(&mut self, tag: u32, typ: u8) -> Option<u32> {
        let (item, rest) = self.0.split_first_chunk::<16>()?;
        if u64::from_be_bytes(*item.first_chunk::<8>()?) != head(tag, typ, 4) {
            return None;
        }
        self.0 = rest;
        Some(u32::from_be_bytes([item[8], item[9], item[10], item[11]]))
    }

    #[inline(always)]
    fn eight(&mut self, tag: u32, typ: u8) -> Option<u64> {
        let (item, rest) = self.0.split_first_chunk::<16>()?;
        if u64::from_be_bytes(*item.first_chunk::<8>()?) != head(tag, typ, 8) {
            return None;
        }
        self.0 = rest;
        Some(u64::from_be_bytes(*item.last_chunk::<8>()?))
    }

    fn text(&mut self, tag: u32) -> Option<String> {
        Some(std::str::from_utf8(self.bytes(tag, 7)?).ok()?.to_owned())
    }

    fn version(&mut self) -> Option<(u32, u32)> {
        let mut version = self.enter(0x420069)?;
        Some((version.four(0x42006A, 2)?, version.four(0x42006B, 2)?))
    }

    fn attribute(&mut self) -> Option<Attribute> {
        let mut attribute = self.enter(0x420008)?;
        let name = attribute.text(0x42000A)?;
        let value = match name.as_str() {
            "Cryptographic Algorithm" => Value::Algorithm(attribute.four(0x42000B, 5)?),
            "Cryptographic Length" | "Cryptographic Usage Mask" => Value::Integer(attribute.four(0x42000B, 2)?),
            "Name" => {
                let mut value = attribute.enter(0x42000B)?;
                Value::Name(value.text(0x420055)?, value.four(0x420054, 5)?)
            }
            _ => return None,
        };
        Some(Attribute { name, value })
    }

    fn key(&mut self) -> Option<Box<Key>> {
        let mut block = self.enter(0x42008F)?.enter(0x420040)?;
        Some(Box::new(Key {
            format: block.four(0x420042, 5)?,
            material: block.enter(0x420045)?.bytes(0x420043, 8)?.to_vec(),
            algorithm: block.four(0x420028, 5)?,
            bits: block.four(0x42002A, 2)?,
        }))
    }
}

// Printing.

fn is_content(typ: u8, b: &[u8]) -> bool {
    match typ {
        2 | 5 | 10 => b.len() == 4,
        3 | 9 => b.len() == 8,
        6 => b.len() == 8 && b[..7] == [0; 7] && b[7] < 2,
        7 => std::str::from_utf8(b).is_ok(),
        4 | 8 => true,
        _ => false,
    }
}

/// What is made of the items of a walk.
trait Sink {
    fn item(&mut self, depth: usize, tag: u32, typ: u8, value: &[u8]);
    fn close(&mut self) {}
}

/// Walks over the items of one message; how many bytes it has, if it is one.
#[inline(always)]
fn walk(b: &[u8], sink: &mut impl Sink) -> Option<usize> {
    let mut ends = Vec::with_capacity(8);
    let (mut at, mut end, mut begun) = (0, b.len(), false);
    loop {
        while at == end {
            match ends.pop() {
                None => return Some(at),
                Some(outer) => end = outer,
            }
            sink.close()
        }
        if ends.is_empty() && begun {
            return Some(at);
        }
        begun = true;
        let (h, rest) = b[at..end].split_first_chunk::<8>()?;
        let h = u64::from_be_bytes(*h);
        let (tag, typ, n) = ((h >> 40) as u32, (h >> 32) as u8, h as u32 as usize);
        at += 8;
        if typ == 1 {
            if n > rest.len() {
                return None;
            }
            sink.item(ends.len(), tag, typ, &[]);
            ends.push(end);
            end = at + n;
        } else {
            let value = rest.get(..padded(n))?.get(..n)?;
            if !is_content(typ, value) {
                return None;
            }
            sink.item(ends.len(), tag, typ, value);
            at += padded(n)
        }
    }
}

struct Check;

impl Sink for Check {
    fn item(&mut self, _: usize, _: u32, _: u8, _: &[u8]) {}
}

const DIGITS: &[u8; 16] = b"0123456789ABCDEF";
const LETTERS: &[u8; 11] = b"?[ilIebtodn";
const TYPES: [&str; 11] = [
    "",
    "Structure (0x01)",
    "Integer (0x02)",
    "LongInteger (0x03)",
    "BigInteger (0x04)",
    "Enumeration (0x05)",
    "Boolean (0x06)",
    "TextString (0x07)",
    "ByteString (0x08)",
    "DateTime (0x09)",
    "Interval (0x0A)",
];

fn digit(tag: u32, place: u32) -> u8 {
    DIGITS[(tag >> (4 * place)) as usize & 15]
}

fn hexadecimal(o: &mut Vec<u8>, v: u64, least: u32) {
    let count = (16 - v.leading_zeros() / 4).max(least) as usize;
    let mut b = [0; 16];
    for (k, to) in b.iter_mut().enumerate() {
        *to = DIGITS[(v >> (60 - 4 * k)) as usize & 15]
    }
    o.extend_from_slice(&b[16 - count..])
}

fn decimal(o: &mut Vec<u8>, mut v: u64) {
    let mut b = [0; 20];
    let mut k = 20;
    loop {
        k -= 1;
        b[k] = b'0' + (v % 10) as u8;
        v /= 10;
        if v == 0 {
            return o.extend_from_slice(&b[k..]);
        }
    }
}

fn number(b: &[u8]) -> u32 {
    u32::from_be_bytes([b[0], b[1], b[2], b[3]])
}

struct Diagnostic {
    out: Vec<u8>,
    prefix: u32,
}

impl Sink for Diagnostic {
    #[inline(always)]
    fn item(&mut self, _: usize, tag: u32, typ: u8, value: &[u8]) {
        let (o, d, letter) = (&mut self.out, |place| digit(tag, place), LETTERS[typ as usize]);
        if tag >> 8 == self.prefix {
            o.extend_from_slice(&[d(1), d(0), letter])
        } else {
            o.extend_from_slice(&[d(5), d(4), d(3), d(2), d(1), d(0), letter])
        }
        if typ == 5 {
            match number(value) {
                v @ 0..=15 => o.extend_from_slice(&[DIGITS[v as usize], b':']),
                v => {
                    hexadecimal(o, v as u64, 1);
                    o.push(b':')
                }
            }
        }
    }

    fn close(&mut self) {
        self.out.push(b']')
    }
}

/// The diagnostic, without the first four digits of tags that begin with `prefix`.
fn diagnostic(b: &[u8], prefix: u32) -> Option<String> {
    let mut to = Diagnostic { out: Vec::with_capacity(b.len() + 8), prefix };
    if walk(b, &mut to).is_none() {
        to.out.extend_from_slice(b"ERR")
    }
    String::from_utf8(to.out).ok()
}

fn front(o: &mut Vec<u8>, depth: usize, tag: u32, typ: u8) {
    let d = |place| digit(tag, place);
    o.resize(o.len() + 2 * depth, b' ');
    o.extend_from_slice(b"Tag: 0x");
    o.extend_from_slice(&[d(5), d(4), d(3), d(2), d(1), d(0)]);
    o.extend_from_slice(b", Type: ");
    o.extend_from_slice(TYPES[typ as usize].as_bytes());
    o.extend_from_slice(b", Data:")
}

fn value_text(o: &mut Vec<u8>, typ: u8, b: &[u8]) {
    match typ {
        2 | 5 | 10 => {
            let v = number(b);
            o.extend_from_slice(b"0x");
            hexadecimal(o, v as u64, 6);
            o.extend_from_slice(b" (");
            let negative = typ == 2 && v >> 31 == 1;
            if negative {
                o.push(b'-')
            }
            decimal(o, if negative { v.wrapping_neg() } else { v } as u64);
            o.push(b')')
        }
        3 | 9 => {
            o.extend_from_slice(b"0x");
            hexadecimal(o, u64::from_be_bytes(b.try_into().unwrap_or_default()), 6)
        }
        6 => o.extend_from_slice(if b[7] == 1 { b"true" } else { b"false" }),
        7 => o.extend_from_slice(b),
        _ => {
            for x in b {
                o.extend_from_slice(&[DIGITS[(x >> 4) as usize], DIGITS[(x & 15) as usize]])
            }
        }
    }
}

struct Lines(Vec<u8>);

impl Sink for Lines {
    #[inline(always)]
    fn item(&mut self, depth: usize, tag: u32, typ: u8, value: &[u8]) {
        front(&mut self.0, depth, tag, typ);
        if typ != 1 {
            self.0.push(b' ');
            value_text(&mut self.0, typ, value)
        }
        self.0.push(b'\n')
    }
}

fn text(b: &[u8]) -> Option<String> {
    let mut to = Lines(Vec::with_capacity(4 * b.len() + 64));
    if walk(b, &mut to).is_none() {
        to.0.extend_from_slice(b"ERROR: ?")
    }
    String::from_utf8(to.0).ok()
}

fn digit_of(c: u8) -> Option<u32> {
    match c {
        b'0'..=b'9' => Some((c - b'0') as u32),
        b'A'..=b'F' => Some((c - b'A') as u32 + 10),
        _ => None,
    }
}

/// The number of the digits that come next, no more than `most`, and where they end.
fn digits(u: &[u8], from: usize, most: usize) -> (u32, usize) {
    let (mut v, mut i) = (0, from);
    while i - from < most {
        match u.get(i).and_then(|c| digit_of(*c)) {
            Some(d) => v = v << 4 | d,
            None => break,
        }
        i += 1
    }
    (v, i)
}

/// A diagnostic as readable text, up to where it stops being one.
fn read_back(t: &str, prefix: u32) -> Option<String> {
    let u = t.as_bytes();
    let mut o = Vec::with_capacity(16 * u.len() + 64);
    let (mut i, mut depth) = (0, 0usize);
    while i < u.len() {
        if u[i] == b']' {
            if depth == 0 {
                break;
            }
            depth -= 1;
            i += 1;
            continue;
        }
        let (v, end) = digits(u, i, 6);
        let tag = match end - i {
            1 | 2 => prefix << (4 * (end - i)) | v,
            6 => v,
            _ => break,
        };
        let Some(typ) = u.get(end).and_then(|c| LETTERS.iter().position(|x| x == c)) else {
            break;
        };
        i = end + 1;
        front(&mut o, depth, tag, typ as u8);
        o.push(b' ');
        match typ {
            1 => depth += 1,
            5 => {
                let (v, end) = digits(u, i, 8);
                if u.get(end) != Some(&b':') {
                    break;
                }
                i = end + 1;
                decimal(&mut o, v as u64)
            }
            _ => o.extend_from_slice(b"<redacted>"),
        }
        o.push(b'\n')
    }
    while matches!(o.last(), Some(b'\n' | b' ')) {
        o.pop();
    }
    String::from_utf8(o).ok()
}

// The calls.

/// Makes a call as often as is asked, or once, and shows what it gives.
fn repeat<T>(count: u64, mut make: impl FnMut() -> Option<T>, shown: impl FnOnce(T) -> Option<Vec<u8>>) -> Option<()> {
    if count == 0 {
        return std::io::stdout().write_all(&shown(make()?)?).ok();
    }
    for _ in 0..count {
        black_box(make()?);
    }
    Some(())
}

fn code<T: Message>(call: &str, count: u64, bytes: &[u8]) -> Option<()> {
    match call {
        "from_slice" => repeat(count, || T::decode(black_box(bytes)), |value| value.encode()),
        "to_vec" => {
            let value = T::decode(bytes)?;
            repeat(count, || black_box(&value).encode(), Some)
        }
        _ => None,
    }
}

fn run(call: &str, message: &str, count: u64, b: &[u8]) -> Option<()> {
    let shown = |text: String| Some(text.into_bytes());
    match call {
        "find_fault" => {
            repeat(count, || (walk(black_box(b), &mut Check)? == b.len()).then_some(()), |()| Some(b"whole".to_vec()))
        }
        "to_diag_string" => repeat(count, || diagnostic(black_box(b), 0x4200), shown),
        "to_string" => repeat(count, || text(black_box(b)), shown),
        "from_diag_string" => {
            let line = diagnostic(b, 0x4200)?;
            repeat(count, || read_back(black_box(&line), 0x4200), shown)
        }
        _ if message.contains("response") => code::<Response>(call, count, b),
        _ if message.contains("blob") => code::<Blob>(call, count, b),
        _ => code::<Request>(call, count, b),
    }
}

fn main() {
    let words: Vec<String> = std::env::args().collect();
    let [_, call, message, count] = &words[..] else { std::process::exit(2) };
    let mut bytes = Vec::new();
    let read = std::io::stdin().read_to_end(&mut bytes).is_ok();
    let done = read && run(call, message, count.parse().unwrap_or(1), &bytes).is_some();
    std::process::exit(if done { 0 } else { 1 })
}

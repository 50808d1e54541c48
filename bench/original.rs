//! The calls that bench/run measures, by the original crate kmip-ttlv 0.3.5, with types as its users write them.
//! original CALL MESSAGE COUNT, with the message on standard input; with 0 for COUNT the result goes to standard output, but that of a
//! call that decodes, since types that are decoded can't be encoded.
use kmip_ttlv::{from_reader, from_slice, to_vec, to_writer, Config, PrettyPrinter};
use serde::de::DeserializeOwned;
use serde::Serialize;
use std::hint::black_box;
use std::io::{Read, Write};

/// What is encoded.
mod written {
    use serde_derive::Serialize;

    #[derive(Serialize)]
    #[serde(rename = "0x420078")]
    pub struct Request(pub Header, pub Vec<Item>);
    #[derive(Serialize)]
    #[serde(rename = "0x420077")]
    pub struct Header(pub Version, pub BatchCount);
    #[derive(Serialize)]
    #[serde(rename = "0x420069")]
    pub struct Version(pub Major, pub Minor);
    #[derive(Serialize)]
    #[serde(rename = "Transparent:0x42006A")]
    pub struct Major(pub i32);
    #[derive(Serialize)]
    #[serde(rename = "Transparent:0x42006B")]
    pub struct Minor(pub i32);
    #[derive(Serialize)]
    #[serde(rename = "Transparent:0x42000D")]
    pub struct BatchCount(pub i32);
    #[derive(Serialize)]
    #[serde(rename = "0x42000F")]
    pub struct Item(pub Operation, pub Payload);
    #[derive(Serialize)]
    #[serde(rename = "0x42005C")]
    pub enum Operation {
        #[serde(rename = "0x00000001")]
        Create,
    }
    #[derive(Serialize)]
    #[serde(rename = "0x420079")]
    pub struct Payload(pub ObjectType, pub Template);
    #[derive(Serialize)]
    #[serde(rename = "0x420057")]
    pub enum ObjectType {
        #[serde(rename = "0x00000002")]
        SymmetricKey,
    }
    #[derive(Serialize)]
    #[serde(rename = "0x420091")]
    pub struct Template(pub Vec<Attribute>);
    #[derive(Serialize)]
    #[serde(rename = "0x420008")]
    pub struct Attribute(pub Name, pub Value);
    #[derive(Serialize)]
    #[serde(rename = "Transparent:0x42000A")]
    pub struct Name(pub &'static str);
    #[derive(Serialize)]
    #[serde(rename = "Override:0x42000B")]
    pub enum Value {
        #[serde(rename = "Transparent")]
        Algorithm(Algorithm),
        #[serde(rename = "Transparent")]
        Integer(i32),
    }
    #[derive(Serialize)]
    #[serde(rename = "420028")]
    pub enum Algorithm {
        #[serde(rename = "0x00000003")]
        Aes,
    }
    #[derive(Serialize)]
    #[serde(rename = "0xAAAAAA")]
    pub struct Blob(pub Content, pub Number);
    #[derive(Serialize)]
    #[serde(rename = "Transparent:0xBBBBBB")]
    pub struct Content(#[serde(with = "serde_bytes")] pub Vec<u8>);
    #[derive(Serialize)]
    #[serde(rename = "Transparent:0xCCCCCC")]
    pub struct Number(pub i32);

    /// A request to create a key with so many attributes.
    pub fn request(count: usize) -> Request {
        let attribute = |k| match k % 3 {
            0 => Attribute(Name("Cryptographic Algorithm"), Value::Algorithm(Algorithm::Aes)),
            1 => Attribute(Name("Cryptographic Length"), Value::Integer(128)),
            _ => Attribute(Name("Cryptographic Usage Mask"), Value::Integer(12)),
        };
        let template = Template((0..count).map(attribute).collect());
        let item = Item(Operation::Create, Payload(ObjectType::SymmetricKey, template));
        Request(Header(Version(Major(1), Minor(0)), BatchCount(1)), vec![item])
    }
}

/// What is decoded.
#[allow(dead_code)]
mod read {
    use serde_derive::Deserialize;

    #[derive(Deserialize)]
    #[serde(rename = "0x420078")]
    pub struct Request {
        #[serde(rename = "0x420077")]
        header: RequestHeader,
        #[serde(rename = "0x42000F")]
        items: Vec<RequestItem>,
    }
    #[derive(Deserialize)]
    #[serde(rename = "0x420077")]
    struct RequestHeader {
        #[serde(rename = "0x420069")]
        version: Version,
        #[serde(rename = "0x42000D")]
        batch_count: i32,
    }
    #[derive(Deserialize)]
    #[serde(rename = "0x420069")]
    struct Version {
        #[serde(rename = "0x42006A")]
        major: i32,
        #[serde(rename = "0x42006B")]
        minor: i32,
    }
    #[derive(Deserialize)]
    #[serde(rename = "0x42000F")]
    struct RequestItem {
        #[serde(rename = "0x42005C")]
        operation: Operation,
        #[serde(rename = "0x420079")]
        payload: RequestPayload,
    }
    #[derive(Deserialize)]
    #[serde(rename = "0x42005C")]
    enum Operation {
        #[serde(rename = "0x00000001")]
        Create,
        #[serde(rename = "0x00000014")]
        Destroy,
    }
    #[derive(Deserialize)]
    #[serde(rename = "0x420079")]
    struct RequestPayload {
        #[serde(rename = "0x420057")]
        object_type: ObjectType,
        #[serde(rename = "0x420091")]
        template: Template,
    }
    #[derive(Deserialize)]
    #[serde(rename = "0x420057")]
    enum ObjectType {
        #[serde(rename = "0x00000002")]
        SymmetricKey,
    }
    #[derive(Deserialize)]
    #[serde(rename = "0x420091")]
    struct Template {
        #[serde(rename = "0x420008")]
        attributes: Vec<Attribute>,
    }
    #[derive(Deserialize)]
    #[serde(rename = "0x420008")]
    struct Attribute {
        #[serde(rename = "0x42000A")]
        name: String,
        #[serde(rename = "0x42000B")]
        value: Value,
    }
    #[derive(Deserialize)]
    #[serde(rename = "0x42000B")]
    enum Value {
        #[serde(rename = "if 0x42000A==Cryptographic Algorithm")]
        Algorithm(Algorithm),
        #[serde(rename = "if 0x42000A in [Cryptographic Length, Cryptographic Usage Mask]")]
        Integer(i32),
    }
    #[derive(Deserialize)]
    #[serde(rename = "0x420028")]
    enum Algorithm {
        #[serde(rename = "0x00000003")]
        Aes,
    }
    #[derive(Deserialize)]
    #[serde(rename = "0x42007B")]
    pub struct Response {
        #[serde(rename = "0x42007A")]
        header: ResponseHeader,
        #[serde(rename = "0x42000F")]
        items: Vec<ResponseItem>,
    }
    #[derive(Deserialize)]
    #[serde(rename = "0x42007A")]
    struct ResponseHeader {
        #[serde(rename = "0x420069")]
        version: Version,
        #[serde(rename = "0x420092")]
        time_stamp: i64,
        #[serde(rename = "0x42000D")]
        batch_count: i32,
    }
    #[derive(Deserialize)]
    #[serde(rename = "0x42000F")]
    struct ResponseItem {
        #[serde(rename = "0x42005C")]
        operation: Operation,
        #[serde(rename = "0x42007F")]
        status: Status,
        #[serde(rename = "0x42007C")]
        payload: ResponsePayload,
    }
    #[derive(Deserialize)]
    #[serde(rename = "0x42007F")]
    enum Status {
        #[serde(rename = "0x00000000")]
        Success,
    }
    #[derive(Deserialize)]
    #[serde(rename = "0x42007C")]
    enum ResponsePayload {
        #[serde(rename = "if 0x42005C==0x00000001")]
        Create(Created),
        #[serde(rename = "if 0x42005C==0x00000014")]
        Destroy(Destroyed),
    }
    #[derive(Deserialize)]
    #[serde(rename = "0x42007C")]
    struct Created {
        #[serde(rename = "0x420057")]
        object_type: ObjectType,
        #[serde(rename = "0x420094")]
        unique_identifier: String,
    }
    #[derive(Deserialize)]
    #[serde(rename = "0x42007C")]
    struct Destroyed {
        #[serde(rename = "0x420094")]
        unique_identifier: String,
    }
    #[derive(Deserialize)]
    #[serde(rename = "0xAAAAAA")]
    pub struct Blob {
        #[serde(rename = "0xBBBBBB", with = "serde_bytes")]
        content: Vec<u8>,
        #[serde(rename = "0xCCCCCC")]
        number: i32,
    }
}

/// Makes a call as often as is asked, or once, and shows what it gives.
fn repeat<T>(count: u64, mut make: impl FnMut() -> T, shown: impl FnOnce(T) -> Vec<u8>) {
    if count == 0 {
        return std::io::stdout().write_all(&shown(make())).unwrap();
    }
    for _ in 0..count {
        black_box(make());
    }
}

fn write<T: Serialize>(call: &str, count: u64, value: &T) {
    if call == "to_vec" {
        return repeat(count, || to_vec(black_box(value)).unwrap(), |bytes| bytes);
    }
    let mut out = Vec::new();
    let mut make = || {
        out.clear();
        to_writer(black_box(value), &mut out).unwrap()
    };
    make();
    repeat(count, make, |()| Vec::new());
    if count == 0 {
        std::io::stdout().write_all(&out).unwrap()
    }
}

fn read<T: DeserializeOwned>(call: &str, count: u64, b: &[u8]) {
    let config = if call.ends_with("kept buffer") { Config::new().with_read_buf() } else { Config::new() };
    match call {
        "from_slice" => repeat(count, || from_slice::<T>(black_box(b)).unwrap(), |_| Vec::new()),
        _ => repeat(count, || from_reader::<T, _>(black_box(b), &config).unwrap(), |_| Vec::new()),
    }
}

fn main() {
    let words: Vec<String> = std::env::args().collect();
    let (call, message, count) = (words[1].as_str(), words[2].as_str(), words[3].parse().unwrap());
    let mut b = Vec::new();
    std::io::stdin().read_to_end(&mut b).unwrap();
    let mut printer = PrettyPrinter::new();
    printer.with_tag_prefix("4200".into());
    match (call, message) {
        ("to_diag_string", _) => repeat(count, || printer.to_diag_string(black_box(&b)), String::into_bytes),
        ("to_string", _) => repeat(count, || printer.to_string(black_box(&b)), String::into_bytes),
        ("from_diag_string", _) => {
            let line = printer.to_diag_string(&b);
            repeat(count, || printer.from_diag_string(black_box(&line)), String::into_bytes)
        }
        ("to_vec" | "to_writer", "request") => write(call, count, &written::request(3)),
        ("to_vec" | "to_writer", "attributes") => write(call, count, &written::request(10_000)),
        ("to_vec" | "to_writer", "blob") => {
            let content = b[16..16 + (1 << 20)].to_vec();
            write(call, count, &written::Blob(written::Content(content), written::Number(1)))
        }
        (_, "request" | "attributes") => read::<read::Request>(call, count, &b),
        (_, "response") => read::<read::Response>(call, count, &b),
        (_, "blob") => read::<read::Blob>(call, count, &b),
        _ => std::process::exit(2),
    }
}

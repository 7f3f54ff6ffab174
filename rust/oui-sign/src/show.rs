//! What a stream says about itself, and how it is written from a source of bytes.

use crate::ends::{self, Ends, Sum};
use crate::header::{self, check_value};
use second::head;
use sodium::Signer;
use std::io::{self, Read, Write};
use std::time::{SystemTime, UNIX_EPOCH};
use streams::head::Field;
use streams::options::Options;
use streams::plan::{Plan, SizeStyle};
use streams::writer::Writer;

/// The most bytes that a body may have.
pub const MOST_BODY: u64 = second::chunk::MOST_BODY;
/// The most seconds that twelve digits can say.
const MOST_SECOND: u64 = 999_999_999_999;
const SIGNED: [&str; 5] = ["x-ouinet-version", "x-ouinet-uri", "x-ouinet-injection", "content-type", "x-ouinet-bsigs"];

/// The options of a stream.
pub struct Show {
    block_size: usize,
    uri: String,
    content_type: String,
    id: String,
    ts: u64,
    ends: Ends,
    /// Further fields, all of them signed.
    headers: Vec<Field>,
}

impl Show {
    pub fn from(options: &mut Options) -> Result<Self, String> {
        let show = Show {
            block_size: options.block_size()?,
            uri: options.named("--uri").ok_or("which show is it? --uri URI; see oui-sign --help")?,
            content_type: options.named("--type").unwrap_or_else(|| "application/octet-stream".to_string()),
            id: options.named("--id").unwrap_or_else(any_id),
            ts: options.number("--ts")?.unwrap_or_else(now),
            ends: Ends::from(options)?,
            headers: options.all_named("--header").iter().map(|word| header::parse(word)).collect::<Result<_, _>>()?,
        };
        show.check()?;
        Ok(show)
    }

    /// Whether the head will keep its rules.
    fn check(&self) -> Result<(), String> {
        let id_byte = |byte: u8| byte.is_ascii_alphanumeric() || byte == b'-' || byte == b'_';
        if !(1..=64).contains(&self.id.len()) || !self.id.bytes().all(id_byte) {
            return Err("--id is 1 to 64 letters, digits, '-' or '_'".to_string());
        }
        if self.ts > MOST_SECOND {
            return Err("--ts has at most 12 digits".to_string());
        }
        for (name, value) in [("--uri", &self.uri), ("--type", &self.content_type)] {
            check_value(name, value)?;
        }
        if self.uri.is_empty() {
            return Err("--uri must not be empty: no reader takes a head without a URI".to_string());
        }
        Ok(())
    }

    /// The stream, without its blocks.
    pub fn stream(&self, signer: Signer) -> Result<Stream, String> {
        let plan = self.plan(signer);
        check_sizes(&plan)?;
        Ok(Stream { plan, ends: self.ends, known: None })
    }

    /// The plan of the stream. Its trailer is written behind it.
    fn plan(&self, signer: Signer) -> Plan {
        let ts = self.ts.to_string().into_bytes();
        let mut plan = Plan {
            signer,
            status: b"200".to_vec(),
            reason: b"OK".to_vec(),
            fields: vec![
                Field::new("X-Ouinet-Version", "4"),
                Field::new("X-Ouinet-URI", self.uri.as_bytes()),
                Field::new("X-Ouinet-Injection", ""),
                Field::new("Content-Type", self.content_type.as_bytes()),
                Field::new("X-Ouinet-BSigs", ""),
                Field::new("X-Ouinet-Sig0", ""),
                Field::new("Transfer-Encoding", "chunked"),
            ],
            pseudo: b"(response-status) (created)".to_vec(),
            listed: SIGNED.map(|name| name.as_bytes().to_vec()).to_vec(),
            id: Vec::new(),
            created: ts.clone(),
            gaps: Default::default(),
            block_size: self.block_size,
            blocks: Vec::new(),
            sizes: SizeStyle::Lower,
            trailer: Vec::new(),
            ring: Vec::new(),
        };
        if self.ends == Ends::Trailer {
            plan.fields.push(ends::announcement());
        }
        plan.set_injection(self.id.as_bytes(), &ts);
        for field in &self.headers {
            plan.fields.push(field.clone());
            if !plan.listed.iter().any(|name| name.eq_ignore_ascii_case(&field.name)) {
                plan.listed.push(field.name.to_ascii_lowercase());
            }
        }
        plan
    }
}

/// Whether the head keeps within its limits.
fn check_sizes(plan: &Plan) -> Result<(), String> {
    let length = plan.build().head.bytes().len();
    // The list has the two names in brackets, too
    for (what, count, most) in [
        ("fields", plan.fields.len(), head::MOST_FIELDS),
        ("signed names", plan.listed.len() + 2, head::MOST_LISTED),
        ("bytes", length, head::LIMIT),
    ] {
        if count > most {
            return Err(format!("the head has {count} {what}, and {most} are the most"));
        }
    }
    Ok(())
}

fn now() -> u64 {
    SystemTime::now().duration_since(UNIX_EPOCH).map_or(0, |since| since.as_secs())
}

/// An id that no other stream has.
fn any_id() -> String {
    sodium::random::<16>().iter().map(|byte| format!("{byte:02x}")).collect()
}

/// Why a stream was not written whole.
#[derive(Debug)]
pub enum Fault {
    Read(io::Error),
    Write(io::Error),
    TooLong,
    /// The body is another one than that which the head is about.
    Changed,
}

/// A stream that is to be written.
pub struct Stream {
    plan: Plan,
    ends: Ends,
    /// What the head says of the body.
    known: Option<Sum>,
}

impl Stream {
    /// Whether the head is to say what the body sums up to, so that the body must be read beforehand.
    pub fn wants_sum(&self) -> bool {
        self.ends == Ends::Head
    }

    /// Has the head say what the body sums up to.
    pub fn set_sum(&mut self, sum: Sum) -> Result<(), String> {
        let fields = ends::fields(&self.plan, &sum);
        self.plan.fields.extend(fields);
        self.known = Some(sum);
        check_sizes(&self.plan)
    }

    /// Writes the stream of a source, block by block.
    pub fn write(self, mut source: impl Read, mut out: impl Write) -> Result<(), Fault> {
        let mut writer = Writer::start(self.plan.clone(), &mut out).map_err(Fault::Write)?;
        let mut sum = Sum::default();
        each_block(&mut source, self.plan.block_size, |block| {
            sum.take(block);
            writer.block(block).map_err(Fault::Write)
        })?;
        if self.known.as_ref().is_some_and(|known| !known.is(&sum)) {
            return Err(Fault::Changed);
        }
        writer.finish().map_err(Fault::Write)?;
        out.write_all(&self.trailer(&sum)).and_then(|()| out.flush()).map_err(Fault::Write)
    }

    fn trailer(&self, sum: &Sum) -> Vec<u8> {
        let mut trailer = Vec::new();
        if self.ends == Ends::Trailer {
            trailer.extend(ends::fields(&self.plan, sum).iter().flat_map(Field::line));
        }
        trailer.extend(b"\r\n");
        trailer
    }
}

/// What a body sums up to.
pub fn sum_of(mut source: impl Read) -> Result<Sum, Fault> {
    let mut sum = Sum::default();
    each_block(&mut source, 65_536, |block| {
        sum.take(block);
        Ok(())
    })?;
    Ok(sum)
}

/// Reads a body in blocks of this size, the last one shorter if need be.
fn each_block(
    source: &mut impl Read,
    block_size: usize,
    mut on: impl FnMut(&[u8]) -> Result<(), Fault>,
) -> Result<(), Fault> {
    let mut block = Vec::with_capacity(block_size);
    let mut total = 0;
    loop {
        block.clear();
        source.by_ref().take(block_size as u64).read_to_end(&mut block).map_err(Fault::Read)?;
        total += block.len() as u64;
        if total > MOST_BODY {
            return Err(Fault::TooLong);
        }
        if block.is_empty() {
            return Ok(());
        }
        on(&block)?;
    }
}

//! The words that the program is given.

use std::ffi::OsString;
use std::os::unix::ffi::OsStringExt;
use std::path::PathBuf;

pub const USAGE: &str = "\
usage: oui-fetch --ring RING (--uri URI | --any-uri) [-o BODY] [--continue] [--require-complete] [--json] [--quiet] [STREAM]
       oui-fetch --range-for BODY

Reads a signed stream (Ouinet's format, version 4) from the file STREAM or from standard input, verifies every signature with
Ed25519, and writes the body to the file BODY or to standard output, each block as soon as it is verified. Bytes that are not
verified are never written: a stream that is cut off or changed on its way leaves the verified beginning. So does one whose end shows
that the body is not the whole show: it is refused, when all of its blocks are written.

  --ring RING   whom to trust: a line for each key, at most 16: the key in base64, the first and the last second in which it
                is trusted, with one space between
  --uri URI     which show is asked for: a stream whose X-Ouinet-URI differs from this in any byte, the case of letters
                included, is another show and is refused, whoever signed it
  --any-uri     take the show that comes, whatever its URI; the last word then says so
  -o BODY       where the body goes; a file that is there is written anew, unless --continue is given
  --continue    go on with BODY from where it was left, by a part answer or a whole one, or begin it. While it is not finished, a small
                file beside it, BODY.unfinished, says what is verified of it
  --range-for BODY
                only say what to ask for, so that --continue can go on with BODY: a line like 'Range: bytes=983040-', or none where
                nothing of it is verified and the whole show is to be asked for
  --require-complete
                a stream that does not say where the show ends is a failure (exit status 3); what was verified is in BODY then, as
                after a refusal
  --json        a line of JSON for each event, on standard output; the body then needs -o
  --quiet       no progress and no last word on standard error
  --help        this text

One of --uri and --any-uri must be given.

The last word is 'complete', 'closed', or 'refused' with the number and the meaning of the refusal. 'complete' says that the body is the
whole show: the stream gives its length and its SHA-256 (X-Ouinet-Data-Size, Digest), signed (X-Ouinet-Sig1), and they are the body's.
'closed' says that the stream ended as it should, but is a part answer or has none of the three fields: a block does not say that it is
the last, so nobody has checked whether the show is complete: whoever passed the stream on may have taken them out and cut it short.
Of another show (refusal 16) the last word has the URI asked for and the one that came, which nobody has verified.
Where a text is wrong (refusals 3 and 6) the last word has its offset in the stream, counted from 0, and the line is shown under it
with a mark at the byte. What is not printable ASCII is escaped there.

A part answer (status 206) has some blocks of a show. Without --continue one is taken only where it begins with the show's first byte. With it,
a part may begin where BODY stops, or at the start of any block before; it must be of the same show, with the same id, block size and key, and
its first block must be chained by its signature to the very bytes that are in BODY. All else is told, and leaves BODY and BODY.unfinished as they
are. The end of a part answer is not signed, and that it has the three fields does not count: its last word is 'closed', and says how many bytes of
how many BODY has. A whole answer of the same show is held against what is there, and goes on behind it; it can end 'complete'. BODY.unfinished
is taken away when no byte is missing.

Whenever oui-fetch is killed, at most the last block is lost: a block is written to BODY, and then recorded in BODY.unfinished. What is in BODY
behind the recorded bytes is cut off by the next --continue. After a loss of power the disk may have less of BODY: it is told every 5 seconds to keep
what is there, and --continue goes on from what it has kept. In every case the recorded bytes of BODY are hashed anew before anything is added, so
that nothing is kept that was not verified, whatever happened to the disk.

Exit status: 0 complete, or closed and no byte is known to be missing; 1 refused; 2 a file or a word is no good, or the stream does not fit BODY;
3 closed, and bytes are missing or, with --require-complete, nothing says that none are.

The lines of --json:
  {\"event\":\"question\",\"length\":219,\"record\":0}
  {\"event\":\"head\",\"status\":200,\"uri\":\"https://example.com/hello\"}
  {\"event\":\"head\",\"status\":206,\"uri\":\"https://example.com/hello\",\"range\":{\"first\":5,\"last\":11,\"total\":12}}
  {\"event\":\"block\",\"offset\":0,\"length\":5}
  {\"event\":\"complete\",\"total\":12}
  {\"event\":\"closed\",\"total\":12}
  {\"event\":\"refused\",\"number\":11,\"meaning\":\"the stream stops before its end\",\"at\":null,\"stream_offset\":null}
With refusals 3 and 6, at is where the text of the head, chunk line, data end or trailer goes wrong, counted from its first byte, or
its length as far as it was taken; stream_offset is where in the stream that is. With refusal 16 there are two more, asked and got: the
URI asked for and the one that came. In uri, asked and got one character from U+0000 to U+00FF stands for each byte, since a URI need
not be UTF-8. With --any-uri the last event has \"any_uri\":true. With --continue it has \"body\", how many bytes BODY has then. The offset of
a block is its place in the show, and total in closed how many bytes came in this stream.";

/// What the program is asked to do.
pub enum Asked {
    Help,
    /// What to ask for, to go on with this body.
    RangeFor(PathBuf),
    Fetch(Options),
}

/// Which show is asked for.
pub enum Wanted {
    /// The one of this URI, which may hold any bytes.
    Uri(Vec<u8>),
    /// The one that comes.
    Any,
}

pub struct Options {
    pub ring: PathBuf,
    pub wanted: Wanted,
    /// Standard input if not given.
    pub stream: Option<PathBuf>,
    /// Standard output if not given.
    pub body: Option<PathBuf>,
    /// Whether the body is gone on with from where it was left; then it is a file.
    pub goes_on: bool,
    /// Whether a stream that is closed and not complete is a failure.
    pub require_complete: bool,
    pub json: bool,
    pub quiet: bool,
}

impl Options {
    pub fn parse(words: &[OsString]) -> Result<Asked, String> {
        let mut given = Given::default();
        let mut rest = words.iter();
        while let Some(word) = rest.next() {
            match word.to_str() {
                Some("--help" | "-h") => return Ok(Asked::Help),
                Some("--json") => given.json = true,
                Some("--quiet" | "-q") => given.quiet = true,
                Some("--ring" | "-r") => set(&mut given.ring, rest.next(), "--ring")?,
                Some("--uri") => set(&mut given.uri, rest.next(), "--uri")?,
                Some("--any-uri") => given.any_uri = true,
                Some("--require-complete") => given.require_complete = true,
                Some("--continue") => given.goes_on = true,
                Some("--range-for") => set(&mut given.range_for, rest.next(), "--range-for")?,
                Some("-o") => set(&mut given.body, rest.next(), "-o")?,
                Some(option) if option.starts_with('-') && option != "-" => {
                    return Err(format!("no option {option}; see oui-fetch --help"))
                }
                _ => set(&mut given.stream, Some(word), "STREAM")?,
            }
        }
        match given.range_for.take() {
            Some(_) if words.len() > 2 => Err("--range-for BODY stands alone; see oui-fetch --help".to_string()),
            Some(body) => Ok(Asked::RangeFor(body)),
            None => given.fetch().map(Asked::Fetch),
        }
    }
}

/// The words as they are given, in any order.
#[derive(Default)]
struct Given {
    ring: Option<PathBuf>,
    uri: Option<OsString>,
    any_uri: bool,
    stream: Option<PathBuf>,
    body: Option<PathBuf>,
    range_for: Option<PathBuf>,
    goes_on: bool,
    require_complete: bool,
    json: bool,
    quiet: bool,
}

impl Given {
    /// What they ask for, if they fit together.
    fn fetch(self) -> Result<Options, String> {
        let Given { goes_on, require_complete, json, quiet, .. } = self;
        let ring = self.ring.ok_or("a key ring is needed: --ring RING; see oui-fetch --help")?;
        let wanted = Wanted::of(self.uri, self.any_uri)?;
        let not_dash = |path: &PathBuf| path.as_os_str() != "-";
        let body = self.body.filter(not_dash);
        if json && body.is_none() {
            return Err("with --json the body needs a file: -o BODY".to_string());
        }
        if goes_on && body.is_none() {
            return Err("with --continue the body needs a file: -o BODY".to_string());
        }
        let stream = self.stream.filter(not_dash);
        Ok(Options { ring, wanted, stream, body, goes_on, require_complete, json, quiet })
    }
}

impl Wanted {
    /// Just one of the two must be given.
    fn of(uri: Option<OsString>, any: bool) -> Result<Self, String> {
        match (uri, any) {
            (None, true) => Ok(Wanted::Any),
            (Some(uri), false) if uri.is_empty() => Err("--uri is empty, and no show has an empty URI".to_string()),
            (Some(uri), false) => Ok(Wanted::Uri(uri.into_vec())),
            (Some(_), true) => Err("either --uri or --any-uri, not both; see oui-fetch --help".to_string()),
            (None, false) => {
                Err("which show is asked for? --uri URI, or --any-uri for whatever comes; see oui-fetch --help"
                    .to_string())
            }
        }
    }
}

/// Sets what may be given once.
fn set<T: From<OsString>>(place: &mut Option<T>, word: Option<&OsString>, name: &str) -> Result<(), String> {
    let word = word.ok_or_else(|| format!("{name} needs a value; see oui-fetch --help"))?;
    if place.replace(T::from(word.clone())).is_some() {
        return Err(format!("{name} is given twice; see oui-fetch --help"));
    }
    Ok(())
}

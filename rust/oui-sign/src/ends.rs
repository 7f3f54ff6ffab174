//! The fields about a show's end: the length and the SHA-256 of its body, and a signature over both and over what the head's own
//! signature covers. Whoever reads them knows that nothing is missing.

use sodium::Sha256;
use streams::base64;
use streams::head::Field;
use streams::options::Options;
use streams::plan::Plan;

pub const DIGEST: &str = "Digest";
pub const SIZE: &str = "X-Ouinet-Data-Size";
pub const SIG1: &str = "X-Ouinet-Sig1";

/// Where they go.
#[derive(Clone, Copy, PartialEq, Eq, Debug)]
pub enum Ends {
    Head,
    Trailer,
    Nowhere,
}

impl Ends {
    pub fn from(options: &mut Options) -> Result<Self, String> {
        match options.named("--ends").as_deref() {
            Some("head") => Ok(Ends::Head),
            Some("trailer") | None => Ok(Ends::Trailer),
            Some("none") => Ok(Ends::Nowhere),
            Some(other) => Err(format!("--ends is head, trailer or none, not {other:?}")),
        }
    }
}

/// A body's length and hash, as far as it came.
#[derive(Clone, Default)]
pub struct Sum {
    pub length: u64,
    hash: Sha256,
}

impl Sum {
    pub fn take(&mut self, bytes: &[u8]) {
        self.length += bytes.len() as u64;
        self.hash.update(bytes);
    }

    pub fn is(&self, other: &Sum) -> bool {
        self.length == other.length && self.hash() == other.hash()
    }

    fn hash(&self) -> [u8; 32] {
        self.hash.clone().finish()
    }
}

/// The field of the head that announces the three in the trailer.
pub fn announcement() -> Field {
    Field::new("Trailer", format!("{DIGEST}, {SIZE}, {SIG1}"))
}

/// The three fields of a body with this sum, signed for the plan's stream.
pub fn fields(plan: &Plan, sum: &Sum) -> [Field; 3] {
    let digest = format!("SHA-256={}", text(&base64::encode(&sum.hash())));
    let size = sum.length.to_string();
    let mut signed = signed_by_head(plan);
    signed.push(("digest".to_string(), digest.clone().into_bytes()));
    signed.push(("x-ouinet-data-size".to_string(), size.clone().into_bytes()));
    let names: Vec<&str> = signed.iter().map(|(name, _)| name.as_str()).collect();
    let lines: Vec<Vec<u8>> = signed.iter().map(|(name, value)| [name.as_bytes(), b": ", value].concat()).collect();
    let signature = plan.signer.sign(&lines.join(&b'\n'));
    let sig1 = format!(
        "keyId=\"ed25519={}\",algorithm=\"hs2019\",created={},headers=\"{}\",signature=\"{}\"",
        text(&base64::encode(&plan.signer.public)),
        text(&plan.created),
        names.join(" "),
        text(&base64::encode(&signature)),
    );
    [Field::new(DIGEST, digest), Field::new(SIZE, size), Field::new(SIG1, sig1)]
}

/// What the head's signature covers, in its order: each name in lower case, and its value or its lines' values joined.
fn signed_by_head(plan: &Plan) -> Vec<(String, Vec<u8>)> {
    let fields = plan.build().head.fields;
    let mut signed =
        vec![("(response-status)".to_string(), plan.status.clone()), ("(created)".to_string(), plan.created.clone())];
    for name in &plan.listed {
        let same = fields.iter().filter(|field| field.name.eq_ignore_ascii_case(name));
        let values: Vec<&[u8]> = same.map(|field| &field.value[..]).collect();
        signed.push((text(&name.to_ascii_lowercase()), values.join(&b", "[..])));
    }
    signed
}

/// Bytes that are ASCII by the way they were made.
fn text(bytes: &[u8]) -> String {
    String::from_utf8_lossy(bytes).into_owned()
}

#[cfg(test)]
mod tests {
    use super::*;
    use sodium::Signer;
    use streams::example;

    #[test]
    fn the_example_of_document_000() {
        let plan = example::plan();
        let mut sum = Sum::default();
        sum.take(b"Hello ");
        sum.take(b"world!");
        let [digest, size, sig1] = fields(&plan, &sum);
        assert_eq!(digest.line(), b"Digest: SHA-256=wFNeS+K3n/2TKRMFQ2v4iTFOSj+uwF7P/Lt98xrZ5Ro=\r\n");
        assert_eq!(size.line(), b"X-Ouinet-Data-Size: 12\r\n");
        let message = "(response-status): 200\n(created): 1584748800\nx-ouinet-version: 4\nx-ouinet-uri: https://example.com/hello\n\
                       x-ouinet-injection: id=qwertyuiop-12345,ts=1584748800\ndate: Sat, 21 Mar 2020 00:00:00 GMT\n\
                       content-type: text/plain\ndigest: SHA-256=wFNeS+K3n/2TKRMFQ2v4iTFOSj+uwF7P/Lt98xrZ5Ro=\nx-ouinet-data-size: 12";
        assert_eq!(message.len(), 303);
        let signer = Signer::from_seed(&example::TEST_SEED);
        let due = format!(
            "X-Ouinet-Sig1: keyId=\"ed25519=btYuS3ElYf23CpPnKSmBc1JR6rjewTr9/KjFJ7w5BiE=\",algorithm=\"hs2019\",created=1584748800,\
             headers=\"(response-status) (created) x-ouinet-version x-ouinet-uri x-ouinet-injection date content-type digest \
             x-ouinet-data-size\",signature=\"{}\"\r\n",
            text(&base64::encode(&signer.sign(message.as_bytes())))
        );
        assert_eq!(text(&sig1.line()), due);
    }

    #[test]
    fn values_of_a_name_are_joined() {
        let mut plan = example::plan();
        plan.add("Vary", b"a");
        plan.add("vary", b"b, c");
        plan.list("vary");
        let signed = signed_by_head(&plan);
        assert_eq!(signed.last(), Some(&("vary".to_string(), b"a, b, c".to_vec())));
    }

    #[test]
    fn sums() {
        let sum = |bytes: &[u8]| {
            let mut sum = Sum::default();
            sum.take(bytes);
            sum
        };
        assert!(sum(b"ab").is(&sum(b"ab")) && !sum(b"ab").is(&sum(b"ac")) && !sum(b"").is(&sum(b"a")));
    }
}

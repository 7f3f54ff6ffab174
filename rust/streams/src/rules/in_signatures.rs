//! Broken rules of the two signature fields, of the signed list and of the key ring.

use super::edits::*;
use super::{unchanged, Spot, Table};
use crate::head::replaced;
use crate::plan::RingRecord;
use crate::sodium::Signer;

impl Table {
    /// What the two signature fields have in common.
    pub(super) fn keys_and_algorithms(&mut self) {
        for name in [BSIGS, SIG0] {
            self.head(4, format!("no {name}"), move |head| head.drop_field(name));
            self.values(4, name, &["", ",", "keyId"]);
            self.replacements(4, name, &KEY_AND_ALGORITHM_EDITS);
            self.head(4, format!("{name} without its algorithm"), move |head| {
                let value = &head.field(name).value;
                let start = find(value, b"algorithm=");
                let end = start + find(&value[start..], b",") + 1;
                let without = [&value[..start], &value[end..]].concat();
                head.set(name, &without);
            });
            self.head(4, format!("{name} begins with its algorithm"), move |head| {
                let value = head.field(name).value.clone();
                let cut = find(&value, b",");
                let rest = replaced(&value[cut + 1..], b"algorithm=\"hs2019\"", &value[..cut]);
                head.set(name, &[b"algorithm=\"hs2019\",", &rest[..]].concat());
            });
            for (label, edit) in KEY_EDITS {
                self.head(4, format!("{name}, key: {label}"), move |head| {
                    let value = &mut head.field(name).value;
                    let start = find(value, b"ed25519=") + 8;
                    let key = edit(&value[start..start + 44]);
                    *value = [&value[..start], &key, &value[start + 44..]].concat();
                });
            }
            for (label, tail) in [("a comma", ","), ("a semicolon", ";"), ("a parameter", ",x=1"), ("a letter", "x")] {
                self.head(4, format!("{name} with {label} at its end"), move |head| {
                    head.field(name).value.extend(tail.bytes())
                });
            }
            for (label, front) in [("a comma", ","), ("a parameter", "x=1,")] {
                self.head(4, format!("{name} with {label} at its front"), move |head| {
                    let value = &mut head.field(name).value;
                    *value = [front.as_bytes(), value].concat();
                });
            }
        }
    }

    pub(super) fn bsigs(&mut self) {
        let sizes = [
            "",
            "0",
            "00",
            "05",
            "065536",
            "65537",
            "65540",
            "99999",
            "100000",
            "4294967296",
            "4294967301",
            "18446744073709551621",
            "-1",
            "+5",
            "5x",
            "0x5",
            "5.0",
            "\"5\"",
            " 5",
            "5 5",
            "5,",
        ];
        for size in sizes {
            self.head(4, format!("block size {size:?}"), move |head| {
                let value = &mut head.field(BSIGS).value;
                let start = find(value, b"size=") + 5;
                *value = [&value[..start], size.as_bytes()].concat();
            });
        }
        self.replacements(4, BSIGS, &[("size=", "Size="), ("size=", "size ="), ("size=", "length="), ("size=", "")]);
        self.head(4, "no block size", |head| {
            let value = &mut head.field(BSIGS).value;
            value.truncate(find(value, b"\"hs2019\"") + 8);
        });
    }

    pub(super) fn sig0(&mut self) {
        for created in ["", "00", "01", "1000000000000", "\"1\"", "-1", "1x", "1.5", " 1", "1 "] {
            self.head(4, format!("created {created:?}"), move |head| {
                let value = &mut head.field(SIG0).value;
                let start = find(value, b"created=") + 8;
                let end = start + find(&value[start..], b",");
                *value = [&value[..start], created.as_bytes(), &value[end..]].concat();
            });
        }
        self.replacements(4, SIG0, &SIG_EDITS);
        for (name, next) in [("created", "headers"), ("headers", "signature")] {
            self.head(4, format!("no {name}"), move |head| {
                let value = &mut head.field(SIG0).value;
                let start = find(value, format!("{name}=").as_bytes());
                let end = find(value, format!("{next}=").as_bytes());
                *value = [&value[..start], &value[end..]].concat();
            });
            self.head(4, format!("{name} twice"), move |head| {
                let value = &mut head.field(SIG0).value;
                let start = find(value, format!("{name}=").as_bytes());
                let end = find(value, format!("{next}=").as_bytes());
                *value = [&value[..end], &value[start..]].concat();
            });
        }
        self.head(4, "no signature", |head| {
            let value = &mut head.field(SIG0).value;
            let end = find(value, b"headers=\"") + 9;
            let end = end + find(&value[end..], b"\"") + 1;
            value.truncate(end);
        });
        self.head(4, "headers after the signature", |head| {
            let value = &mut head.field(SIG0).value;
            let headers = find(value, b"headers=");
            let signature = find(value, b"signature=");
            let list = value[headers..].split(|&byte| byte == b'"').nth(1).unwrap_or_default().to_vec();
            *value = [&value[..headers], &value[signature..], b",headers=\"", &list, b"\""].concat();
        });
        for (label, edit, _) in SIGNATURE_EDITS {
            self.head(4, format!("head signature: {label}"), move |head| {
                let value = &mut head.field(SIG0).value;
                let start = find(value, b"signature=\"") + 11;
                let signature = edit(&value[start..start + 88]);
                *value = [&value[..start], &signature, &value[start + 88..]].concat();
            });
        }
    }

    pub(super) fn list(&mut self) {
        self.replacements(
            4,
            SIG0,
            &[
                ("\"(response-status) (created) ", "\"(created) "),
                ("\"(response-status) (created) ", "\"(response-status) "),
                ("\"(response-status) (created) ", "\""),
                ("\"(response-status) (created) ", "\"(created) (response-status) "),
                ("\"(response-status) (created) ", "\"(response-status)  (created) "),
                ("\"(response-status) (created) ", "\"(response-status)\t(created) "),
                ("\"(response-status) (created) ", "\" (response-status) (created) "),
                ("\"(response-status) (created) ", "\"(response-status) (created)  "),
                ("\"(response-status) (created) ", "\"(response-status),(created) "),
                ("\"(response-status) (created) ", "\"(response-status) (created) (created) "),
                ("\"(response-status) (created) ", "\"(response-status) (created) (response-status) "),
                ("\"(response-status) (created) ", "\"(response-status) (created) (Response-Status) "),
                ("\"(response-status) (created) ", "\"(request-target) (response-status) (created) "),
                ("\"(response-status) (created) ", "\"(response-status) (created) (request-target) "),
                ("\"(response-status) (created) ", "\"(response-status) (created) (expires) "),
                ("\"(response-status) (created) ", "\"(response-status) (created) no-such-field "),
                ("\"(response-status) (created) ", "\"(response-status) (created) \u{e9} "),
                ("\"(response-status) (created) ", "\"response-status created "),
                ("\"(response-status) (created) ", "\"(status) (created) "),
            ],
        );
        self.head(4, "an empty list", |head| {
            let value = &mut head.field(SIG0).value;
            let start = find(value, b"headers=\"") + 9;
            let end = start + find(&value[start..], b"\"");
            *value = [&value[..start], &value[end..]].concat();
        });
        self.head(4, "a list with a space at its end", |head| {
            let value = &mut head.field(SIG0).value;
            let start = find(value, b"headers=\"") + 9;
            let end = start + find(&value[start..], b"\"");
            value.insert(end, b' ');
        });
        self.plan(4, "the two pseudo names alone", |plan| plan.listed.clear());
        for name in [VERSION, URI, INJECTION] {
            self.plan(4, format!("{name} not listed"), move |plan| {
                plan.listed.retain(|listed| !listed.eq_ignore_ascii_case(name.as_bytes()))
            });
            self.plan(4, format!("{name} listed twice"), move |plan| plan.list(name));
            self.plan(4, format!("{name} listed twice, in other cases"), move |plan| {
                let place = plan.listed.iter().position(|listed| listed.eq_ignore_ascii_case(name.as_bytes()));
                let other = swapped_case(&plan.listed[place.unwrap_or(0)]);
                plan.listed.insert(0, other);
            });
        }
        for name in ["X-Ouinet-Sig0", "x-ouinet-sig0", "X-OUINET-SIG0"] {
            self.plan(4, format!("{name} listed"), move |plan| plan.list(name));
        }
        for name in ["nowhere", "(created)", "X-Ouinet-Version:", "X-Ouinet", "X-Ouinet-Version2"] {
            self.plan(4, format!("{name} listed last"), move |plan| plan.list(name));
        }
        self.plan(4, "a name cut short", |plan| {
            plan.add("Abcdef", b"1");
            plan.list("Abcde");
        });
        self.plan(4, "a comma between names", |plan| {
            plan.add("Aa", b"1");
            plan.add("Bb", b"2");
            plan.list("Aa,Bb");
        });
    }

    pub(super) fn ring(&mut self) {
        self.plan(12, "an empty ring", |plan| plan.ring.clear());
        self.plan(12, "a ring of other keys", |plan| {
            for (number, record) in plan.ring.iter_mut().enumerate() {
                record.key = [number as u8; 32];
            }
        });
        self.plan(12, "a key that differs in its last bit", |plan| {
            for record in &mut plan.ring {
                record.key[31] ^= 1;
            }
        });
        self.plan(12, "a key that differs in its first bit", |plan| {
            for record in &mut plan.ring {
                record.key[0] ^= 128;
            }
        });
        self.plan(12, "a span that begins a second late", |plan| {
            let ts = second(plan);
            set_spans(plan, ts + 1, u64::MAX);
        });
        self.plan(12, "a span that ends a second early", |plan| {
            plan.set_injection(b"x", b"100");
            set_spans(plan, 0, 99);
        });
        self.plan(12, "a span that ends before it begins", |plan| {
            let ts = second(plan);
            set_spans(plan, ts + 1, ts);
        });
        self.plan(12, "a span around created but not around ts", |plan| {
            plan.set_injection(b"x", b"100");
            plan.created = b"200".to_vec();
            set_spans(plan, 200, 200);
        });
        self.head(12, "a key for blocks unlike the head's", |head| {
            let other = Signer::from_seed(&[9; 32]);
            set_key(head, BSIGS, &other);
        });
        self.push(
            12,
            "two trusted keys, one for the head and one for blocks".to_string(),
            &[Spot::Head],
            Box::new(|plan| {
                let trusted = |key| RingRecord { key, first: 0, last: u64::MAX };
                plan.ring = vec![trusted(plan.signer.public), trusted(Signer::from_seed(&[9; 32]).public)];
            }),
            Box::new(|head| set_key(head, BSIGS, &Signer::from_seed(&[9; 32]))),
            unchanged(),
        );
    }
}

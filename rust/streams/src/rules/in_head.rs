//! Broken rules of the head: its text, its version and the simple fields, and the order in which
//! they are tested.

use super::edits::*;
use super::{Spoilt, Spot, Table};
use crate::head::{Field, Head};
use crate::limits::FIELDS;
use crate::plan::Plan;

impl Table {
    pub(super) fn status_line(&mut self) {
        let lines: [(&[u8], usize); 20] = [
            (b"HTTP/1.0 200 OK", 7),
            (b"HTTP/2 200 OK", 5),
            (b"http/1.1 200 OK", 0),
            (b"HTTP/1.1  200 OK", 9),
            (b"HTTP/1.1\t200 OK", 8),
            (b"HTTP/1.1 20 OK", 11),
            (b"HTTP/1.1 2000 OK", 12),
            (b"HTTP/1.1 2O0 OK", 10),
            (b"HTTP/1.1 +20 OK", 9),
            (b"HTTP/1.1 200", 12),
            (b"HTTP/1.1 200\tOK", 12),
            (b"HTTP/1.1 ", 9),
            (b"HTTP/1.1", 8),
            (b"", 0),
            (b" HTTP/1.1 200 OK", 0),
            (b"HTTP/1.1 200 O\0K", 14),
            (b"HTTP/1.1 200 O\x1fK", 14),
            (b"HTTP/1.1 200 O\x7fK", 14),
            (b"HTTP/1.1 200 O\nK", 14),
            (b"HTTP/1.1 200 OK\r", 16),
        ];
        for (line, place) in lines {
            let label = format!("status line \"{}\"", line.escape_ascii());
            self.head_text(label, move |head| head.status_line = line.to_vec(), move |_| place);
        }
    }

    /// Lines that break the field line rule: 3 in the head and 6 in the trailer.
    pub(super) fn field_lines(&mut self) {
        for (line, place) in ODD_LINES {
            let (good, wrong) = line.split_at(place);
            let label = format!("field line \"{}\"", line.escape_ascii());
            self.text(label.clone(), &[Spot::Head], move |bytes| {
                let first = find(bytes, b"\r\n") + 2;
                Spoilt::after(&[&bytes[..first], good].concat(), &[wrong, b"\r\n", &bytes[first..]].concat())
            });
            self.text(format!("last {label}"), &[Spot::Head], move |bytes| {
                Spoilt::after(&[&bytes[..bytes.len() - 2], good].concat(), &[wrong, b"\r\n\r\n"].concat())
            });
            self.text(label.clone(), &[Spot::Trailer], move |_| Spoilt::after(good, &[wrong, b"\r\n\r\n"].concat()));
            self.text(format!("second {label}"), &[Spot::Trailer], move |_| {
                Spoilt::after(&[b"A: b\r\n", good].concat(), &[wrong, b"\r\nC: d\r\n\r\n"].concat())
            });
        }
    }

    /// Names that may come only once (request #102); `repeated` has more of them, and those that may repeat.
    pub(super) fn doubled_names(&mut self) {
        for name in [VERSION, URI, INJECTION, BSIGS, SIG0, CODING] {
            self.doubled(format!("{name} twice"), move |head| {
                let field = head.field(name).clone();
                head.fields.push(field);
            });
            self.doubled(format!("{name} twice, in other cases"), move |head| {
                let mut field = head.field(name).clone();
                field.name = swapped_case(&field.name);
                head.fields.insert(0, field);
            });
        }
        self.doubled("an unsigned name of ours twice", |head| {
            head.fields.insert(0, Field::new("X-Ouinet-Zz", "1"));
            head.fields.push(Field::new("x-oUINET-zZ", "2"));
        });
        self.doubled("two names of ours next to each other, both empty", |head| {
            head.fields.push(Field::new("x-ouinet-", ""));
            head.fields.push(Field::new("x-ouinet-", ""));
        });
    }

    /// A head of good text that has a field twice that it may have once, or too many fields: its place is its whole length.
    fn doubled(&mut self, label: impl Into<String>, edit: impl Fn(&mut Head) + 'static) {
        self.head_text(label, edit, <[u8]>::len);
    }

    pub(super) fn version(&mut self) {
        self.head(4, "no version", |head| head.drop_field(VERSION));
        self.plan(4, "no version, and not listed", |plan| drop_both(plan, VERSION));
        for text in ["", "3", "5", "6", "04", "40", "4.0", "44", "four", "4,4", "4 4", "4;", "\"4\"", "\u{664}"] {
            self.plan(5, format!("version {text:?}"), move |plan| plan.field(VERSION).value = text.as_bytes().to_vec());
        }
    }

    pub(super) fn simple_fields(&mut self) {
        for status in ["206", "404", "201", "203", "204", "300", "303", "304", "308", "100", "000", "500", "999"] {
            self.plan(4, format!("status {status}"), move |plan| plan.status = status.as_bytes().to_vec());
        }
        self.head(4, "no transfer encoding", |head| head.drop_field(CODING));
        self.values(
            4,
            CODING,
            &[
                "",
                "gzip",
                "gzip, chunked",
                "chunked, gzip",
                "chunked,",
                "chunked;q=1",
                "chunkedd",
                "chunke",
                "\"chunked\"",
            ],
        );
        for value in ["", "0", "5", "12"] {
            self.head(4, format!("a length of {value:?}"), move |head| {
                head.fields.push(Field::new("Content-Length", value))
            });
        }
        self.head(4, "a length, name in lower case", |head| head.fields.insert(0, Field::new("content-length", "12")));
        self.head(4, "no URI", |head| head.drop_field(URI));
        self.plan(4, "no URI, and not listed", |plan| drop_both(plan, URI));
        self.plan(4, "an empty URI", |plan| plan.field(URI).value.clear());
        self.plan(4, "a URI of blanks", |plan| {
            let field = plan.field(URI);
            field.value.clear();
            field.left = b" \t ".to_vec();
        });
    }

    pub(super) fn injection(&mut self) {
        self.head(4, "no injection", |head| head.drop_field(INJECTION));
        self.plan(4, "no injection, and not listed", |plan| {
            drop_both(plan, INJECTION);
        });
        let texts = [
            "",
            "id=a",
            "ts=1",
            "id=a,ts=",
            "id=,ts=1",
            "id=a,ts=01",
            "id=a,ts=00",
            "id=a, ts=1",
            "id=a ,ts=1",
            "id =a,ts=1",
            "id= a,ts=1",
            "id=a,ts =1",
            "id=a,ts= 1",
            "ID=a,ts=1",
            "id=a,TS=1",
            "ts=1,id=a",
            "id=a,ts=1,",
            "id=a,ts=1,x=2",
            "id=a,ts=1;",
            "id=a.b,ts=1",
            "id=a b,ts=1",
            "id=a+b,ts=1",
            "id=a/b,ts=1",
            "id=\u{e9},ts=1",
            "id=\"a\",ts=1",
            "id=a,ts=\"1\"",
            "id=a,ts=-1",
            "id=a,ts=+1",
            "id=a,ts=1x",
            "id=a,ts=0x1",
            "id=a,ts=1.0",
            "id=a;ts=1",
            "id=a,,ts=1",
            "id=a,ts=1 2",
            "id=a,ts=1000000000000",
            "a,1",
        ];
        for text in texts {
            self.plan(4, format!("{INJECTION} is {text:?}"), move |plan| {
                plan.field(INJECTION).value = text.as_bytes().to_vec()
            });
        }
    }

    /// An edit of the head, and then a last line that begins well and goes wrong.
    fn bad_last_line(
        &mut self,
        label: &str,
        good: &'static [u8],
        wrong: &'static [u8],
        edit: impl Fn(&mut Head) + 'static,
    ) {
        let part = move |bytes: &[u8], _: &Plan| {
            Spoilt::after(&[&bytes[..bytes.len() - 2], good].concat(), &[wrong, b"\r\n\r\n"].concat())
        };
        self.push(3, label.to_string(), &[Spot::Head], Box::new(|_| ()), Box::new(edit), Box::new(part));
    }

    /// Two rules broken at once: the one that is tested first gives the number.
    pub(super) fn order_in_the_head(&mut self) {
        self.doubled("a doubled name before version 5", |head| {
            head.set(VERSION, b"5");
            head.fields.push(Field::new("x-ouinet-date9", ""));
            head.fields.push(Field::new("X-Ouinet-Date9", ""));
        });
        self.bad_last_line("bad text before a missing version", b"A: ", b"\x01", |head| head.drop_field(VERSION));
        self.bad_last_line("the last line's bad text before status 404", b"A", b" b:", |head| {
            head.status_line = b"HTTP/1.1 404 Not Found".to_vec();
        });
        self.doubled("too many fields before version 5", |head| {
            head.set(VERSION, b"5");
            fill_fields(head, FIELDS + 1);
        });
        self.bad_last_line("bad text after too many fields", b"A: ", b"\x7f", |head| fill_fields(head, FIELDS + 6));
        self.bad_last_line("bad text after a doubled name", b"A", b"\t: x", |head| {
            head.fields.insert(0, Field::new("X-Ouinet-~", ""));
            head.fields.push(Field::new("X-Ouinet-~", ""));
        });
        self.head(5, "version 5 before status 404", |head| {
            head.set(VERSION, b"5");
            head.status_line = b"HTTP/1.1 404 Not Found".to_vec();
        });
        self.head(5, "version 5 before a missing signature", |head| {
            head.set(VERSION, b"5");
            head.drop_field(SIG0);
            head.drop_field(BSIGS);
        });
        self.head(5, "version 6 before a length", |head| {
            head.set(VERSION, b"6");
            head.fields.push(Field::new("Content-Length", "5"));
        });
        self.plan(5, "version 5 before an untrusted key", |plan| {
            plan.field(VERSION).value = b"5".to_vec();
            plan.ring.clear();
        });
        self.head(4, "nothing but a status line", |head| head.fields.clear());
        self.head(4, "no version and status 404", |head| {
            head.drop_field(VERSION);
            head.status_line = b"HTTP/1.1 404 Not Found".to_vec();
        });
        self.plan(4, "status 404 before an untrusted key", |plan| {
            plan.status = b"404".to_vec();
            plan.ring.clear();
        });
        self.plan(4, "a list without URI before an untrusted key", |plan| {
            plan.ring.clear();
            plan.listed.retain(|name| !name.eq_ignore_ascii_case(URI.as_bytes()));
        });
    }
}

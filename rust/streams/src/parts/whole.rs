//! Whole answers that have the two fields of a part answer, which mean nothing there, or a hash on a line, which may not be.

use super::first_line;
use crate::ends;
use crate::head::Field;
use crate::part_answer::{ouihash, RANGE, STATUS, STATUSES};
use crate::plan::{Kind, Plan};
use crate::rules::edits::digits;
use crate::table::Table;
use second::event::Refusal;

impl Table<'_> {
    pub(super) fn whole_answers(&mut self) {
        self.plain_fields();
        self.hashes_in_whole_answers();
    }

    fn plain_fields(&mut self) {
        let lines: [&[(&str, &str)]; 12] = [
            &[(RANGE, "bytes 0-11/12")],
            &[(RANGE, "bytes 5-11/12")],
            &[(RANGE, "bytes 5-10/12")],
            &[(RANGE, "")],
            &[(RANGE, "bytes 5-11/12"), (RANGE, "bytes 5-11/12")],
            &[(RANGE, "bytes 0-4/12"), ("content-range", "x"), (RANGE, "")],
            &[(STATUS, "200")],
            &[(STATUS, "301")],
            &[(STATUS, "206")],
            &[(STATUS, "")],
            &[(RANGE, "bytes 5-11/12"), (STATUS, "307")],
            &[(STATUS, "x"), (RANGE, "bytes 5-9/12")],
        ];
        for (number, fields) in lines.into_iter().enumerate() {
            let mut plan = ends::bare();
            plan.status = STATUSES[number % 4].as_bytes().to_vec();
            plan.fields.extend(fields.iter().map(|(name, value)| Field::new(*name, *value)));
            self.good(format!("a whole answer with {fields:?}"), &plan);
            plan.list(fields[0].0);
            self.good(format!("a whole answer with {fields:?}, the first of them signed"), &plan);
        }
        let mut twice = ends::bare();
        twice.fields.extend([Field::new(STATUS, "200"), Field::new("x-ouinet-http-status", "200")]);
        self.bad_head("a whole answer with the status twice", &twice);
        for status in ["204", "205", "207", "216", "226", "260", "404", "416"] {
            let mut plan = ends::bare();
            plan.status = status.as_bytes().to_vec();
            plan.fields.extend([Field::new(RANGE, "bytes 5-11/12"), Field::new(STATUS, "200")]);
            self.refused(
                Refusal::plain(4),
                format!("the fields of a part in an answer of status {status}"),
                &plan.build(),
            );
        }
    }

    /// A hash on the first line, on later ones and on the 0 line, beside sizes that are wrong as well.
    fn hashes_in_whole_answers(&mut self) {
        let with_range = || {
            let mut plan = ends::bare();
            plan.fields.extend([Field::new(RANGE, "bytes 5-11/12"), Field::new(STATUS, "200")]);
            plan
        };
        for plan in [ends::bare(), with_range()] {
            self.hash_on_each_line(&plan);
        }
        let mut empty = ends::bare();
        empty.blocks.clear();
        let built = empty.build();
        let line = [b"0", &ouihash(&[7; 64])[..], b"\r\n"].concat();
        self.instead(
            Refusal::plain(8),
            "a hash on an empty body's line",
            &built,
            built.places(Kind::ZeroLine)[0],
            &line,
        );
    }

    fn hash_on_each_line(&mut self, plan: &Plan) {
        let built = plan.build();
        let hash = ouihash(&[7; 64]);
        for part in [built.places(Kind::Line), built.places(Kind::ZeroLine)].concat() {
            let line = &built.parts[part].bytes;
            let own = &line[..digits(line)];
            for size in [own, b"0", b"6", b"ffffffff"] {
                let bad = [size, &hash, b"\r\n"].concat();
                let label = format!("a whole answer, a hash on part {part}, size {}", String::from_utf8_lossy(size));
                self.instead(Refusal::plain(8), label, &built, part, &bad);
            }
        }
        let honest = [b"5", &ouihash(&super::last_blocks().hash)[..], b"\r\n"].concat();
        self.instead(Refusal::plain(8), "a whole answer that begins as a part", &built, first_line(&built), &honest);
    }
}

//! Broken rules of the chunk lines, the data ends and the trailer.

use super::edits::*;
use super::{Spoilt, Spot, Table, ANY_LINE, SIGNED_LINE};
use crate::limits::{LINE, SECTION};
use crate::plan::Plan;

impl Table {
    /// Chunk lines whose text is wrong, wherever they stand.
    pub(super) fn line_text(&mut self) {
        self.before_and_behind_sizes();
        self.at_line_ends();
        self.extension_names();
        for (label, edit, place) in SIGNATURE_EDITS {
            self.text(format!("block signature: {label}"), SIGNED_LINE, move |line| {
                let start = find(line, b";ouisig=") + 8;
                let signature = edit(&line[start..start + 88]);
                Spoilt::after(&[&line[..start], &signature[..place]].concat(), &[&signature[place..], b"\r\n"].concat())
            });
        }
        self.text("a signature twice", SIGNED_LINE, |line| {
            let start = find(line, b";");
            Spoilt::taken([&line[..line.len() - 2], &line[start..]].concat(), LINE)
        });
    }

    fn before_and_behind_sizes(&mut self) {
        // What stands before the size, and how much of it is good
        let fronts = [
            ("a space before", " ", 0),
            ("a tab before", "\t", 0),
            ("a plus before", "+", 0),
            ("a minus before", "-", 0),
            ("0x before", "0x", 1),
            ("a line feed before", "\n", 0),
            ("a CR before", "\r", 0),
            ("an empty line before", "\r\n", 0),
            ("a letter before", "g", 0),
            ("eight zeros before", "00000000", 8),
            ("a quote before", "\"", 0),
        ];
        for (label, front, good) in fronts {
            let (good, wrong) = front.as_bytes().split_at(good);
            self.text(format!("{label} the size"), ANY_LINE, move |line| Spoilt::after(good, &[wrong, line].concat()));
        }
        let behind = [
            ("a space", " ", 0),
            ("a tab", "\t", 0),
            ("a letter", "g", 0),
            ("an h", "h", 0),
            ("a dot", ".0", 0),
            ("a comma", ",", 0),
            ("a zero byte", "\0", 0),
            ("an empty extension", ";", 1),
            ("another extension", ";a=b", 1),
            ("another extension with a space", "; a=b", 1),
        ];
        for (label, text, good) in behind {
            let (good, wrong) = text.as_bytes().split_at(good);
            self.text(format!("{label} behind the size"), ANY_LINE, move |line| {
                let (size, rest) = line.split_at(digits(line));
                Spoilt::after(&[size, good].concat(), &[wrong, rest].concat())
            });
        }
        self.text("no digits", ANY_LINE, |line| Spoilt::after(b"", &line[digits(line)..]));
        self.text("nine digits", ANY_LINE, |line| {
            let nine = [&b"0".repeat(9 - digits(line))[..], line].concat();
            Spoilt::after(&nine[..8], &nine[8..])
        });
        self.text("bad text before a missing signature", SIGNED_LINE, |line| {
            Spoilt::after(b"", &[b" ", &unsigned_line(line)[..]].concat())
        });
        self.text("bad text before a size above N", ANY_LINE, |_| Spoilt::after(b"ffffffff", b" \r\n"));
    }

    fn at_line_ends(&mut self) {
        for (label, text) in [("a space", " "), ("a tab", "\t"), ("an equals sign", "=")] {
            self.text(format!("{label} at the line's end"), ANY_LINE, move |line| {
                Spoilt::after(&line[..line.len() - 2], &[text.as_bytes(), b"\r\n"].concat())
            });
        }
        self.text("a CR at the line's end", ANY_LINE, |line| Spoilt::after(&line[..line.len() - 1], b"\r\n"));
        // A line without a signature may have a semicolon there, but nothing may come after it
        for (label, text) in [("a semicolon", ";"), ("another extension", ";a=b")] {
            self.text(format!("{label} at a signed line's end"), SIGNED_LINE, move |line| {
                Spoilt::after(&line[..line.len() - 2], &[text.as_bytes(), b"\r\n"].concat())
            });
        }
        self.text("a bare line feed for the end", ANY_LINE, |line| Spoilt::after(&line[..line.len() - 2], b"\nxy\r\n"));
        self.text("a bare CR for the end", ANY_LINE, |line| Spoilt::after(&line[..line.len() - 1], b"xy\r\n"));
        self.text("no end within the limit", ANY_LINE, |line| {
            Spoilt::taken([&line[..line.len() - 2], &b"A".repeat(200)[..], b"\r\n"].concat(), LINE)
        });
    }

    fn extension_names(&mut self) {
        // What stands for `;ouisig=`, and how much of it is good
        let names = [
            (";Ouisig=", 1),
            (";OUISIG=", 1),
            ("; ouisig=", 1),
            (" ;ouisig=", 0),
            (";ouisig =", 7),
            (";ouisig= ", 8),
            (";ouisig=\"", 8),
            (";ouisig", 7),
            (";sig=", 1),
            (";;ouisig=", 1),
            (",ouisig=", 0),
            ("ouisig=", 0),
            (";a=b;ouisig=", 1),
            (";ouisig=;ouisig=", 8),
        ];
        for (new, good) in names {
            let (good, wrong) = new.as_bytes().split_at(good);
            self.text(format!("{new:?} for \";ouisig=\""), SIGNED_LINE, move |line| {
                let (size, rest) = line.split_at(digits(line));
                Spoilt::after(&[size, good].concat(), &[wrong, &rest[8..]].concat())
            });
        }
    }

    /// Lines whose text is good: 8, 7 and the order of the numbers.
    pub(super) fn line_rules(&mut self) {
        self.part(8, "a signature on the first line", &[Spot::FirstLine], |line, _| {
            signed_line(&line[..line.len() - 2])
        });
        self.part(8, "no signature", SIGNED_LINE, |line, _| unsigned_line(line));
        self.part(8, "a size of 0 in the middle without a signature", &[Spot::LaterLine], |_, _| b"0\r\n".to_vec());
        self.part(8, "a first size of 0 with a signature", &[Spot::FirstLine], |_, _| signed_line(b"0"));
        self.push(
            8,
            "an empty body whose line has a signature".to_string(),
            &[Spot::ZeroLine],
            Box::new(|plan| plan.blocks.clear()),
            Box::new(|_| ()),
            Box::new(|_, _| Spoilt { bytes: signed_line(b"000"), at: None }),
        );
        let too_large: [fn(&Plan) -> usize; 4] =
            [|plan| plan.block_size + 1, |_| 65_537, |_| 0x8000_0000, |_| 0xffff_ffff];
        for size in too_large {
            self.part(7, "a size above N", &[Spot::FirstLine], move |_, plan| {
                format!("{:x}\r\n", size(plan)).into_bytes()
            });
            self.part(7, "a size above N with a signature", SIGNED_LINE, move |_, plan| {
                signed_line(format!("{:X}", size(plan)).as_bytes())
            });
            self.part(8, "no signature before a size above N", SIGNED_LINE, move |_, plan| {
                format!("{:x}\r\n", size(plan)).into_bytes()
            });
            self.part(8, "a signature on the first line before a size above N", &[Spot::FirstLine], move |_, plan| {
                signed_line(format!("{:x}", size(plan)).as_bytes())
            });
        }
        self.shape(7, "a full block after a short one", Spot::LaterLine, |plan| {
            let size = plan.block_size;
            plan.blocks = vec![vec![b'a'; size - 1], vec![b'b'; size]];
        });
        self.shape(7, "a short block after a short one", Spot::LaterLine, |plan| {
            plan.blocks = vec![vec![b'a'; 1], vec![b'b'; 1]];
        });
        self.part(7, "a byte more after the last short block", &[Spot::ZeroLine], |line, _| {
            let rest = find(line, b";");
            [b"1", &line[rest..]].concat()
        });
    }

    pub(super) fn data_ends(&mut self) {
        for (end, good) in [
            (&b"\n\r"[..], 0),
            (b"\r\r", 1),
            (b"\n\n", 0),
            (b"xx", 0),
            (b"\rx", 1),
            (b"x\n", 0),
            (b"\0\0", 0),
            (b"  ", 0),
            (b"0\r", 0),
        ] {
            let label = format!("data end \"{}\"", end.escape_ascii());
            self.text(label, &[Spot::DataEnd], move |_| Spoilt::after(&end[..good], &end[good..]));
        }
        // The line that follows, or its first byte, is taken for the data end
        self.text("no data end", &[Spot::DataEnd], |_| Spoilt::after(b"", b""));
        self.text("a bare line feed for a data end", &[Spot::DataEnd], |_| Spoilt::after(b"", b"\n"));
        // The place is counted from the data end's first byte
        self.text("a byte of data too many", &[Spot::Data], |data| Spoilt::taken([data, b"x"].concat(), 0));
        self.text("a byte of data too few", &[Spot::Data], |data| Spoilt::taken(data[1..].to_vec(), 0));
    }

    pub(super) fn trailer(&mut self) {
        for (label, bytes, good) in [
            ("CR and then another byte", &b"\rx\r\n\r\n"[..], 1),
            ("a line feed at once", b"\n\r\n\r\n", 0),
            ("CR CR LF at once", b"\r\r\n\r\n", 1),
            ("a zero byte", b"\0\r\n\r\n", 0),
        ] {
            let (good, wrong) = bytes.split_at(good);
            self.text(format!("trailer: {label}"), &[Spot::Trailer], move |_| Spoilt::after(good, wrong));
        }
        self.text("trailer: no end within the limit", &[Spot::Trailer], |_| {
            Spoilt::taken(b"A: b\r\n".repeat(SECTION / 6 + 1), SECTION)
        });
        self.text("trailer: one endless line", &[Spot::Trailer], |_| Spoilt::taken(b"a".repeat(SECTION + 1), SECTION));
    }
}

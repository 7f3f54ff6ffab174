//! The words that a program is given: named ones with their values, and plain ones in order.

pub struct Options {
    usage: &'static str,
    named: Vec<(String, String)>,
    plain: Vec<String>,
    /// Named words whose value was asked for.
    taken: Vec<String>,
}

impl Options {
    /// Each word that starts with `-` takes the next one as its value; `-` by itself is a plain word.
    pub fn parse(words: &[String], usage: &'static str) -> Result<Self, String> {
        let mut options = Options { usage, named: Vec::new(), plain: Vec::new(), taken: Vec::new() };
        let mut words = words.iter();
        while let Some(word) = words.next() {
            if word.starts_with('-') && word.len() > 1 {
                let value = words.next().ok_or_else(|| format!("{word} needs a value\n{usage}"))?;
                options.named.push((word.clone(), value.clone()));
            } else {
                options.plain.push(word.clone());
            }
        }
        Ok(options)
    }

    /// The value of a word. If the word is given again, that is left over.
    pub fn named(&mut self, name: &str) -> Option<String> {
        let place = self.named.iter().position(|(word, _)| word == name)?;
        let (word, value) = self.named.remove(place);
        self.taken.push(word);
        Some(value)
    }

    /// All values of a word that may be given several times, in order.
    pub fn all_named(&mut self, name: &str) -> Vec<String> {
        std::iter::from_fn(|| self.named(name)).collect()
    }

    pub fn number(&mut self, name: &str) -> Result<Option<u64>, String> {
        self.named(name).map(|value| parse_number(name, &value)).transpose()
    }

    /// The size of a block; the largest unless told otherwise.
    pub fn block_size(&mut self) -> Result<usize, String> {
        match self.number("--block-size")? {
            None => Ok(65_536),
            Some(size @ 1..=65_536) => Ok(size as usize),
            Some(size) => Err(format!("a block size is from 1 to 65536, not {size}")),
        }
    }

    /// The next plain word, if there is one.
    pub fn next_plain(&mut self) -> Option<String> {
        (!self.plain.is_empty()).then(|| self.plain.remove(0))
    }

    /// The next plain word, which must be there.
    pub fn plain(&mut self, what: &str) -> Result<String, String> {
        self.next_plain().ok_or_else(|| format!("{what} is missing\n{}", self.usage))
    }

    /// Nothing may be left over.
    pub fn done(&self) -> Result<(), String> {
        match (self.named.first(), self.plain.first()) {
            (Some((name, _)), _) if self.taken.contains(name) => Err(format!("{name} is given twice\n{}", self.usage)),
            (Some((name, _)), _) => Err(format!("no option {name} here\n{}", self.usage)),
            (_, Some(word)) => Err(format!("{word:?} is one word too many\n{}", self.usage)),
            _ => Ok(()),
        }
    }
}

pub fn parse_number(name: &str, text: &str) -> Result<u64, String> {
    text.parse().map_err(|_| format!("{name} is a number, not {text:?}"))
}

#[cfg(test)]
mod tests {
    use super::*;

    fn options(words: &str) -> Options {
        let words: Vec<String> = words.split(' ').map(str::to_string).collect();
        Options::parse(&words, "usage").expect("each has its value")
    }

    #[test]
    fn what_is_left_over() {
        for (words, complaint) in [
            ("--uri a --uri a", "--uri is given twice\nusage"),
            ("--ts 1 --uri a --ts 2", "--ts is given twice\nusage"),
            ("--uri a --url a --uri b", "no option --url here\nusage"),
            ("--uri a b", "\"b\" is one word too many\nusage"),
        ] {
            let mut options = options(words);
            assert_eq!(options.named("--uri").as_deref(), Some("a"));
            options.number("--ts").expect("a number");
            assert_eq!(options.done(), Err(complaint.to_string()), "{words}");
        }
    }

    #[test]
    fn words_that_may_come_again() {
        let mut options = options("--header a --uri u --header b");
        assert_eq!(options.all_named("--header"), ["a", "b"]);
        assert_eq!((options.named("--uri").as_deref(), options.named("--uri")), (Some("u"), None));
        assert_eq!(options.done(), Ok(()));
    }
}

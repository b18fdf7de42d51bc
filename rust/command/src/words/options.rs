//! The options of the commands.

/// An option.
#[derive(Clone, Copy, PartialEq)]
pub enum Opt {
    Out,
    Force,
    At,
    Hours,
    Seats,
    Names,
    /// `--names`, `--seats` and `--hours` of a command that writes them.
    NamesOut,
    SeatsOut,
    HoursOut,
    Json,
    Bytes,
    Trace,
    Interactive,
    Svg,
    Sparing,
    NotEmpty,
}

impl Opt {
    pub fn long(self) -> &'static str {
        match self {
            Opt::Out => "--output",
            Opt::Force => "--force",
            Opt::At => "--at",
            Opt::Hours | Opt::HoursOut => "--hours",
            Opt::Seats | Opt::SeatsOut => "--seats",
            Opt::Names | Opt::NamesOut => "--names",
            Opt::Json => "--json",
            Opt::Bytes => "--bytes",
            Opt::Trace => "--trace",
            Opt::Interactive => "--interactive",
            Opt::Svg => "--svg",
            Opt::Sparing => "--sparing",
            Opt::NotEmpty => "--not-empty",
        }
    }

    pub fn short(self) -> Option<&'static str> {
        match self {
            Opt::Out => Some("-o"),
            Opt::Interactive => Some("-i"),
            _ => None,
        }
    }

    /// How messages name it.
    pub fn name(self) -> &'static str {
        self.short().unwrap_or(self.long())
    }

    /// The value that it needs, if any.
    pub fn wants(self) -> Option<&'static str> {
        match self {
            Opt::At => Some("a day and a time"),
            Opt::Out => Some("the name of a file"),
            Opt::Hours | Opt::Seats | Opt::Names => Some("the name of a file"),
            Opt::HoursOut | Opt::SeatsOut | Opt::NamesOut => Some("the name of a file"),
            _ => None,
        }
    }

    /// What its file is called, if the command reads it.
    pub fn source(self) -> Option<&'static str> {
        match self {
            Opt::Hours => Some("HOURS"),
            Opt::Seats => Some("SEATS"),
            Opt::Names => Some("NAMES"),
            _ => None,
        }
    }

    /// The option that an argument begins with, and the value in the same argument.
    pub fn begun<'a>(word: &'a [u8], among: &[Opt]) -> Option<(Opt, Option<&'a [u8]>)> {
        among.iter().find_map(|&option| {
            let behind = option.behind(word)?;
            Some((option, behind))
        })
    }

    /// The value of this option in an argument; None if the argument is another.
    fn behind(self, word: &[u8]) -> Option<Option<&[u8]>> {
        if let Some(rest) = word.strip_prefix(self.long().as_bytes()) {
            return match rest {
                [] => Some(None),
                [b'=', value @ ..] => Some(Some(value)),
                _ => None,
            };
        }
        match word.strip_prefix(self.short()?.as_bytes())? {
            [] => Some(None),
            value => self.wants().map(|_| Some(value)),
        }
    }
}

//! The commands of the tool, and how they are read from the command line.
//!
//! The grammar is small: an option is a word of its own, and so is the name after `-o`. Options and
//! files may come in any order after the name of the command. After `--` every word is a file.

use crate::failure::Failure;
use crate::source::is_standard;
use crate::store::Out;
use crate::{help, names};
use std::ffi::{OsStr, OsString};
use std::os::unix::ffi::OsStrExt;
use std::path::{Path, PathBuf};
use std::slice;

/// What the tool has to do.
#[derive(Debug, PartialEq)]
pub enum Command {
    Help(&'static str),
    Version,
    List { files: Vec<PathBuf>, form: Form },
    Tree { file: PathBuf },
    Verdict { file: PathBuf },
    Index { file: PathBuf, out: Out },
    Outline { file: PathBuf, out: Out },
    ReadOutline { stored: PathBuf },
    Edit { file: PathBuf, tree: PathBuf },
    Restore { file: PathBuf },
    SetAside { file: PathBuf },
}

/// The forms of a listing.
#[derive(Debug, Clone, Copy, PartialEq)]
pub enum Form {
    Table,
    Plain,
    Json,
}

/// How a command is called.
struct Usage {
    name: &'static str,
    help: &'static str,
    /// Its options besides `-h` and `--help`.
    options: &'static [&'static str],
    /// Makes the command of words whose options fit each other.
    make: fn(Words) -> Parsed<Command>,
}

const USAGES: [Usage; 6] = [
    Usage {
        name: "list",
        help: help::LIST,
        options: &["--plain", "--json"],
        make: Words::list,
    },
    Usage {
        name: "tree",
        help: help::TREE,
        options: &[],
        make: Words::tree,
    },
    Usage {
        name: "index",
        help: help::INDEX,
        options: &["--write", "-o", "--force"],
        make: Words::index,
    },
    Usage {
        name: "outline",
        help: help::OUTLINE,
        options: &["-o", "--force", "--read"],
        make: Words::outline,
    },
    Usage {
        name: "edit",
        help: help::EDIT,
        options: &[],
        make: Words::edit,
    },
    Usage {
        name: "restore",
        help: help::RESTORE,
        options: &["--set-aside"],
        make: Words::restore,
    },
];
/// Options that cannot be used together.
const EXCLUSIVE: [[&str; 2]; 3] = [
    ["--plain", "--json"],
    ["--read", "-o"],
    ["--read", "--force"],
];
/// Options that have a meaning only beside another one, if the command has that one.
const DEPENDENT: [[&str; 2]; 2] = [["--force", "-o"], ["-o", "--write"]];

/// Turns the words of the command line into a command.
pub fn parse(words: Vec<OsString>) -> Result<Command, Failure> {
    let Some((first, rest)) = words.split_first() else {
        return Err(wrong_call("no command was given"));
    };
    if is_help(first) || first == "help" {
        return help_about(rest);
    }
    match rest {
        [] if first == "--version" => Ok(Command::Version),
        [surplus, ..] if first == "--version" => Err(wrong_call(format!(
            "`--version` takes no other word; {} is one too many",
            backquoted(surplus)
        ))),
        _ => Usage::of(first)?.command(rest),
    }
}

/// Whether a word asks for help.
fn is_help(word: &OsString) -> bool {
    word == "-h" || word == "--help"
}

/// Returns the command that prints help about the tool, or about the command that is named.
fn help_about(words: &[OsString]) -> Result<Command, Failure> {
    match words {
        [] => Ok(Command::Help(help::ALL)),
        [word] if is_help(word) || word == "help" => Ok(Command::Help(help::ALL)),
        [name] => Ok(Command::Help(Usage::of(name)?.help)),
        [_, surplus, ..] => Err(wrong_call(format!(
            "`help` takes one command; {} is one too many",
            backquoted(surplus)
        ))),
    }
}

/// Reports a wrong call that belongs to no command.
fn wrong_call(problem: impl Into<String>) -> Failure {
    Failure::not_done(problem).with_advice("`asdf-layout --help` lists the commands")
}

/// Returns a word between backquotes, with escapes.
fn backquoted(word: &OsStr) -> String {
    format!("`{}`", names::shown(Path::new(word)))
}

/// Whether a word is an option, rather than a file or standard input.
fn is_option(word: &OsStr) -> bool {
    word.as_bytes().starts_with(b"-") && word != "-"
}

impl Usage {
    /// Returns the usage of the command with this name.
    fn of(name: &OsStr) -> Result<&'static Usage, Failure> {
        let mut usages = USAGES.iter();
        let usage = usages.find(|usage| name == usage.name);
        usage.ok_or_else(|| wrong_call(format!("{} is not a command", backquoted(name))))
    }

    /// Returns the command with the words after its name.
    fn command(&'static self, words: &[OsString]) -> Result<Command, Failure> {
        let mut before_files = words.iter().take_while(|word| *word != "--");
        if before_files.any(is_help) {
            return Ok(Command::Help(self.help));
        }
        let command = Words::sorted(self, words).and_then(Words::command);
        command.map_err(|problem| {
            let advice = format!("`asdf-layout {} --help` shows how to call it", self.name);
            Failure::not_done(problem).with_advice(advice)
        })
    }
}

/// The words after a command's name, sorted by what they are.
struct Words {
    usage: &'static Usage,
    options: Vec<&'static str>,
    files: Vec<PathBuf>,
    /// The name after `-o`.
    out: Option<PathBuf>,
}

/// A result, or a sentence about what is wrong with the words.
type Parsed<T> = Result<T, String>;

impl Words {
    /// Separates options from files.
    fn sorted(usage: &'static Usage, words: &[OsString]) -> Parsed<Words> {
        let mut sorted = Words {
            usage,
            options: Vec::new(),
            files: Vec::new(),
            out: None,
        };
        let mut words = words.iter();
        while let Some(word) = words.next() {
            if word == "--" {
                sorted.files.extend(words.by_ref().map(PathBuf::from));
            } else if is_option(word) {
                sorted.add_option(word, &mut words)?;
            } else {
                sorted.files.push(word.into());
            }
        }
        Ok(sorted)
    }

    /// Adds an option, and the name that comes after it if it is `-o`.
    fn add_option(&mut self, word: &OsStr, words: &mut slice::Iter<OsString>) -> Parsed<()> {
        let mut options = self.usage.options.iter();
        let Some(option) = options.find(|option| word == **option) else {
            let name = self.usage.name;
            let problem = format!("{} is not an option of `{name}`", backquoted(word));
            return Err(match Path::new(word).exists() {
                true => format!(
                    "{problem}; the file is given as {}",
                    names::quoted(Path::new(word))
                ),
                false => problem,
            });
        };
        if self.has(option) {
            return Err(format!("`{option}` was given twice"));
        }
        self.options.push(option);
        if *option == "-o" {
            self.out = Some(out_name(words.next())?);
        }
        Ok(())
    }

    /// Whether an option was given.
    fn has(&self, option: &str) -> bool {
        self.options.contains(&option)
    }

    /// Checks that the options fit each other.
    fn check_options(&self) -> Parsed<()> {
        let both = |[one, other]: &&[&str; 2]| self.has(one) && self.has(other);
        if let Some([one, other]) = EXCLUSIVE.iter().find(both) {
            return Err(format!("`{one}` and `{other}` cannot be used together"));
        }
        let is_alone = |[option, needed]: &&[&str; 2]| {
            self.has(option) && self.usage.options.contains(needed) && !self.has(needed)
        };
        match DEPENDENT.iter().find(is_alone) {
            Some([option, needed]) => Err(format!("`{option}` needs `{needed}`")),
            None => Ok(()),
        }
    }

    /// Checks that every file has a name, and that standard input is read only once.
    fn check_files(&self) -> Parsed<()> {
        if self.files.iter().any(|file| file.as_os_str().is_empty()) {
            return Err("the name of a file is empty".to_string());
        }
        match self.files.iter().filter(|file| is_standard(file)).count() {
            0 | 1 => Ok(()),
            _ => Err("`-` was given twice, but standard input is read only once".to_string()),
        }
    }

    /// Returns the command with these words.
    fn command(self) -> Parsed<Command> {
        self.check_options()?;
        self.check_files()?;
        (self.usage.make)(self)
    }

    fn list(self) -> Parsed<Command> {
        let form = match (self.has("--plain"), self.has("--json")) {
            (true, _) => Form::Plain,
            (_, true) => Form::Json,
            _ => Form::Table,
        };
        match self.files.is_empty() {
            true => Err(self.missing(&["FILE"])),
            false => Ok(Command::List {
                files: self.files,
                form,
            }),
        }
    }

    fn tree(self) -> Parsed<Command> {
        let [file] = self.exactly(["FILE"])?;
        Ok(Command::Tree { file })
    }

    fn index(mut self) -> Parsed<Command> {
        let writes = self.has("--write");
        let out = self.out();
        let [file] = self.exactly(["FILE"])?;
        Ok(match writes {
            true => Command::Index { file, out },
            false => Command::Verdict { file },
        })
    }

    fn outline(mut self) -> Parsed<Command> {
        if self.has("--read") {
            let [stored] = self.exactly(["OUT"])?;
            return Ok(Command::ReadOutline { stored });
        }
        if !self.has("-o") {
            return Err("`outline` needs `-o OUT` or `--read`".to_string());
        }
        let out = self.out();
        let [file] = self.exactly(["FILE"])?;
        Ok(Command::Outline { file, out })
    }

    fn edit(self) -> Parsed<Command> {
        self.check_changeable()?;
        let [file, tree] = self.exactly(["FILE", "TREE"])?;
        Ok(Command::Edit { file, tree })
    }

    fn restore(self) -> Parsed<Command> {
        self.check_changeable()?;
        let sets_aside = self.has("--set-aside");
        let [file] = self.exactly(["FILE"])?;
        Ok(match sets_aside {
            true => Command::SetAside { file },
            false => Command::Restore { file },
        })
    }

    /// Takes what was said about where a result is stored. If nothing was, it is printed.
    fn out(&mut self) -> Out {
        Out {
            path: self.out.take().unwrap_or("-".into()),
            force: self.has("--force"),
        }
    }

    /// Checks that the file to be changed is not standard input.
    fn check_changeable(&self) -> Parsed<()> {
        let name = self.usage.name;
        match self.files.first().is_some_and(|file| is_standard(file)) {
            true => Err(format!("`{name}` changes FILE, so FILE cannot be `-`")),
            false => Ok(()),
        }
    }

    /// Returns the files, if there are as many as `names`.
    fn exactly<const N: usize>(self, names: [&str; N]) -> Parsed<[PathBuf; N]> {
        if let Some(surplus) = self.files.get(N) {
            let (name, surplus) = (self.usage.name, backquoted(surplus.as_os_str()));
            let files = if N == 1 { "one file" } else { "two files" };
            return Err(format!("`{name}` takes {files}; {surplus} is one too many"));
        }
        let missing = self.missing(&names);
        self.files.try_into().map_err(|_| missing)
    }

    /// Says which of the files with these names were not given.
    fn missing(&self, names: &[&str]) -> String {
        let missing = &names[self.files.len()..];
        let verb = if missing.len() == 1 { "was" } else { "were" };
        let (name, needed, missing) = (self.usage.name, names.join(" and "), missing.join(" and "));
        format!("`{name}` needs {needed}; {missing} {verb} not given")
    }
}

/// Returns the name that comes after `-o`. An option there is taken for a forgotten name.
fn out_name(word: Option<&OsString>) -> Parsed<PathBuf> {
    match word {
        None => Err("`-o` needs a name after it".to_string()),
        Some(word) if is_option(word) || word.is_empty() => Err(format!(
            "`-o` needs a name after it, not {}",
            backquoted(word)
        )),
        Some(word) => Ok(word.into()),
    }
}

#[cfg(test)]
mod tests {
    use super::*;

    /// Returns the command of a line, or the sentence that says what is wrong.
    fn parsed(line: &str) -> Result<Command, String> {
        let words = line.split(' ').filter(|word| !word.is_empty());
        // A word that is empty is written as two quotes here.
        let words = words.map(|word| OsString::from(word.replace("''", "")));
        parse(words.collect()).map_err(|failure| failure.to_string())
    }

    fn list(files: &[&str], form: Form) -> Result<Command, String> {
        let files = files.iter().map(PathBuf::from).collect();
        Ok(Command::List { files, form })
    }

    fn out(path: &str, force: bool) -> Out {
        Out {
            path: path.into(),
            force,
        }
    }

    #[test]
    fn options_may_be_anywhere_after_the_name() {
        let outline = |force| Command::Outline {
            file: "a".into(),
            out: out("b", force),
        };
        assert_eq!(parsed("outline a -o b"), Ok(outline(false)));
        assert_eq!(parsed("outline -o b a"), Ok(outline(false)));
        assert_eq!(parsed("outline --force -o b a"), Ok(outline(true)));
        assert_eq!(parsed("list --json -"), list(&["-"], Form::Json));
        assert_eq!(parsed("list b --plain a"), list(&["b", "a"], Form::Plain));
    }

    #[test]
    fn after_two_dashes_every_word_is_a_file() {
        assert_eq!(parsed("list -- -a"), list(&["-a"], Form::Table));
        assert_eq!(
            parsed("list --json b -- --json -- --help"),
            list(&["b", "--json", "--", "--help"], Form::Json)
        );
        // As in other tools, this is still standard input.
        assert_eq!(parsed("list -- -"), list(&["-"], Form::Table));
        let [file, tree] = ["-o", "-"].map(PathBuf::from);
        assert_eq!(parsed("edit -- -o -"), Ok(Command::Edit { file, tree }));
    }

    #[test]
    fn index_goes_to_standard_output_or_to_a_file() {
        let index = |path, force| Command::Index {
            file: "a".into(),
            out: out(path, force),
        };
        let file = PathBuf::from("a");
        assert_eq!(parsed("index a"), Ok(Command::Verdict { file }));
        assert_eq!(parsed("index a --write"), Ok(index("-", false)));
        assert_eq!(parsed("index a --write -o b"), Ok(index("b", false)));
        let forced = parsed("index a --force -o b --write");
        assert_eq!(forced, Ok(index("b", true)));
    }

    #[test]
    fn restore_can_set_the_old_room_aside() {
        let file = PathBuf::from("a");
        assert_eq!(parsed("restore a"), Ok(Command::Restore { file }));
        let file = PathBuf::from("a");
        assert_eq!(
            parsed("restore a --set-aside"),
            Ok(Command::SetAside { file })
        );
    }

    #[test]
    fn help_is_there_for_the_tool_and_for_each_command() {
        for line in ["--help", "-h", "help", "help -h", "help help"] {
            assert_eq!(parsed(line), Ok(Command::Help(help::ALL)));
        }
        for line in ["edit --help", "edit a b c -h", "help edit", "-h edit"] {
            assert_eq!(parsed(line), Ok(Command::Help(help::EDIT)), "{line}");
        }
        assert_eq!(parsed("--version"), Ok(Command::Version));
    }

    #[test]
    fn wrong_call_without_a_command_is_told_what_the_commands_are() {
        for (line, problem) in [
            ("", "no command was given"),
            ("lists a", "`lists` is not a command"),
            ("--json list", "`--json` is not a command"),
            ("'' a", "`` is not a command"),
            ("a\x1Bb", r"`a\u{1b}b` is not a command"),
            ("help lists", "`lists` is not a command"),
            ("help a b", "`help` takes one command; `b` is one too many"),
            (
                "--version a",
                "`--version` takes no other word; `a` is one too many",
            ),
        ] {
            let sentence = format!("{problem}; `asdf-layout --help` lists the commands");
            assert_eq!(parsed(line), Err(sentence));
        }
    }

    #[test]
    fn word_that_is_not_utf_8_is_named_too() {
        let words = [&b"list"[..], b"-\xFF"].map(|word| OsStr::from_bytes(word).to_owned());
        let failure = parse(words.to_vec()).unwrap_err().to_string();
        assert!(failure.starts_with(r"`-\377` is not an option of `list`; "));
    }

    #[test]
    fn wrong_call_is_told_which_word_is_wrong() {
        let empty = "the name of a file is empty";
        for (line, problem) in [
            ("list", "`list` needs FILE; FILE was not given"),
            ("list --", "`list` needs FILE; FILE was not given"),
            ("list ''", empty),
            ("list a --jsno", "`--jsno` is not an option of `list`"),
            ("list a --\x1B", r"`--\u{1b}` is not an option of `list`"),
            ("list a -o b", "`-o` is not an option of `list`"),
            ("list a --json --json", "`--json` was given twice"),
            (
                "list a --json --plain",
                "`--plain` and `--json` cannot be used together",
            ),
            (
                "list - a -",
                "`-` was given twice, but standard input is read only once",
            ),
            ("tree", "`tree` needs FILE; FILE was not given"),
            ("tree a b", "`tree` takes one file; `b` is one too many"),
            ("tree a \n", r"`tree` takes one file; `\n` is one too many"),
            ("tree a --json", "`--json` is not an option of `tree`"),
            ("index", "`index` needs FILE; FILE was not given"),
            ("index a -o b", "`-o` needs `--write`"),
            ("index a --write --force", "`--force` needs `-o`"),
            ("index a --read", "`--read` is not an option of `index`"),
            ("outline a", "`outline` needs `-o OUT` or `--read`"),
            ("outline -o b", "`outline` needs FILE; FILE was not given"),
            ("outline --read", "`outline` needs OUT; OUT was not given"),
            ("outline a -o", "`-o` needs a name after it"),
            (
                "outline a -o --force",
                "`-o` needs a name after it, not `--force`",
            ),
            ("outline a -o ''", "`-o` needs a name after it, not ``"),
            ("outline a -ob", "`-ob` is not an option of `outline`"),
            ("outline a -o b -o c", "`-o` was given twice"),
            ("outline a --force", "`--force` needs `-o`"),
            (
                "outline --read a -o b",
                "`--read` and `-o` cannot be used together",
            ),
            (
                "edit",
                "`edit` needs FILE and TREE; FILE and TREE were not given",
            ),
            ("edit a", "`edit` needs FILE and TREE; TREE was not given"),
            ("edit a b c", "`edit` takes two files; `c` is one too many"),
            ("edit - a", "`edit` changes FILE, so FILE cannot be `-`"),
            ("edit a ''", empty),
            ("restore -", "`restore` changes FILE, so FILE cannot be `-`"),
            ("restore", "`restore` needs FILE; FILE was not given"),
            (
                "restore - --set-aside",
                "`restore` changes FILE, so FILE cannot be `-`",
            ),
        ] {
            let name = line.split(' ').next().unwrap();
            let advice = format!("`asdf-layout {name} --help` shows how to call it");
            assert_eq!(parsed(line), Err(format!("{problem}; {advice}")), "{line}");
        }
    }
}

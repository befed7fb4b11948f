//! The texts that `--help` prints.

pub const ALL: &str = "\
Shows where everything is in an ASDF file, including the ASDF files inside its blocks.

  asdf-layout list FILE... [--plain | --json]         prints the layout and all blocks of each file
  asdf-layout tree FILE                               prints the text of the tree
  asdf-layout index FILE                              prints the verdict on the block index
  asdf-layout index FILE --write [-o OUT] [--force]   prints or stores the text of the correct index
  asdf-layout outline FILE -o OUT [--force]           stores the outline of FILE, sixteen bytes for each block
  asdf-layout outline --read OUT                      prints the rows of a stored outline
  asdf-layout edit FILE TREE                          replaces the tree in place
  asdf-layout restore FILE [--set-aside]              undoes an edit that was not finished
  asdf-layout --help                                  prints this, as -h and help do
  asdf-layout help COMMAND                            prints more about a command, as COMMAND -h and COMMAND --help do
  asdf-layout --version                               prints the version of this tool

Options and files may come in any order after the command. Each option is a word of its own, and so is the name after
`-o`. After `--` every word is a file, so `asdf-layout list -- -name` lists a file whose name begins with `-`. As the
name after `-o`, such a name is given as `./-name`.

A file that is only read can be given as `-`, which means standard input, also after `--`. A file with the name `-` is
given as `./-`.

The exit status is 0 if the command succeeded, 1 if something was refused, and 2 if the call was wrong or the command
could not be carried out. If it is not 0, a sentence on standard error says why. If the reader of standard output closes
it early, as `head` does, the command ends without a message.
";

pub const LIST: &str = "\
asdf-layout list FILE... [--plain | --json]

Prints where the header, the comments and the tree are, one line for each block, and the verdict on the block index.

If the content of a block is an ASDF file, the blocks of this inner file follow below it, indented. Every offset
counts from the first byte of FILE; only the place of an inner file's refusal counts from that inner file's first
byte. The room of the tree is the space that an edit may fill: from the tree's first byte to the first block, or to
the end of the file.

Several files are listed in order; two tables have an empty line between them. If one of them is refused or cannot be
opened, the others are still listed. If one becomes shorter while it is read, the command ends. The exit status is 2 if
one could not be read, otherwise 1 if one was refused.

  --plain   prints lines for programs:
              - if several files are listed, `file NAME`, with an escape for what could mislead a terminal;
              - `tree START END` or `tree none`;
              - for each block ten numbers: depth, ordinal, offset, header size, allocated, used, streamed,
                compressed, checksum, inner state (0 plain, 1 opened, 2 refused, 3 too deep);
              - `index VERDICT`, where VERDICT is `absent`, `good`, `ignored-form` or `ignored-list`.
            For a refused file only `refused NUMBER PLACE` follows the name.
  --json    prints one JSON object for each file, on one line, with all that is known about the file and each block.
            The key `file` holds the name as it was given; bytes of it that are not UTF-8 become U+FFFD. For a refused
            file the only other key is `refused`. The key `line_end` states how the header line ends: `0A` or `0D 0A`.
            If a data size is above 9007199254740992, which is 2 to the power of 53, the key `data_size_text` after it
            has the same number as text, for programs that read numbers as floating point.

A long listing into a file or a pipe shows its progress on standard error, if that is a terminal.
";

pub const TREE: &str = "\
asdf-layout tree FILE

Prints the text of the tree, from `%YAML 1.1` through `...` and its line end. If the file has no tree, it prints
nothing.
";

pub const INDEX: &str = "\
asdf-layout index FILE
asdf-layout index FILE --write [-o OUT] [--force]

Prints the verdict on the block index, which may be written in brackets or with dashes:

  absent    the file has no block index
  good      the index lists the offsets of the blocks
  ignored   the text does not have the form of an index, or the offsets it lists are not those of the blocks

After `good` and `ignored` the reason follows. The offsets in the index are never used to find blocks.

  --write   prints the text of the correct index instead, in brackets; its lines end as the header line does. FILE does
            not change. A sentence on standard error says at which offset of FILE the text belongs, which is directly
            after the last block, and how many bytes have to be removed there first.
  -o OUT    stores the text in OUT, which must not exist yet. If OUT is `-`, the text goes to standard output.
  --force   overwrites OUT if it exists. If that fails, OUT is as it was. OUT must not be FILE itself.
";

pub const OUTLINE: &str = "\
asdf-layout outline FILE -o OUT [--force]
asdf-layout outline --read OUT

Stores the outline of FILE in OUT, sixteen bytes for each block.

  -o OUT    the file to store it in, which must not exist yet. If OUT is `-`, the outline goes to standard output.
  --force   overwrites OUT if it exists. If that fails, OUT is as it was. OUT must not be FILE itself.
  --read    prints the rows of a stored outline instead, one on each line: depth, ordinal, offset, header size,
            allocated, used, streamed, compressed, checksum, inner state (0 plain, 1 opened, 2 refused, 3 too deep)
";

pub const EDIT: &str = "\
asdf-layout edit FILE TREE

Replaces the tree of FILE by the text in TREE, in place.

The text has to be exactly one tree, from `%YAML 1.1` through `...` and its line end, with nothing before or after, and
has to fit into the room of the old tree. `asdf-layout tree FILE` prints the old one. The rest of the room is filled
with spaces, and no other byte of FILE changes. If the edit is refused, nothing changes. TREE may be `-`, FILE may not.
A file with several names (hard links) is not edited.

The edit waits until no other call reads or edits FILE, and says so. If FILE is replaced or removed in the meantime,
the edit says that too, with status 2.

The old room is kept in FILE.old-room until the new one is on the disk. If the edit is interrupted while
FILE.old-room exists, FILE may be half edited: `asdf-layout restore FILE` brings the old tree back, and until then FILE
cannot be edited. If it is interrupted before that, FILE has not changed.
";

pub const RESTORE: &str = "\
asdf-layout restore FILE [--set-aside]

Brings back the tree that FILE had before an edit that was not finished, from FILE.old-room.

FILE.old-room is believed only if you, the owner of FILE or root own it and nobody else may write it. The old tree is put
back only into the file that was edited, and only if that file has its length, the bytes before its tree and the
headers of its blocks as before, and its room holds only bytes of the old tree and of the new one. Otherwise FILE and
FILE.old-room do not change, a sentence says why, and the exit status is 2.

  --set-aside   leaves FILE as it is and gives FILE.old-room another name, which is printed, so that FILE can be edited
                again. Nothing is overwritten. If FILE is half edited and can be restored, this is refused.
";

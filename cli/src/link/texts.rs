//! What help says of the commands of a link.

pub const OPEN_WORDS: &str = "\
\x20 DIR      the link's folder, made where it is not there, mode 700
  SCHEME   where the folder has no settings: 0 to 5, or a name
  RULE     14 or 16; where none is given 14
";

pub const OPEN_MORE: &str = "\
Draws all that the initiator needs, makes the opening and says which file to send. With a file
settings in the folder, as 'settings write' makes it, its scheme and rule are taken. While the link
is open it is refused by 10, and says once more which file to send.";

pub const ANSWER_WORDS: &str = "\
\x20 DIR      the link's folder, made where it is not there, mode 700
  OPENING  in: the message of the peer, whose length tells the scheme
  RULE     14 or 16, as the opener has it; where none is given that of the settings, or 14
";

pub const ANSWER_MORE: &str = "\
Draws all that the replier needs, makes the reply and says which file to send, and what to say to
the peer. The same opening once more gives the same lines again, and draws nothing; another is
refused by 10.";

pub const FINISH_WORDS: &str = "\
\x20 DIR      the folder of a link that was opened
  REPLY    in: the message of the peer
";

pub const FINISH_MORE: &str = "\
Makes the key, wipes the secret s and adds the slack to the file trace. It says the slack, how much
the exchange bears (margin=, none in NewHope), and what to say to the peer. A refused reply leaves
all as it is: another may be tried. The same reply once more gives the same lines again.";

pub const KEY_WORDS: &str = "\
\x20 DIR      the folder of a link that is keyed
  HEARD    what the peer said, in either case, with the marks or without
  OUT      out, mode 600: the key, 32 bytes
";

pub const KEY_MORE: &str = "\
Each end says what its command showed behind say=, over a way on which the peer is known, as by
telephone, and types what the other said. Only where that is right do both have the same key, with
nobody between them. It is then written: SHA3-256 of 'wimmostry key', scheme and rule, a byte each,
raw key, opening and reply. Else it says heard=differs, and nothing is written; a line in front of
that tells digits that this end says itself, or that are not sixteen. It may be given again for
another file. The check, of which each end says a half, is SHA3-256 of 'wimmostry check', scheme,
rule, digest, opening and reply.";

pub const CLOSE_MORE: &str = "\
Overwrites session and s in place, and removes the rest but settings and trace; wiped=N says how
many bytes were overwritten. It may be given as often as one likes, and also on a full drive.";

pub const STATUS_MORE: &str = "\
Says the stage, the scheme, once keyed what to say, and behind next= the command to type. It changes
nothing.";

pub const DIR_WORDS: &str = "  DIR      the link's folder\n";

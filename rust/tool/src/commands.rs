//! The commands and their options, said once: help, man page, completion and the reading of arguments are made from these tables.

/// What stands behind an option.
#[derive(Debug, Clone, Copy, PartialEq, Eq)]
pub enum Takes {
    /// Nothing.
    Nothing,
    /// A value, shown by this word.
    Value(&'static str),
    /// The name of a file, shown by this word.
    File(&'static str),
    /// One of these words.
    OneOf(&'static [&'static str]),
}

/// An option of a command.
#[derive(Debug, Clone, Copy, PartialEq, Eq)]
pub struct Opt {
    /// Its long name, without the two dashes.
    pub name: &'static str,
    /// Its letter, if it has one.
    pub letter: Option<char>,
    pub takes: Takes,
    /// Whether it may stand more than once.
    pub again: bool,
    pub says: &'static str,
}

/// A command of dsr.
#[derive(Debug, Clone, Copy, PartialEq, Eq)]
pub struct Command {
    pub name: &'static str,
    /// The operands as the first line of help shows them.
    pub operands: &'static str,
    /// What an operand is, for completion.
    pub completes: Operands,
    /// The smallest and the largest number of operands.
    pub count: (usize, usize),
    /// What it does, in a line.
    pub says: &'static str,
    /// More, in paragraphs.
    pub text: &'static [&'static str],
    pub options: &'static [&'static Opt],
    /// A call as an example, and what it does.
    pub examples: &'static [(&'static str, &'static str)],
}

/// What the operands of a command are.
#[derive(Debug, Clone, Copy, PartialEq, Eq)]
pub enum Operands {
    Files,
    Words(&'static [&'static str]),
}

const fn flag(name: &'static str, says: &'static str) -> Opt {
    Opt { name, letter: None, takes: Takes::Nothing, again: false, says }
}

const fn value(name: &'static str, shown: &'static str, says: &'static str) -> Opt {
    Opt { name, letter: None, takes: Takes::Value(shown), again: false, says }
}

const fn file(name: &'static str, says: &'static str) -> Opt {
    Opt { name, letter: None, takes: Takes::File("FILE"), again: false, says }
}

pub const HELP: Opt = Opt { letter: Some('h'), ..flag("help", "Print this text.") };
const OUTPUT: Opt = Opt {
    letter: Some('o'),
    ..file("output", "Write there instead of to standard output. The file appears whole or not at all.")
};
const CHART: Opt = Opt { letter: Some('o'), ..file("output", "Write a chart of the table there too, as SVG.") };

// --- how a recording is read

const ONE_HEADER: Opt = flag(
    "one-header-settles",
    "Read an only multiframe too, if its header is a codeword. Without it one is refused with 16: no second header shows that it is the right codeword.",
);
const CODEBOOK: Opt = file(
    "codebook",
    "The codebook's 1,280 numbers, for finding pairs that are bad though their CRC is right; with --thresholds.",
);
const THRESHOLDS: Opt = file("thresholds", "The 14 thresholds, two for each codebook; with --codebook.");
const BITS: Opt =
    flag("bits", "The file is bits with no octet boundary, as a radio modem gives them: hunt for multiframes at every bit.");
const FROM: Opt = value("from", "N", "With --bits: begin at bit N (0). Bit t is in octet t / 8, with value 2^(t % 8).");
const MATCH: Opt = value("match", "T", "With --bits: at least T of the sixteen bits match the sync, 12 to 16 (14).");

const OUTSIDE: Opt = value(
    "outside",
    "N",
    "With --bits: N bits outside the multiframes found are expected, counted from --from on, what fills the last octet too. Another number is a warning: exit status 1.",
);

// --- list

const JSON: Opt = flag("json", "One line of JSON for each file; docs/TOOL.md has the schema.");
const NUMBERS: Opt =
    flag("numbers", "The lines that dsrlist prints: a header note and twelve pair notes for each multiframe, and a total; with --bits, one more for the bits outside.");
const JOBS: Opt = value("jobs", "N", "Read N files at a time (as many as there are processors).");

// --- write and read

const RATE: Opt = Opt { takes: Takes::OneOf(&["8", "11", "16"]), ..flag("rate", "The sample rate in kHz. It has to be said.") };
const FRONT_END: Opt = Opt {
    takes: Takes::OneOf(&["standard", "noise-robust"]),
    ..flag("front-end", "The front end that made the frames. It has to be said.")
};
const RAW_IN: Opt = flag("raw", "The frames are raw octets, seven for each, instead of lines of text.");
const RAW_OUT: Opt = flag("raw", "Give the frames as raw octets, seven for each, instead of lines of text.");
const NOTES: Opt = flag("notes", "Add to each line of text the note of the frame's pair: 0 as received, 1 or 2 replaced.");

// --- damage and trial

const SEED: Opt = value("seed", "N", "What all chance is drawn from (1): the same seed gives the same result on every machine.");
const BER: Opt = value("ber", "P", "Flip bits at this rate, 0 to 0.5, as 0.001 or 1e-3.");
const BURST: Opt = value("burst", "N", "With --ber: the flips come in bursts of N neighbouring bits, of which the first and the last are flipped and those between by chance. The rate stays.");
const BOUNDED: Opt = value(
    "bounded",
    "P",
    "Damage of the kind for which naming is proved: each pair, with probability P, by flips inside four neighbouring bits or by two flips whose distance is no multiple of 15; up to two flips in each header; syncs whole. One pair, and the header of an only multiframe, stay whole.",
);
const SPARE_SYNCS: Opt =
    flag("spare-syncs", "Flip no bit of a sync: one flip there, and a reading of octets is refused with 12.");
const DROP: Opt =
    Opt { again: true, ..value("drop", "AT:N", "Lose N bits from bit AT on, counted in the bits as they are then.") };
const REPEAT: Opt = Opt { again: true, ..value("repeat", "AT:N", "Send the N bits from bit AT on twice.") };
const SHIFT: Opt = value("shift", "N", "Put N bits drawn by chance before all others, so that octets begin anywhere.");

const TRIAL_SHIFT: Opt = value("shift", "N", "Put N bits drawn by chance before each image (0).");
const UTTERANCES: Opt = value("utterances", "N", "So many utterances for each row (200).");
const FRAMES: Opt = value("frames", "N", "So many frames in each utterance, 1 to 6,119 (300: three seconds). Fewer than 24 fit one multiframe, and all are refused with 16.");
const RATES: Opt = value("ber", "P,..", "One row for each of these bit error rates (1e-5,3e-5,1e-4,3e-4,1e-3,3e-3,1e-2,3e-2).");
const BOUNDED_RATES: Opt = value(
    "bounded",
    "P,..",
    "Instead of --ber: one row for each of these shares of damaged pairs, by the kind of damage for which naming is proved.",
);
const TRUST: Opt =
    flag("trust", "Instead: count by calls of the library what the tables of docs/TRUST.md and of README have counts of, beside what is said there.");

const HUNT_MATCH: Opt = value("match", "T", "The hunting reader asks for at least T of a sync's sixteen bits, 12 to 16 (14).");

// --- plot

const COMPARE: Opt = file("compare", "Draw this recording below the first, on the same scale.");

/// All commands, in the order of help.
pub const COMMANDS: &[Command] = &[
    Command {
        name: "list",
        operands: "FILE..",
        completes: Operands::Files,
        count: (1, usize::MAX),
        says: "Say in words what came of each recording.",
        text: &[
            "For each FILE (- is standard input): settings, seconds of speech, which headers were mended or lost, which stretches of time were replaced, and whether the end was seen. The files are read several at a time and listed in their order.",
            "Whatever is said of a recording is what the proved library answered: dsr itself decides of nothing whether it is bad, mended or refused.",
            "Exit status: 0 if every file was read without a warning; 1 if one has notes, its end was not seen, or the bits outside are not those that --outside says; 2 if one was refused; 3 for wrong usage, a file that cannot be read, or an output that is full or closed. The largest of these counts.",
            "Status 0 alone does not say that a recording is whole: if 16, 32 or more multiframes in a row, by sixteens, are lost or stand twice, no note shows it. With --bits those that came but were not found show by the bits outside: whoever knows how many to expect says so by --outside, and another number is then a warning.",
            "Seconds are counted in what was read, ten milliseconds a frame, and speech as it is after replacing: behind a missing multiframe they are early, and speech and end may be made by replacing if a pair of the last multiframe was replaced.",
        ],
        options: &[&JSON, &NUMBERS, &BITS, &FROM, &MATCH, &OUTSIDE, &ONE_HEADER, &CODEBOOK, &THRESHOLDS, &JOBS, &HELP],
        examples: &[
            ("dsr list yard7.dsr", "what came of one recording"),
            ("dsr list --json night/*.dsr >night.json", "a record of many for the monitoring"),
            ("dsr list --bits --match 14 modem.bits", "bits from a radio modem"),
        ],
    },
    Command {
        name: "plot",
        operands: "FILE",
        completes: Operands::Files,
        count: (1, 1),
        says: "Draw a recording: multiframes across, header and pairs down.",
        text: &[
            "Each column is a multiframe, 0.24 seconds of speech: its header on top, and its twelve pairs of frames below. Colours and marks, which can be told apart in print and by the colour-blind, say what the reading noted. With -o the picture is an SVG file, else it is drawn in the terminal. The exit status says whether it was drawn, not what was noted.",
        ],
        options: &[&OUTPUT, &COMPARE, &BITS, &FROM, &MATCH, &ONE_HEADER, &CODEBOOK, &THRESHOLDS, &HELP],
        examples: &[
            ("dsr plot yard7.dsr", "a picture in the terminal"),
            ("dsr plot yard7.dsr --compare yard8.dsr -o both.svg", "two recordings, one below the other"),
        ],
    },
    Command {
        name: "write",
        operands: "FRAMES",
        completes: Operands::Files,
        count: (1, 1),
        says: "Write frames into an image of multiframes, as a terminal sends them.",
        text: &[
            "FRAMES (- is standard input) has a line for each frame, of seven numbers with commas between them: six indices from 0 to 63 and one from 0 to 255. Empty lines, and what stands behind a #, are passed over.",
        ],
        options: &[&RATE, &FRONT_END, &RAW_IN, &OUTPUT, &HELP],
        examples: &[("dsr write --rate 8 --front-end standard frames.csv -o word.dsr", "")],
    },
    Command {
        name: "read",
        operands: "FILE",
        completes: Operands::Files,
        count: (1, 1),
        says: "Read a recording back into frames.",
        text: &[
            "Gives the frames of speech as lines of text, as dsr write takes them. Frames of bad pairs are those that replace them. If anything was noted, the end is missing, or the bits outside are not those that --outside says, a line on standard error says so and the exit status is 1; with --bits the line always comes.",
        ],
        options: &[&RAW_OUT, &NOTES, &OUTPUT, &BITS, &FROM, &MATCH, &OUTSIDE, &ONE_HEADER, &CODEBOOK, &THRESHOLDS, &HELP],
        examples: &[("dsr read word.dsr -o frames.csv", "")],
    },
    Command {
        name: "damage",
        operands: "FILE",
        completes: Operands::Files,
        count: (1, 1),
        says: "Damage an image as a bad link would, the same way each time.",
        text: &[
            "First bits are flipped, by --bounded and then by --ber; then bits are lost and repeated, in the order of the options; then the shift. What was done is said on standard error. Bits that no longer fill an octet are followed by zeros.",
        ],
        options: &[&SEED, &BER, &BURST, &BOUNDED, &SPARE_SYNCS, &DROP, &REPEAT, &SHIFT, &OUTPUT, &HELP],
        examples: &[
            ("dsr damage --ber 1e-3 --burst 3 --seed 7 word.dsr -o heard.dsr", ""),
            ("dsr damage --shift 11 word.dsr -o modem.bits", "bits as a radio modem gives them"),
        ],
    },
    Command {
        name: "trial",
        operands: "",
        completes: Operands::Words(&[]),
        count: (0, 0),
        says: "Send many utterances through damage and both readers, and count.",
        text: &[
            "Utterances are made by chance, written, damaged and read, by the reader of octets and by the hunting reader. All numbers of codebook and thresholds are 0. What was sent is known, so the table says not only what was refused, noted and replaced, but also how many frames are wrong without being named. With -o a chart of it is written as an SVG file too.",
        ],
        options: &[&UTTERANCES, &FRAMES, &RATES, &BURST, &BOUNDED_RATES, &SPARE_SYNCS, &TRIAL_SHIFT, &HUNT_MATCH, &SEED, &TRUST, &CHART, &HELP],
        examples: &[
            ("dsr trial --ber 1e-4,1e-3,1e-2 --burst 3 -o trial.svg", ""),
            ("dsr trial --trust", "the numbers of docs/TRUST.md, counted"),
        ],
    },
    Command {
        name: "explain",
        operands: "NUMBER [PLACE] | note NUMBER | end",
        completes: Operands::Words(&["note", "end"]),
        count: (1, 2),
        says: "Say what a refusal or a note means, and what to do.",
        text: &["A refusal has a number and a place, as in 'refused 13 290'; a note is an octet of the report, of a header or of a pair; the end is seen, missing, or seen in a replaced pair."],
        options: &[&HELP],
        examples: &[("dsr explain 13 290", ""), ("dsr explain note 12", ""), ("dsr explain end", "")],
    },
    Command {
        name: "completion",
        operands: "SHELL",
        completes: Operands::Words(&["bash", "zsh", "fish"]),
        count: (1, 1),
        says: "Print the completion for a shell: bash, zsh or fish.",
        text: &[],
        options: &[&HELP],
        examples: &[(". <(dsr completion bash)", "")],
    },
    Command {
        name: "man",
        operands: "",
        completes: Operands::Words(&[]),
        count: (0, 0),
        says: "Print the manual page, dsr(1).",
        text: &[],
        options: &[&HELP],
        examples: &[("dsr man >dsr.1", "")],
    },
];

/// The command of that name.
pub fn command(name: &str) -> Option<&'static Command> {
    COMMANDS.iter().find(|command| command.name == name)
}

//! The help texts of the program.

/// For `second --help`.
pub const WHOLE: &str = "\
second - the pay-run gatekeeper, written a second time from its rules alone

It answers journals exactly as docs/RULES.md settles, so that the proved program can be compared with it
byte for byte.

Usage: second COMMAND [OPTIONS] [FILE]

  run          the replies to a journal
  why          the shortest chain behind each refusal 9 of a journal
  line         the calls of a typed line, with their answers
  cases        the worked cases of the rules, with their replies
  generate     a journal by seed
  compare      another program beside this one, on the cases and on generated journals
  variants     the wrong programs that the generated journals and lines must tell apart
  bite         how many of these it takes to tell each of them apart

A first try:
  tools/second run crates/payrun/stdin

In the repository's folder it is tools/second, which builds it first, and the examples are typed there.
FILE is read from standard input if it is - or not given. `second COMMAND --help` says more.
Exit status: 0 if all went well, whatever the replies; 1 for a failed read or write, or a difference;
2 for a bad command line; 141, without a word, where the reader of the output has stopped. For journals
in words, and replies explained, there is tools/gk.
";

/// Every command with its help text.
pub const COMMANDS: &[(&str, &str)] = &[
    ("run", RUN),
    ("why", WHY),
    ("line", LINE),
    ("cases", CASES),
    ("generate", GENERATE),
    ("compare", COMPARE),
    ("variants", VARIANTS),
    ("bite", BITE),
];

const RUN: &str = "\
second run - the replies to a journal

Usage: second run [--variant NAME] [FILE]

One line for each record: its position, its code, A (allowed), L (lowered) or R (refused), and the level
or the refusal number; behind L also how many shop marks were lost. The last line has the handles made,
gone and open.

  --variant NAME  answer by a rule that is wrong on purpose; see `second variants`

Example, the journal of RULES K17:
  printf '\\005\\002\\000\\002\\377\\001\\005\\001\\000\\011\\377\\001\\004\\005\\000\\000\\000\\003\\007\\000\\000' |
    tools/second run
    1 2 A 2
    2 1 A 9
    3 5 A 2
    4 7 L 2 0
    end 1 0 1
";

const WHY: &str = "\
second why - the shortest chain behind each refusal 9 of a journal

Usage: second why [--chain] [--variant NAME] [FILE]

One line for each record that is answered with 9: its position, and how many reads and writes it takes, had
the call been let through, to bring what something of an insufficient label holds into a file that it must
not reach (RULES A10, A11). Before it is written, the call is let through on a copy of the tables, the reads
and writes are made there under copying, and the file is looked at (RULES A2 to A8): where that fails, it is
said, and the exit status is 1.

  --chain         behind the number: what the chain starts from, s and the number of a subject or o and that
                  of an object; the file; and the places 16 s + p, in their order
  --variant NAME  by a rule that is wrong on purpose, and then nothing is made; see `second variants --chains`

Example, RULES K6, in which subject 1 would read file 1 and write the pipe, and subject 0 read the pipe and
write file 0:
  tools/second cases --journal K6 | tools/second why --chain
    7 4 o1 o0 18 17 0 2
";

const LINE: &str = "\
second line - the calls of a typed line, with their answers

Usage: second line [--journal FILE] [--shell N] [--child N] [--pipe N] [--variant NAME] LINE

LINE is what a clerk types (RULES L1 to L5): the numbers of programs, each with `< N` and `> N` behind it or
not, with `|` between the stages of a pipeline and `;` between pipelines. Put it in quotes. Its calls are
made and printed in their order, each with A (allowed), L (lowered) or R (refused), and the level or the
refusal number, behind L also how many shop marks were lost. The last line is `counts`, with how many were
allowed, lowered and refused, or `refusal` with 18 or 19, and then no call was made.

  --journal FILE  make them after the calls of this journal; without it, from nothing
  --shell N       the subject that is the shell (0)
  --child N       the first child's number (1)
  --pipe N        the first pipe's number (64)
  --variant NAME  by a rule that is wrong on purpose; see `second variants --lines`

Example, RULES K7 as a line, after file 0 at 9, file 1 at 2, subject 0 at 9 and file 2 at 9, without shop
marks:
  printf '\\004\\002\\000\\011\\000\\004\\002\\001\\002\\000\\004\\001\\000\\011\\000\\004\\002\\002\\011\\000' |
    tools/second line --journal - '2>0 | 2<1'
    pipe 0 64 0 1: A 9
    fork 0 1: A 9
    close 1 0: A 9
    open-write 1 0 15: A 9
    exec 1 2: A 9
    fork 0 2: A 9
    close 2 1: A 9
    open-read 2 1 14: A 2
    exec 2 2: A 9
    close 0 0: A 9
    close 0 1: A 9
    exit 1: A 9
    exit 2: A 9
    counts 13 0 0
";

const CASES: &str = "\
second cases - the worked cases of the rules, DWARF's examples of numbers, and numbers at the limit

Usage: second cases [--hex | --replies | --journal | --numbers | --lines] [NAME]

Without an option: each case with what it shows, its calls and its replies. A NAME picks one case.
  --hex      a line for each case: its name and its journal in hex
  --replies  each case's replies alone
  --journal  the journal itself, for one NAME
  --numbers  DWARF's examples and the numbers at the limit alone, a line for each: the number, or
             `malformed`, and its bytes in hex
  --lines    the cases of typed lines: the calls before, the line, and its calls with their answers

Example: the same bytes for another program
  tools/second cases --journal K6 | ./run - | diff - <(tools/second cases --replies K6)
";

const GENERATE: &str = "\
second generate - a journal by seed

Usage: second generate --seed N [--index N] [--calls N] [--bytes N] [--style NAME]

The same options give the same journal on every machine.
  --seed N      which journals
  --index N     which journal of the seed (0)
  --calls N     about how many records
  --bytes N     exactly how many bytes
  --style NAME  mixed (the default), payrun, calls, edges, full, rings, garbled, bytes, long

Example:
  tools/second generate --seed 1 --style rings | tools/second run
";

const COMPARE: &str = "\
second compare - another program beside this one

Usage: second compare --program PATH [--seed N] [--journals N] [--jobs N] [--seconds N] [--save FILE]
                  [--variant NAME] [-- ARGUMENT ...]

The program at PATH reads a journal from standard input and writes the replies to standard output. It is
run on the worked cases and on generated journals, and its replies are compared byte for byte. At a
difference the journal is made shorter while the two still differ, and shown with both replies.
  --seed N      which journals; without it the clock gives one, and it is printed
  --journals N  how many (2000)
  --jobs N      how many at a time (as many as there are processors, at most 2)
  --seconds N   how long the program may take for one journal (10)
  --save FILE   where to write the short journal at a difference
  --variant NAME
                hold it against this variant in place of the rules: one from before request (i), which brought
                threads, answers as code-18-unknown does
  -- ARGUMENT   what to hand to the program

Example: a wrong program is found out
  tools/second compare --program tools/second --seed 1 -- run --variant opener-only
";

const VARIANTS: &str = "\
second variants - the wrong programs that the generated journals and lines must tell apart

Usage: second variants [--lines | --chains]

A line for each: its name, for `second run --variant NAME`, and what it does wrong.
  --lines   those of typed lines, for `second line --variant NAME`
  --chains  those of the chains behind a 9, for `second why --variant NAME`

Example:
  tools/second cases --journal K1 | tools/second run --variant opener-only
";

const BITE: &str = "\
second bite - how many generated journals, or lines, it takes to tell each wrong variant apart

Usage: second bite [--seed N] [--journals N] [--lines N]

Exit status 1 if some variant is not told apart. A variant that answers every journal as the rules do is tried
on tables that no calls made, and `tables` is said in the place of a number. For a variant of lines it is said in what it was seen: in
the answer, which is the refusal or the counts, the tables after the line and the tally; or, where that never
differs, in the calls that are made. Of a variant of chains it is said whether it was seen in the number of
steps, or in the chain alone.
  --seed N      which journals and lines (1)
  --journals N  how many journals at most (2000)
  --lines N     how many lines at most (2000)

Example:
  tools/second bite --seed 7
";

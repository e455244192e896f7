//! The help texts of the program. Every example is typed in the repository's folder, where the program is `tools/gk`.

/// For `gk help`; COMMANDS stands for a line for each command.
pub const WHOLE: &str = "\
gk - the pay-run gatekeeper's command for people

Usage: gk COMMAND [OPTIONS] [FILE]

COMMANDS
  help         this page, or that of one command: gk help explain

Other pages: gk help names (names for steps, files, pipes and shop groups)

A first try:
  printf 'admit 0 9 all\\nregister 1 2 all\\nopen-read 0 1 0\\nread 0 0\\n' | tools/gk assemble | tools/gk run
  tools/gk explain --refused crates/payrun/stdin

FILE is read from standard input if it is - or not given; screen, try and why need a file or -, line takes a line in
its place, audit takes folders, and guard a command behind --. With -o FILE the output goes to a file, which is written
whole or not at all and replaces no input; -o - is standard output. screen has no -o, and guard writes as the run goes on.
gk --version has the version of the gatekeeper that gives the answers.
Exit status: 0 if all went well, whatever the replies, but that audit and trace end with 3 where something is refused
and with 4 where something was not read or seen; 1 for a bad text, a line that is refused as such (18, 19), a
thing that is never there, a failed read or write, or a standard input or output that is closed; 2 for a bad
command line; 141, without a word, where the reader of the output has stopped. guard ends as its command does. In the
repository's folder gk is tools/gk, which builds it first.
";

/// Pages that are no command's.
pub const TOPICS: &[(&str, &str)] = &[("names", NAMES)];

pub const RUN: &str = "\
gk run - the replies to a journal, by the proved gatekeeper

Usage: gk run [-o FILE] [FILE]

One line for each record: its position, its code, A (allowed), L (lowered) or R (refused), and the level
or the refusal number; at L also how many shop marks were lost. The last line has the handles made, gone and open.

  -o FILE  write to this file

Example: a step of level 9 with all shop marks opens a sheet of level 2 with those of groups 0 and 1, reads it and falls
  printf '\\004\\002\\000\\002\\003\\005\\001\\000\\011\\377\\001\\004\\005\\000\\000\\000\\003\\007\\000\\000' | tools/gk run
    1 2 A 2
    2 1 A 9
    3 5 A 2
    4 7 L 2 6
    end 1 0 1
";

pub const EXPLAIN: &str = "\
gk explain - the replies to a journal in plain words

Usage: gk explain [--step NAME] [--file NAME] [--code N] [--refusal N] [--from N] [--to N]
                  [--refused] [--json] [--names FILE] [-o FILE] [FILE]
       gk explain --summary [--names FILE] [-o FILE] [FILE]

Says who asked what and what was answered; for a refusal, what did not happen, why, and what can be done. Every answer
is the proved gatekeeper's. What to do is not proved, but tried: calls that are advised were made on a copy of the
tables as they were before the record, and were allowed there. For refusal 9 it says how data could get from a low
thing into a higher file, read by read and write by write, were the call let through, which is proved (RULES A1 to
A12), and what is insufficient: the level, or which shop marks; for refusal 15, too, where the open would be refused
with 9 once the books are open. For refusal 17 it names what could go to make room. Where something falls, it says
which shop marks were lost and because of what. Shop marks are not spoken of where all eight are there. Of threads of
one step it says who falls with whom, which of them holds what, and whom an exec has ended. Numbers from 10,000 on
have a comma before each three digits.

Questions: with these only some records are told, those that are all of what is asked for. The first line says how many
of how many they are; the end is that of the whole run.

  --step NAME   those that have to do with a step, by its name or number: that name it, that change its label or what
                it holds, that write a file which it has mapped, or with it in the chain behind their refusal. A name
                stands for the step at the records at which it is called so
  --file NAME   likewise a file or pipe: also those that read, write, close or mark a handle on it
  --code N      the calls of this code, or of this word: 5 or open-read. Code 9 is fork; for refusal 9: --refusal 9
  --refusal N   those that were refused with this number
  --from N, --to N  from this record on, and up to this one

  --refused     only the records that were refused, those that are alike in one paragraph, and the end
  --summary     for each step its levels over time, its threads, what it held, and what it was refused
  --json        an object a line: one for each record, and a last one for the end (docs/JSON.md)
  --names FILE  the names of steps, files, pipes and shops; else run.names beside run.journal, if it is there
  -o FILE       write to this file

Examples: the pay run of March; its refusals; who held what; the refusals for another program
  tools/gk explain crates/payrun/stdin
  tools/gk explain --refused crates/payrun/stdin
  tools/gk explain --summary crates/payrun/stdin
  tools/gk explain --refused --json crates/payrun/stdin
What was done with the pay book, file 0, from record 197 to record 204; what step 17 was refused with 9; with names
  tools/gk explain --file 0 --from 197 --to 204 crates/payrun/stdin
    Asked for: file or pipe 0; from record 197 to record 204. That is 2 of 306 records.
    197. Step 17 closes place 4, its writing handle on file 0 (level 9).
      Allowed. Place 4 is empty.
    199. Step 17 opens file 0 for writing at place 4.
      Allowed. File 0 has level 9, step 17 level 12.
    End of the run: 300 allowed, 1 lowered, 5 refused.
    Handles: 157 made, 157 gone, 0 still open.
  tools/gk explain --step 17 --refusal 9 crates/payrun/stdin
  tools/gk assemble gk/examples/march.txt -o march.journal
  tools/gk explain --step merge --file \"the pay book\" march.journal
";

pub const WHY: &str = "\
gk why - where the level of a step or pipe comes from, and why it lacks shop marks

Usage: gk why JOURNAL THING [--at N] [--names FILE] [-o FILE]

THING is a step or pipe, by number or by name: step 17, pipe 37, merge; or a file. Says which level it has,
since which record, and which file the level is that of, or which step was admitted at it. Then come the records
that brought it here, each as gk explain tells it: reads, writes, runs and maps at which a level fell, and
forks, threads, pipes and connects that handed it on. A step that fell because another thread of it read has that
read among them. Where shop marks are missing, the same is told of each, those that were lost on one way together.
Where there are two ways, it is the one that was taken first. A file
that a step created has its level from that step: ask for the file. The answers are the proved gatekeeper's; which
records they are is found by gk and not proved.

It is told of the end of the journal, or of the last record at which the thing is there. A number that is used
again is another thing's: the last one's, or with --at the one's that is there then.

  --at N        after record N, in place of the last one; 0 is before the first
  --names FILE  the names of steps, files, pipes and shops; else run.names beside run.journal, if it is there
  -o FILE       write to this file

Examples: in March, why step 1 is low; then what it created
  tools/gk why crates/payrun/stdin step 1
    After record 209, step 1 has level 2. It has had it since record 205; it started with level 12, at
        record 203. The level is that of file 1. It is there until record 210.
    How it came there, found by gk and not proved; the answers are the proved gatekeeper's:
    2. File 1 is registered from outside at level 2.
      Allowed. File 1 has level 2 for good.
    205. Step 1 reads at place 0, its reading handle on file 1 (level 2).
      Lowered. Step 1 falls from level 12 to level 2.
    Another step 1 was there before it, from record 9 to record 202.
  tools/gk why crates/payrun/stdin file 6
    After record 304, file 6 has level 2. It has had it since record 206: that is the level it started
        with. The level is that of file 1. It is there until record 305.
    How it came there, found by gk and not proved; the answers are the proved gatekeeper's:
    2. File 1 is registered from outside at level 2.
      Allowed. File 1 has level 2 for good.
    205. Step 1 reads at place 0, its reading handle on file 1 (level 2).
      Lowered. Step 1 falls from level 12 to level 2.
    206. Step 1 creates file 6.
      Allowed. File 6 is empty and has the level of step 1, 2, for good.
The step that had the number before; and with names
  tools/gk why crates/payrun/stdin step 1 --at 202
    After record 202, step 1 is not there. It was there from record 9 to record 202, and another one is
        there from record 203 to record 210.
  tools/gk why crates/payrun/stdin step 1 --at 201
  tools/gk assemble gk/examples/march.txt -o march.journal
  tools/gk why march.journal sheet reader
";

pub const ASSEMBLE: &str = "\
gk assemble - from words to a journal

Usage: gk assemble [--names FILE] [-o FILE] [FILE]

One call a line; # starts a comment. The calls and their numbers:
  admit s level set   register o level set   create s o       pipe s o r w
  open-read s o p     open-write s o p       read s p         write s p
  fork s c            exec s o               close s p        exit s
  retire o            map s o p              mark s p         freeze level
  connect s t a b p q                        thread s c
s and c are steps, and so is t; o is a file or pipe, a and b are new pipes; p, q, r and w are places. A file that
is mapped is read at that moment and after each write to it. A mapping, and a handle that is marked, is closed by
its step's next exec. `freeze 9` closes the books from level 9 up, `freeze 16` opens them again. A connect makes
pipe a from s to t and pipe b from t to s; each step reads at p and writes at q. A thread starts step c without
handles, and s and c share memory: they are one step, with one level, and what one of them reads, both have read. An
exec of one of them ends the others. For a record with any code and any numbers write `call 77 1 2`, for any bytes
`bytes 80 00` (hex). A journal above 65,536 bytes is written, and standard error says that it will be refused.

A step is 0 to 31. A file or pipe has any number up to 18,446,744,073,709,551,615, and at most 64 are live at a
time. A number stands as it is, or with a comma before each three digits: 18446744073709551615 is the same.

A set says for which of the eight shop groups a thing is vouched for. It is all, none, a number, 0 to 255, in which bit
i is the mark of group i, or the groups by their names, joined by commas: north,east. A set with a space in it stands
in quotes, and a group without a name is shop 3 there: \"north,shop 3\". Data may go from a thing to a file only where
the thing has each shop mark that the file has; who reads what lacks a mark loses it.

Names: `name step 17 merge`, and from the next line on merge stands for step 17; `name shop 0 north` is the name of a
shop group. See: gk help names. From a text or journal without sets, of before: gk help convert

  -o FILE       write the journal to this file, and the names beside it: run.journal, run.names
  --names FILE  write the names to this file

Examples: a step of level 9 reads a sheet of level 2; the pay run of March, with names; a step of three threads; hours
that are vouched for by some shops
  printf 'admit 0 9 all\\nregister 1 2 all\\nopen-read 0 1 0\\nread 0 0\\n' | tools/gk assemble -o sheet.journal
  tools/gk explain sheet.journal
  tools/gk assemble gk/examples/march.txt -o march.journal
  tools/gk explain march.journal
  tools/gk assemble gk/examples/tax.txt -o tax.journal
  tools/gk explain tax.journal
  tools/gk assemble gk/examples/shops.txt -o shops.journal
  tools/gk explain shops.journal
";

pub const CONVERT: &str = "\
gk convert - a journal from before shop marks, with sets

Usage: gk convert [--names FILE] [-o FILE] [FILE]

Before, admit and register had two numbers; now a set of shop marks stands behind the level. FILE is a journal of
before, or a text for gk assemble, and comes out as the same with the set of all marks added to those two calls: 255
in a journal, all in a text, whose comments stay. Every record keeps its position, so the names are those of before.
The replies are those of before, but that a lowered call has 0, the number of shop marks lost, at its end.

What drew 11 or 12 is left as it is, and standard error says which records these are. It also says where the journal
would go beyond 65,536 bytes: it is written, and has to be split. The set is the one of no change; who vouches for which
shops is for people to say.

  -o FILE       write to this file; the names of a journal go beside it
  --names FILE  the names of the journal; else run.names beside run.journal, if it is there

Examples: a text, and a journal
  printf 'admit 0 9\\nexit 0\\n' | tools/gk convert
    admit 0 9 all
    exit 0
  printf '\\003\\001\\000\\011\\002\\014\\000' | tools/gk convert | tools/gk disassemble
    admit 0 9 all
    exit 0
";

pub const DISASSEMBLE: &str = "\
gk disassemble - from a journal to words

Usage: gk disassemble [--names FILE] [-o FILE] [FILE]

Every byte is accounted for: what it writes, assembled again, gives the same bytes for every journal. What
is malformed stands as `bytes` or `call`, with a comment that says why. Of a journal above 65,536 bytes the
first 65,537 are read.

  --names FILE  the names of steps, files, pipes and shops; else run.names beside run.journal, if it is there
  -o FILE       write to this file

Example:
  printf '\\005\\001\\000\\011\\377\\001\\200\\000' | tools/gk disassemble
    admit 0 9 all
    bytes 80 00              # refusal 11: the length is longer than it need be; the run stops here
";

pub const LINE: &str = "\
gk line - a typed line, each call with its answer

Usage: gk line [--after JOURNAL | --set-up TEXT] [--shell N] [--child N] [--pipe N] [--refused]
               [--append JOURNAL] [--names FILE] [-o FILE] ['LINE']

A line is what a clerk types at month end. Programs, files and pipes stand in it as numbers:
  3 < 1 > 0      a stage: program 3, which reads file 1 and writes file 0. < and > may be left out; < is first
  3 < 1 | 4 > 0  a pipeline: at most eight stages, a pipe between each two
  3 < 1 ; 4 > 0  pipelines, one after the other
A number has no zeros in front and no commas. Spaces may stand anywhere but inside a number. On the command line
the line stands in quotes; where it is not given, or -, it is read from standard input.

For each pipeline the shell makes the pipes and forks a child for each stage. A child closes the ends of pipes
that it does not use, opens what it reads at place 14 and what it writes at place 15, and runs its program. Then
the shell closes its ends, and the children exit. A call that is refused does not stop the line.
All of it is tried on a copy of the tables: nothing is run. Of each call is said what gk explain says of it.
A line that is not of this form is refused (18), and so is one with a longer pipeline (19): standard error shows
where, no call is made, and the exit status is 1.

  --after JOURNAL   try it after this journal; - is standard input
  --set-up TEXT     try it after the calls of this text, see gk help assemble; - is standard input
  --shell N         the shell is step N; else the lowest step that is there
  --child N         the first child is step N; else the lowest number from which on enough are free
  --pipe N          the first pipe is pipe N; else the lowest from which on enough are free and not in the line
  --refused         only the calls that were refused, and the end
  --append JOURNAL  put the calls behind the records of this journal, all of them or none. Without --after and
                    --set-up the line is tried after this very journal, as is meant. The file is replaced:
                    not for a journal that a host has open, whose next records would be lost
  --names FILE      the names of steps, files, pipes and shops; else run.names beside run.journal, if it is there
  -o FILE           write to this file

Examples: a program that reads the checked hours
  tools/gk line --set-up gk/examples/month-end.txt '3 < 2'
    Tried on a copy of the tables after 8 records. Shell: shell (step 0), the lowest that is there.
        Children: from step 1 on, the lowest that are free. No pipes.
    Pipeline 1: 3 < 2
    9. shell (step 0) forks step 1.
      Allowed. Step 1 starts at level 12 with no handles.
    10. Step 1 opens the checked hours (file 2) for reading at place 14.
      Allowed. The checked hours has level 12; step 1 keeps level 12 until it reads.
    11. Step 1 runs the pay programs (file 3).
      Allowed. Step 1 stays at level 12.
    The exits:
    12. Step 1 exits.
      Allowed. Its last level was 12; 1 handle is closed. Its number is free.
    End of the line: 4 allowed, 0 lowered, 0 refused.
    Handles: 1 made, 1 gone, 0 still open.
What was refused in March: a stage reads an hours sheet that nobody has checked, and the next one writes the pay book
  tools/gk line --refused --set-up gk/examples/month-end.txt '3 < 1 | 3 > 0'
    Tried on a copy of the tables after 8 records. Shell: shell (step 0), the lowest that is there.
        Children: from step 1 on, the lowest that are free. Pipes: from number 7 on, the lowest that are
        free and not in the line.
    Pipeline 1: 3 < 1 | 3 > 0
    Stage 2: 3 > 0
    16. Step 2 may not open the pay book (file 0) for writing at place 15: what the hours sheet of shop
        3 has could get there through it.
      Refused (9): data could reach a file of a higher level or with a shop mark that it lacks. Nothing
        is opened.
      The hours sheet of shop 3 has level 2, and the pay book takes nothing from below level 9.
      This is how the hours sheet of shop 3 could get into the pay book, were it let through:
        step 1 reads the hours sheet of shop 3 and writes pipe 7;
        step 2 reads it and writes the pay book.
      Proved (RULES A1 to A12): none of these reads and writes would be refused; no chain is shorter.
      What to do: close place 0 (reading pipe 7) of step 2; open it after that.
      Or: let step 2 fork a step, number 3 is free, which closes place 0 and opens it.
      Or: admit a step at level 9 or above, number 3 is free, and let it open it.
    End of the line: 12 allowed, 0 lowered, 1 refused.
    Handles: 7 made, 7 gone, 0 still open.
    The answers are the proved gatekeeper's. What to do is advice of gk and not proved; every advice
        that names calls was tried on a copy of the tables as they were before its record, and was
        allowed there.
The way out: the sheet goes to a list for a clerk, by itself; the pay book is made of the checked hours
  tools/gk line --refused --set-up gk/examples/month-end.txt '3 < 1 > 6 ; 3 < 2 | 3 > 0'
    Tried on a copy of the tables after 8 records. Shell: shell (step 0), the lowest that is there.
        Children: from step 1 on, the lowest that are free. Pipes: from number 7 on, the lowest that are
        free and not in the line.
    End of the line: 18 allowed, 0 lowered, 0 refused.
    Handles: 10 made, 10 gone, 0 still open.
Lines that go into a journal
  tools/gk assemble gk/examples/month-end.txt -o month.journal
  tools/gk line --append month.journal '3 < 1 > 6'
  tools/gk line --append month.journal '3 < 2 | 3 > 0'
  tools/gk explain --summary month.journal
";

pub const AUDIT: &str = "\
gk audit - many journals: what was refused, by run, by refusal and by file

Usage: gk audit [--json] [--jobs N] [--report-only] [-o FILE] FOLDER ...

Every journal below the folders is answered by the proved gatekeeper, on all processors: each file whose name ends in
.journal. A FOLDER may also be a file, which is then a journal whatever its name is. Links are followed, and what is
met a second time is read once. Names are those beside each journal: run.names beside run.journal.

Told are the runs with refusals, each with the file or pipe that the refused call is about, and at a 9 also the file
that data could have got into; then each refusal, and each file, with how often and in how many runs. Files go by
their names: without names, file 1 of one run may be another one than file 1 of the next.

What was not read is never cleared. A journal or folder that cannot be read, and a FOLDER without a journal, is told,
counted, and in the exit status. A journal that breaks off (11) or is too long (14) is refused, and counted as cut off.

  --json         an object a line: one for each journal, and a last one for the end (docs/JSON.md)
  --jobs N       so many journals at a time; else as many as there are processors
  --report-only  status 0 wherever the report is written, whatever was refused or not read
  -o FILE        write to this file

Exit status: 0 nothing is refused, and every journal was read; 3 there are refusals; 4 nothing is refused of what was
read, but something was not read; 1 the report cannot be written; 2 a bad command line. On a terminal standard error
shows how far it is. A year of runs on many hosts: docs/SCALE.md

Examples: the pay run of March, which has five refusals; the journals below a folder, for another program
  tools/gk assemble gk/examples/march.txt -o march.journal
  tools/gk audit --report-only march.journal
  tools/gk audit --report-only --json gk/tests/journals
";

pub const TRY: &str = "\
gk try - some calls after a journal, each with its answer

Usage: gk try JOURNAL [--at N] [--refused] [--names FILE] [-o FILE] 'CALL' ...

What would the gatekeeper say now? Each CALL is one line of gk help assemble, in quotes; they are made in their
order, on a copy of the tables that the journal leaves. Nothing is run, and the journal stays as it is. Of each call
is said what gk explain says of a record, with ways out where it is refused. A name stands for what it stood for
at that point of the journal. A call that is refused does not stop the next one.

  --at N        after record N, in place of the last one; 0 is before the first
  --refused     only the calls that were refused, and the end
  --names FILE  the names of steps, files, pipes and shops; else run.names beside run.journal, if it is there
  -o FILE       write to this file

Examples: March, where record 196 is refused; and what is advised there
  tools/gk try crates/payrun/stdin --at 195 'open-read 17 1 5' 'close 17 1' 'close 17 4' 'open-read 17 1 5'
    Tried on a copy of the tables after 195 records.
    196. Step 17 may not open file 1 for reading at place 5: it writes file 0.
      Refused (9): data could reach a file of a higher level or with a shop mark that it lacks. Nothing
        is opened.
      File 1 has level 2, and file 0 takes nothing from below level 9.
      With the handles that there are, step 17 has to stay at level 12 or above.
      This is how file 1 could get into file 0, were it let through:
        step 17 reads file 1 and writes file 0.
      Proved (RULES A1 to A12): none of these reads and writes would be refused; no chain is shorter.
      What to do: close place 1 (writing pipe 37) and place 4 (writing file 0) of step 17; open it after
        that.
      Or: let another step open it: step 0 may.
      Or: when a clerk has looked file 1 over, retire it, register it at level 12 or above, and open it
        then.
    197. Step 17 closes place 1, its writing handle on pipe 37 (level 12).
      Allowed. Place 1 is empty.
    198. Step 17 closes place 4, its writing handle on file 0 (level 9).
      Allowed. Place 4 is empty.
    199. Step 17 opens file 1 for reading at place 5.
      Allowed. File 1 has level 2; step 17 keeps level 12 until it reads.
    End of the calls: 3 allowed, 0 lowered, 1 refused.
    Handles: 155 made, 92 gone, 63 still open.
    The answers are the proved gatekeeper's. What to do is advice of gk and not proved; every advice
        that names calls was tried on a copy of the tables as they were before its record, and was
        allowed there.
The same with names
  tools/gk assemble gk/examples/march.txt -o march.journal
  tools/gk try march.journal --at 195 'close merge 4' 'open-read merge \"the hours sheet of shop 3\" 5'
";

pub const NAMES: &str = "\
Names for steps, files, pipes and shop groups

A journal has numbers alone. In a text for gk assemble a line gives a thing a name,
  name step 17 merge
  name file 1 \"the hours sheet of shop 3\"
  name pipe 37 \"pay to health insurance\"
and from the next line on the name may stand where its number would:
  open-read merge \"the hours sheet of shop 3\" 5
A name that starts with a letter and has no space needs no quotes. Texts without names are as they were.

The eight shop groups, 0 to 7, have names of their own, which stand in sets of shop marks:
  name shop 0 north
  name shop 1 east
  register \"the hours sheet of shop 3\" 2 north,east
A group that has no name is called shop 3, by its number. No group is called all or none, or shop and a number. A file
may have the name that a group has.

A name has 1 to 60 letters, digits, spaces and - _ . / + ' & @ %, with at least one letter. It has no space
at its start or end, not two spaces in a row, no dot before a space or at its end, and none of the words
step, file, pipe, place, level and record before a number.

Numbers may be used again, so a name holds from a record on: the first one behind its line. It holds until the
number gets another name, or the name another number. Where a step exits, a file is retired or a pipe ends,
and the number is used again, gk explain does not take the old name for the new thing. A step's number is 0 to
31; that of a file or pipe is 0 to 18446744073709551615, in a names file without commas; that of a shop group 0 to 7.

The names stand in a file beside the journal, run.names beside run.journal, which explain, why, disassemble, line, try
and screen find there; --names FILE names another one. Its first line is `names 1`. Each other line is empty, a comment
that starts with #, or a kind, a number, the first record and the name, with one space between two of them:
  names 1
  step 17 1 merge
  file 1 1 the hours sheet of shop 3
  step 1 204 sheet reader
  shop 0 1 north

Example:
  tools/gk assemble gk/examples/march.txt -o march.journal
  tools/gk explain --refused march.journal
";

//! What `--help` prints.

pub const PROGRAM: &str = "\
usage: wararish ask [--where] [--json] PATH.. FILE     ask a report for paths
       wararish lines [OPTIONS] FILE [PATH]            ask each line of a text for a path
       wararish index [OPTIONS] FILE                   index a report: verdict, digest, speed
       wararish sample [OPTIONS]                       write a made report, to try
       wararish COMMAND --help                         more about a command
       wararish --version

FILE is a JSON report, or for lines a text with one in each line, of up to 16,777,216 bytes; - is
standard input.

Exit status: 0 found or sound; 1 a path finds nothing; 2 the record has a fault or a broken
item, is empty or too long; 64 wrong use; 66 the file cannot be read; 74 the results cannot be
written.
";

pub const ASK: &str = "\
usage: wararish ask [--where] [--json] PATH.. FILE

Prints the part of the record that each path leads to, a line each. The line of a path that
finds nothing is empty, and a message tells why. PATH is $, then steps .name or [number]:
'$.frames[7].tiles[0].rate'. Names are compared by their characters, with their escapes read:
.name is also \"\\u006eame\". FILE - is standard input.

  --where    number, start, end and step instead, end not included; number 0 is found. 23 to 30
             tell the step of the path, from 1, and as start and end a place in the record: where
             the value begins that the step works in, or the broken item. 20 tells its place in
             the path. A step of 0 is none
  --json     an object for each path instead, a line each, with the same numbers
  --         what follows is no option

Exit status: 0 all found; 1 a path finds nothing (23 to 26); 2 the record has a fault (13 to 16)
or a broken item (27 to 30), is empty (1) or too long (2); 64 wrong use, and paths that are none
(20 to 22); 66 the file cannot be read. Of several, the greatest.

  printf '{\"a\":1,\"b\":[2,30]}' | wararish ask '$.b[1]' -
";

pub const LINES: &str = "\
usage: wararish lines [--levels L] [--where | --json] FILE [PATH]

Reads a text that has a record in each line, and indexes each line by itself. Without PATH it
prints the verdict of each, a row a line: '0 sound', or '1 faulty 13 21', with the fault's number
and its place in the line. With PATH it prints the part of each line that the path leads to, a row
a line; the row of a faulty line, or of one in which the path finds nothing, is empty. A message
tells why, and the other lines are answered all the same. PATH is as for ask.

Lines are cut at line feeds, in strings too. Those of nothing but spaces, tabs and carriage
returns are left out, and the others have the numbers 0, 1 and so on. Places are counted in the
line; a message also tells the line and column in the text, from 1. FILE - is standard input.

  --where      number, start, end and step instead of the part, as ask prints them; of a faulty
               line the fault's number, its place twice, and 0
  --json       an object for each line instead, a row a line: its number (line), where it lies in
               the text (line_start, line_end), and what ask --json tells of it, or its verdict
  --levels L   1 to 16 (as many as PATH has steps; 1 without PATH)
  --           what follows is no option

Exit status: 0 all sound, and found; 1 the path finds nothing in a line (23 to 26); 2 a line has a
fault (13 to 16) or a broken item (27 to 30), or the text is empty (1) or too long (2); 64 wrong
use, and a path that is none (20 to 22); 66 the file cannot be read. Of several, the greatest.

  printf '{\"rate\":24}\\n{\"rate\":25}\\n' | wararish lines - '$.rate'
";

pub const INDEX: &str = "\
usage: wararish index [OPTIONS] FILE

Indexes the report in FILE (- is standard input) and prints its verdict, the SHA-256 of the
index, the time and the speed. The same report and levels give the same digest, whatever the
cuts, the guesses and the order.

  --levels L                        1 to 16 (4)
  --cuts N                          N even cuts, 0 to 63, fewer where the record is short (0)
  --cuts-at A,B,..                  cuts at these bytes, multiples of 64
  --guess outside|inside|random     what is guessed of each chunk's beginning (outside)
  --order forward|backward|random   the order of the steps (forward)
  --seed S                          what random draws from (1)
  --json                            one object instead of lines
  --                                what follows is no option

Exit status: 0 sound; 2 the record has a fault (13 to 16), is empty (1) or too long (2); 64 wrong
use, and levels or cuts that are refused (3, 5, 6); 66 the file cannot be read.
";

pub const SAMPLE: &str = "\
usage: wararish sample [OPTIONS]

Writes a made report of exactly so many bytes to standard output. The same options give the same
bytes.

  --style compact|indented|strings   strings: long ones, with escapes (compact)
  --size BYTES                       512 to 1,073,741,824 (16777216, the longest for an index)

  wararish sample | wararish index -
";

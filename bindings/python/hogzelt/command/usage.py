"""What --help prints."""

HELP = """\
usage: hogzelt shorten -w WIDTH TEXT             a sum of few terms, by a list of passes
       hogzelt judge -w WIDTH TEXT TEXT          whether two have the same value, proved
       hogzelt value -w WIDTH TEXT NAME=NUMBER   the value under an assignment
       hogzelt draw -w WIDTH TEXT                the masks by place, as a picture
       hogzelt columns -w WIDTH TEXT             the places in classes, with each atom's table
       hogzelt normalize -w WIDTH TEXT           the tangle and the normalised sheet
       hogzelt write -w WIDTH -o FILE TEXT       text to a tangle file
       hogzelt show FILE                         a tangle, a sheet or what par printed, as text
       hogzelt week FILE                         the best seven days of a player
       hogzelt --version

'hogzelt COMMAND --help' says more. In place of TEXT, -f FILE or - (standard input) takes a text, a
tangle (the bytes of an expression) or a sheet (those of a sum); which it is, is seen by the bytes.

Text, its operators from the tightest to the loosest, as in C:
  ~x  -x
  x*y
  x + y  x - y      x - y is x + (-y)
  x << n  x >> n    n is a literal; x << n is x times 2^n
  x & y
  x ^ y
  x | y
Those of one row associate to the left; parentheses group. Literals are decimal, 0x.. or 0b.., below
2^64; a suffix (15u, 0xffULL, 3u8) is left out. Variables are a to z, v0 to v65535 (a is v0), and
any other name (flags, X1), which gets a number that is free. zext(16, x), sext(16, x), trunc(4, x)
and concat(x, y) can be written and shown, and are refused.

A sum is a constant and numbers times atoms; an atom has only variables, literals, & | ^ ~ and >>.
So products of variables, and & | ^ ~ >> over a variable and + - *, are refused (8). A part without
a variable is a number, as 3 & (1 + 2), wherever it is added or multiplied; beside a variable below
& | ^ it must be written without + - *, or cut to one literal by --fold: x & -2 is then read as
x & 254 at width 8. Under --rules 2 such a part is cut without --fold, and ~x over + - * counts as
-x - 1.

Exit status: 0 done; 1 a text is bad or something is refused; 2 wrong usage, or a file or the
library is missing. For judge it is as for cmp: 0 equal, 1 different, 2 anything else.

HOGZELT_SO names the shared object of the library. In a checkout it is made where it is missing:
tools/build.sh proves and builds the archive, cc makes a shared object of it.
"""

COMMON = """\
  -w, --width WIDTH   the width in bits, 1 to 64; a tangle or a sheet brings its own
  -f, --file FILE     read FILE in place of TEXT; - is standard input
  --fold              cut parts without a variable to one literal first
"""

RULES = """\
  --rules 1|2         the rules of normalising (default: 1). Under rules 2 each part without a
                      variable below & | ^ ~ is first cut to one literal, at width 8 x ^ -1 to
                      x ^ 255; then ~x over + - * counts as -x - 1. Not for a sheet
"""

PASSES = """\
  --passes LIST       the passes, by name with commas between: refine, recover, coalesce, flatten,
                      compact
"""

COMMANDS = {
    "shorten": f"""\
usage: hogzelt shorten -w WIDTH [OPTIONS] TEXT
       hogzelt shorten [-w WIDTH] [OPTIONS] -f FILE    or - for standard input

Normalises, runs a list of passes and prints the sum on one line, which can be read again, with its
par (the count of its terms) and the numbers of the variables. Where the passes would leave more
terms than normalising, the normalised sum is printed. Normalising and each pass are proved to keep
the value. Where the truth tables of up to three variables give a plainer sum, as x + y for
(x ^ y) + 2*(x & y), a last line has that too: "proved equal" where the judge (hogzelt judge) finds
it equal to the text, "not proved" where that refuses the two.

A text file has one expression a line; blank lines and lines that begin with # stay as they are. For
each line there is one, in order; what is refused becomes a line that begins with #.

{COMMON}{RULES}{PASSES}\
                      (default: flatten,coalesce,recover,refine)
  --steps             show the sheet after each call
  -q, --quiet         print only the sum
  --json              one object a line: width, rules, text, refusal with its place, sum, constant,
                      terms, par before and after, plainer sum and whether it is proved, variables
  --jobs N            processes for a file (default: one for each processor)

Examples:
  tools/hogzelt shorten -w 8 'x ^ 15'
  tools/hogzelt shorten -w 8 --fold --steps '(x & -2) + (x & 1)'
  tools/hogzelt shorten -w 8 --rules 2 '~(x + y) + (x ^ -1)'
  tools/hogzelt shorten -w 64 --json -f examples/daily.txt
""",
    "judge": f"""\
usage: hogzelt judge -w WIDTH [OPTIONS] TEXT TEXT
       hogzelt judge -w WIDTH [OPTIONS] 'TEXT == TEXT'
       hogzelt judge [OPTIONS] --left FILE --right FILE    or one of them, and a TEXT
       hogzelt judge -w WIDTH [OPTIONS] -f FILE            or - for standard input

Says whether two expressions have the same value under every assignment. That is proved either way:
where they differ, it shows the first assignment that tells them apart, of one bit at most in each
variable and at the lowest place, with both values. A name is one variable in both.

Both must be sums as 'hogzelt --help' has them, by rules 1, of one width (11), with at most five
variables together (12) and no >> by more than 0 over a variable (13), also where a factor is 0.

A file that -f names has a pair a line: TEXT == TEXT, or two texts with a tab between. Blank lines
and lines that begin with # stay as they are. For each line there is one, in order; what is refused
becomes a line that begins with #.

  -w, --width WIDTH   the width in bits, 1 to 64; a tangle brings its own, for a text beside it too
  --left FILE         read FILE, a text or a tangle, as the left one; - is standard input
  --right FILE        read FILE as the right one
  -f, --file FILE     read pairs from FILE; - is standard input
  --fold              cut parts without a variable to one literal first
  -q, --quiet         print nothing but what is wrong; the status tells
  --json              one object a line: width, text, refusal with its side, line and column, equal,
                      proved, place, index, variables with their values, left, right
  --jobs N            processes for a file (default: one for each processor)

Exit status: 0 equal, 1 different, 2 refused, wrong usage, or a file or the library is missing. For
a file of pairs: 2 where a line is refused, else 1 where a pair is different, else 0.

Examples:
  tools/hogzelt judge -w 64 'x + y' '(x ^ y) + 2*(x & y)'
  tools/hogzelt judge -w 8 'x | y == x + y'
  tools/hogzelt judge --left examples/xor15.tangle 'a + 15 - 2*(a & 15)'
  tools/hogzelt judge -w 64 -f examples/pairs.txt
""",
    "value": f"""\
usage: hogzelt value -w WIDTH [--fold] [-q] TEXT [NAME=NUMBER]..
       hogzelt value -f FILE [NAME=NUMBER]..

Prints the value of a text, a tangle or a sheet; variables without a number are 0.

{COMMON}\
  -q, --quiet         print only the number

Examples:
  tools/hogzelt value -w 8 'a ^ 15' a=5
  tools/hogzelt value -w 8 'flags & ~1' flags=0x1f
""",
    "columns": f"""\
usage: hogzelt columns -w WIDTH TEXT
       hogzelt columns -f FILE

Prints the classes of places: those at which every atom of the normalised sheet has the same table.
Under each class stands each atom's table: a row of bits for each of its variables, then its own.

{COMMON}{RULES}{PASSES}\
                      (default: none)

Examples:
  tools/hogzelt columns -w 8 '(a & 15) + (a ^ b)'
  tools/hogzelt columns -w 8 --passes refine '16*(a & 255)'
""",
    "draw": f"""\
usage: hogzelt draw -w WIDTH [--svg FILE] TEXT
       hogzelt draw [--svg FILE] -f FILE

Draws the normalised sheet by place: a ruler, the constant, and each term's mask, masks upon masks
joined; bits that cannot matter beside the coefficient are dimmed, and a second row shows where an
even coefficient moves them and what it pushes off the end. Colours stand only in a terminal, and
not where NO_COLOR is set.

{COMMON}{RULES}{PASSES}\
                      (default: none)
  --svg FILE          write the picture to FILE, for a browser

Examples:
  tools/hogzelt draw -w 8 '16*(a & 255) + (b ^ 15)'
  tools/hogzelt draw -w 8 --svg picture.svg '16*(a & 255) + (b ^ 15)'
""",
    "normalize": f"""\
usage: hogzelt normalize -w WIDTH [-o FILE] TEXT
       hogzelt normalize [-o FILE] -f FILE

Shows the tangle and its normalised sheet.

{COMMON}{RULES}\
  -o, --output FILE   also write the sheet's bytes to FILE; one that is there is replaced

Examples:
  tools/hogzelt normalize -w 8 'a ^ 15'
  tools/hogzelt normalize -o xor.sheet -f examples/xor15.tangle
""",
    "write": f"""\
usage: hogzelt write -w WIDTH [-o FILE] TEXT
       hogzelt write -w WIDTH [-o FILE] -f TEXTFILE    the file may have several lines

Writes the tangle file of a text. Where the text is bad nothing is written. Literals stay whole in
the file; a note says which are cut at this width.

{COMMON}\
  -o, --output FILE   the file to write; one that is there is replaced. Without it the bytes go to
                      standard output, if that is no terminal

Examples:
  tools/hogzelt write -w 8 -o xor.tangle 'a ^ 15'
  tools/hogzelt write -w 8 'a ^ 15' | crates/par/out/par
""",
    "show": """\
usage: hogzelt show [-w WIDTH] [--text] [FILE]        FILE may be - for standard input

Shows a tangle, a sheet (its used length), a text as the tangle that it makes, or what the program
par printed. A damaged file is answered by the record and its fault. Masks, the constant and
coefficients are shown in hexadecimal, the last two with their signed reading beside them.

  --text              of a tangle only the text, which 'hogzelt write' makes the same bytes of
  -w, --width WIDTH   for a text, and for what par printed, to show the signed readings too

Examples:
  tools/hogzelt show examples/xor15.tangle
  tools/hogzelt show --text examples/xor15.tangle
""",
    "week": """\
usage: hogzelt week [-q] [-o FILE] [FILE]             FILE may be - for standard input

Prints the seven consecutive days with the lowest total of moves minus par, the earliest where some
have the same total. FILE is text, a line for each day that was played: the number of the day, its
par and the moves, with blanks, tabs, commas or semicolons between. Blank lines, lines that begin
with # and a first line of names (day, par, moves) are left out. The days must rise, and there are
at most 4,096. The bytes of a run, 16 for each day, are taken too.

  -q, --quiet         print only the total and the first day, or none
  -o, --output FILE   also write the run's bytes to FILE; one that is there is replaced

Examples:
  tools/hogzelt week examples/season.txt
  printf '%s 3 1\\n' 0 1 2 3 4 5 6 | tools/hogzelt week -
""",
}

"""How each command of `zaru` is used: its words, options and help."""

from __future__ import annotations

from argparse import Namespace
from dataclasses import dataclass
from typing import Any, Callable, Dict, Iterable, Tuple

from zaru import commands
from zaru.arguments import Once, Parser
from zaru.blocked import BUDGET
from zaru.drawing import MOST_STEPS
from zaru.files import TEXT_ENDING
from zaru.steps import LONGEST_ORDER

# The names of an argument, and what argparse is to know of it.
Argument = Tuple[Tuple[str, ...], Dict[str, Any]]


def word(name: str, **more: Any) -> Argument:
    return (name,), {"metavar": name.upper(), **more}


def option(name: str, told: str, **more: Any) -> Argument:
    return (name,), {"action": Once, "help": told, **more}


def flag(name: str, told: str) -> Argument:
    return option(name, told, nargs=0, default=False)


KIND = word("kind", metavar="c|s", help="concurrent or sequential")
TABLE = word("table", help=f"a file of bytes, or of text if its name ends in {TEXT_ENDING}; - is standard input")
ORDER = word("order", nargs="*", default=[], help="the thread of each step: `0 0 0 1` or `0,0,0,1` or `0*3 1`")
ORDER_FILE = option("--order", "a file that has the order; - is standard input", dest="order_file", metavar="FILE")
ROUNDS = word("rounds", help="how many rounds an order has")
STEPS = word("steps", help="the most steps of a thread in a round")
WRITTEN = "the file to write; - is standard output"
DRAWN = "a file for the picture of what was found, as `zaru picture` draws it"
SHARE = flag("--share", "a copy in which locals share locations (`zaru help translate`)")
JSON = flag("--json", "print the answer as one JSON object (docs/JSON.md)")


def output(name: str, told: str) -> Argument:
    return option("-o", told, dest="output", metavar=name, required=True)


@dataclass(frozen=True)
class Command:
    usage: str
    do: Callable[[Namespace], Iterable[str]]
    text: str
    arguments: Tuple[Argument, ...]

    def parser(self) -> Parser:
        parser = Parser(self.usage, self.text.strip("\n"))
        for names, known in self.arguments:
            parser.add_argument(*names, **known)
        parser.add_argument("-h", "--help", action="help", help="print this")
        return parser


COMMANDS: Dict[str, Command] = {
    "read": Command(
        "zaru read c|s TABLE [--json]",
        commands.read,
        """
Asks the proved reader whether it accepts a concurrent (c) or sequential (s) table, and prints its counts.
""",
        (KIND, TABLE, JSON),
    ),
    "translate": Command(
        "zaru translate TABLE -o COPY [--share]",
        commands.translate,
        """
Writes the sequential copy of a concurrent table to the file COPY: its bytes or, if the name ends in .zaru, its text.

The copy keeps each local in a location of its own, with a cell for each thread. With --share the locals of procedures that are
never active together in a thread share locations: a procedure's locals begin behind those of its callers, and at the first
place of the row if nobody calls it. No fixed placement takes fewer. The steps of a run and their prices stay the same. In
a text such a location has the names of the locals that share it (first_x__second_y), and all of them as a comment.
""",
        (TABLE, output("COPY", WRITTEN), SHARE),
    ),
    "run": Command(
        "zaru run TABLE ORDER.. [--order FILE] [--events] [--share] [--json]",
        commands.run,
        """
Runs a concurrent table and its copy in this order of its threads.

The first line is the run program's: the end (finished, used: the order has no entry left, or blocked), the program's
steps, the copy's steps, the entries that were not used, the shared reads and writes, and why it blocked: 1 outside the
number range, 2 wrong kind, 3 index outside, 4 finished thread chosen, 0 not blocked. A blocked run has a second line,
which says in words where it stopped and why. Then come the final cells.

With --events the shared reads and writes are listed, in the order of the steps: the thread, the label of the step that made
it (in an atomic block, the block's), and what was read or written where. At most 4,096 are listed.
""",
        (TABLE, ORDER, ORDER_FILE, flag("--events", "list the shared reads and writes"), SHARE, JSON),
    ),
    "trace": Command(
        "zaru trace TABLE ORDER.. [--order FILE] [--plain] [--share] [--json]",
        commands.traced,
        f"""
Prints a line for each step of a run: its thread, its label, the instruction, what it set, where a test or call led, and
what it read and wrote, each with the label that the proved program has in its record of it. Then it says how the run
ended and, if it was blocked, where and why. Of an instruction it names the parts that can block so: which of several it
was is not known.

With --plain the run is that of the plain engine, as it is worked on paper (docs/TRAINING.md): of each step the report's rule,
and then the thread's frames, the one that runs first. A frame is a procedure, its locals that are set, and below them
the rows of instructions still to do, the innermost first; `..` stands for what is inside an instruction.
An order has at most {LONGEST_ORDER} entries here.
""",
        (TABLE, ORDER, ORDER_FILE, flag("--plain", "the report's machine: rules, frames and rows"), SHARE, JSON),
    ),
    "cost": Command(
        "zaru cost TABLE ORDER.. [--order FILE] [--share]",
        commands.costs,
        f"""
Prints what a run costs the sequential copy: its steps up to its first loop head, and up to the one behind each step of
the program. With T threads and L labels these are 3T + 2 and then, for each step, L + 2T + 10 and the step's price.

Of each step it prints the price that is listed for its label, and the one that the step had. They differ only at an atomic
block with an if, whose price depends on the branch: there the least and the most are listed.
An order has at most {LONGEST_ORDER} entries here.
""",
        (TABLE, ORDER, ORDER_FILE, SHARE),
    ),
    "picture": Command(
        "zaru picture TABLE ORDER.. [--order FILE] -o FILE.svg|FILE.html [--share]",
        commands.pictured,
        f"""
Draws a run: a column for each thread and for each shared cell that is touched, a row for each step, an arrow from cell to
thread for a read and from thread to cell for a write, with the values. A file that ends in .html gets a page with the
drawing and the table of the trace.

Marked, and printed too, is each write that rests on a read which another thread's write has made old; what the other
thread wrote is lost if both wrote to that cell. So is the step that blocked, with its label and the reason.
An order has at most {LONGEST_ORDER} entries here. Of a run of over {MOST_STEPS} steps the beginning, the end and what is
marked are drawn.
""",
        (TABLE, ORDER, ORDER_FILE, output("FILE", "the file to write"), SHARE),
    ),
    "bench": Command(
        "zaru bench TABLE ROUNDS STEPS [-o FILE.svg|FILE.html] [--json]",
        commands.benched,
        """
Tries the round-robin orders of a concurrent table and stops at the first whose run blocks.

In each round every thread has a turn, thread 0 first, and takes from 0 to STEPS steps in it; a thread that is finished
rests. An order says how many steps each turn has. They are tried by rising steps of the first turn, among these by
rising steps of the second, and so on. STEPS is 1 to 64, and of (STEPS + 1) to the power of ROUNDS * T orders, for T
threads, there may be 1,000,000.

Of the first order that blocks it prints the steps by rounds and threads, the schedule that they are, why the run blocks,
and the command that shows it step by step. Or it says that none blocks. What must hold in a program is written into it
as `assert e` (`zaru help asm`): an assertion that fails blocks.
""",
        (TABLE, ROUNDS, STEPS, option("-o", DRAWN, dest="output", metavar="FILE"), JSON),
    ),
    "copy": Command(
        "zaru copy COPY ORDER.. [--order FILE] [--budget N] [--h N]",
        commands.copy_run,
        f"""
Runs a sequential table alone, in this order.

The first line has the end (finished, used, blocked, or budget: as many steps as the budget allows), the steps, the
entries that were not used, the events and why it blocked, by the numbers of `zaru run` (3 also for a select whose entry
is outside, 2 and 4 for one whose cell is no number or 0). Then come the final cells.
The budget is {BUDGET:,} steps unless it is given. Events of locations below h are counted; all, unless h is given.
""",
        (
            word("table", metavar="COPY"),
            ORDER,
            ORDER_FILE,
            option("--budget", "the most steps", metavar="N"),
            option("--h", "locations from here on have no events", metavar="N"),
        ),
    ),
    "show": Command(
        "zaru show c|s TABLE",
        commands.show,
        """
Prints an accepted table as text. `zaru asm` reads the text back to the same bytes.

A concurrent one has its labels as comments, each with its price: how many steps of the copy's procedure for that label a
step there takes (`// label 2, price 7`). An atomic block with an if has a least and a most (`price 9 to 14`).
""",
        (KIND, TABLE),
    ),
    "asm": Command(
        "zaru asm TEXT -o TABLE",
        commands.assemble,
        """
Turns a text into a table, has the proved reader judge it and writes it to the file TABLE.

    concurrent                // or sequential
    location cell[1]          // a shared location and its size

    procedure work()
      locals p, v
      p := cell               // a location as a value
      v := p[0]               // a read
      p[0] := v + 1           // a write
      while v < 10
        call add(p, -5)
        v := p[0]
      end
      assert not (v < 10)     // what must hold; the run blocks where it does not
      if not (v = 0) and true
        v := v * 2
      else                    // may be left out
        v := -v
      end
    end

    procedure add(place, share)
      locals old
      atomic                  // one step; concurrent programs only
        old := place[0]
        place[0] := old + share
      end
    end

    thread work               // a line for each thread; concurrent programs only
    thread work

Each instruction has its own line. -5 is a number, -(5) is the negation of 5. The first procedure of a sequential
program may have `select chosen from waiting`, with two locations. docs/TEXT.md has the whole form.
""",
        (word("text", help="a file of text; - is standard input"), output("TABLE", WRITTEN)),
    ),
    "c": Command(
        "zaru c TABLE -o TEXT.c [--share]",
        commands.to_c,
        """
Writes a sequential table as C11 text; of a concurrent table its copy. docs/C-TEXT.md has the rules of the text, byte by byte.

m0, m1, .. are the cells of its locations, p0, p1, .. its procedures: in a copy p3 simulates label 3. The text calls four
functions that are not in it. share/run.c has them for a run in a given order:

    cc TEXT.c share/run.c -o program
    printf '\\0\\0\\1\\1' | ./program BUDGET H

share/eva.c has them for a value analysis that looks at all orders at once (docs/RANGE-TOOL.md). After `make install` both
files are in PREFIX/share/zaru.
""",
        (TABLE, output("TEXT.c", WRITTEN), SHARE),
    ),
    "from-c": Command(
        "zaru from-c TEXT.c -o TABLE",
        commands.from_c,
        """
Reads a C text that `zaru c` printed and writes its table. The table is the one that was printed, byte by byte. Every other
text is refused by 1, also one that differs in a single blank.
""",
        (word("text", metavar="TEXT.c", help="a file of C text; - is standard input"), output("TABLE", WRITTEN)),
    ),
    "mend": Command(
        "zaru mend c|s TABLE -o NEW | --in-place",
        commands.mend,
        """
Mends a concurrent (c) or sequential (s) table whose last sixteen bytes, the trailer, were lost or scrambled.

If the table is accepted as it is there is nothing to mend. Otherwise the proved mender looks for the numbers of procedures,
locations and threads that make an accepted table of these bytes. If there is one choice, it writes the trailer for it; each
byte that it changed is listed, by its place in the file, counted from 0. Bytes before the last sixteen are never changed.
It refuses where no choice is accepted, and where more than one is: nothing is guessed.

NEW is written in both cases, so that it holds an accepted table. The table that is given stays as it is, unless --in-place
is said. With -o - the list goes to standard error.
""",
        (
            KIND,
            word("table", help="a file of bytes; - is standard input"),
            option("-o", WRITTEN, dest="output", metavar="NEW"),
            flag("--in-place", "overwrite the table that is given"),
        ),
    ),
}

OVERVIEW = f"""\
zaru: concurrent programs, their sequential copies, and what both do in a given order

  zaru read c|s TABLE               is the table accepted? its counts
  zaru translate TABLE -o COPY      writes its sequential copy; --share: locals share locations
  zaru run TABLE ORDER..            runs program and copy in this order of threads; --events
  zaru trace TABLE ORDER..          the same, a line for each step; --plain: rules, frames and rows
  zaru cost TABLE ORDER..           the copy's steps, a line for each step of the program
  zaru picture TABLE ORDER.. -o F   draws the run: F.svg or F.html
  zaru bench TABLE ROUNDS STEPS     tries round-robin orders: the first that blocks; -o F draws it
  zaru copy COPY ORDER..            runs a sequential table alone; --budget N, --h N
  zaru show c|s TABLE               the table as text, with its labels and their prices
  zaru asm TEXT -o TABLE            text to table
  zaru c TABLE -o TEXT.c            the table, or its copy, as C text for other tools
  zaru from-c TEXT.c -o TABLE       such a text to its table
  zaru mend c|s TABLE -o NEW        writes a lost trailer anew; --in-place
  zaru help [COMMAND]               more about a command; zaru --version

A table is a file of bytes, or of text if its name ends in {TEXT_ENDING}; - is standard input, and -o - standard output.
An order is `0 0 0 1` or `0*3 1`, or is read from a file: --order FILE. read, run, trace and bench have --json.
What makes a copy (translate, run, trace, cost, picture, c) has --share.
Every answer comes from the proved program; what zaru makes of text is not proved, but checked (zaru/README.md).
Exit status: 0 done, 1 refused, 2 wrong use, 3 no proved program or an old one, 4 a fault of zaru.
"""

#!/usr/bin/env python3
"""Writes every number of the tables, in the source and in the specification, and the proofs of the look-ups.

generate.py writes; generate.py --check compares with what stands and fails on any difference.
"""

import pathlib
import sys

HERE = pathlib.Path(__file__).resolve().parent
sys.path.insert(0, str(HERE.parent))
from make_tables import constants, reciprocal_logs, step_table  # noqa: E402

CRATES = HERE.parent.parent / "crates"
WIDTH = 48


# ---- the specification's lists
def whole(v):
    return f"pos {v}" if v >= 0 else f"neg {-v}"


def gauss(entry):
    return "gi (%s) (%s)" % tuple(map(whole, entry))


def listed(items, indent):
    """Items of a list, one to a line."""
    pad = " " * indent
    return "".join(f"{pad}{'∷ ' if i else ''}{item}\n" for i, item in enumerate(items)) + f"{pad}∷ []"


def row_of(entries):
    return "(" + " ∷ ".join(map(gauss, entries)) + " ∷ [])"


def nested(rows, width):
    """A list of rows, so many entries to a line."""
    out = []
    for row in rows:
        chunks = [row[i:i + width] for i in range(0, len(row), width)]
        out.append("(" + "\n    ".join(" ∷ ".join(map(gauss, c)) + " ∷" for c in chunks) + " [])")
    return listed(out, 4)


MADE = "Made by tests/tables/generate.py."


def numbers_spec():
    steps = listed(["(" + "\n    ∷ ".join(row_of(row) for row in rows) + "\n    ∷ [])" for rows in step_table(WIDTH)], 4)
    quarter_pi, ln_2, half_ln_2 = constants(WIDTH)
    return f"""-- The tables of logarithms and the constants at the width {WIDTH}, each number as the nearest unit of 1/2^{WIDTH}. {MADE}
use Rattle.std.specs.Prelude.{{List, [], ◌∷◌, pos}}
use Rattle.algebra.specs.Gauss.{{𝔾, gi}}
use Rattle.table_numbers.specs.Listed.{{neg}}
use Rattle.table_numbers.specs.Promise.{{Constants}}

-- ln(1 + d/2^n): for each n from 1 to {WIDTH - 8} three rows by dx, each of three entries by dy, from −1 to 1 (01, The step)
unfoldable pub step_logs : List (List (List 𝔾))
step_logs =
{steps}

-- ln((a + ib)/64): for each X from 17 to 31 by Y from −31 to 31
unfoldable pub reciprocal_logs : List (List 𝔾)
reciprocal_logs =
{nested(reciprocal_logs(WIDTH), 3)}

-- the constants of EXP's reduction (02, E5)
unfoldable pub constants48 : Constants
constants48 = record {{ quarter_pi = {quarter_pi}; ln_2 = {ln_2}; half_ln_2 = {half_ln_2} }}
"""


# ---- the source
def number_fields(entry):
    fields = "re: %d, im: %d" % entry
    if len(fields) <= 18:
        return "Entry { %s }" % fields
    return "Entry {\n    re: %d,\n    im: %d,\n}" % entry


def indented(text, depth):
    return text.replace("\n", "\n" + "    " * depth)


def step_name(n, place):
    return f"STEP_{n}_{('MINUS', 'ZERO', 'PLUS')[place]}"


def array_source():
    """The array over n of three rows of three entries, and its reader."""
    steps = range(1, WIDTH - 7)
    matrices = "".join("    [%s],\n" % ", ".join(f"t::{step_name(n, place)}" for place in range(3)) for n in steps)
    return f"""// The array over n, each element three rows by dx of three entries by dy, at the width {WIDTH}. {MADE}
ghost use Rattle.std.specs.Prelude.{{◌≡◌, ◌<◌, ◌+◌}};
ghost use Rattle.table_numbers.specs.Rows.{{step_row, part}};

use step_table::rows{WIDTH} as t;
use table_numbers::Entry;

static STEPS: [[[Entry; 3]; 3]; {len(steps)}] = [
{matrices}];

pub fn row(i: usize, place: usize) -> [Entry; 3]
    requires {{ (i < {len(steps)}) × (place < 3) }}
    ensures {{ result ≡ step_row (i + 1) (part place) }}
{{
    STEPS[i][place]
}}
"""


def steps_source():
    out = [f"// The step table at the width {WIDTH}: a named row for each n and dx. {MADE}\nuse table_numbers::Entry;\n"]
    none = "Entry { re: 0, im: 0 }"
    out.append(f"""
// What stands outside the table.
pub const NO_STEP: [Entry; 3] = [
    {none},
    {none},
    {none},
];
""")
    for n, rows in enumerate(step_table(WIDTH), 1):
        for place, row in enumerate(rows):
            entries = "".join(f"    {indented(number_fields(e), 1)},\n" for e in row)
            out.append(f"\npub const {step_name(n, place)}: [Entry; 3] = [\n{entries}];\n")
    return "".join(out)


def line_source():
    """The rows in one line, from the number 0 on."""
    names = ["NO_STEP"] * 3 + [step_name(n, place) for n in range(1, WIDTH - 7) for place in range(3)]
    rows = "".join(f"    t::{name},\n" for name in names)
    return f"""// The rows of the step table at the width {WIDTH} in one line, three to an n. {MADE}
use crate::rows{WIDTH} as t;
use table_numbers::Entry;

pub static ROWS: [[Entry; 3]; {len(names)}] = [
{rows}];
"""


def reciprocal_logs_source():
    cells = [entry for column in reciprocal_logs(WIDTH) for entry in column]
    entries = "".join(f"    {indented(number_fields(e), 1)},\n" for e in cells)
    return f"""// The logarithms of the reciprocals at the width {WIDTH}, by their cells. {MADE}
ghost use Rattle.std.specs.Prelude.{{◌≡◌}};
ghost use Rattle.table_numbers.specs.Rows.{{reciprocal_log_at}};

use table_numbers::Entry;

static LOGS: [Entry; {len(cells)}] = [
{entries}];

pub fn reciprocal_log_at(cell: usize) -> Entry
    ensures {{ result ≡ reciprocal_log_at cell }}
{{
    if cell < LOGS.len() {{
        LOGS[cell]
    }} else {{
        Entry {{ re: 0, im: 0 }}
    }}
}}
"""


# ---- the proofs of the look-ups: the specification computes to what is read
def reciprocal_logs_proof():
    module = f"Rattle.reciprocal_table.proofs.reciprocal_logs{WIDTH}.reciprocal_log_at"
    return f"""-- `reciprocal_table::reciprocal_logs{WIDTH}::reciprocal_log_at` meets its contract: the line is the specification's. {MADE}
use Rattle.std.proofs.Common.{{arith, rules}}
use Rattle.table_numbers.specs.Numbers{WIDTH}.{{reciprocal_logs}}
use Rattle.table_numbers.proofs.RowLaws.{{cells, cells_at, cells_over}}
use {module}.Goals as goal

pub returns-then-cell-lt256 : goal.returns-then-cell-lt256
unfolding reciprocal_logs cells
returns-then-cell-lt256 c = cells_at 0 256 c.args.cell c.args.cell (omega arith) (search rules)

pub returns-else-cell-lt256 : goal.returns-else-cell-lt256
returns-else-cell-lt256 c = cells_over c.args.cell (search rules)
"""


def array_proof():
    module = f"Rattle.step_array.proofs.array{WIDTH}.row"
    return f"""-- `step_array::array{WIDTH}::row` meets its contract: the array is the specification's. {MADE}
use Rattle.table_numbers.specs.Numbers{WIDTH}.{{step_logs}}
use Rattle.table_numbers.specs.Table.{{step_table}}
use Rattle.table_numbers.specs.Rows.{{step_row}}
use Rattle.step_array.proofs.Matrices.{{matrices, matrices_at}}
use {module}.Goals as goal

pub returns : goal.returns
unfolding step_row matrices step_table step_logs
returns c = matrices_at 1 {WIDTH - 8} c.args.i c.args.place c.requires.0 c.requires.1
"""


FILES = {
    f"table_numbers/specs/Numbers{WIDTH}.antt": numbers_spec,
    f"step_table/src/rows{WIDTH}.rt": steps_source,
    f"step_table/src/line{WIDTH}.rt": line_source,
    f"reciprocal_table/src/reciprocal_logs{WIDTH}.rt": reciprocal_logs_source,
    f"reciprocal_table/proofs/reciprocal_logs{WIDTH}/reciprocal_log_at/Answers.antt": reciprocal_logs_proof,
    f"step_array/src/array{WIDTH}.rt": array_source,
    f"step_array/proofs/array{WIDTH}/row/Answers.antt": array_proof,
}


def main(arguments):
    if arguments not in ([], ["--check"]):
        sys.exit("usage: generate.py [--check]")
    stale = []
    for name, make in FILES.items():
        path, text = CRATES / name, make()
        if arguments:
            if not path.exists() or path.read_text(encoding="utf-8") != text:
                stale.append(name)
        else:
            path.parent.mkdir(parents=True, exist_ok=True)
            path.write_text(text, encoding="utf-8")
    if stale:
        sys.exit("not what generate.py writes: " + ", ".join(stale))


if __name__ == "__main__":
    main(sys.argv[1:])

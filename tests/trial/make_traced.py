"""Writes the crates try_core and try_dispatch: copies of k_core and k_dispatch that keep a line of text for each step.

    python3 compare/make_traced.py

Each replacement has to fit exactly once, so that what is traced is the code itself.
"""

import shutil
from pathlib import Path

TOP = Path(__file__).resolve().parent.parent
CRATES = TOP / "crates"

CORE = {
    "lib.rt": [
        ("mod logs;\n", "mod logs;\nmod trace;\n"),
    ],
    "turn.rt": [
        ("use k_carrier::{Carrier, Running", "use crate::trace::Trace;\nuse k_carrier::{Carrier, Running"),
        ("pub(crate) fn make_turn(script: &Script, carrier: &mut Carrier, shared: &mut Shared) -> Turn {",
         "pub(crate) fn make_turn(script: &Script, carrier: &mut Carrier, shared: &mut Shared, trace: &mut Trace) -> Turn {"),
        ("    let asked = carrier.next(script);\n", "    let asked = carrier.next(script);\n    trace.begin(carrier, &asked);\n"),
        ("    let found = shared.perform(context, asked);\n",
         "    let found = shared.perform(context, asked);\n    trace.answered(&found);\n"),
    ],
    "world.rt": [
        ("use crate::turn::{Course, make_turn};\n", "use crate::trace::Trace;\nuse crate::turn::{Course, make_turn};\n"),
        ("    made: u64,\n}\n", "    made: u64,\n    trace: Trace,\n}\n"),
        ("            made: 0,\n", "            made: 0,\n            trace: Trace::new(alloc),\n"),
        ("make_turn(script, carrier, &mut self.shared)", "make_turn(script, carrier, &mut self.shared, &mut self.trace)"),
        ("    /// How many atomic steps were made.\n",
         "    pub fn note(&mut self, c: u8, stepped: Stepped) -> Result<(), NoMemory> {\n"
         "        self.trace.end(self.made - 1, c, stepped)\n    }\n\n"
         "    pub fn trace(&self) -> &[u8] {\n        self.trace.lines()\n    }\n\n"
         "    /// How many atomic steps were made.\n"),
    ],
}

DISPATCH = {
    "schedule.rt": [
        ("    let stepped = world.step(script, c);\n",
         "    let stepped = world.step(script, c);\n    world.note(c, stepped)?;\n"),
    ],
    "run.rt": [
        ("    pub made: u64,\n}\n", "    pub made: u64,\n    pub trace: Vec<u8>,\n}\n"),
        ("        made: world.made(),\n", "        made: world.made(),\n        trace: Vec::from_slice(alloc, world.trace())?,\n"),
    ],
}


def copy(source: str, target: str, changes: dict) -> None:
    folder = CRATES / target
    if folder.exists():
        shutil.rmtree(folder / "src", ignore_errors=True)
    for part in ("src", "specs", "proofs"):
        (folder / part).mkdir(parents=True, exist_ok=True)
    for part in ("specs", "proofs"):
        (folder / part / "Lib.antt").write_text("")
    for file in sorted((CRATES / source / "src").glob("*.rt")):
        text = file.read_text()
        # what contracts cite stays behind
        for old, new in changes.get(file.name, []):
            assert text.count(old) == 1, (file.name, old, text.count(old))
            text = text.replace(old, new)
        text = text.replace("k_core", "try_core")
        (folder / "src" / file.name).write_text(text)


def main() -> None:
    copy("k_core", "try_core", CORE)
    copy("k_dispatch", "try_dispatch", DISPATCH)
    shutil.copy(TOP / "compare" / "trace.rt", CRATES / "try_core" / "src" / "trace.rt")


main()

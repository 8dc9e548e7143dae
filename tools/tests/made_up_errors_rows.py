"""Shows to `tools/made_up_errors.py` sources that make want of memory up, and sources that do not."""
import os
import sys

HERE = os.path.dirname(os.path.abspath(__file__))
sys.path.insert(0, os.path.dirname(HERE))
from made_up_errors import made_facts, values

# lines of code, each with how often it makes the error of an allocation
CODE = [
    ("    return Err(AllocError);", 1),
    ("    let error = AllocError;", 1),
    ("    Err(Fault { cause: AllocError })", 1),
    ("    let fault = (AllocError, AllocError);", 2),
    ("use std::alloc::AllocError as Short;", 1),
    ("type Short = AllocError;", 1),
    ("use std::alloc::{AllocError, Global};", 0),
    ("pub fn copy(alloc: Global) -> Result<Vec<u8>, AllocError>", 0),
    ("pub fn memory_is_short(_refusal: AllocError)", 0),
    ("    fn from(error: AllocError) -> AsmFault {", 0),
    ("impl From<AllocError> for AsmFault {", 0),
    ("    // an `AllocError` as any other", 0),
]
# files of definitions and of proofs, each with whether it could make the fact that memory is short
FACTS = [
    ("c_parser/proofs/Faults.antt", "made = of_refusal error", True),
    ("c_parser/proofs/Faults.antt", "use Rattle.bk_memory.specs.Shortage.{MemoryIsShort, of_refusal as made}", True),
    ("c_parser/proofs/Faults.antt", "use Rattle.bk_memory.specs.Shortage as shortage", True),
    ("c_parser/specs/Faults.antt", "use Rattle.std.specs.declared.alloc.AllocError.{AllocError}", True),
    ("c_parser/src/fault.rt", "ghost use Rattle.bk_memory.specs.Shortage.{of_refusal};", True),
    ("c_parser/src/fault.rt", "ghost use Rattle.bk_memory.specs.Shortage.{MemoryIsShort};", False),
    ("c_parser/specs/Faults.antt", "use Rattle.bk_memory.specs.Shortage.{MemoryIsShort}", False),
    ("c_parser/specs/Faults.antt", "-- what of_refusal gives", False),
    ("bk_memory/proofs/memory_is_short/Answers.antt", "returns c = of_refusal c.args._refusal", False),
]


def main():
    differing = [line for line, count in CODE if values(line) != count]
    differing += [f"{name}: {text}" for name, text, makes in FACTS if any(made_facts(name, text)) != makes]
    for row in differing:
        print(row)
    print(f"{len(CODE) + len(FACTS)} rows, of which {len(differing)} differ")
    return 1 if differing else 0


sys.exit(main())

"""Words of Alpha instructions from GNU as, an assembler that is not ours.

Needs Debian's binutils-alpha-linux-gnu.
"""

import os
import subprocess
import tempfile


def assembled(lines):
    """The words of these lines, by GNU as."""
    with tempfile.TemporaryDirectory() as folder:
        source = os.path.join(folder, "lines.s")
        made = os.path.join(folder, "lines.o")
        text = os.path.join(folder, "lines.bin")
        with open(source, "w") as file:
            file.write(".set noat\n.set nomacro\n.text\n")
            file.writelines(line + "\n" for line in lines)
        subprocess.run(["alpha-linux-gnu-as", "-mev56", "-o", made, source], check=True)
        subprocess.run(["alpha-linux-gnu-objcopy", "-O", "binary", "-j", ".text", made, text], check=True)
        with open(text, "rb") as file:
            data = file.read()
    return [int.from_bytes(data[i : i + 4], "little") for i in range(0, 4 * len(lines), 4)]

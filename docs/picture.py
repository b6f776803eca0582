#!/usr/bin/env python3
"""Draws docs/waves.png, the picture in docs/reference/aigprove.md, by running gtkwave on a virtual screen: picture.py [OUT]

The run is the one that `aigprove --vcd` writes for examples/queue.v. If gtkwave, Xvfb or yosys isn't installed, the script draws nothing,
and prints a message."""
import os
import pathlib
import shutil
import subprocess
import sys
import tempfile

DOCS = pathlib.Path(__file__).resolve().parent
TOP = DOCS.parent
# The window, and what it is given more on the screen.
SIZE, ROOM = (1000, 280), 100
SETTINGS = f"hide_sst 1\ninitial_window_x {SIZE[0]}\ninitial_window_y {SIZE[1]}\n"
SCRIPT = """gtkwave::addSignalsFromList [list queue.clk queue.push queue.pop {queue.count[2:0]} queue.full queue.popped]
gtkwave::/View/Left_Justified_Signals
gtkwave::nop
gtkwave::/Time/Zoom/Zoom_Full
gtkwave::nop
gtkwave::/File/Grab_To_File picture.png
exit
"""


def draw(folder):
    """Draws the picture in a folder."""
    words = [TOP / "bin" / "aigprove", "--engine", "steps", "-q", "--vcd", folder / "run.vcd", TOP / "examples" / "queue.v"]
    subprocess.run(words, stdout=subprocess.DEVNULL)
    (folder / "settings").write_text(SETTINGS)
    (folder / "script.tcl").write_text(SCRIPT)
    told, telling = os.pipe()
    words = ["Xvfb", "-displayfd", str(telling), "-screen", "0", f"{SIZE[0] + ROOM}x{SIZE[1] + ROOM}x24"]
    with subprocess.Popen(words, pass_fds=[telling], stderr=subprocess.DEVNULL) as screen:
        os.close(telling)
        with open(told) as number:
            environment = {**os.environ, "DISPLAY": f":{number.readline().strip()}"}
        words = ["gtkwave", "-r", "settings", "-S", "script.tcl", "run.vcd"]
        subprocess.run(words, cwd=folder, env=environment, stdout=subprocess.DEVNULL, stderr=subprocess.DEVNULL, timeout=100)
        screen.terminate()
    return folder / "picture.png"


def main():
    missing = [program for program in ["gtkwave", "Xvfb", "yosys", "cadical"] if not shutil.which(program)]
    if missing:
        print(f"no picture is drawn, without {', '.join(missing)}")
        return 0
    out = sys.argv[1] if len(sys.argv) > 1 else DOCS / "waves.png"
    with tempfile.TemporaryDirectory() as folder:
        shutil.copy(draw(pathlib.Path(folder)), out)
    return 0


if __name__ == "__main__":
    sys.exit(main())

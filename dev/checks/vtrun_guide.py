"""The part of check_vtrun.py that runs the commands of docs/guide/run-real-programs.md."""
import os
import pathlib
import re

import check_pages
from programs import TOP, find_for_check
from vtrun_runs import command, need, piped

PAGE = TOP / "docs/guide/run-real-programs.md"
PICTURE, DRAWN = TOP / "docs/guide/seat.svg", TOP / "vtrun/tests/seat"
WANTED = ("vt", "watch", "explore")
CLEAN = {"PYTHONDONTWRITEBYTECODE": "1"}  # the tools leave nothing in the clone


def check_guide(check, place):
    """The commands of the guide print what it shows, in a folder with the files that it shows; `~/vt` is this clone."""
    need("chvt", "fgconsole", "openvt")
    text = PAGE.read_text(encoding="utf-8")
    files = re.findall(r"`([\w.]+)`[^\n]*:\n\n((?: {4}(?!\$).*\n|\n(?= {4}[^$]))+)", text)
    home, links, at = (place.new(name) for name in ("home", "bin", "try"))
    for made in (home, links, at):
        made.mkdir()
    (home / "vt").symlink_to(TOP)
    for name, block in files:
        (at / name).write_text(re.sub("(?m)^ {4}", "", block), encoding="utf-8")
    for name in WANTED:
        (links / name).symlink_to(pathlib.Path(find_for_check(name)).resolve())
    environment = place.environment()
    environment.update(CLEAN, PATH=f"{links}:{TOP / 'tools'}:{environment['PATH']}", HOME=str(home))
    for words, lines in check_pages.examples(text):
        if not place.has_namespaces and "/dev/tty2" in lines:
            continue
        ran = command(["bash", "-c", words], cwd=at, env=environment)
        printed = (ran.stdout + ran.stderr).splitlines()
        check.holds(check_pages.fits(lines, printed), "\n".join([f"`{words}` prints", *printed[:20]]))


def check_picture(check, place):
    """The picture of seatd's handshake is drawn from its journal."""
    text = DRAWN.with_suffix(".toml").read_bytes() + DRAWN.with_suffix(".journal").read_bytes()
    vt = find_for_check("vt")
    verdict, fault = piped([vt, "check"], text)
    check.holds(verdict.startswith("legal "), f"the journal of seatd: {fault}")
    shown, drawn = place.new("shown"), place.new("drawn")
    shown.write_text(piped([find_for_check("watch"), "free", "json"], text)[0], encoding="utf-8")
    words = [TOP / "tools/timeline.py", "--title", "seatd", "--svg", "--vt", vt, "-o", drawn, shown]
    ran = command(words, env={**os.environ, **CLEAN})
    good = ran.returncode == 0 and drawn.read_bytes() == PICTURE.read_bytes()
    check.holds(good, f"{PICTURE.name} isn't what timeline.py draws of vtrun/tests/seat.journal: {ran.stderr}")


PARTS = {"guide": check_guide, "picture": check_picture}

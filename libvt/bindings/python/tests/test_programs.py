"""Live tests of programs of Debian 12, by pytest. None has a pause. Programs that aren't installed are skipped."""
import os
import re
import subprocess

import pytest

TIME = r"\d\d:\d\d(:\d\d)?"
PROGRESS = """
import time
for n in range(0, 101, 4):
    print(f"\\r[{'#' * (n // 5):20}] {n:3}%", end="", flush=True)
    time.sleep(0.03)
"""


@pytest.mark.vt_needs("nano")
def test_nano_finds_nothing(terminal):
    nano = terminal("nano -I")
    nano.type("milk<Enter>eggs<C-w>bread<Enter>")
    place = nano.wait_for('[ "bread" not found ]')
    assert place.row == 22
    screen = nano.screen
    assert re.match(r"  GNU nano \d+\.\d+ +New Buffer +Modified", screen.rows[0])
    assert screen.cell(0, 0).words == "black white"
    assert screen.cell(*place[:2]).words == "white red bold"
    assert screen.rows[1:3] == ["milk", "eggs"]
    nano.type("<C-x>")
    assert nano.screen.rows[22] == "Save modified buffer?"
    nano.type("n")
    assert nano.wait_exit() == 0


@pytest.mark.vt_needs("nano")
def test_nano_saves(terminal, tmp_path):
    nano = terminal("nano -I list", rows=12, cols=50)
    nano.type("one<Enter>two<Up><End>!<C-o>")
    assert nano.screen.rows[9].startswith("File Name to Write: list")
    nano.type("<Enter>")
    nano.wait_for(re.compile(r"\[ Wrote \d+ lines \]"))
    assert (tmp_path / "list").read_text() == "one!\ntwo\n"
    nano.resize(8, 40)
    assert len(nano.screen.rows) == 8 and nano.screen.rows[6].startswith("^G Help")
    nano.assert_screen("screens/nano.screen")


@pytest.mark.vt_needs("vim")
def test_vim_writes(terminal, tmp_path):
    vim = terminal("vim -u NONE -i NONE --noplugin names", rows=10, cols=40)
    vim.type("ione<Enter>two<Esc>")
    assert vim.screen.rows[:3] == ["one", "two", "~"]
    vim.type(":set number<Enter>gg")
    assert vim.screen.rows[:2] == ["      1 one", "      2 two"]
    assert vim.screen.cursor[:2] == (0, 8)
    vim.type("x:wq<Enter>")
    assert vim.wait_exit() == 0
    assert (tmp_path / "names").read_text() == "ne\ntwo\n"


@pytest.mark.vt_needs("less")
def test_less_pages_and_marks(terminal, tmp_path):
    (tmp_path / "numbers").write_text("".join(f"{n}\n" for n in range(1, 101)))
    less = terminal("less -M numbers", rows=6, cols=40)
    less.type("<Space>")
    less.assert_screen("screens/less.screen")
    less.type("/37<Enter>")
    assert less.screen.rows[0] == "37"
    assert less.screen.cell(0, 0).words == "black white"
    less.type("/nothing<Enter>")
    assert less.screen.rows[5].startswith("Pattern not found")
    less.type("q")
    assert less.wait_exit() == 0


@pytest.mark.vt_needs("mc")
def test_mc_copies(terminal, tmp_path):
    (tmp_path / "work").mkdir()
    (tmp_path / "work/notes").write_text("x" * 1234)
    (tmp_path / "work/other").mkdir()
    mc = terminal("mc --nosubshell -c . other", cwd=tmp_path / "work", timeout=100)
    place = mc.wait_for("notes")
    assert mc.screen.cell(*place[:2]).words == "white blue"
    assert re.search(r"notes +│ +1234│", mc.screen.rows[place.row])
    mc.type("<Down><Down><F5>")
    mc.wait_for("Copy file")
    mc.type("<Enter>")
    mc.wait_for(lambda screen: not screen.find("Copy file"))
    assert (tmp_path / "work/other/notes").stat().st_size == 1234
    mc.type("<F9>")
    mc.wait_for("Left")
    mc.type("<Esc><Esc><F10>")
    mc.wait_exit()


@pytest.mark.vt_needs("mc")
def test_mc_screen(terminal, tmp_path):
    (tmp_path / "empty").mkdir()
    mc = terminal("mc --nosubshell -c empty empty", rows=14, cols=60, timeout=100)
    mc.wait_for("8De~te")
    free_space = r"└─+ [\d.]+[KMGT] / [\d.]+[KMGT] \(\d+%\) ─┘"
    masks = [r"\w +\d+ \d\d:\d\d", free_space, (11, 0, 1, 60), r"^[#$]"]
    mc.assert_screen("screens/mc.screen", mask=masks)


@pytest.mark.vt_needs("htop")
def test_htop_filters(terminal):
    htop = terminal("htop", rows=30, cols=100)
    htop.wait_for(re.compile(r"^ *PID.*USER.*PRI", re.M))
    htop.type("<F4>htop")
    htop.wait_for(re.compile(r"Filter: htop"))
    assert htop.wait_for(re.compile(r" htop$", re.M))
    htop.type("<Esc>")
    htop.wait_for("F10Quit")
    htop.type("<F10>")
    assert htop.wait_exit() == 0


@pytest.mark.vt_needs("dialog")
def test_dialog_checks(terminal):
    words = ["dialog", "--checklist", "To the office", "11", "40", "4", "1", "Newspaper", "on", "2", "Umbrella", "off"]
    dialog = terminal(words, rows=12, cols=50)
    dialog.type("<Down><Space>")
    screen = dialog.screen
    assert screen.find("[*] 1  Newspaper") and screen.find("[*] 2  Umbrella")
    assert screen.cell(0, 0).words == "cyan blue bold"
    dialog.assert_screen("screens/dialog.screen")
    dialog.type("<Enter>")
    assert dialog.wait_exit() == 0
    assert dialog.screen.find("1 2")


@pytest.mark.vt_needs("dialog")
def test_dialog_escape(terminal):
    dialog = terminal(["dialog", "--yesno", "Sure?", "6", "20"], rows=12, cols=50)
    dialog.type("<Tab><Esc>")
    assert dialog.wait_exit() == 255


@pytest.mark.vt_needs("ncdu")
def test_ncdu_deletes(terminal, tmp_path):
    for name, size in (("big", 200_000), ("small", 10_000)):
        (tmp_path / "d" / name).mkdir(parents=True)
        (tmp_path / "d" / name / "file").write_bytes(b"x" * size)
    ncdu = terminal("ncdu --color off d", rows=20, cols=70)
    place = ncdu.wait_for("/big")
    assert place.row < ncdu.screen.find("/small").row
    assert ncdu.screen.cell(place.row, 0).words == "black white"
    ncdu.type("<Down>d")
    ncdu.wait_for("Are you sure")
    ncdu.type("<Left><Left><Enter>")
    ncdu.wait_for(lambda screen: not screen.find("/small"))
    assert not (tmp_path / "d/small").exists()
    ncdu.type("q")
    assert ncdu.wait_exit() == 0


@pytest.mark.vt_needs("tig", "git")
def test_tig_shows_a_commit(terminal, tmp_path):
    env = {f"GIT_{who}_{what}": value for who in ("AUTHOR", "COMMITTER") for what, value in
           (("NAME", "Ada"), ("EMAIL", "ada@example.org"), ("DATE", "2026-01-02T03:04:05Z"))}
    for words in (["init", "-q", "-b", "main"], ["commit", "-q", "--allow-empty", "-m", "First"],
                  ["commit", "-q", "--allow-empty", "-m", "Second <thing>"]):
        environment = {"PATH": os.environ["PATH"], "HOME": str(tmp_path), **env}
        subprocess.run(["git", *words], cwd=tmp_path, check=True, env=environment)
    tig = terminal("tig", rows=20, cols=90)
    place = tig.wait_for("Second <thing>")
    assert place.row == 0 and tig.screen.rows[1].endswith("First")
    tig.type("<Enter>")
    tig.wait_for("Commit:     Ada <ada@example.org>")
    tig.assert_screen("screens/tig.screen", mask=[r"\b[0-9a-f]{40}\b", r"\b[0-9a-f]{7}\b"])
    tig.type("Q")
    assert tig.wait_exit() == 0


@pytest.mark.vt_needs("tmux")
def test_tmux_splits(terminal, tmp_path):
    words = ["tmux", "-S", tmp_path / "socket", "-f", "/dev/null", "new", "PS1='$ ' sh"]
    tmux = terminal(words, rows=12, cols=60, timeout=100)
    tmux.wait_for(re.compile(r"^\$", re.M))
    tmux.type("<C-b>%")
    tmux.wait_for(lambda screen: all(row[30:31] == "│" for row in screen.rows[:11]))
    tmux.type("echo a$((1+1))b<Enter>")
    place = tmux.wait_for(re.compile(r"a2b"))
    assert place.column == 31
    tmux.type("<C-b>x")
    tmux.wait_for("kill-pane")
    tmux.type("y")
    tmux.wait_for(lambda screen: "│" not in screen.text)
    tmux.type("exit<Enter>")
    assert tmux.wait_exit() == 0


@pytest.mark.vt_needs("top")
def test_top_sorts(terminal):
    top = terminal("top -d 60", rows=20, cols=80)
    top.wait_for(re.compile(rf"^top - {TIME} up .* load average: [\d., ]+$", re.M))
    head = top.wait_for(re.compile(r"^ +PID USER .* COMMAND", re.M))
    assert top.screen.cell(head.row, 0).words == "black white"
    top.type("V")
    top.wait_for(re.compile(r"`- ", re.M))
    top.type("h")
    top.wait_for("Type 'q' or <Esc> to continue")
    top.type("qq")
    assert top.wait_exit() == 0


@pytest.mark.vt_needs("bash")
def test_bash_edits_and_rings(terminal):
    bash = terminal("bash --norc --noprofile", rows=10, cols=60, env={"PS1": "$ ", "INPUTRC": "/dev/null"})
    bash.type("cho one two<C-a>e<M-f><M-f> and<Enter>")
    assert bash.screen.rows[:3] == ["$ echo one and two", "one and two", "$"]
    assert bash.screen.bells == 0
    bash.type("<Tab><Tab><Backspace>")
    assert bash.screen.bells >= 1
    bash.type("printf '\\033[6n'; read -rsdR place; echo \"${place#*[}\"<Enter>")
    assert re.fullmatch(r"\d+;\d+", bash.screen.rows[bash.screen.cursor.row - 1])
    bash.type("<C-d>")
    assert bash.wait_exit() == 0


@pytest.mark.vt_needs("bash")
def test_bash_later(terminal):
    bash = terminal(["bash", "-c", "echo now; sleep 0.7; echo later; sleep 1.5; echo last"], rows=5, cols=20)
    bash.wait_for("now")
    bash.wait_for("later")
    bash.wait_for("last")
    assert bash.wait_exit() == 0


def test_progress(terminal):
    bar = terminal(["python3", "-E", "-c", PROGRESS], rows=3, cols=40)
    bar.wait_for(lambda screen: screen.find("%") and int(screen.rows[0][22:27].strip("% ")) >= 50)
    assert bar.wait_exit() == 0
    assert bar.screen.rows[0] == "[####################] 100%"

"""Tests of a display server on consoles without hardware, by pytest and the plugin of libvt."""
import pathlib
import re
import signal
import sys

SERVER = pathlib.Path(__file__).with_name("display_server.py")


def answers(machine):
    """The answers of display servers to requests, in order: 1 let it go, 0 kept it, 2 acknowledged it."""
    return re.findall(r"^p\d+ \d+ reldisp \d+ (\d) = ok$", machine.journal, re.M)


def with_server(consoles, *how):
    """A machine with a server on console 2, which has the display; and the server."""
    machine = consoles([1, 2], rows=10, cols=40)
    server = machine.run([sys.executable, SERVER, *how], 2)
    machine.wait_text("ready", 2)
    machine.type("<A-F2>")
    machine.wait_text("shown", 2)
    return machine, server


def test_it_hands_the_display_over(consoles):
    machine, server = with_server(consoles)
    machine.type("<A-F1>")
    machine.wait_front(1)
    assert machine.text(2).split() == ["ready", "shown", "hidden"]
    machine.type("<A-F2>")
    machine.wait_front(2)
    assert machine.row(3) == "shown"
    assert answers(machine) == ["2", "1", "2"]
    assert machine.states()[2].has_graphics and machine.states()[2].owner
    server.kill(signal.SIGTERM)
    assert server.wait_exit() == 0
    assert not machine.states()[2].has_graphics and not machine.states()[2].owner


def test_it_keeps_the_display(consoles):
    machine, _ = with_server(consoles, "keeps")
    machine.type("<A-F1>")
    assert machine.front == 2
    assert machine.row(2) == "kept"
    assert answers(machine) == ["2", "0"]


def test_the_display_of_a_server_that_hangs_comes_back_with_its_death(consoles):
    machine, server = with_server(consoles, "hangs")
    machine.type("<A-F1>")
    assert machine.front == 2
    server.kill(signal.SIGKILL)
    machine.wait_front(1)
    assert server.wait_exit() == 128 + signal.SIGKILL
    assert not machine.states()[2].has_graphics and not machine.states()[2].owner
    assert answers(machine) == ["2"]

"""Trials of --prove and --proved, and of which program is run where both are here."""
import os
import signal

from .trees import end, is_running, version

REFUSED = "the program of these sources isn't proved here: ./iocm --prove proves it"


def runs_no_program_as_proved(tree):
    tree.run()
    for words in (("--proved", "show"), ("--proved", "--which")):
        ran = tree.run(*words)
        assert ran[:2] == (70, "") and REFUSED in ran.said and "nothing was run" in ran.said, ran


def prefers_the_proved_program(tree):
    assert tree.run("--prove").status == 0
    assert tree.run("show", mode="fail") == (4, "built from one, given show\n", "")
    assert tree.run("--proved", "show", mode="fail") == (4, "built from one, given show\n", "")
    assert tree.run("--version").out == f"{version(is_proved=True)}\n"
    assert "proved   yes\n" in tree.run("--which").out
    assert tree.builds() == (0, 1), tree.builds()
    assert tree.run("--unproved", "--version").out == f"{version()}\n"
    assert tree.run("--unproved", "--which").out.splitlines()[1].startswith("proved   no")
    assert tree.builds() == (1, 1), tree.builds()


def proves_anew_after_an_edit_of_a_proof(tree):
    tree.run("--prove")
    tree.write("crates/low/proofs/F/Answers.antt", "-- another answer\n")
    assert tree.run("--proved").status == 70
    assert tree.run("--prove").status == 0 and tree.run("--proved").status == 4


def says_how_far_it_is(tree):
    said = tree.run("--prove").said
    assert "proving 2 crates" in said and "low is proved: 1 of 2, after 0 minutes, about 0 minutes left" in said, said
    assert "iocm is proved: 2 of 2, after 0 minutes\n" in said, said
    assert f"proved: {tree.cache}/proved-" in said, said


def is_stopped_and_resumed(tree):
    """What was proved before the stop isn't proved again."""
    for number in (signal.SIGTERM, signal.SIGINT):
        call = tree.start("--prove", mode="wait at iocm")
        child = int(tree.reach())
        call.send_signal(number)
        ran = end(call)
        assert (ran.status, ran.out) == (128 + number, ""), ran
        assert not is_running(child) and not tree.kept("room-") and not tree.kept("proved-"), tree.kept("")
        os.remove(os.path.join(tree.state, "waiting"))
    ran = tree.run("--prove")
    assert ran.status == 0 and "low was proved before: 1 of 2" in ran.said and "iocm is proved: 2 of 2" in ran.said, ran


def builds_while_it_proves(tree):
    call = tree.start("--prove", mode="wait at low")
    child = int(tree.reach())
    assert tree.run("show").status == 4
    os.killpg(child, signal.SIGKILL)
    assert end(call).status == 70


def fails_with_what_was_said(tree):
    ran = tree.run("--prove", mode="fail at iocm")
    assert ran[:2] == (70, ""), ran
    for text in ("error: no proof", "rt: iocm NOT PROVED", "rt ci ended with status 1", "nothing was run"):
        assert text in ran.said, (text, ran.said)
    assert not tree.kept("proved-"), tree.kept("")


TRIALS = (
    runs_no_program_as_proved,
    prefers_the_proved_program,
    proves_anew_after_an_edit_of_a_proof,
    says_how_far_it_is,
    is_stopped_and_resumed,
    builds_while_it_proves,
    fails_with_what_was_said,
)

"""Trials of calls at the same time, and of calls that are ended in the middle."""
import os
import signal

from .trees import end, is_running

WAIT = "wait at try"


def two_first_calls_build_once(tree):
    calls = [tree.start("show", mode="slow") for _ in range(3)]
    ran = [end(call) for call in calls]
    assert {(one.status, one.out) for one in ran} == {(4, "built from one, given show\n")}, ran
    assert tree.builds() == (1, 0), tree.builds()
    assert any("another call is building; waiting for it" in one.said for one in ran), ran


def ends_when_it_is_told_to(tree):
    """No child and no room is left, and nothing half built."""
    for number in (signal.SIGTERM, signal.SIGINT, signal.SIGHUP):
        call = tree.start(mode=WAIT)
        child = int(tree.reach())
        call.send_signal(number)
        ran = end(call)
        assert (ran.status, ran.out) == (128 + number, ""), ran
        assert not is_running(child), "the stand-in goes on"
        assert not tree.kept("room-") and not tree.kept("quick-"), tree.kept("")
        os.remove(os.path.join(tree.state, "waiting"))
    assert tree.run().status == 4


def is_killed_in_a_build(tree):
    call = tree.start(mode=WAIT)
    child = int(tree.reach())
    call.kill()
    end(call)
    os.killpg(child, signal.SIGKILL)
    assert tree.kept("room-") and not tree.kept("quick-"), tree.kept("")
    assert tree.run().out == "built from one, given \n"
    assert not tree.kept("room-"), tree.kept("")


def sees_a_change_meanwhile(tree):
    ran = tree.run(mode="meddle")
    assert ran[:2] == (70, "") and "a source has changed meanwhile; call it once more" in ran.said, ran
    assert not tree.kept("quick-"), tree.kept("")


TRIALS = (two_first_calls_build_once, ends_when_it_is_told_to, is_killed_in_a_build, sees_a_change_meanwhile)

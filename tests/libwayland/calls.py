"""Runs our own C programs with the library under test, and with the system's for comparison."""

import difflib
import re
import signal

from tests.checks import Failed
from tests.libwayland.libraries import SYSTEM, checked_by_valgrind, compiled

# The library prints each message, and does all else as before.
DEBUG = {"WAYLAND_DEBUG": "1"}
LEAKS = ("--leak-check=full", "--errors-for-leak-kinds=definite")
# A session that is cut, or whose compositor dies, ends as libwayland's does.
EXACT = ("cut", "dies")
# The library has found a fault: it has not gone on to the end of the session.
WITH_FAULT = re.compile(r"\berror (?!0|EPIPE)E")


def each_signature_reaches_its_listener(library):
    """Requests and events with each kind of signature: their bytes, and what a listener gets."""
    path = compiled("signatures")
    wanted = SYSTEM.succeeds([path])
    if library.succeeds([path]) != wanted:
        raise Failed("it has other signatures than the system's library")
    library.succeeds([*checked_by_valgrind(*LEAKS), path])


def malformed_interfaces_end_in_an_error(library):
    """Each runs in a process of its own, also under valgrind."""
    path = compiled("malformed")
    for words, env in (([path], {}), ([path], DEBUG), ([*checked_by_valgrind(), path], {})):
        ran = library.run(words, **env)
        if ran.returncode:
            wrong = re.findall("^WRONG: .*", ran.stdout, re.M)
            raise Failed("\n".join([*wrong, ran.stdout[-60:], ran.stderr[-600:]]))


def threads(library, rounds, rounds_of_valgrind):
    path = compiled("threads")
    library.succeeds([path, rounds])
    for words in (checked_by_valgrind(*LEAKS), checked_by_valgrind("--tool=helgrind")):
        library.succeeds([*words, path, rounds_of_valgrind])


def eight_threads_with_queues_of_their_own(library):
    threads(library, "300", "15")


def eight_threads_whose_compositor_dies(library):
    """Each thread ends with an error, whatever it is doing then."""
    path = compiled("threads")
    for requests in range(5, 400, 7):
        library.succeeds([path, "1000000", str(requests)])
    for requests in ("50", "71"):
        library.succeeds([*checked_by_valgrind("--tool=helgrind"), path, "1000000", requests])


def eight_threads_for_long(library):
    threads(library, "10000", "300")


def compare(name, library, is_wrong):
    """Runs a program that prints a line for each thing that it tries. A line that differs from the system
    library's may be wrong."""
    path = compiled(name)
    theirs, ours = (it.succeeds([path]).splitlines() for it in (SYSTEM, library))
    wrong = [it for it in ours if "CRASHED" in it or "DESCRIPTORS" in it]
    if len(ours) != len(theirs):
        wrong.append(f"{len(ours)} lines, not {len(theirs)}")
    with_debug = library.succeeds([path], **DEBUG).splitlines()
    wrong += [f"with WAYLAND_DEBUG: {it}" for it, without in zip(with_debug, ours) if it != without]
    wrong += [f"{our}\n    libwayland: {their}" for our, their in zip(ours, theirs)
              if our != their and our not in wrong and is_wrong(our, their)]
    if wrong:
        raise Failed(f"{len(wrong)} of {len(theirs)}:\n" + "\n".join(wrong[:12]))


def a_session_cut_at_each_byte_ends_as_libwayland_ends_it(library):
    """If the session is cut, errno, the error of the display and the earlier events are those of libwayland.
    The same holds if a byte is changed, or else it ends with a fault while libwayland goes on. However the
    session ends, no descriptor stays open, and none is closed twice."""
    compare("cuts", library, lambda ours, _: ours.split()[0] in EXACT or not WITH_FAULT.search(ours))


def requests_and_events_at_their_limits(library):
    """The errors of libwayland for requests that are too long or have wrong arguments, and for a
    compositor that reads nothing; events that libwayland refuses are refused, and an event that the interface does
    not have gets libwayland's error."""
    def is_wrong(ours, theirs):
        kind = ours.split()[0]
        if kind.endswith("_event") and kind != "opcode_event":
            return not WITH_FAULT.search(ours)
        return error_of(ours) != error_of(theirs)
    compare("limits", library, is_wrong)


def a_compositor_that_stops_reading_and_reads_again(library):
    """Nothing that waits is lost. With a limit, a connection goes on if the socket takes some of what waits, and one
    that has ended returns from each call. libwayland 1.21 does none of this."""
    path = compiled("full")
    for words in ([path], [*checked_by_valgrind(*LEAKS), path]):
        library.succeeds(words)


def a_program_that_does_not_dispatch_an_error_hears_of_it(library):
    for it in (SYSTEM, library):
        it.succeeds([*checked_by_valgrind(), compiled("undispatched")])


def error_of(line):
    return re.search(r"\berror (\w+)", line)[1]


def a_session_cut_or_changed_has_no_error_of_memory(library):
    library.succeeds([*checked_by_valgrind(), compiled("cuts"), "5"])
    library.succeeds([*checked_by_valgrind(), compiled("limits")])


def a_session_cut_or_changed_at_each_byte_has_no_error_of_memory(library):
    library.succeeds([*checked_by_valgrind(), compiled("cuts"), "1"])


def lines_of_wayland_debug_are_those_of_libwayland(library):
    """The lines are the same word for word, except for their times."""
    path = compiled("lines", "-D_GNU_SOURCE")
    theirs, ours = (
        re.sub(r"(?m)^\[ *[0-9]+\.[0-9]{3}\] ", "[time] ",
               it.succeeds(["sh", "-c", '"$0" </dev/null 2>&1', path], WAYLAND_DEBUG="client"))
        for it in (SYSTEM, library))
    if ours != theirs or theirs.count("[time]") <= 30:
        raise Failed("".join(difflib.unified_diff(theirs.splitlines(True), ours.splitlines(True))))


def a_preloaded_library_has_proxies_of_its_own(library):
    """Its copy of struct wl_proxy has libwayland's fields at libwayland's places, and ends with them."""
    for it in (SYSTEM, library):
        it.succeeds([*checked_by_valgrind(), compiled("shim")])


def a_queue_is_destroyed_before_its_proxies(library):
    """They are named, and no freed memory is used."""
    path = compiled("queues")
    library.succeeds([*checked_by_valgrind(*LEAKS), path])
    ended = library.run([*checked_by_valgrind(), path, "event"])
    if ended.returncode != -signal.SIGABRT or "Invalid" in ended.stderr:
        raise Failed(f"an event for a queue that is destroyed: status {ended.returncode}\n{ended.stderr[-600:]}")


def the_signatures_of_an_interface_are_read_once(library):
    library.succeeds([*checked_by_valgrind(*LEAKS), compiled("known")])


def an_id_of_the_compositor_that_is_used_again(library):
    library.succeeds([*checked_by_valgrind(), compiled("replaced")])


def each_allocation_refused_in_turn(library):
    """A program ends only by an error of the display, and no descriptor stays open."""
    library.succeeds([compiled("memory")])


TESTS = (each_signature_reaches_its_listener, malformed_interfaces_end_in_an_error,
         eight_threads_with_queues_of_their_own, eight_threads_whose_compositor_dies,
         a_session_cut_at_each_byte_ends_as_libwayland_ends_it,
         requests_and_events_at_their_limits, a_compositor_that_stops_reading_and_reads_again,
         a_program_that_does_not_dispatch_an_error_hears_of_it,
         a_session_cut_or_changed_has_no_error_of_memory,
         lines_of_wayland_debug_are_those_of_libwayland, a_preloaded_library_has_proxies_of_its_own,
         a_queue_is_destroyed_before_its_proxies, the_signatures_of_an_interface_are_read_once,
         an_id_of_the_compositor_that_is_used_again, each_allocation_refused_in_turn)
LONG_TESTS = (eight_threads_for_long, a_session_cut_or_changed_at_each_byte_has_no_error_of_memory)


def cases(library, is_whole):
    """The tests, with this library."""
    def over(test):
        def run():
            test(library)
        run.__name__ = test.__name__
        return run
    return [over(it) for it in (*TESTS, *(LONG_TESTS if is_whole else ()))]

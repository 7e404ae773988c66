"""What fdb_audit tells with --follow where clocks are ahead, and where a log was silent."""
import tempfile

from audit_logs import PROGRAM
from follow import STALE, VOUCHED, Growing, began_with
from follow_model import why_wrong
from harness import run
from shapes import text_of_lines, timed


def one_clock_ahead(_program):
    """However far the clock of one client is ahead, what others do is told as they go on."""
    far = 10**9
    stale = [it for at in range(9) for it in (timed("commit", at + 1, 20 * at, 20 * at + 2, "b"),
                                              timed("read", at, 20 * at + 5, 20 * at + 6, "c"))]
    ahead = [timed("read", 9, far + at, far + at + 1, "a") for at in range(9)]
    for name, lines, found in (
            ("one line, as the first", [ahead[0], *stale], 1),
            ("one line, amid others", [*stale[:4], ahead[0], *stale[4:]], 1),
            ("many in a row", [*stale[:2], *ahead, *stale[2:]], 1),
            ("in turn with others", [it for its in zip(stale, [*ahead, *ahead]) for it in its], 9)):
        with Growing("--follow", "5") as growing:
            for line in lines:
                growing.write(line)
            first = growing.told()
            yield f"{name}, told as it runs", began_with(first, b"audit fault: Order ")
            growing.started.stdin.close()
            ran = growing.end()
        count = ran.err.decode().count("a clock is ahead")
        wanted = sum(it & it - 1 == 0 for it in range(1, found + 1))
        is_so = ran.out.count(b"audit fault: Order") == 9 and b"early" not in ran.err
        fault = None if is_so and count == wanted else f"{ran}"
        yield name, fault or why_wrong(growing.given, ["--follow", "5"], ran)


def goes_on(_program):
    """Behind a quiet time two clients go on at once, and one goes on with its second line."""
    for name, lines in (
            ("two clients", [
                *STALE, timed("read", 5, 990, 999, "b"), timed("read", 5, 997, 999, "a")]),
            ("one client", [
                timed("commit", 5, 0, 10, "a"), timed("read", 1, 20, 30, "a"),
                timed("read", 5, 998, 999, "a"), timed("read", 5, 999, 1000, "a")]),
            ("nobody is known", [
                timed("commit", 5, 0, 10), timed("read", 1, 20, 30),
                timed("read", 5, 998, 999), timed("read", 5, 999, 1000)])):
        with Growing("--follow", "5") as growing:
            growing.write(*lines)
            yield name, began_with(growing.told(), b"audit fault: Order 2: ")
            growing.started.stdin.close()
            ran = growing.end()
        yield f"{name}, to the end", why_wrong(growing.given, ["--follow", "5"], ran)


def ahead_again(_program):
    """Stopped and started again, one client whose clock is ahead moves nothing either."""
    ahead = [timed("read", 5, 10**9 + at, 10**9 + at + 1, "a") for at in range(4)]
    with tempfile.TemporaryDirectory() as folder:
        words = [PROGRAM, "--follow", "5", "--keep", f"{folder}/kept"]
        first = run(words, text_of_lines([*STALE, VOUCHED, *ahead]).encode())
        yield "a fault, and then a clock", began_with(first.out, b"audit fault: Order 2: ")
        run(words, text_of_lines(ahead).encode())
        later = [timed("commit", 9, 50, 60, "b"), timed("read", 5, 70, 80, "c"),
                 timed("read", 9, 90, 99, "b"), timed("read", 9, 90, 99, "c")]
        ran = run(words, text_of_lines(later).encode())
        is_so = b"audit fault: Order 13: " in ran.out and b"early line" not in ran.err
        yield "what comes later", None if is_so else f"{ran}"

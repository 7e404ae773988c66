"""Scripts that are as large as they may be, and input that never ends."""
import subprocess
import tempfile

from answers import MOST_COMMANDS, MOST_ROUNDS, crowd_at_all_limits, do, large
from command_line import MOST_BYTES
from harness import OUT_OF_MEMORY, READING_FAILED, done, fault_of, first_output
from harness import first_script, processor_time, refused, run, script, under, written
from judge import Lawful
from model import expected

# What a pipe holds at most of bytes that nobody has taken.
PIPE_BYTES = 65_536
# What is printed of a script without rounds.
NO_REPLIES = b"audit ok events 0 raised 0 versions 0\n"
# A value of 248 bytes, of which each is a token.
DEEP = "[" * 124 + "]" * 124
# How much processor time a script may take, in seconds: some three times what the slowest of them
# does on a slow machine.
WORK_SECONDS = 10
# With so much memory to be had, in KiB, a script of as many bytes as may be is taken in, but not
# the values that it is made of.
FEW_KIBIBYTES = 96 * 1024


def sizes(program):
    """16,777,216 bytes are read; of one more, reading is given up, whatever they hold."""
    first, wanted = first_script(), done(first_output())
    padded = lambda count, filler=b" ": first + filler * (count - len(first))
    cases = [
        ("a script and spaces, as large as may be", padded(MOST_BYTES), wanted),
        ("a script and spaces, one byte less", padded(MOST_BYTES - 1), wanted),
        ("a script and spaces, one byte more", padded(MOST_BYTES + 1), READING_FAILED),
        ("spaces and a script, as large as may be", b"\n" * (MOST_BYTES - len(first)) + first,
         wanted),
        ("an ignored text, as large as may be", with_note(MOST_BYTES), done(NO_REPLIES)),
        ("an ignored text, one byte more", with_note(MOST_BYTES + 1), READING_FAILED),
        ("no JSON, as large as may be", b"x" * MOST_BYTES, refused("NotJson")),
        ("no JSON, one byte more", b"x" * (MOST_BYTES + 1), READING_FAILED),
        ("four times the size", padded(4 * MOST_BYTES), READING_FAILED),
    ]
    for name, given, ends in cases:
        yield name, fault_of(run([program], given), ends)
    with tempfile.NamedTemporaryFile() as file:
        for more, ends in ((0, wanted), (1, READING_FAILED)):
            with open(file.name, "wb") as it:
                it.write(padded(MOST_BYTES + more))
            ran = run([program, file.name])
            yield f"a file of {more} bytes more than may be", fault_of(ran, ends)
    yield "a file that never ends", fault_of(run([program, "/dev/zero"], first), READING_FAILED)
    yield "input that never ends", fault_of(under("< /dev/zero", program), READING_FAILED)
    yield "what is taken of input that never ends", endless(program)
    full = crowd_at_all_limits(MOST_BYTES)
    yield "a script at all its limits", fault_of(
        run([program, "--proxies", "16", "--history"], full), expected(full, True)
    )


def endless(program):
    """Gives the program input until it takes no more, and says if it took more than it may."""
    given, piece = 0, b" " * PIPE_BYTES
    streams = {"stdin": subprocess.PIPE, "stdout": subprocess.DEVNULL, "stderr": subprocess.DEVNULL}
    with subprocess.Popen([program], bufsize=0, **streams) as started:
        try:
            while given < 4 * MOST_BYTES:
                given += started.stdin.write(piece)
        except BrokenPipeError:
            pass
    return None if given <= MOST_BYTES + 1 + PIPE_BYTES else f"some {given} bytes were taken"


def with_note(size):
    """Writes a script of this many bytes, nearly all of them in a text that is ignored."""
    empty = script(note='""').encode()
    return script(note='"?"').encode().replace(b"?", b"a" * (size - len(empty)))


def with_values(size, value, member="note"):
    """Writes a script of about this many bytes, nearly all in a list that is of no use."""
    empty = script()
    times = (size - len(empty) - len(f'"{member}":[],') + 1) // (len(value) + 1)
    return f'{{"{member}":[{",".join([value] * times)}],{empty[1:]}'.encode()


def with_members(size, member, end):
    """Writes an object of about this many bytes: one member over and over, and an end."""
    times = (size - len(end) - 1) // (len(member) + 1)
    return f'{{{",".join([member] * times)},{end}'


def longest():
    """Names scripts about as long as may be, nearly all of it of no use, and how they end."""
    nothing = done(NO_REPLIES)
    yield "bytes, in one text", with_note(MOST_BYTES), nothing
    for value in ("0", '""', "[]", "[0]", "{}", '{"a":0}', '"aaaaaaaa"', "0.5", "[[0]]"):
        yield f"bytes, in values {value}", with_values(MOST_BYTES, value), nothing
    yield "bytes, in lists 124 deep", with_values(MOST_BYTES, DEEP), nothing
    yield "bytes, in rounds that are overwritten", with_values(MOST_BYTES, "[0]", "rounds"), nothing
    for many in (1, MOST_ROUNDS):
        rounds = f'"rounds":[{",".join(["[0]"] * many)}]'
        yield f"bytes, in {many} rounds that are overwritten again and again", with_members(
            MOST_BYTES, rounds, script()[1:]
        ).encode(), nothing
    read = '"tags":[],"do":"grv","client":0}'
    tagged = with_members(MOST_BYTES - 100, '"tags":[0]', read)
    yield "bytes, in tags that are overwritten again and again", script(
        f"[[{tagged}]]"
    ).encode(), expected(script(f"[[{{{read}]]").encode())
    for item in ("0", '{"do":0}', '{"tags":[0]}'):
        commands = f'[{",".join([item] * 8_000)}]'
        overwritten = with_values(MOST_BYTES, commands, "rounds")
        yield f"bytes, in far too many commands {item} that are overwritten", overwritten, nothing
        kept = overwritten.replace(b',"rounds":[]', b"")
        yield f"bytes, in far too many commands {item}", kept, refused("BadLimit")


def largest():
    """Names scripts that are as large as may be in some way, with arguments, and how some end."""
    whole = ["--history", "--proxies", "16"]
    yield "all its limits", crowd_at_all_limits(MOST_BYTES), whole, None
    for name, given, ends in longest():
        yield name, given, [], ends
    crowds = [[do("grv", who) for who in range(64)]] * (MOST_COMMANDS // 64)
    for name, rounds, top in [
        *large(), ("reads of 64 clients in each round", crowds, {"clients": 64})
    ]:
        yield f"commands: {name}", written(rounds, **top), whole, None


def work(program):
    """The largest scripts take a bounded time of the processor, with the starts of threads."""
    for name, given, arguments, ends in largest():
        ran, spent = processor_time(lambda: run([program, *arguments], given), WORK_SECONDS)
        fault = f"it took {spent:.1f} s" if spent > WORK_SECONDS else None
        # (of some the judge says how they end)
        yield name, (fault_of(ran, ends) if ends else Lawful(given, 16).fault_of(ran)) or fault


def starved(program):
    """A script that takes more memory than can be had ends for that, and nothing is written."""
    for member in ("note", "rounds"):
        for value in ("0", "[0]", '{"a":0}'):
            ran = run(
                ["sh", "-c", f'ulimit -v {FEW_KIBIBYTES}; exec "$0"', program],
                with_values(MOST_BYTES, value, member),
            )
            yield f"bytes, in values {value} of {member}", fault_of(ran, OUT_OF_MEMORY)

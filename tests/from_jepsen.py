"""Histories of Jepsen: the lines that tools/from_jepsen makes of them, and which it refuses."""
import tempfile

from audit_model import judged
from harness import EXAMPLES, ROOT, Ran, fault_of, read, run

TOOL = f"{ROOT}/tools/from_jepsen"
VERSIONS = ["--commit", "write"]
NO_VERSION = ("no version is known of {}; if each :ok has the one that the database gave, name the "
              ":f by --read or --commit")
# Lists without a key: an append that tells its list, one that fails, one that no list has, one
# without an end, and a read without one.
LISTS = r"""
{:type :invoke, :f :append, :value 3, :process 0, :time 1, :index 0}
{:type :invoke, :f :read, :value nil, :process 1, :time 2, :index 1}
{:type :ok, :f :append, :value 3, :process 0, :time 4, :index 2}
{:type :ok, :f :read, :value nil, :process 1, :time 5, :index 3}
{:type :invoke, :f :append, :value 4, :process 0, :time 6, :index 4}
{:type :ok, :f :append, :value [3 4], :process 0, :time 7, :index 5}
{:type :invoke, :f :append, :value 5, :process 1, :time 8, :index 6}
{:type :fail, :f :append, :value 5, :process 1, :time 9, :index 7, :error [:no "a \"}\\" #{\a}]}
{:type :invoke, :f :append, :value 6, :process 2, :time 9, :index 8}
{:type :ok, :f :append, :value 6, :process 2, :time 10, :index 9}
{:type :invoke, :f :read, :value nil, :process 3, :time 11, :index 10}
{:type :info, :f :read, :value nil, :process 3, :time 12, :index 11, :error :timeout}
{:type :invoke, :f :append, :value "x", :process 4, :time 13, :index 12}
{:type :invoke, :f :read, :value nil, :process 5, :time 14, :index 13}
{:type :ok, :f :read, :value [3 4 "x"], :process 5, :time 15, :index 14}
{:type :invoke, :f :read, :value nil, :process 5, :time 15, :index 15}
"""
LINES_OF_LISTS = """
{"client":"0","commit":1,"began":1,"ended":4,"index":0}
{"client":"1","read":0,"began":2,"ended":5,"index":1}
{"client":"0","commit":2,"began":6,"ended":7,"index":4}
{"client":"4","commit":3,"began":13,"ended":null,"index":12}
{"client":"5","read":3,"began":14,"ended":15,"index":13}
"""
# Versions of two keys, without indices, with what EDN has besides, and a nemesis without a number.
KEYED = """[; a comment {
#jepsen.history.Op{:index -1, :time 1, :type :invoke, :process 0, :f :write, :value [:x 7]},
#jepsen.history.Op{:index -1 :time +2N :type :ok :process 0 :f :write :value
 [:x 18446744073709551615] :at #inst "2026-01-01T00:00:00.000-00:00", :load +1.5e-3, :up true,
 #_ #_ {:x 2} 1 #_[3] :not #{a/b ##NaN}}
{:time 3, :type :info, :process :nemesis, :f :kill, :value {["n1" n2] (:killed nil)}}
{:time 4, :type :invoke, :process 1, :f :read, :value [2 nil]}
{:time 4, :type :ok, :process 1, :f :read, :value [2 0]}
{:time 5, :type :invoke, :process 0, :f :write, :value [2 8]}
{:time 6, :type :info, :process 0, :f :write, :value [2 8],
 :error #error {:cause "a\\tb
" :via [{:at [a.B$C <init> "B.java" -1]} #object[a.B 0x1f "x"]]}}
] ; the end #_ {"""
LINES_OF_KEYED = """
{"client":"0","key":"x","commit":18446744073709551615,"began":1,"ended":2,"index":0}
{"client":"1","key":2,"read":0,"began":4,"ended":4,"index":3}
"""
# The same in JSON, by other names and without keys.
JSON = """
{"index":10,"time":1,"type":"invoke","process":0,"f":"put","value":"\\u00e9"}
{"index":11,"time":2,"type":"ok","process":0,"f":"put","value":300}
{"index":12,"time":3,"type":"info","process":"nemesis","f":"kill","value":null}
{"index":13,"time":4,"type":"invoke","process":1,"f":"get"}
{"index":14,"time":5,"type":"ok","process":1,"f":"get","value":300}"""
LINES_OF_JSON = """
{"client":"0","commit":300,"began":1,"ended":2,"index":10}
{"client":"1","read":300,"began":4,"ended":5,"index":13}
"""
NAMED = ["--read", "get", "--commit", "put"]
EXAMPLE, LINES_OF_EXAMPLE = (
    read(f"{EXAMPLES}/logs/jepsen.{ending}").decode() for ending in ("edn", "jsonl")
)
IN_JSON = """[
{"index":0,"time":1,"type":"invoke","process":0,"f":"txn","value":[["append","a b",1]]},
{"index":1,"time":2,"type":"ok","process":0,"f":"txn","value":[["append","a b",1]]},
{"index":2,"time":3,"type":"invoke","process":0,"f":"txn","value":[["r","a b",null]]},
{"index":3,"time":4,"type":"ok","process":0,"f":"txn","value":[["r","a b",[1,2]]]}]
"""
LINES_IN_JSON = """
{"client":"0","key":"a b","commit":1,"began":1,"ended":2,"index":0}
{"client":"0","key":"a b","read":2,"began":3,"ended":4,"index":2}
"""


def op(what, f=":read", value="nil", process=0, time="1"):
    return f"{{:type :{what} :process {process} :f {f} :time {time} :value {value}}}\n"


def call(f, asked, told):
    """The first and the last operation of a call."""
    return op("invoke", f, asked) + op("ok", f, told)


# The arguments, a history, its lines, and how many reads and commits there are, operations of no
# client, failed calls, reads without an end, and commits without a version.
TAKEN = (
    ("transactions of lists", [], EXAMPLE, LINES_OF_EXAMPLE, (3, 2, 1, 0, 0, 0)),
    ("one vector", [], f"[{EXAMPLE}]", LINES_OF_EXAMPLE, (3, 2, 1, 0, 0, 0)),
    ("records", [], EXAMPLE.replace("{:index", "#jepsen.history.Op {:index"), LINES_OF_EXAMPLE,
     (3, 2, 1, 0, 0, 0)),
    ("lists without a key", [], LISTS, LINES_OF_LISTS, (2, 3, 0, 1, 2, 1)),
    ("versions by key", VERSIONS, KEYED, LINES_OF_KEYED, (1, 1, 1, 0, 0, 1)),
    ("versions in JSON", NAMED, JSON, LINES_OF_JSON, (1, 1, 1, 0, 0, 0)),
    ("versions that are read, or :commit", ["--read", "get"], JSON.replace("put", "commit"),
     LINES_OF_JSON, (1, 1, 1, 0, 0, 0)),
    ("transactions in JSON", [], IN_JSON, LINES_IN_JSON, (1, 1, 0, 0, 0, 0)),
    ("lists by key", [],
     call(":append", "[:k 5]", "[:k [5]]") + call(":append", "[0 5]", "[0 [6 5]]"),
     '{"client":"0","key":"k","commit":1,"began":1,"ended":1,"index":0}\n'
     '{"client":"0","key":0,"commit":2,"began":1,"ended":1,"index":2}\n', (0, 2, 0, 0, 0, 0)),
    ("a nemesis alone", [], "{:process :nemesis}", "", (0, 0, 1, 0, 0, 0)),
    ("nothing", [], " \n", "", (0, 0, 0, 0, 0, 0)),
)
SEVERAL = "no version is known of a :txn but of one :r or :append"
CONTRADICT = "its list and that of op 1 contradict each other: neither begins with the other"
NO_LIST = NO_VERSION.format("a value that is no list of elements")
NO_TIME = "its :time is no whole number, or before its :invoke"
OTHER_KEY = "its value is no tuple of a key and more"
NO_NUMBER = "its value is no version, a whole number below 2^64"
NEITHER = "line 1: this is neither EDN nor JSON"
# The arguments, a history, the operation that is named, or None, and what is said of it.
REFUSED = (
    ([], op("invoke", ":write", 3), 0, NO_VERSION.format(':f "write"')),
    ([], op("info", process=":nemesis") + op("invoke", ":cas", "[1 2]"), 1,
     NO_VERSION.format(':f "cas"')),
    ([], op("invoke", "nil"), 0, NO_VERSION.format(':f null')),
    ([], call(":read", "nil", 3), 1, NO_LIST),
    ([], call(":read", "nil", "#{3}"), 1, NO_LIST),
    ([], call(":read", "nil", "[1 [2]]"), 1, NO_LIST),
    ([], call(":read", "nil", "[true]"), 1, NO_LIST),
    ([], call(":read", "[1 nil]", 5), 1, OTHER_KEY),
    ([], call(":read", "[1 nil]", "[2 [5]]"), 1, "it does not answer op 0"),
    ([], call(":append", 5, "[5 6]"), 1, "it tells no list of its own"),
    ([], op("invoke", ":append", "nil"), 0, "its element is no number and no text"),
    ([], op("invoke", ":append", "[1 2 3]"), 0, "its element is no number and no text"),
    ([], op("invoke", ":append", "[1.5 2]"), 0, OTHER_KEY),
    ([], op("invoke", ":txn", "[[:append 1 2] [:r 1 nil]]"), 0, SEVERAL),
    ([], op("invoke", ":txn", "[]"), 0, SEVERAL),
    ([], op("invoke", ":txn", "[[:append 1]]"), 0, SEVERAL),
    ([], op("invoke", ":txn", "[:r 1 nil]"), 0, SEVERAL),
    ([], op("invoke", ":txn", "[[:w 1 2]]"), 0, NO_VERSION.format(':f "w"')),
    ([], call(":read", "nil", "[1 2]") + call(":read", "nil", "[1 3 2]"), 3, CONTRADICT),
    ([], call(":append", 1, "[2 1]") + call(":read", "nil", "[1]"), 3, CONTRADICT),
    ([], call(":read", "nil", "[1 2 1]"), 1, "its list has 1 twice"),
    ([], call(":append", 1, 1) + call(":append", 1, 1), 2, "it appends what op 0 does"),
    (VERSIONS, call(":write", 3, -1), 1, NO_NUMBER),
    (VERSIONS, call(":write", 3, 2**64), 1, NO_NUMBER),
    (VERSIONS, call(":read", "nil", "true"), 1, NO_NUMBER),
    (VERSIONS, call(":read", "[:x nil]", "[:x 1.0]"), 1, NO_NUMBER),
    (VERSIONS, op("invoke", ":cas", "[1 2]"), 0, NO_VERSION.format(':f "cas"')),
    (NAMED, op("invoke", ":read"), 0, NO_VERSION.format(':f "read"')),
    ([], op("invoke") + op("ok", time=0), 1, NO_TIME),
    ([], op("invoke", time=-1) + op("ok"), 1, NO_TIME),
    ([], op("invoke") + op("ok", time="nil"), 1, NO_TIME),
    ([], op("invoke") + op("invoke"), 1, "process 0 has not ended its last one"),
    ([], op("ok"), 0, "it is neither an :invoke nor the end of one"),
    ([], op("invoke") + op("okay"), 1, "it is neither an :invoke nor the end of one"),
    ([], "[1]", 0, "it is no map"),
    *(([], text, None, NEITHER) for text in (
        "{", "]", "{:a}", "{:a 1]", '"', r'"\q"', "#_", "#x", "[" * 9_999, "#_" * 9_999,
        '{"a":1', '[{"a":' + "[" * 99_999, "9" * 9_999)),
    ([], "{:process nil}\n\n{:process", None, "line 3: this is neither EDN nor JSON"),
)


def said(counts):
    """What is said of how many calls were taken and passed over."""
    reads, commits, others, failed, endless, unknown = counts
    return (
        f"from_jepsen: {reads} reads, {commits} commits; passed over: {others} operations of no "
        f"client, {failed} failed calls, {endless} reads without an end, {unknown} commits without "
        "a version\n"
    ).encode()


def histories_of_jepsen(_program):
    """Each history becomes its lines, or is refused; the audit's model judges two of them."""
    for name, words, text, lines, counts in TAKEN:
        wanted = Ran(0 if lines else 2, lines.lstrip("\n").encode(), said(counts))
        yield name, fault_of(run([TOOL, *words], text.encode()), wanted)
    for words, text, index, why in REFUSED:
        sentence = f"from_jepsen: {why if index is None else f'op {index}: {why}'}\n"
        ran = run([TOOL, *words], text.encode())
        yield f"{text[:90]} {words}", fault_of(ran, Ran(1, b"", sentence.encode()))
    for name, text, status in (("stale", EXAMPLE, 4), ("right", LISTS, 0)):
        found = judged(run([TOOL], text.encode()).out)
        yield f"a {name} history, judged", None if found[0] == status else f"{found}"
    with tempfile.NamedTemporaryFile(suffix=".edn") as file:
        file.write(EXAMPLE.encode())
        file.flush()
        wanted = Ran(0, LINES_OF_EXAMPLE.encode(), said(TAKEN[0][-1]))
        yield "a file", fault_of(run([TOOL, file.name]), wanted)
    missing = Ran(1, b"", b"from_jepsen: /none: No such file or directory\n")
    yield "a file that is not there", fault_of(run([TOOL, "/none"]), missing)
    yield "one name for two", fault_of(run([TOOL, "--commit", "read"]), Ran(2, b"", None))

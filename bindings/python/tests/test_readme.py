"""What README.md shows: its samples print what stands there, and its signatures are the package's."""
import ast
import doctest
import inspect
import re
import unittest
from pathlib import Path

import fdb_read_version as package

README = Path(__file__).parents[1] / "README.md"
BLOCK = re.compile(r"^```python\n(.*?)^```$", re.MULTILINE | re.DOTALL)
# What is named in a sentence, and not declared.
TOLD = set("FaultKind Issued Limit LogRefused Means Member Offer Pop Priority Reason Refused Status "
           "TurnedAway Window".split())


def spelled(node):
    """A function or a field, as it is declared."""
    if isinstance(node, ast.FunctionDef):
        return f"def {node.name}({ast.unparse(node.args)}) -> {ast.unparse(node.returns)}"
    return ast.unparse(node)


def declared(node):
    """What a function declares, or the public fields and functions of a class, in their order."""
    if isinstance(node, ast.FunctionDef):
        return [spelled(node)]
    kinds = (ast.FunctionDef, ast.AnnAssign)
    found = [spelled(it) for it in node.body if isinstance(it, kinds)]
    return [it for it in found if not re.match(r"(def )?_(?!_init__)", it)]


class OfReadme(unittest.TestCase):
    def test_samples(self):
        found = doctest.testfile(str(README), module_relative=False)
        self.assertEqual(found.failed, 0)
        self.assertGreater(found.attempted, 15)

    def test_signatures(self):
        blocks = BLOCK.findall(README.read_text(encoding="utf-8"))
        nodes = [it for block in blocks if ">>>" not in block for it in ast.parse(block).body]
        self.assertEqual({it.name for it in nodes}, set(package.__all__) - TOLD)
        for node in nodes:
            own = ast.parse(inspect.getsource(getattr(package, node.name))).body[0]
            self.assertEqual(declared(node), declared(own), node.name)

    def test_all_is_named(self):
        text = README.read_text(encoding="utf-8")
        missing = [it for it in package.__all__ if not re.search(rf"\b{it}\b", text)]
        self.assertEqual(missing, [])


if __name__ == "__main__":
    unittest.main()

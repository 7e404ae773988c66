"""docs/picture.png, a photograph of the page of an example: python3 tests/image.py --write"""
import struct
import sys
import tempfile

sys.dont_write_bytecode = True

from browsed import BROWSER, BROWSER_WORDS
from harness import ROOT, read, run
from picture import logs, page_of

DOCUMENT, LOG = f"{ROOT}/docs/picture.png", "examples/logs/stale.jsonl"
# The part of the page that is taken, and how many pixels of the image one of its own makes.
WIDTH, HEIGHT, SCALE, MOST_BYTES = 800, 456, 2, 300_000


def photograph():
    """The top of the page as the browser shows it."""
    with tempfile.TemporaryDirectory() as folder:
        with open(f"{folder}/page.html", "w", encoding="utf-8") as it:
            it.write(page_of.page({name: drawing for name, *_, drawing in logs()}[LOG]))
        words = [f"--user-data-dir={folder}/own", f"--screenshot={folder}/page.png",
                 "--hide-scrollbars",
                 f"--window-size={WIDTH},{HEIGHT}", f"--force-device-scale-factor={SCALE}"]
        run([BROWSER, *BROWSER_WORDS, *words, f"file://{folder}/page.html"], b"", 120)
        return read(f"{folder}/page.png")


def image_of_documents(_program):
    """The image of the documents is there, and of the size that is asked of the browser."""
    image, size = read(DOCUMENT), struct.pack(">II", WIDTH * SCALE, HEIGHT * SCALE)
    is_right = image.startswith(b"\x89PNG") and image[16:24] == size and len(image) <= MOST_BYTES
    yield "docs/picture.png", None if is_right else f"it is no such image: {len(image)} bytes"


if __name__ == "__main__" and sys.argv[1:] == ["--write"]:
    with open(DOCUMENT, "wb") as it:
        it.write(photograph())

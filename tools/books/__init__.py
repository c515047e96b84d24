"""The parts of tools/book.py: helpers for people, in Python, not proved.

words    parses a text line by line and word by word, with a plain message for what cannot be read
files    reading and writing files; nothing is lost if a write fails
saved    the file in which a server keeps an image and the lines of its report
kept     which files a book or event records may replace
texts    a book from its text, and a book as text
state    who can use an entry, what is left of it, what differs between two books
answers  how many requests were answered how, whether they go on from a book, whether answers fit requests
records  event records from their text or from shorter ones, and in words with their answers
report   the usage of each content over a day, as a bill
why      why a begin would be answered as it would
imported a book from an XML rights object, or where its text is at fault
library  the answers, the next book, the grounds and the book of an XML text, from the proved library for C
closing  the end of a day: bill, archive and next book
serving  the run program with its requests recorded (tools/serve)
"""

import sys
from pathlib import Path

ROOT = Path(__file__).resolve().parent.parent.parent
sys.path.insert(0, str(ROOT / "oracle"))

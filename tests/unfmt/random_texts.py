"""Prints a PO text of random strings, in which characters of each class of UAX #14 meet: random_texts.py SEED COUNT."""

import random
import sys

# Characters of each class, with some that are of two columns and of none.
CHARACTERS = (
    "aé\u0416\u03b1\u0e01\u1780\u0f40"  # letters, and those of scripts that need a dictionary
    "\u05d0\u05e9\u05be-\u2010\u00ad\u2013|\t"  # Hebrew letters, hyphens, places to break after
    "0\u0660\uff11\u0966$\u20ac\u00a3+\\%\u00b0\u2030\u00a2"  # digits, prefixes and postfixes
    "(\u300c\uff08[{)]}\u300d\uff09\u3002\uff0c\"'\u201c\u00ab\u2019"  # opening and closing, quotes
    "!?\u061f,.:;/\u2024\u2026\u2014\u00b4\u02c8"  # exclamations, separators, leaders, dashes
    "\u6f22\u3042\u30a2\u3041\u30fc\u3005\u30fb\u231a\U0001f469\U0001f3fd\u261d\U0001f1e9\U0001f1ea"  # ideographs, small kana, emoji
    "\uac00\uac01\u1100\u1161\u11a8\ud7b0\ud7cb"  # Hangul
    "\u0301\u0300\u3099\u0cbf\u0e31\u200d\ufe0f"  # marks and joiners
    "\u00a0\u202f\u2060\ufeff\u200b\u2028\u2029\u0085"  # glue, word joiners, zero width space, mandatory breaks
    "\u0378\U000e0001\uffff\U0010ffff"  # unassigned, tags, no characters
)


def text(chance):
    """A string of some three lines."""
    return "".join(
        chance.choice(" " if chance.random() < 0.2 else "ab1.," if chance.random() < 0.3 else CHARACTERS)
        for _ in range(chance.randrange(20, 240))
    )


def main():
    chance = random.Random(int(sys.argv[1]))
    quoted = str.maketrans({"\\": "\\\\", '"': '\\"', "\t": "\\t"})
    print('msgid ""\nmsgstr "Content-Type: text/plain; charset=UTF-8\\n"')
    for number in range(int(sys.argv[2])):
        print(f'\nmsgid "{number}"\nmsgstr "{text(chance).translate(quoted)}"')


main()

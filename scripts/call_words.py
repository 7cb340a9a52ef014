"""The words of a call of lurette, as far as scripts read them: where its files and commands stand.

Nothing is judged here. Words that the program refuses are handed to it as they are.
"""

from collections import namedtuple

# The options that a word belongs to.
VALUED = (
    "-l", "--seed", "--precision", "--budget", "--node", "--sut", "--oracle", "--replay", "--draw",
    "--count",
)

# What a call says: its role ("mode", "file" or the option's name), and the text of it, which stands
# in the word of this number from this letter on.
Part = namedtuple("Part", "role text index start")


def parts_of(words):
    """What the words of a call say, in turn."""
    found, plain, are_plain, index = [], iter(("mode", "file")), False, 0
    while index < len(words):
        word = words[index]
        if are_plain or word == "-" or not word.startswith("-"):
            found.append(Part(next(plain, "more"), word, index, 0))
        elif word == "--":
            are_plain = True
        else:
            index += takes_next(word)
            found += part_of_option(word, words, index)
        index += 1
    return found


def takes_next(word):
    """Whether the text of an option is the word that comes next."""
    return word in VALUED


def part_of_option(word, words, index):
    """What an option says whose text, if it has one, ends in the word of this number."""
    name, equals, _ = word.partition("=")
    if takes_next(word):
        return [Part(word, words[index], index, 0)] if index < len(words) else []
    if equals and name in VALUED:
        return [Part(name, word[len(name) + 1 :], index, len(name) + 1)]
    return [Part("-l", word[2:], index, 2)] if word.startswith("-l") else []


def text_of(words, role):
    """The text of the first part of a role, or None."""
    return next((it.text for it in parts_of(words) if it.role == role), None)


def with_texts(words, change):
    """The words, in which the text of each part is what `change` makes of the part."""
    words = list(words)
    for part in parts_of(words):
        words[part.index] = words[part.index][: part.start] + change(part)
    return words

"""That each link of the documents leads to a file, and to a heading of it, that is there."""

import os
import re
import unittest

import check_docs
from calls import TOP

LINK = re.compile(r"\]\(([^)\s]+)\)")


def documents():
    """The paths of all documents."""
    for folder in (".", "docs", "editors"):
        names = sorted(os.listdir(os.path.join(TOP, folder)))
        yield from (os.path.join(folder, it) for it in names if it.endswith(".md"))


def prose(text):
    """The lines outside of blocks."""
    _, outside = check_docs.blocks(text)
    return [line for _, line in outside]


def anchors(text):
    """The names under which links find the headings of a text, as GitHub and GitLab make them."""
    heads = [line.lstrip("#").strip().lower() for line in prose(text) if line.startswith("#")]
    return {re.sub(r"[^\w -]", "", it).replace(" ", "-") for it in heads}


def links(text):
    """The links of a text within the repository, each as a path and an anchor."""
    bare = re.sub(r"`[^`]*`", "", "\n".join(prose(text)))
    inner = [it for it in LINK.findall(bare) if not it.startswith("http")]
    return [tuple(it.partition("#")[::2]) for it in inner]


class Links(unittest.TestCase):
    def test_anchors_are_those_of_headings(self):
        text = "# A `b`?\n```\n# no\n```\n### What, if: x-y\n[a](d.md#c-d) `[b](no)` [e](#f)\n"
        self.assertEqual(anchors(text), {"a-b", "what-if-x-y"})
        self.assertEqual(links(text), [("d.md", "c-d"), ("", "f")])

    def test_each_link_leads_somewhere(self):
        count = 0
        for document in documents():
            for path, anchor in links(check_docs.read(document)):
                to = os.path.normpath(os.path.join(os.path.dirname(document), path))
                to, count = to if path else document, count + 1
                self.assertTrue(os.path.exists(os.path.join(TOP, to)), f"{document}: {path}")
                if anchor:
                    self.assertIn(anchor, anchors(check_docs.read(to)), f"{document}: {path}")
        self.assertGreater(count, 100)


if __name__ == "__main__":
    unittest.main()

"""Edits that make the repository's texts wrong, as files of docs/wrong-definitions/ and docs/wrong-bodies/ describe them: a sentence with
the fault, lines that say what refuses it (`law: NAME`), and then files (`file: PATH`), each with pairs of texts (`old: TEXT`, `new: TEXT`), the
old one of which stands in the file once."""
import datetime

from trials import ROOT, Wrong


class Edit:
    """An edit: its name, the fault, what else its lines say by their first words, and the texts of the files that it changes, by their
    paths."""

    def __init__(self, file, words, is_edited):
        """The lines before the files begin with one of these words. `is_edited` says which paths may be changed."""
        self.name = file.stem
        self.said = {}
        self.texts = {}
        fault, *lines = file.read_text().splitlines()
        path, old = None, None
        for line in lines:
            word, _, text = line.partition(": ")
            if word in words:
                self.said.setdefault(word, []).append(text)
            elif word == "file":
                path = text
                if not is_edited(path):
                    raise Wrong(f"{file.name}: {path} isn't a file to be edited")
                self.texts.setdefault(path, (ROOT / path).read_text())
            elif word == "old":
                old = text
            elif word == "new":
                if self.texts[path].count(old) != 1:
                    raise Wrong(f"{file.name}: '{old}' is {self.texts[path].count(old)} times in {path}")
                self.texts[path] = self.texts[path].replace(old, text)
            else:
                raise Wrong(f"{file.name}: the line '{line}' says nothing")
        if not self.said or not self.texts or not fault.endswith("."):
            raise Wrong(f"{file.name}: it needs a sentence, the name of what refuses it, and an edit")


def chosen(edits, names, count, is_daily=lambda edit: True):
    """Those of these edits that have one of these names; with `all` all of them, and with no name so many of the daily ones, chosen by the
    day."""
    if names == ["all"]:
        return edits
    if names:
        if missing := set(names) - {edit.name for edit in edits}:
            raise Wrong(f"there is no {', '.join(sorted(missing))}")
        return [edit for edit in edits if edit.name in names]
    daily = [edit for edit in edits if is_daily(edit)]
    first = datetime.date.today().timetuple().tm_yday * count
    return [daily[(first + number) % len(daily)] for number in range(min(count, len(daily)))]

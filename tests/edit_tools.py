"""What the scripts over edits share: an edit's parts, its text put in, and a copy of the tree in which an edit is tried.

An edit has a line `# what the wrong program would do`, and after each `file:` line pairs of lines `old:` and `new:`. Each pair is put into
the text that the one before left, as `rt must-fail` does. A line `refused-by:` before them names a crate above, whose statements are to
refuse a mistake in a definition; without it the edit's own crate is to refuse it.
"""
import os
import re
import shutil
import subprocess

top = os.path.dirname(os.path.dirname(os.path.abspath(__file__)))


def parts(path):
    """The fields of an edit's head, its pairs (file, old, new), and the lines that are none of these."""
    fields, pairs, others, file, old = {}, [], [], "", None
    for line in open(path, encoding="utf-8").read().split("\n"):
        key, colon, value = line.partition(":")
        value = value[1:] if value.startswith(" ") else value
        if key == "file":
            file = value
        elif key == "old":
            old = value
        elif key == "new" and old is not None:
            pairs.append((file, old, value))
            old = None
        elif key == "refused-by":
            fields[key] = value
        elif line and not line.startswith("#"):
            others.append(line)
    return fields, pairs, others


def edited(folder, pairs):
    """The texts of the files below the crate's folder that the pairs change; or why they cannot."""
    texts = {}
    if not pairs:
        return {}, "it has no pair of an old and a new text"
    for file, old, new in pairs:
        path = os.path.join(folder, file)
        if not os.path.isfile(path):
            return {}, f"there is no file {file}"
        text = texts.get(path) or open(path, encoding="utf-8").read()
        if text.count(old) != 1:
            return {}, f"an old text is in {file} {text.count(old)} times"
        texts[path] = text.replace(old, new)
    return texts, ""


def copied(copy):
    """The crates in an empty folder. What earlier checks kept of them, rt finds itself."""
    shutil.copytree(os.path.join(top, "crates"), os.path.join(copy, "crates"), ignore=shutil.ignore_patterns("out"))
    for name in ("crates.txt", "HANDLES"):
        if os.path.isfile(os.path.join(top, name)):
            shutil.copy(os.path.join(top, name), os.path.join(copy, name))


def tried(copy, crate, pairs, checked):
    """What a check of the crate `checked` says with the pairs put into `crate`, whose files are put back; or why it was not tried."""
    texts, why = edited(os.path.join(copy, "crates", crate), pairs)
    if why:
        return "", why
    before = {path: open(path, encoding="utf-8").read() for path in texts}
    for path, text in texts.items():
        open(path, "w", encoding="utf-8").write(text)
    run = subprocess.run(["rt", "check"], cwd=os.path.join(copy, "crates", checked), stdout=subprocess.PIPE, stderr=subprocess.STDOUT, text=True)
    for path, text in before.items():
        open(path, "w", encoding="utf-8").write(text)
    return run.stdout, ""


def is_refused(said, checked):
    """Whether a check read the crate, and the libraries below it proved, and could not prove it."""
    verdicts = re.findall(r"^(?:rt: chose --jobs \d+ for (\w+)|crate (\w+): modules loaded=.*|(logic=\S+).*)$", said, re.M)
    names = [first or second for first, second, _ in verdicts if first or second]
    return bool(names) and names[-1] == checked and verdicts[-1][2] == "logic=not-proved"


def first_error(said):
    """The first error of a check, short."""
    first = re.search(r"^(?:\./)?(\S+:\d+:\d+: error.*)$", said, re.M) or re.search(r"^(fn \S+: (?:not proved|no proof).*)$", said, re.M)
    return first[1][:160] if first else "no error of a proof: " + " ".join(said.split("\n")[-3:])[:160]

"""Wrong bodies in the notation of must-fail edits, the gate's and those kept as text: whether each still meets its file."""


def misfit(crate, text):
    """Why these lines can't be applied to a crate's files, or none."""
    path, old, texts = None, None, {}
    for line in text.split("\n"):
        if line.startswith("file: "):
            path = line[len("file: "):].strip()
        elif line.startswith("old: "):
            old = line[len("old: "):]
        elif line.startswith("new:"):
            if not path or not old:
                return "a 'new:' line stands before any 'file:' or 'old:' line"
            if not (crate / path).is_file():
                return f"there is no file {path}"
            now = texts.setdefault(path, (crate / path).read_text(encoding="utf-8"))
            if (count := now.count(old)) != 1:
                return f"{path} has what it takes away {count} times, and not once: {old.strip()[:60]}"
            texts[path] = now.replace(old, line[len("new:"):].removeprefix(" "))
            old = None
    return None if texts else "it changes nothing"


def misfits(root):
    """What of the wrong bodies of all crates can't be applied, a line each."""
    for path in sorted(root.glob("crates/*/must-fail/*")):
        if why := misfit(path.parent.parent, path.read_text(encoding="utf-8")):
            yield f"{path.relative_to(root)}: {why}"

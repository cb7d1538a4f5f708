"""Folders of cases: a case is some files of one name."""

from pathlib import Path


def files_below(folders):
    """The files below folders, in their order, and each folder that has none or is not there."""
    for folder in map(Path, folders):
        held = sorted(folder.iterdir()) if folder.is_dir() else []
        if not held:
            yield folder
        for path in held:
            if path.is_dir():
                yield from files_below([path])
            else:
                yield path


def cases_in(paths, ends, more=()):
    """The cases of paths, which have files of all these ends and may have others of more: each by its path without an end, and ''.
    What belongs to no case comes with why that is so."""
    for path in paths:
        case = str(path).removesuffix(path.suffix)
        lacking = [end for end in ends if not Path(case + end).exists()]
        if not path.is_file():
            yield f"folder {path}", "it has no case"
        elif path.suffix not in (*ends, *more):
            yield str(path), "no case has such a file"
        elif lacking:
            yield str(path), f"its case has no {lacking[0]}"
        elif path.suffix == ends[0]:
            yield case, ""

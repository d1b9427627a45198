"""The wrong bodies that were refused on this machine, so that none is tried twice.

A refusal rests on the toolchain, the words of the check, the files of the crate and of those below it, their lines of crates.txt, the edit, and the
code here that tries and judges. What is not refused is never kept. Which other bodies share a check makes no difference to a verdict, so
nothing is said of them."""
import functools

import kept
import workspace
from bodies import edits, told, trial


@functools.cache
def judges():
    """A sum of the code that tries and judges."""
    texts = []
    for module in (edits, told, trial):
        with open(module.__file__, encoding="utf-8") as file:
            texts.append(file.read())
    return kept.sum_of(*texts)


@functools.cache
def rests_of(crate, folder, is_short):
    """A sum of all that the refusals of a crate's wrong bodies, in short checks or not, rest on beside their edits, over libraries that were made of
    the files of a folder."""
    below = workspace.sum_of([used for used in workspace.with_below([crate]) if used != crate], folder)
    line = (workspace.KINDS[crate], workspace.CRATES[crate])
    return kept.sum_of(kept.toolchain(), judges(), trial.words_of(crate, "", is_short), line, sorted(edits.files_of(crate).items()), below)


def name_of(body, folder, is_short):
    """The name under which the refusal of a wrong body is kept."""
    return kept.sum_of("refused", rests_of(body.crate, folder, is_short), body.edit)


def read(body, folder, is_short):
    """The verdict that is kept of a wrong body, over libraries that were made of the files of a folder, or None: that of whole checks, or else that of
    short ones if these serve too."""
    for kind in (False, True)[: 1 + is_short]:
        try:
            words, is_by_hand, goals = kept.read(name_of(body, folder, kind))
            if isinstance(words, str) and isinstance(is_by_hand, bool):
                return trial.Verdict(True, words, is_by_hand, goals=frozenset((function, goal) for function, goal in goals))
        except (ValueError, TypeError):
            pass
    return None


def keep(body, verdict, folder, is_short):
    """Keeps the refusal of a wrong body; what is not refused is not kept."""
    if verdict.is_refused:
        kept.keep(name_of(body, folder, is_short), [verdict.words, verdict.is_by_hand, sorted(verdict.goals)])

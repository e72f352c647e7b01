"""What changes come to: by checks of copies of their crates, and by the tests of other crates."""

import os
import re
import shutil
import tempfile

import functions
from crates import Crates, copy_crates, link, text_of
from groups import functions_of, groups_of, same_function, texts_of
from verdicts import LINE, Verdict, together, verdict_on


class Checks:
    """Checks of copies of crates, which are made in a folder of their own."""

    def __init__(self, kit, libraries, room):
        self.kit, self.libraries, self.room = kit, libraries, room

    def check(self, crate, group, names, kept):
        """Checks these functions of a copy of a crate with the changes of a group, over what another check kept: its
        status, what it printed, and the folder of what it kept. The proof of each other function is an empty file, so that
        no time goes into it; what stands on that function is checked against its contract all the same."""
        copy = tempfile.mkdtemp(prefix=f"{crate.name}-", dir=self.room)
        for part in ("src", "specs", "proofs"):
            if os.path.isdir(f"{crate.folder}/{part}"):
                shutil.copytree(f"{crate.folder}/{part}", f"{copy}/{part}")
        write(copy, texts_of(group, crate.texts))
        for name in crate.names - set(names):
            at = f"{copy}/proofs/{name.replace('::', '/')}"
            for file in ("Answers", "Invariants"):
                if os.path.exists(f"{at}/{file}.antt"):
                    os.remove(f"{at}/{file}.antt")
            os.makedirs(at, exist_ok=True)
            write(at, {"Proof.antt": ""})
        if kept:
            link(kept, f"{copy}/kept")
        os.makedirs(f"{copy}/kept", exist_ok=True)
        status, said = crate.check(self.kit, self.libraries, copy, names)
        kept = f"{copy}.kept"
        os.rename(f"{copy}/kept", kept)
        shutil.rmtree(copy)
        return status, said, kept

    def group(self, crate, kept, group):
        """What the changes of a group come to, and the folder of what the check kept. What doesn't compile is left out, and
        the others are checked again; so are right twins of one function that together aren't proved, each apart."""
        _, said, to = self.check(crate, group, functions_of(group), kept)
        if LINE.search(said):
            found = {it: self.verdict(said, crate, it) for it in group}
            again = [it for it in group if it.has_to_prove() and found[it].kind != "proved"]
            halves = groups_of(again, same_function)
            halves = halves if len(halves) > 1 or any(self.shared(it, group) for it in again) else []
        else:
            errors = dict(errors_in(said, group))
            found = {
                it: Verdict("nothing", f"it doesn't compile: {error[:200]}")
                for it, error in errors.items()
                if not self.shared(it, group)
            }
            left = [it for it in group if it not in errors]
            if not errors and len(left) == 1:
                return {left[0]: Verdict("nothing", f"its check ended early: {' '.join(said.split())[-200:]}")}, to
            # If it isn't said which change ended the check, each half is tried.
            halves = [left] if errors else [left[: len(left) // 2], left[len(left) // 2:]]
            halves += [[it] for it in errors if it not in found]
        for half in (it for it in halves if it):
            found.update(self.group(crate, to, half)[0])
        return found, to

    @staticmethod
    def shared(change, group):
        """Whether what a check says of a change could be due to another of its group."""
        return any(it is not change and same_function(it, change) for it in group)

    @staticmethod
    def verdict(said, crate, change):
        """What a check says of all the functions that a change concerns."""
        wanted = "proved" if change.has_to_prove() else "refused"
        return together([verdict_on(said, crate, it) for it in change.functions], wanted)

    def types(self, crate, group):
        """What bodies come to that must not compile. One without an error is tried by itself."""
        status, said, _ = self.check(crate, group, [], None)
        found = {}
        for change in group:
            errors, name = [error for _, error in errors_in(said, [change])], change.body.type_name
            named = next((it for it in errors if re.search(rf"\b{re.escape(name)}\b", it.split(" ", 1)[1])), None)
            if named:
                found[change] = Verdict("refused", named.partition(": ")[2][:200], True)
            elif len(group) > 1:
                found.update(self.types(crate, [change]))
            elif status == 0 or not errors:
                found[change] = Verdict("nothing", "it compiles, or its errors are at other lines")
            else:
                found[change] = Verdict("nothing", f"the error at its line doesn't name {name}: {errors[0][:200]}")
        return found


def errors_in(said, changes):
    """The errors that a check names at lines which a change puts in, each with the change."""
    errors = re.findall(r"^((src/\S+?):(\d+):\d+: error\b.*)$", said, re.M)
    return [
        (change, error)
        for change in changes
        for error, file, number in errors
        if any((it.file, it.number + 1) == (file, int(number)) for it in change.lines)
    ]


class Tests:
    """The tests that have to catch bodies, each in a copy of the repository without all other tests."""

    def __init__(self, top, kit, room):
        self.top, self.kit, self.room = top, kit, room

    def run(self, name, wanted, texts):
        """Runs these tests of a crate, with no proof, over changed texts of files under crates/: of each whether it passed,
        failed or had no time; and all that was said."""
        copy = tempfile.mkdtemp(prefix="tests-", dir=self.room)
        copy_crates(self.top, copy)
        crate = f"{copy}/crates/{name}"
        for at, _, files in os.walk(f"{crate}/src"):
            for file in files:
                path = os.path.relpath(f"{at}/{file}", crate)
                write(crate, {path: functions.with_tests_alone(path, text_of(f"{at}/{file}"), wanted)})
        write(f"{copy}/crates", texts)
        said = Crates(copy).try_tests(self.kit, name)
        shutil.rmtree(copy)
        ended = {}
        for test, how, why in re.findall(r"^test (\S+) \.\.\. (ok|FAILED)\n((?:(?!test ).*\n?)*)", said, re.M):
            ended[test] = "no time" if "no-answer" in why else how
        return ended, said

    def unchanged(self, name, wanted):
        """What keeps tests from telling anything: of each that doesn't pass over the code as it stands, why."""
        ended, said = self.run(name, wanted, {})
        over = "over the code as it stands"
        lacks = f"it doesn't run {over}: {' '.join(said.split())[-200:]}"
        hows = {"FAILED": f"it fails {over}", "no time": f"it has no time to end {over}"}
        return {it: hows.get(ended.get(it), lacks) for it in wanted if ended.get(it) != "ok"}

    def caught(self, change):
        """What a body comes to by the test that it names."""
        test = change.body.test
        texts = {f"{change.body.crate}/{path}": text for path, text in change.texts.items()}
        how, said = self.run(test.crate, [test.name], texts)
        if how.get(test.name) == "FAILED":
            return Verdict("refused", f"{test.name} of {test.crate}", True)
        if how.get(test.name) == "ok":
            return Verdict("proved", f"{test.name} of {test.crate} passes")
        return Verdict("nothing", f"{test.name} of {test.crate} didn't end: {' '.join(said.split())[-200:]}")


def write(folder, texts):
    for path, text in texts.items():
        with open(f"{folder}/{path}", "w", encoding="utf-8") as file:
            file.write(text)

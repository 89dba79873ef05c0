"""Tries edits of many crates on a few lanes: of each crate its batches, then what is left one by one. A crate whose library is not proved
as it stands is checked without an edit before."""
import datetime
import os
import signal
import sys
import tempfile
import threading
import time
from concurrent.futures import ThreadPoolExecutor

import aims
import batches
import record
import trying


class Part:
    """What is to be tried of a crate: batches, and single edits."""

    def __init__(self, crate, texts, is_built):
        self.crate, self.texts, self.is_built, self.jobs = crate, texts, is_built, []
        self.is_begun, self.is_proved, self.unknown = False, None, set()


class Trial:
    def __init__(self, known, room, lanes, keep, most, parts):
        self.known, self.root, self.keep, self.most, self.runs, self.parts = known, known.root, keep, most, trying.Runs(), parts
        self.lanes, self.lines = [trying.Lane(self.root, os.path.join(room, str(k)), self.runs) for k in range(lanes)], record.read()
        self.change, self.busy, self.bad, self.at = threading.Condition(), 0, 0, {}

    def folder(self, crate):
        return os.path.join(self.root, "crates", crate)

    def next(self, lane):
        """A part that is to be begun, or one with a job of it; nothing where all is done."""
        with self.change:
            while not self.runs.stopped:
                part, job = self.choice(lane)
                if part:
                    self.at[lane], self.busy = part, self.busy + 1
                    part.is_begun = True
                    return part, job
                if not self.busy:
                    return None
                self.change.wait(1)
        return None

    def choice(self, lane):
        """What a lane best does next. Half of the lanes may prove crates ahead. A lane stays with its crate, for it keeps work of it, and
        goes to a crate of another lane where no other is left."""
        new = [it for it in self.parts if not it.is_begun]
        ready = [it for it in self.parts if it.is_proved is not None and it.jobs]
        unproved = [it for it in new if not it.is_built]
        proving = [it for it in self.parts if it.is_begun and it.is_proved is None and not it.is_built]
        # (one that needs no library which is being proved, if there is one)
        under = {it.crate for it in self.parts if it.is_proved is None and not it.is_built}
        unproved.sort(key=lambda it: bool(self.known.below(it.crate) & under))
        if unproved and len(proving) < len(self.lanes) // 2:
            return unproved[0], None
        others = [part for it, part in self.at.items() if it is not lane]
        best = min(ready, key=lambda it: (it is not self.at.get(lane), others.count(it), -len(it.jobs)), default=None)
        if best and (best is self.at.get(lane) or best not in others):
            return best, best.jobs.pop(0)
        begun = [it for it in new if it.is_built] or ([] if best else unproved)
        if begun:
            return begun[0], None
        return (best, best.jobs.pop(0)) if best else (None, None)

    def work(self, lane):
        """Does what there is to do, until there is no more."""
        while found := self.next(lane):
            part, job = found
            more = []
            try:
                if job is None:
                    self.begin(part)
                elif isinstance(job, str) or not part.is_proved:
                    for edit in [job] if isinstance(job, str) else [it.edit for it in job]:
                        self.alone(lane, part, edit)
                else:
                    more = self.together(lane, part, job)
            finally:
                with self.change:
                    part.jobs[:0] = more
                    self.busy -= 1
                    self.change.notify_all()

    def begin(self, part):
        """Makes the batches of a crate, and sees whether it is proved without an edit. Where that takes a check, its work is kept."""
        made, alone = [], list(part.texts)
        if self.most > 1:
            made, alone = batches.made(self.known.own(part.crate), part.texts, self.folder(part.crate), self.most, self.lines)
        jobs = os.environ.get("RT_JOBS") or ("1" if len(self.parts) > 1 and len(self.lanes) > 1 else "")
        status = 0
        if not part.is_built:
            said, status = self.runs.run(["rt", "check", *(["--jobs", jobs] if jobs else [])], self.folder(part.crate))
            if status and not self.runs.stopped:
                print(said, flush=True)
        with self.change:
            part.jobs, part.is_proved = [*made, *alone], status == 0

    def check(self, lane, crate, texts, edits, only=()):
        """What the check of the crate says with these texts, or that of these functions, its status, and its seconds."""
        began = time.monotonic()
        if lane.crate != crate:
            lane.prepare(crate, self.known.below(crate), [it for it in self.lanes if it.crate == crate])
        said, status = lane.check(texts, only)
        if self.keep and not self.runs.stopped:
            for edit in edits:
                with open(os.path.join(self.keep, edit.replace("/", "-")), "w", encoding="utf-8") as it:
                    it.write(said)
        return said, status, time.monotonic() - began

    def aimed(self, lane, part, texts, edits, functions, more):
        """The same of these functions alone, and of one more if the prover knows it; nothing where it does not know them all."""
        while True:
            paths = [next((it for it in aim if it not in part.unknown), None) for aim in functions]
            paths += [it for it in more if it not in part.unknown][:1]
            if not paths or None in paths:
                return None
            said, status, seconds = self.check(lane, part.crate, texts, edits, paths)
            unknown = aims.unknown_of(said, paths) if status == 2 else set()
            if not unknown:
                return said, status, seconds
            part.unknown |= unknown

    def alone(self, lane, part, edit):
        """Tries one edit, and says how it ended."""
        how, seconds = None, 0
        texts, why = trying.applied(part.texts[edit], self.folder(part.crate))
        if not why and not part.is_proved:
            why = "the crate is not proved without it"
        if not why:
            how, why, seconds = self.ended(lane, part, edit, texts)
            if self.runs.stopped:
                return
        self.tell(part, edit, how, why, seconds)

    def ended(self, lane, part, edit, texts):
        """How an edit ended: by the check of the functions to which it leads, where that decides, or else by that of the whole crate."""
        own, past = self.known.own(part.crate), self.lines.get(edit, [])[2:]
        functions = own.touched(list(trying.pairs(part.texts[edit]))) or []
        turned = batches.turned(own, edit, part.texts[edit])
        found = self.aimed(lane, part, texts, [edit], [aims.paths_of(own, it) for it in functions], aims.paths_at(own, past))
        seconds = 0
        if found:
            said, status, seconds = found
            if self.runs.stopped or batches.decides(said, status, texts, turned, past):
                return trying.outcome(said, status, texts)[0], "", seconds
        said, status, more = self.check(lane, part.crate, texts, [edit])
        return *trying.outcome(said, status, texts), seconds + more

    def together(self, lane, part, batch):
        """Tries a batch, says of each edit of it that was refused how it ended, and answers what is to be tried of the others."""
        texts, why = batches.applied(batch, self.folder(part.crate))
        if why:
            return [it.edit for it in batch]
        edits, own = [it.edit for it in batch], self.known.own(part.crate)
        functions = [aims.paths_of(own, function) for it in batch for function in it.functions]
        said, status, seconds = self.aimed(lane, part, texts, edits, functions, []) or self.check(lane, part.crate, texts, edits)
        if self.runs.stopped:
            return []
        found, left = batches.split(said, status, texts, batch)
        for edit, how in found.items():
            self.tell(part, edit, how, "", seconds)
        return left

    def tell(self, part, edit, how, why, seconds):
        with self.change:
            if how:
                found = self.known.hash(part.crate, part.texts[edit], how)
                record.write({edit: [found, datetime.date.today().isoformat(), *how]})
            self.bad += not how
            print(f"{edit}: {' '.join(how) if how else why} ({seconds:.0f} s)", flush=True)


def seconds_of(root):
    """What the proof of each crate takes, by the table of the gate."""
    path = os.path.join(root, "docs/gate-cost.csv")
    if not os.path.isfile(path):
        return {}
    with open(path, encoding="utf-8") as it:
        rows = [line.strip().split(",") for line in it]
    return {row[0]: int(row[1]) for row in rows if len(row) > 1 and row[0].startswith("cse_") and row[1].isdigit()}


def parts_of(known, found):
    """What is to be tried of each crate: of those that are proved first what is dearest, then the others from the lowest up."""
    texts, seconds = {}, seconds_of(known.root)
    for edit, text in found.items():
        texts.setdefault(edit.split("/")[0], {})[edit] = text
    built = trying.built(known.root, texts)
    dear = {it: seconds.get(it, 0) + 20 * len(texts[it]) for it in texts}
    order = sorted(texts, key=lambda it: (it not in built, -dear[it] if it in built else len(known.below(it))))
    return [Part(crate, texts[crate], crate in built) for crate in order]


def tried(known, found, lanes, keep, most):
    """Tries these edits, as many as `most` in one check, and says how many were not refused."""
    with tempfile.TemporaryDirectory(prefix="more-edits-") as room:
        trial = Trial(known, room, lanes, keep, most, parts_of(known, found))
        signal.signal(signal.SIGTERM, signal.default_int_handler)
        pool = ThreadPoolExecutor(lanes)
        try:
            for it in [pool.submit(trial.work, lane) for lane in trial.lanes]:
                it.result()
            return trial.bad
        except KeyboardInterrupt:
            signal.signal(signal.SIGTERM, signal.SIG_IGN)
            trial.runs.stop()
            pool.shutdown(cancel_futures=True)
            sys.exit("stopped; what was found is in record.txt")

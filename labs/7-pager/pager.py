#!/usr/bin/env python3
"""pager.py < SCRIPT: a small pager, which prints the listing of a run. One thing is missing: `choose`.

It runs scripts with one processor and one process, which makes segments right below the root, makes them known, reads
and writes their words, and asks for their status. It has no drive that fails, and never makes a segment inactive.
"""
import sys

WORDS = 1024


class Segment:
    """A segment: its words (those that aren't 0), its length in pages, and which pages are stored."""

    def __init__(self, uid, pages, volume):
        self.uid, self.pages, self.volume = uid, pages, volume
        self.words, self.stored = {}, set()

    def is_zero(self, page):
        """Whether all words of a page are 0."""
        return not any(self.words.get(at) for at in range(page * WORDS, (page + 1) * WORDS))


class Pager:
    """The frames, the segments, and what the one processor holds."""

    def __init__(self, frames, quota, volumes):
        self.frames = [None] * frames  # of each frame the segment and the page in it, None where it is free
        self.quota, self.volumes = quota, volumes  # of each volume its records and its VTOC entries
        self.names, self.known, self.active, self.connected = {}, [], False, set()
        self.held_segments, self.held_frames = [], []  # the oldest first, sixteen at most of each
        self.place = 0

    # YOUR PART. All frames are in use: which one is emptied? `self.frames[f]` is the segment and the page in frame f.
    # Whatever you choose, the listing must be accepted. `used` is called at each reference through a frame, and
    # `came_in` for each page that comes in, should your rule want to know.
    def choose(self):
        """The number of the frame that is emptied."""
        sys.exit("pager: no frame is free, and `choose` isn't written")

    def used(self, frame):
        """A reference was made through this frame."""

    def came_in(self, frame):
        """A page came into this frame."""

    def answer(self, frame, reply):
        """The entry of the next command's answer."""
        print(f"do 0.{self.place} 0 {'-' if frame is None else frame} {reply}")
        self.place += 1

    def frame_of(self, segment, page):
        """The frame of a page, None where it is in none."""
        return next((f for f, it in enumerate(self.frames) if it == (segment, page)), None)

    def empty(self, frame):
        """The page in a frame leaves it: it is taken, dropped, and gone. A page of zeros is given up."""
        segment, page = self.frames[frame]
        print(f"take {frame}")
        print(f"signal 0 page {frame}")
        self.held_frames = [it for it in self.held_frames if it != frame]
        self.leave(frame, segment, page)

    def leave(self, frame, segment, page):
        """What was taken is gone."""
        print(f"gone page {frame}")
        if segment.is_zero(page):
            print(f"release {segment.uid} {page}")
            segment.stored.discard(page)
        self.frames[frame] = None

    def free_frame(self):
        """A free frame, made so where none is."""
        if None not in self.frames:
            self.empty(self.choose())
        return self.frames.index(None)

    def connect(self, number, segment):
        """The descriptor of a number leads to its segment, and both are active."""
        if not self.active:
            print("activate 1")
            self.active = True
        if number not in self.connected:
            if not any(self.known[it] is segment for it in self.connected):
                print(f"activate {segment.uid}")
            print(f"connect 0 {number} {segment.uid}")
            self.connected.add(number)

    def hold(self, held, it, text):
        """The processor holds an entry, in place of the oldest where it holds sixteen."""
        if it not in held:
            print(f"fill 0 {text} {it}")
            held.append(it)
            del held[:-16]

    def stored(self, volume=None):
        """How many pages are stored, of all volumes or of one."""
        return sum(len(it.stored) for it in self.names.values() if volume in (None, it.volume))

    def make_segment(self, name, pages, volume):
        """Makes a segment."""
        if name in self.names:
            return self.answer(None, "exists")
        if self.entries(volume) == self.volumes[volume][1]:
            return self.answer(None, "noentry")
        self.names[name] = Segment(len(self.names) + 2, pages, volume)
        return self.answer(None, f"made {self.names[name].uid}")

    def entries(self, volume):
        """How many VTOC entries of a volume are in use; the root has one on the first."""
        return sum(it.volume == volume for it in self.names.values()) + (volume == next(iter(self.volumes)))

    def initiate(self, name):
        """Makes a segment known."""
        if name not in self.names:
            return self.answer(None, "nopath")
        segment = self.names[name]
        if segment not in self.known:
            self.known.append(segment)
        return self.answer(None, f"known {self.known.index(segment)}")

    def status(self, name):
        """What a segment is like, or the root."""
        if name == ">":
            return self.answer(None, f"dir 1 quota {self.quota} used {self.stored()}")
        if name not in self.names:
            return self.answer(None, "nopath")
        it = self.names[name]
        return self.answer(None, f"seg {it.uid} length {it.pages} stored {len(it.stored)}")

    def refer(self, number, offset, word):
        """Reads a word, or writes one where it is given."""
        if number >= len(self.known):
            return self.answer(None, "unknown")
        segment, page = self.known[number], offset // WORDS
        if page >= segment.pages:
            return self.answer(None, "length")
        self.connect(number, segment)
        if page in segment.stored:
            return self.through(number, segment, offset, word)
        if not word:
            self.hold(self.held_segments, number, "seg")
            return self.answer(None, "done" if word == 0 else f"word {0:012o}")
        return self.make_page(segment, offset, word)

    def through(self, number, segment, offset, word):
        """A reference through the frame of a stored page, which is read in first where it is in none."""
        page = offset // WORDS
        self.hold(self.held_segments, number, "seg")
        frame = self.frame_of(segment, page)
        if frame is None:
            frame = self.free_frame()
            print(f"start {frame} {segment.uid} {page}")
            self.bring(frame, segment, page)
        self.hold(self.held_frames, frame, "page")
        self.used(frame)
        if word is None:
            return self.answer(frame, f"word {segment.words.get(offset, 0):012o}")
        segment.words[offset] = word
        return self.answer(frame, "done")

    def bring(self, frame, segment, page):
        """A page is in a frame."""
        print(f"in {frame} {segment.uid} {page}")
        self.frames[frame] = (segment, page)
        self.came_in(frame)

    def make_page(self, segment, offset, word):
        """The first word other than 0 of a page makes it."""
        if self.stored() == self.quota:
            return self.answer(None, "quota")
        if self.stored(segment.volume) == self.volumes[segment.volume][0]:
            return self.answer(None, "norecord")
        frame = self.free_frame()
        self.bring(frame, segment, offset // WORDS)
        segment.stored.add(offset // WORDS)
        segment.words[offset] = word
        return self.answer(None, "done")

    def end(self):
        """The process ends: each descriptor is cut, dropped, and gone."""
        for number in sorted(self.connected):
            print(f"cut 0 {number}")
        if self.connected:
            print("signal 0 all")
        for number in sorted(self.connected):
            print(f"gone seg 0 {number}")
        self.answer(None, "done")
        print("leave 0")

    def shut_down(self):
        """The pages leave their frames, and the summary is printed."""
        for frame, there in enumerate(self.frames):
            if there is not None:
                print(f"take {frame}")
                self.leave(frame, *there)
        print(f"> quota {self.quota} used {self.stored()}")
        for name, (records, entries) in self.volumes.items():
            taken, used = self.stored(name), self.entries(name)
            print(f"volume {name} records {records} taken {taken} entries {entries} taken {used}")


def run(script, kind):
    """Prints the listing of a script, by a pager of this kind."""
    lines = [line.split() for line in script.splitlines() if line.split() and not line.lstrip().startswith("#")]
    volumes = {it[1]: (int(it[2]), int(it[3])) for it in lines if it[0] == "volume"}
    pager = kind(int(lines[0][2]), int(lines[1][1]), volumes)
    print("online 0")
    print("load 0 0")
    first = next(at for at, it in enumerate(lines) if it[0] == "process")
    for word, *fields in lines[first + 1:]:
        if word == "mkseg":
            pager.make_segment(fields[0], int(fields[1]), fields[2])
        elif word == "initiate":
            pager.initiate(fields[0])
        elif word == "read":
            pager.refer(int(fields[0]), int(fields[1]), None)
        elif word == "write":
            pager.refer(int(fields[0]), int(fields[1]), int(fields[2], 8))
        elif word == "status":
            pager.status(fields[0])
        elif word == "end":
            pager.end()
        else:
            sys.exit(f"pager: it doesn't know `{word}`")
    pager.shut_down()


if __name__ == "__main__":
    run(sys.stdin.read(), Pager)

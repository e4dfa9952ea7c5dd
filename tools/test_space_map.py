#!/usr/bin/env python3
"""Tests of space-map. The listing of a guest is an excerpt of what a Linux guest had: bench/qemu_core.sh takes one."""
import os
import pathlib
import random
import subprocess
import tempfile
import unittest
from xml.etree import ElementTree

import in_process

TOOL = pathlib.Path(__file__).with_name("space-map")
SVG = "{http://www.w3.org/2000/svg}"

EXAMPLE = """areas 2
0x0 0xfff 0x5000 rwxrwxrw
0x1000 0x1fff 0x6000 r-xr-xr-
"""
EXAMPLE_SUMMARY = """2 areas, 8 KiB mapped, four levels

A user may reach in the upper half:   nothing
A user may both write and run:        4 KiB, 1 page of 4 KiB in 1 area
  0x0 - 0xfff                                     4 KiB  rwxrwxrw
A supervisor may both write and run:  4 KiB, 1 page of 4 KiB in 1 area
  0x0 - 0xfff                                     4 KiB  rwxrwxrw

Rights        lower half    upper half       areas
r-xr-xr-           4 KiB             -           1
rwxrwxrw           4 KiB             -           1

Rights are the letters of the accesses that are granted: a user's read, write and fetch (rwx), a
supervisor's (rwx), and its implicit read and write (rw). A - is an access that is denied.

Largest areas:
  0x0 - 0xfff                                     4 KiB  rwxrwxrw
  0x1000 - 0x1fff                                 4 KiB  r-xr-xr-
"""

GUEST = """areas 9
0x400000 0x400fff 0x3811000 r-------
0x401000 0x406fff 0x3812000 r-x-----
0x4af000 0x4affff 0x29f8000 rw------
0x7ffff7ff8000 0x7ffff7ff8fff 0x29f4000 rw------
0xffff888000000000 0xffff888000097fff 0x0 ---rw-rw
0xffff888000098000 0xffff888000098fff 0x98000 ---r--r-
0xffff888000099000 0xffff88800009afff 0x99000 ---r-xr-
0xffff88800009b000 0xffff88801f47ffff 0x9b000 ---rw-rw
0xffffffffff600000 0xffffffffff600fff 0x2a01000 --x-----
"""
# Two of its lines with five levels.
FIVE = """areas 2
0x800000000000 0x800000000fff 0x3811000 rw-rw-rw
0xff11000000000000 0xff1100000009afff 0x0 ---rwxrw
"""


def listing(areas):
    return f"areas {len(areas)}\n" + "".join(f"{a:#x} {b:#x} {c:#x} {rights}\n" for a, b, c, rights in areas)


def random_listing(count):
    """Areas of all kinds of rights, of one to many pages, with and without gaps, in both halves."""
    draw = random.Random(count)
    kinds = ["r-xr-xr-", "rw-rw-rw", "---rw-rw", "---r-xr-", "rwxrwxrw", "--------", "--x-----"]
    areas, at = [], 0x400000
    for index in range(count):
        if index == count // 2:
            at = 0xFFFF888000000000
        at += draw.choice((0, 0, 0x1000, 0x7000, 1 << draw.randrange(12, 34) if draw.random() < 0.01 else 0))
        size = 0x1000 << draw.choice((0, 0, 0, 1, 2, 9, 12))
        areas.append((at, at + size - 1, at & 0xFFFFFFF000, draw.choice(kinds)))
        at += size
    return listing(areas)


tool = in_process.load(TOOL)


def run(text, *words):
    return in_process.run(tool, *words, data=text.encode())


class Summaries(unittest.TestCase):
    def written(self, text, *words):
        done = run(text, *words)
        self.assertEqual((done.returncode, done.stderr), (0, b""))
        return done.stdout.decode()

    def test_the_example(self):
        self.assertEqual(self.written(EXAMPLE), EXAMPLE_SUMMARY)

    def test_a_file(self):
        with tempfile.NamedTemporaryFile() as file:
            file.write(EXAMPLE.encode())
            file.flush()
            self.assertEqual(self.written("", file.name), EXAMPLE_SUMMARY)

    def test_no_line_feed_at_the_end(self):
        self.assertEqual(self.written(EXAMPLE[:-1]), EXAMPLE_SUMMARY)

    def test_a_guest(self):
        lines = self.written(GUEST).splitlines()
        self.assertEqual(lines[0], "9 areas, 500.5 MiB mapped, four levels")
        self.assertIn("A user may reach in the upper half:   4 KiB, 1 page of 4 KiB in 1 area", lines)
        self.assertIn("  0xffffffffff600000 - 0xffffffffff600fff         4 KiB  --x-----", lines)
        self.assertIn("A user may both write and run:        nothing", lines)
        self.assertIn("A supervisor may both write and run:  nothing", lines)
        table = lines[lines.index("Rights        lower half    upper half       areas") + 1 :][:7]
        self.assertEqual(
            table,
            [
                "r-x-----          24 KiB             -           1",
                "rw------           8 KiB             -           2",
                "r-------           4 KiB             -           1",
                "---rw-rw               -     500.5 MiB           2",
                "---r-xr-               -         8 KiB           1",
                "---r--r-               -         4 KiB           1",
                "--x-----               -         4 KiB           1",
            ],
        )
        largest = lines[lines.index("Largest areas:") + 1 :]
        self.assertEqual(len(largest), 9)
        self.assertEqual(largest[0], "  0xffff88800009b000 - 0xffff88801f47ffff     499.9 MiB  ---rw-rw")
        self.assertEqual(largest[2].split()[0], "0x401000")

    def test_who_writes_and_runs(self):
        user, supervisor = (0x1000, 0x1FFF, 0, "rwx-----"), (0x2000, 0x3FFF, 0, "---rwxrw")
        text = listing([user, supervisor, (0x4000, 0x4FFF, 0, "rw---x--")])
        lines = self.written(text).splitlines()
        self.assertEqual(lines[3], "A user may both write and run:        4 KiB, 1 page of 4 KiB in 1 area")
        self.assertEqual(lines[5], "A supervisor may both write and run:  8 KiB, 2 pages of 4 KiB in 1 area")

    def test_sizes(self):
        sizes = {"4 KiB": 1 << 12, "1020 KiB": 255 << 12, "1 MiB": 1 << 20, "1.0 MiB": 257 << 12, "1 GiB": 1 << 30}
        sizes |= {"1.5 TiB": 3 << 39, "64 TiB": 1 << 46}
        areas, at = [], 0
        for size in sizes.values():
            areas.append((at, at + size - 1, 0, "rw-rw-rw"))
            at += size
        largest = self.written(listing(areas)).split("Largest areas:\n")[1].splitlines()
        self.assertEqual([" ".join(line.split()[3:5]) for line in largest], sorted(sizes, key=sizes.get, reverse=True))

    def test_five_levels(self):
        self.assertTrue(self.written(FIVE).startswith("2 areas, 624 KiB mapped, five levels\n"))
        for text in FIVE.splitlines()[1:]:
            self.assertIn("five levels\n", self.written(f"areas 1\n{text}\n"))
        self.assertIn("five levels\n", self.written(EXAMPLE, "--levels", "5"))
        self.assertIn("four levels\n", self.written(EXAMPLE, "--levels", "4"))
        whole = listing([(0, (1 << 47) - 1, 0, "r-------"), ((1 << 64) - (1 << 47), (1 << 64) - 1, 0, "---r--r-")])
        self.assertIn("four levels\n", self.written(whole))

    def test_a_part_of_many(self):
        lines = self.written(random_listing(1000)).splitlines()
        start = next(i for i, line in enumerate(lines) if line.startswith("A user may both write and run:"))
        count = int(lines[start].split()[-2].replace(",", ""))
        self.assertEqual(lines[start + 6], f"  and {count - 5} more")
        five = listing([(i << 13, (i << 13) + 4095, 0, "rwx-----") for i in range(5)])
        self.assertNotIn("more", self.written(five))
        self.assertEqual(len(lines[lines.index("Largest areas:") + 1 :]), 10)

    def test_the_width(self):
        whole = listing([(0, (1 << 56) - 1, 0, "rwxrwxrw"), (255 << 56, (1 << 64) - 1, 0, "rwxrwxrw")])
        for text in (random_listing(2000), whole):
            self.assertLessEqual(max(map(len, self.written(text).splitlines())), 100)

    def test_no_area(self):
        self.assertEqual(self.written("areas 0\n"), "0 areas, 0 bytes mapped, four levels\n")

    def test_other_answers_beside(self):
        before = "granted 0x6234\ndenied absent 1\npoint no 1\ncpu 1 pcid 0 page 0x0 frame 0x5000 rwxrwxrw\n"
        self.assertEqual(self.written(before + EXAMPLE + "point yes\nline 9 refused: syntax\n"), EXAMPLE_SUMMARY)

    def test_one_of_several(self):
        several = EXAMPLE + "point yes\n" + GUEST + "areas too large\n" + "areas 0\n"
        self.assertEqual(self.written(several, "--listing", "1"), EXAMPLE_SUMMARY)
        self.assertEqual(self.written(several, "--listing", "2"), self.written(GUEST))
        self.assertTrue(self.written(several, "--listing", "4").startswith("0 areas"))

    def test_the_command(self):
        for words, start in (("--help", "usage: space-map "), ("", EXAMPLE_SUMMARY)):
            command = [TOOL, *words.split()]
            done = subprocess.run(command, input=EXAMPLE.encode(), capture_output=True, check=False)
            self.assertEqual((done.returncode, done.stderr), (0, b""))
            self.assertTrue(done.stdout.decode().startswith(start))


class Refusals(unittest.TestCase):
    def refused(self, text, why, *words):
        done = run(text, *words)
        self.assertEqual((done.returncode, done.stdout), (1, b""))
        self.assertEqual(done.stderr.decode(), f"space-map: {why}\n")

    def test_no_listing(self):
        for text in ("", "granted 0x0\n", "denied xd\n"):
            self.refused(text, "there is no listing")
        refusal = "line 3 refused: no processor 1"
        self.refused(f"granted 0x0\n{refusal}\n", f"there is no listing: the run ended with `{refusal}`")
        self.refused("core refused: type\n", "there is no listing: the run ended with `core refused: type`")

    def test_too_large(self):
        why = "is the answer `areas too large`, which has no areas"
        self.refused("areas too large\n", f"listing 1 {why}")
        self.refused(EXAMPLE + "areas too large\n", f"listing 2 {why}", "--listing", "2")

    def test_several(self):
        three = EXAMPLE + "areas too large\n" + GUEST
        self.refused(three, "there are 3 listings: choose one by --listing, from 1 to 3")
        self.refused(EXAMPLE + EXAMPLE, "there are 2 listings: choose one by --listing, from 1 to 2")
        self.refused(EXAMPLE, "there is no listing 2: there is 1", "--listing", "2")
        self.refused(EXAMPLE + EXAMPLE, "there is no listing 3: there are 2", "--listing", "3")

    def test_a_listing_that_was_cut(self):
        lines = GUEST.splitlines(keepends=True)
        for kept in (1, 5, 8):
            cut = f"the listing is cut: its head counts 9 areas, and {kept - 1} follow"
            self.refused("".join(lines[:kept]), cut)
            self.refused("".join(lines[:kept]) + lines[kept][:-3], cut)
            self.refused("".join(lines[:kept]) + "point yes\n", f"{cut}, up to line {kept + 1}")
            self.refused("".join(lines[:kept]) + EXAMPLE, f"{cut}, up to line {kept + 1}")
        # Also of a listing that isn't wanted.
        cut = "the listing is cut: its head counts 9 areas, and 8 follow"
        self.refused(EXAMPLE + "".join(lines[:9]), cut, "--listing", "1")

    def test_more_areas_than_the_head_counts(self):
        self.refused(EXAMPLE.replace("areas 2", "areas 1"), "line 3 is an area, and no head before it counts it")

    def test_a_line_of_no_form(self):
        why = "line 3 isn't of the form FIRST LAST FRAME RIGHTS"
        area = "0x1000 0x1fff 0x6000 r-xr-xr-"
        for bad in (area[:-9], area[:-1], area[:-2] + "w-", "hello", ""):
            self.refused(EXAMPLE.replace(area, bad), why)
        for bad in ("0x01000", "0x1000 ", "1000", "0X1000", "0x1000000000000f000"):
            self.refused(EXAMPLE.replace("0x1000", bad), why)
        for bad in ("areas x\n", "events 1000\n", "\n", "\x00\n", "areas 01\n", "areas 2\r\n"):
            self.refused("granted 0x0\n" + bad + EXAMPLE, "line 2 isn't a line of an answer")

    def test_a_line_without_end(self):
        self.refused("granted 0x0\n" + "x" * 2000, "line 2 is longer than any line of an answer")
        with open("/dev/zero", "rb") as zeros:
            done = subprocess.run([TOOL], stdin=zeros, capture_output=True, check=False, timeout=20)
        self.assertEqual(done.stderr, b"space-map: line 1 is longer than any line of an answer\n")

    def test_areas_out_of_order(self):
        why = "line 3 has an area that doesn't begin after the one before it"
        self.refused(EXAMPLE.replace("0x1000 0x1fff", "0x0 0xfff"), why)
        self.refused(EXAMPLE.replace("0x0 0xfff", "0x0 0x1fff"), why)
        self.refused(EXAMPLE.replace("0x0 0xfff", "0x5000 0x5fff"), why)

    def test_ranges_that_are_none(self):
        why = "line 2 has a range that isn't one of whole pages"
        for bad in ("0x1 0xfff", "0x0 0xffe", "0x0 0x0", "0x1000 0xfff"):
            self.refused(EXAMPLE.replace("0x0 0xfff", bad), why)
        why = "line 3 has addresses that aren't canonical"
        for bad in (
            "0x1000 0xffffffffffffffff",
            "0x1000 0x100000000000fff",
            "0x100000000000000 0x100000000000fff",
            "0xfeffffffffffe000 0xfeffffffffffffff",
        ):
            self.refused(EXAMPLE.replace("0x1000 0x1fff", bad), why)

    def test_frames_that_are_none(self):
        why = "line 2 has a frame that isn't the address of one"
        for bad in ("0x5001", "0x10000000000000"):
            self.refused(EXAMPLE.replace("0x5000", bad), why)

    def test_four_levels_that_are_too_few(self):
        why = "--levels 4: the listing has addresses that are canonical with five levels alone"
        self.refused(FIVE, why, "--levels", "4")

    def test_files_that_cannot_be_read(self):
        self.refused("", "/nowhere/at/all: No such file or directory", "/nowhere/at/all")
        self.refused("", "/: Is a directory", "/")
        done = subprocess.run(f"'{TOOL}' <&-", shell=True, capture_output=True, check=False)
        self.assertEqual((done.returncode, done.stderr), (1, b"space-map: standard input: Bad file descriptor\n"))

    def test_an_output_that_takes_nothing(self):
        for place, why in ((">/dev/full", "No space left on device"), (">&-", "Bad file descriptor")):
            command = f"'{TOOL}' {place}"
            done = subprocess.run(command, shell=True, input=EXAMPLE.encode(), capture_output=True, check=False)
            self.assertEqual((done.returncode, done.stderr.decode()), (1, f"space-map: standard output: {why}\n"))
        reader, writer = os.pipe()
        os.close(reader)
        done = subprocess.run([TOOL], input=EXAMPLE.encode(), stdout=writer, stderr=subprocess.PIPE, check=False)
        os.close(writer)
        self.assertEqual((done.returncode, done.stderr), (1, b"space-map: standard output: Broken pipe\n"))

    def test_words_of_no_form(self):
        for words in ("--listing 0", "--listing x", "--levels 3", "--title a\tb", "--title " + "x" * 81, "a b"):
            words = words.split(" ")
            done = run(EXAMPLE, *words)
            self.assertEqual((done.returncode, done.stdout), (2, b""))


class Pictures(unittest.TestCase):
    def setUp(self):
        folder = tempfile.TemporaryDirectory()
        self.addCleanup(folder.cleanup)
        self.folder = pathlib.Path(folder.name)

    def drawn(self, text, *words):
        """The picture's text, and its root."""
        file = self.folder / "space.svg"
        done = run(text, "--svg", file, *words)
        self.assertEqual((done.returncode, done.stderr), (0, b""))
        self.assertEqual(list(self.folder.iterdir()), [file])
        drawing = file.read_text(encoding="utf-8")
        return drawing, ElementTree.fromstring(drawing)

    def titles(self, root):
        return [title.text for title in root.iter(f"{SVG}title")]

    def texts(self, root):
        return [text.text for text in root.iter(f"{SVG}text")]

    def test_each_area_has_its_title(self):
        titles = self.titles(self.drawn(EXAMPLE)[1])
        self.assertIn("0x0 - 0xfff\nrwxrwxrw, 4 KiB, frame 0x5000", titles)
        self.assertIn("0x1000 - 0x1fff\nr-xr-xr-, 4 KiB, frame 0x6000", titles)

    def test_letters_stand_in_the_areas_and_the_legend(self):
        texts = self.texts(self.drawn(EXAMPLE)[1])
        # Once in the legend, and in the lanes of the user and of the supervisor.
        times = {"rwx": 3, "r-x": 3, "rw-": 1, "r--": 1, "rw": 1, "r-": 1, "---": 0, "--x": 0}
        self.assertEqual({letters: texts.count(letters) for letters in times}, times)
        for name in ("user", "supervisor", "implicit", "0x0 \u2013 0x1fff", "2 areas, 8 KiB", "0xffff800000000000"):
            self.assertIn(name, texts)

    def test_the_summary_in_the_picture(self):
        texts = self.texts(self.drawn(GUEST)[1])
        self.assertIn("9 areas, 500.5 MiB mapped, four levels.", texts)
        self.assertIn(
            "A user reaches 4 KiB in the upper half. Both written and run: by a user nothing, by a supervisor nothing.",
            texts,
        )

    def test_a_strip_for_each_cluster(self):
        texts = self.texts(self.drawn(GUEST)[1])
        strips = [text for text in texts if " \u2013 " in text]
        self.assertEqual(
            strips,
            [
                "0x400000 \u2013 0x4affff",
                "0x7ffff7ff8000 \u2013 0x7ffff7ff8fff",
                "0xffff888000000000 \u2013 0xffff88801f47ffff",
                "0xffffffffff600000 \u2013 0xffffffffff600fff",
            ],
        )
        # Their numbers stand at the bar of the whole space, and at the strips.
        self.assertEqual([texts.count(str(place)) for place in range(1, 6)], [2, 2, 2, 2, 0])

    def test_a_gap_is_cut(self):
        root = self.drawn(GUEST)[1]
        groups = {group[0].text.split("\n")[0]: group for group in root.iter(f"{SVG}g")}
        self.assertIn("nothing mapped: 0x407000 - 0x4aefff, 672 KiB", groups)
        before, after = groups["0x401000 - 0x406fff"][1], groups["0x4af000 - 0x4affff"][1]
        end = float(before.get("x")) + float(before.get("width"))
        self.assertAlmostEqual(float(after.get("x")) - end, 12, places=1)

    def test_narrow_areas_stand_together(self):
        drawing, root = self.drawn(GUEST)
        self.assertIn(
            "0xffff888000000000 - 0xffff88800009afff\n3 areas: ---rw-rw 608 KiB, ---r-xr- 8 KiB, ---r--r- 4 KiB",
            self.titles(root),
        )
        self.assertTrue(any("too narrow" in text for text in self.texts(root)))
        self.assertNotIn("too narrow", self.drawn(EXAMPLE)[0])
        # Each kind of rights in it is high enough to be seen, and all are together as high as the lane.
        group = next(group for group in root.iter(f"{SVG}g") if "\n3 areas: " in group[0].text)
        frames, parts = [], []
        for rectangle in group.iter(f"{SVG}rect"):
            (frames if rectangle.get("class") == "mixed" else parts).append(rectangle)
        top = float(frames[1].get("y"))
        lane = [part for part in parts if top <= float(part.get("y")) < top + 15]
        self.assertEqual([part.get("class") for part in lane], ["r", "rx", "rw"])
        self.assertEqual(sum(float(part.get("height")) for part in lane), 15)
        self.assertGreaterEqual(min(float(part.get("height")) for part in lane), 2)

    def test_five_levels(self):
        texts = self.texts(self.drawn(FIVE)[1])
        self.assertIn("0xff00000000000000", texts)
        self.assertIn("0xffffffffffffff", texts)
        self.assertNotIn("0xffff800000000000", texts)
        self.assertIn("0xff00000000000000", self.texts(self.drawn(EXAMPLE, "--levels", "5")[1]))

    def test_no_area(self):
        self.assertIn("0 areas, 0 bytes mapped, four levels.", self.texts(self.drawn("areas 0\n")[1]))

    def test_the_title(self):
        drawing, root = self.drawn(EXAMPLE, "--title", "A <guest> & more")
        self.assertEqual((self.titles(root)[0], self.texts(root)[0]), ("A <guest> & more", "A <guest> & more"))
        self.assertEqual(self.texts(self.drawn(EXAMPLE)[1])[0], "Address space")

    def test_light_and_dark(self):
        drawing, _ = self.drawn(EXAMPLE)
        self.assertEqual(drawing.count("prefers-color-scheme:dark"), 1)
        light, dark = drawing.split("prefers-color-scheme:dark")
        for rule in (".paper{", ".rwx-base{", ".r-base{", ".rw{", ".none{", ".none-in{", ".badge{"):
            self.assertEqual((light.count(rule), dark.count(rule)), (1, 1), rule)

    def test_the_same_again(self):
        text = random_listing(3000)
        self.assertEqual(self.drawn(text)[0], self.drawn(text)[0])

    def test_every_kind_of_rights_is_drawn(self):
        # 256 areas have room to be drawn alone, and 2,048 of them haven't.
        for count in (256, 2048):
            kinds = ["".join(w if i >> bit & 1 else "-" for bit, w in enumerate("rwxrwxrw")) for i in range(256)]
            areas = [(i << 12, (i << 12) + 4095, i % 3 << 12, kinds[i % 256]) for i in range(count)]
            drawing, root = self.drawn(listing(areas))
            self.check_classes(drawing, root)
            self.check_places(root)
            for letters in ("r--", "rw-", "r-x", "--x", "rwx", "-w-", "-wx", "---"):
                self.assertIn(letters, self.texts(root))
            self.assertEqual(any("too narrow" in text for text in self.texts(root)), count > 256)

    def test_low_parts_take_from_high_ones(self):
        # In a block of 8 MBytes five small areas, and two large ones of the same size.
        small = ["--------", "r-------", "--x-----", "r-x-----", "rwx-----"]
        areas = [(i << 12, (i << 12) + 4095, 0, rights) for i, rights in enumerate(small)]
        areas += [(0x5000, 0x3FFFFF, 0, "rw------"), (0x400000, 0x7FFFFF, 0, "-wx-----")]
        root = self.drawn(listing([*areas, (0x800000, (1 << 33) - 1, 0, "r-------")]))[1]
        self.check_places(root)
        group = next(group for group in root.iter(f"{SVG}g") if "\n7 areas: " in group[0].text)
        heights = [float(part.get("height")) for part in group.iter(f"{SVG}rect") if part.get("class") != "mixed"][:7]
        self.assertEqual([round(height, 1) for height in sorted(heights)], [2, 2, 2, 2, 2, 2.5, 2.5])

    def check_classes(self, drawing, root):
        """Each class that is used has a rule, and each pattern that a rule names is there."""
        used = {name for element in root.iter() for name in (element.get("class") or "").split()}
        for name in used - {"c", "in"}:
            self.assertIn(f".{name}", drawing)
        patterns = {pattern.get("id") for pattern in root.iter(f"{SVG}pattern")}
        for name in patterns:
            self.assertIn(f"url(#{name})", drawing)
        self.assertEqual(drawing.count("url(#"), 2 * len(patterns) if "wx" in patterns else 0)

    def check_places(self, root):
        """Nothing is drawn outside of the picture, and no texts of a line overlap."""
        _, _, width, height = map(float, root.get("viewBox").split())
        lines = {}
        for text in root.iter(f"{SVG}text"):
            names = text.get("class").split()
            wide = {"mono": 7.32, "address": 6.1, "in": 6.1, "title": 11, "lead": 7}.get(names[0], 6.2) * len(text.text)
            left = float(text.get("x")) - wide * {"middle": 0.5, "end": 1}.get(text.get("text-anchor"), 0)
            self.assertTrue(0 <= left and left + wide <= width, text.text)
            lines.setdefault(text.get("y"), []).append((left, left + wide, text.text))
        for y, places in lines.items():
            self.assertLess(float(y), height)
            places.sort()
            for (_, end, first), (begin, _, second) in zip(places, places[1:]):
                self.assertLessEqual(end, begin + 0.01, (first, second))
        for group in root.iter(f"{SVG}g"):
            # In a block each lane has a frame, and the parts after it lie in it.
            for rectangle in group.iter(f"{SVG}rect"):
                if rectangle.get("class") == "mixed":
                    top = float(rectangle.get("y"))
                elif group.find(f"{SVG}rect[@class='mixed']") is not None:
                    self.assertTrue(top - 0.02 <= float(rectangle.get("y")) < top + 15)
        for rectangle in root.findall(f"{SVG}g/{SVG}rect"):
            x, y = float(rectangle.get("x")), float(rectangle.get("y"))
            self.assertTrue(28 <= x and x + float(rectangle.get("width")) <= width - 24)
            self.assertTrue(0 < y and y + float(rectangle.get("height")) < height)
            self.assertGreaterEqual(float(rectangle.get("height")), 1)

    def test_places(self):
        sparse = listing([(i << 30, (i << 30) + 4095, 0, "rw-rw-rw") for i in range(400)])
        apart = listing([(i << 40, (i << 40) + 4095, 0, "rw-rw-rw") for i in range(100)])
        top = listing([((1 << 64) - (i << 21), (1 << 64) - (i << 21) + 4095, 0, "rw-rw-rw") for i in range(18, 0, -1)])
        whole = listing([(0, (1 << 47) - 1, 0, "rwxrwxrw"), ((1 << 64) - (1 << 47), (1 << 64) - 1, 0, "rwxrwxrw")])
        for text in (EXAMPLE, GUEST, FIVE, sparse, apart, top, whole, random_listing(300), random_listing(3000)):
            self.check_places(self.drawn(text)[1])

    def test_strips_are_few(self):
        for count in (2, 20, 21, 400):
            text = listing([(i << 30, (i << 30) + 4095, 0, "rw-rw-rw") for i in range(count)])
            strips = [text for text in self.texts(self.drawn(text)[1]) if " \u2013 " in text]
            self.assertEqual(len(strips), {2: 2, 20: 20, 21: 1, 400: 1}[count])

    def test_every_area_is_drawn_once(self):
        for text in (random_listing(2000), GUEST):
            count = 0
            for title in self.titles(self.drawn(text)[1]):
                if ", frame 0x" in title:
                    count += 1
                elif " areas: " in title:
                    count += int(title.split("\n")[1].split()[0].replace(",", ""))
            self.assertEqual(count, len(text.splitlines()) - 1)

    def test_a_hundred_thousand_areas(self):
        drawing, root = self.drawn(random_listing(100000))
        self.assertLess(len(drawing), 3_000_000)
        self.check_places(root)

    def test_a_picture_that_was_there_is_replaced(self):
        file = self.folder / "space.svg"
        file.write_text("before")
        file.chmod(0o600)
        self.assertTrue(self.drawn(EXAMPLE)[0].startswith("<svg "))
        mask = os.umask(0)
        os.umask(mask)
        self.assertEqual(file.stat().st_mode & 0o777, 0o666 & ~mask)

    def test_pictures_that_cannot_be_written(self):
        for place, why in (
            ("/nowhere/at/all.svg", "/nowhere/at/all.svg: No such file or directory"),
            (self.folder, f"{self.folder}: not a regular file, and so not replaced"),
            ("/dev/null", "/dev/null: not a regular file, and so not replaced"),
            (self.folder / "file" / "x.svg", f"{self.folder}/file/x.svg: Not a directory"),
            (self.folder / ("x" * 300), f"{self.folder}/{'x' * 300}: File name too long"),
        ):
            (self.folder / "file").write_text("")
            done = run(EXAMPLE, "--svg", place)
            self.assertEqual((done.returncode, done.stdout, done.stderr.decode()), (1, b"", f"space-map: {why}\n"))
            self.assertEqual([path.name for path in self.folder.iterdir()], ["file"])

    def test_a_listing_that_was_cut_leaves_the_picture(self):
        file = self.folder / "space.svg"
        file.write_text("before")
        self.assertEqual(run(GUEST[:200], "--svg", file).returncode, 1)
        self.assertEqual(file.read_text(), "before")


if __name__ == "__main__":
    unittest.main()

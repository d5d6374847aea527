"""The reader: the library's where it is built, the tool's own elsewhere; both give the same answers."""

import os
import random
import shutil
import struct
import subprocess

from tool import (
    BELOW_ZERO, BOILER, CASE_7, CASES, EVENING, FAKE, MORNING, OLD_CASE_7, OLD_SOURCE, PRICES, READ_ONLY, ROOT,
    SECOND_BELOW_ZERO, SECOND_CASE_7, SECOND_SOURCE, SOURCE, WEEK, ToolTest, file_of, giqapsun, list_text, texts, unit,
)

from layout import bytes_of, case_of, form_of


def damaged(chance, data):
    """A file with a few bytes changed, cut or added."""
    data = bytearray(data)
    for _ in range(chance.randint(1, 3)):
        data[chance.randrange(len(data))] = chance.choice((0, 1, 2, 3, 255, chance.randrange(256)))
    end = chance.choice((0, 0, 0, 0, -1, -3, 3))
    return bytes(data[:end] if end < 0 else data + bytes(end))


def chained(lengths, sections):
    """A file whose pairs lead from section to section to its end, whatever lengths the sections have."""
    pairs, end = b"", 4 * len(lengths)
    for length in lengths:
        pairs += struct.pack("<2H", end, length)
        end += length
    return pairs + b"".join(section[:length].ljust(length, b"\1") for section, length in zip(sections, lengths))


def parts(data):
    """The sections of a file that reads."""
    pairs = struct.iter_unpack("<2H", data[: data[0]])
    return [data[offset : offset + length] for offset, length in pairs]


class OwnReader(ToolTest):
    """The tool's own reader and writer against the library's."""

    def same(self, data):
        """The number that both give, with the same case; a refusal is explained."""
        number, case, faults = case_of(data)
        try:
            self.assertEqual((number, case, faults), (0, giqapsun.read(data), []))
        except giqapsun.Refusal as refused:
            self.assertEqual((number, case), (refused.number, None), data.hex())
            self.assertTrue(faults)
        return number

    def test_stored_cases(self):
        """The forms of a case are the same case, and form 3 is the one written."""
        for old, data in READ_ONLY:
            self.assertEqual((form_of(old), form_of(data)), ("old" if old in (OLD_CASE_7, OLD_SOURCE) else 2, 3))
            self.assertEqual((self.same(old), self.same(data)), (0, 0))
            self.assertEqual(case_of(old), case_of(data))
            self.assertEqual(bytes_of(case_of(old)[1]), data)
        for data in (BELOW_ZERO, EVENING, MORNING, WEEK, BOILER):
            self.assertEqual((form_of(data), self.same(data)), (3, 0))
            self.assertEqual(bytes_of(case_of(data)[1]), data)

    def test_damaged_files(self):
        chance = random.Random(3)
        numbers = set()
        for _ in range(6000):
            data = damaged(chance, chance.choice(
                (CASE_7, SOURCE, BELOW_ZERO, MORNING, BOILER, SECOND_CASE_7, SECOND_SOURCE, OLD_CASE_7, OLD_SOURCE)
            ))
            number = self.same(data)
            numbers.add(number)
            if number == 0:
                case = giqapsun.read(data)
                self.assertEqual(bytes_of(case), giqapsun.write(case))
                if form_of(data) == 3:
                    self.assertEqual(bytes_of(case), data)
                else:
                    self.assertEqual((case.upstage, case.downstage), (0, 0))
        self.assertEqual(numbers, {0, 1, 2, 12, 3, 4, 5, 6, 7, 8, 13})

    def test_lengths(self):
        """Sections of every length, in a chain that holds, with form numbers that are known and that are not."""
        for data, widths in (
            (OLD_CASE_7, (32, 2, 2, 3)), (SECOND_CASE_7, (32, 2, 2, 5, 2)), (CASE_7, (34, 2, 2, 5, 2))
        ):
            for place, width in enumerate(widths):
                entries = {8, 9, 48, 49, 168, 169}
                for length in {*range(20), 32, 34, 8 * width + 1, *(width * entry for entry in entries), 3000}:
                    for form in (1, 2, 3, 4):
                        sections = parts(data)
                        sections[4:] = [form.to_bytes(2, "little")] * len(sections[4:])
                        lengths = [*map(len, sections)]
                        lengths[place] = length
                        number = self.same(chained(lengths, sections))
                        if length == len(sections[place]):
                            self.assertEqual(number, self.measured(form, data))

    def measured(self, form, data):
        """The number of a file with this form number in place of its own: an unknown form has the lengths of form 3."""
        if data is OLD_CASE_7 or data is (SECOND_CASE_7 if form == 2 else CASE_7) and form in (2, 3):
            return 0
        return 12 if data is CASE_7 and form not in (2, 3) else 2

    def test_first_offsets(self):
        """The first offset decides: 16, 20, or 1; a file too short for its pairs is 1."""
        for data in (CASE_7, OLD_CASE_7):
            for offset in (*range(40), 256 + 16, 256 + 20, 65_535):
                changed = struct.pack("<H", offset) + data[2:]
                for length in (*range(24), len(data)):
                    number = self.same(changed[:length])
                    self.assertEqual(number, 0 if changed[:length] == data else 1)

    def test_order_of_refusals(self):
        """From the last of a file's refusals to the first, each beside all that come after it."""
        faults = [
            (13, 62, struct.pack("<i", 10_000_001)), (8, 66, b"\3"), (7, 53, b"\2"), (6, 54, b"\2"),
            (5, 32, struct.pack("<I", 2**31)), (4, 24, b"\0"), (3, 20, b"\0"), (12, 77, b"\4"), (2, None, b""),
            (1, 4, b"\0"),
        ]
        data = bytearray(CASE_7)
        for number, place, changed in faults:
            if number == 2:
                # a shut-down of no outputs: the hours begin 4 bytes earlier
                data = bytearray(chained([34, 4, 0, 15, 2], parts(bytes(data))))
            else:
                data[place : place + len(changed)] = changed
            self.assertEqual(self.same(bytes(data)), number)

    def test_words_of_a_file(self):
        """What is said of the bytes at fault."""
        listed = texts("refusals.tsv")
        first, second, twelfth, fifth, seventh, last = (listed[number] for number in (1, 2, 12, 5, 7, 13))
        hours = file_of(prices=[1] * 169, orders=[0] * 169)
        limits = "from $-10,000.000 to $10,000.000 allowed"
        for data, text in [
            (b"", f"refused 1: {first}\nbytes: 0, at least 16 needed"),
            (bytes(range(256)), f"refused 1: {first}\nbyte 0: offset of unit: 256, 20 (16 in the old form) needed\n"),
            (CASE_7[:19], f"refused 1: {first}\nbytes: 19, at least 20 needed where the offset of unit is 20"),
            (CASE_7[:-1], f"refused 1: {first}\nbyte 16: end of form: 79, and the file ends at 78"),
            (OLD_CASE_7[:-1], f"refused 1: {first}\nbyte 12: end of hours: 65, and the file ends at 64"),
            (CASE_7[:16] + b"\x4c" + CASE_7[17:], f"refused 1: {first}\nbyte 16: offset of form: 76, 77 needed"),
            (OLD_CASE_7[:14] + b"\4\0" + OLD_CASE_7[16:60],
             f"refused 2: {second}\nbyte 14: length of hours: 4, 3 bytes for each entry needed"),
            (chained([34, 4, 4, 9, 2], parts(CASE_7)),
             f"refused 2: {second}\nbyte 14: length of hours: 9, 5 bytes for each entry needed"),
            (chained([34, 4, 4, 15, 3], parts(CASE_7)),
             f"refused 2: {second}\nbyte 18: length of form: 3, 2 bytes needed"),
            (chained([32, 4, 4, 15, 2], parts(CASE_7)),
             f"refused 2: {second}\nbyte 2: length of unit: 32, 34 bytes needed"),
            (chained([34, 4, 4, 15, 2], parts(SECOND_CASE_7)),
             f"refused 2: {second}\nbyte 2: length of unit: 34, 32 bytes needed"),
            (hours, f"refused 2: {second}\nhours: 169, from 1 to 168 allowed"),
            (CASE_7[:-2] + b"\4\0", f"refused 12: {twelfth}\nbyte 77: form number: 4, 2 or 3 needed"),
            (CASE_7[:52] + b"\1\2" + CASE_7[54:],
             f"refused 7: {seventh}\ndownstage: 2, 0 allowed with a start-up stage of 1"),
            (CASE_7[:36] + b"\0\0\0\x80" + CASE_7[40:],
             f"refused 5: {fifth}\nfixed: -2,147,483,648 mills ($-2,147,483.648), from 0 to 100,000,000 mills "
             "($100,000.000) allowed"),
            (file_of(prices=[5, -10_000_001, 5]),
             f"refused 13: {last}\nprices: -10,000,001 mills ($-10,000.001) at hour 2, {limits}"),
        ]:
            status, printed, message = self.run_tool("show", self.file("d.case", data))
            self.assertEqual((status, printed), (2, b""))
            lines = "".join(f"case: {line}\n" for line in f"d.case: {text}".splitlines())
            self.assertTrue(message.startswith(lines), message)


class NotBuilt(ToolTest):
    """A copy of the repository in which the library is not built."""

    def setUp(self):
        super().setUp()
        self.tool = self.folder / "copy/tools/case/case"
        shutil.copytree(ROOT / "tools/case", self.tool.parent, ignore=shutil.ignore_patterns("__pycache__"))
        shutil.copytree(ROOT / "bindings/python", self.folder / "copy/bindings/python")

    def run_copy(self, *words, **environment):
        """Status, standard output and standard error of the copied tool."""
        named = {name: value for name, value in os.environ.items() if not name.startswith("GIQAPSUN_")}
        return self.run_alone(*words, tool=self.tool, env={**named, **environment})

    def test_forms(self):
        """Every form is read, and named."""
        for data, form in (
            (OLD_CASE_7, b'"form": "old"'), (SECOND_BELOW_ZERO, b'"form": 2'), (CASE_7, b'"form": 3'),
            (MORNING, b'"form": 3'),
        ):
            status, printed, message = self.run_copy("show", self.file("d.case", data), "--json")
            self.assertEqual((status, message), (0, ""))
            self.assertIn(form, printed)
            said = self.answered("show", "d.case", "--json").replace(b'"library"', b'"tool"')
            self.assertEqual(printed, said)

    def test_refusals(self):
        """The numbers and the words of each fault are those that the library's refusals are explained by."""
        for data in (
            b"", CASE_7[:19], chained([34, 4, 4, 15, 3], parts(CASE_7)), CASE_7[:-2] + b"\1\0", file_of(minimum=5),
            file_of(upstage=2), file_of(initial=1, downstage=2),
            file_of(rampup=0), file_of(variable=-1), file_of(rise=[2, 2]), file_of(initial=1),
            file_of(orders=[0, 0, 3]), file_of(prices=[10_000_001, 5, 5]),
            file_of(prices=[5, -10_000_001, -10_000_002]),
        ):
            self.file("d.case", data)
            self.assertEqual(self.run_copy("show", "d.case"), self.run_tool("show", "d.case"))

    def test_show(self):
        self.file("d.case", CASE_7)
        status, printed, message = self.run_copy("show", "d.case")
        self.assertEqual((status, message), (0, ""))
        text = self.answered("show", "d.case").decode().removesuffix("read by the library\n")
        self.assertEqual(printed.decode(), text + "read by this tool itself: the library is not built\n")
        self.assertIn(b'"read_by": "tool"', self.run_copy("show", "d.case", "--json")[1])
        note = "case: read by this tool itself: the library is not built\n"
        self.assertEqual(
            self.run_copy("show", "d.case", "--csv"), (0, self.answered("show", "d.case", "--csv"), note)
        )
        self.assertEqual(self.run_copy("show", "d.case", "--toml", "u.toml"), (0, b"", note))

    def test_make(self):
        note = "case: read by this tool itself: the library is not built\n"
        for name, data in (("source", SOURCE), ("below_zero", BELOW_ZERO)):
            words = ("make", CASES / f"{name}.toml", CASES / f"{name}.csv")
            self.assertEqual(self.run_copy(*words), (0, data, note))
        self.file("u.toml", unit(rampup="0"))
        refused = f"case: u.toml, p.csv: refused 4: {texts('refusals.tsv')[4]}\n"
        refused += "case: u.toml:3: rampup: 0, from 1 to 400 allowed\n"
        self.assertEqual(self.run_copy("make", "u.toml", self.file("p.csv", PRICES)), (2, b"", refused))
        self.file("u.toml", unit())
        self.file("p.csv", "hour,price_dollars\n1,-10000.001\n")
        self.assertEqual(self.run_copy("make", "u.toml", "p.csv"), self.run_tool("make", "u.toml", "p.csv"))

    def test_best(self):
        self.file("d.case", CASE_7)
        fake = {"GIQAPSUN_BEST_DAY": str(FAKE), "FAKE_BEST_DAY_TEXT": "profit -53\n1 2 5\n2 1 3\n3 0 1\n"}
        status, printed, _ = self.run_copy("best", "d.case", **fake)
        last = f"read by this tool itself: the library is not built; found by the program {FAKE}"
        self.assertEqual((status, printed.decode().splitlines()[-1]), (0, last))
        program = self.folder.resolve() / "copy/target/bin/best_day"
        advice = "build it with `tools/build best_day` or set GIQAPSUN_BEST_DAY"
        self.assertEqual(
            self.run_copy("best", "d.case"), (2, b"", f"case: {program}: No such file or directory; {advice}\n")
        )
        fake["FAKE_BEST_DAY_TEXT"] = "refused 11\n"
        self.file("d.case", file_of(initial=0, orders=[0, 2, 1]))
        self.assertIn("case: orders: on-line at hour 3\n", self.run_copy("best", "d.case", **fake)[2])

    def test_next(self):
        """The next day's unit needs no library, and neither does its case."""
        self.file("d.case", file_of(prices=[5] * 2, orders=[0] * 2))
        fake = {"GIQAPSUN_BEST_DAY": str(FAKE), "FAKE_BEST_DAY_TEXT": "profit -44\n1 2 5\n2 1 3\n"}
        status, printed, _ = self.run_copy("best", "d.case", "--next", "n.toml", **fake)
        self.assertEqual((status, printed.decode().splitlines()[-2]), (
            0, "closes in stage 2 of 2 of a shut-down, stop at hour 3, 1 hour after the last; "
               "C belongs to the day that holds it",
        ))
        status, data, _ = self.run_copy("make", "n.toml", self.file("p.csv", PRICES))
        self.assertEqual((status, data), (0, file_of(initial=1, elapsed=4, downstage=2)))

    def test_check_better_and_forecast(self):
        """The verdict and the choice are the library's alone, and so is a plan that is checked."""
        self.file("d.case", CASE_7)
        self.file("l.csv", list_text([2, 1, 0]))
        self.file("p.csv", PRICES)
        advice = "case: libgiqapsun.so is not built: run bindings/build.sh, or set GIQAPSUN_LIBRARY\n"
        for words in (
            ("check", "d.case", "l.csv"), ("better", "d.case", "l.csv", "l.csv"),
            ("forecast", "d.case", "p.csv", "p.csv"),
        ):
            self.assertEqual(self.run_copy(*words), (2, b"", advice))

    def test_calendar(self):
        """The day with the orders of a calendar is the library's alone, also beside a program."""
        self.file("d.case", SOURCE)
        self.file("y.csv", "order,first,hours\n")
        words = ("best", "d.case", "--calendar", "y.csv", "--first", "0")
        advice = "case: libgiqapsun.so is not built: run bindings/build.sh, or set GIQAPSUN_LIBRARY\n"
        for more in ((), ("--hours", "24")):
            self.assertEqual(self.run_copy(*words, *more), (2, b"", advice))
        said = f"case: {FAKE}: a program takes no calendar; without GIQAPSUN_BEST_DAY the library serves\n"
        self.assertEqual(self.run_copy(*words, GIQAPSUN_BEST_DAY=str(FAKE)), (2, b"", said))

    def test_a_library_that_is_none(self):
        """A library that is named and cannot serve is a fault; the tool's own reader does not stand in for it."""
        self.file("d.case", CASE_7)
        self.file("stub.c", "int giqapsun_read_3(void) { return 0; }\n")
        subprocess.run(["gcc", "-shared", "stub.c", "-o", "stub.so"], cwd=self.folder, check=True)
        self.file("text.so", "no library\n")
        for name, what in [
            ("none.so", "the library none.so cannot be loaded: no such file\n"),
            ("stub.so", "stub.so has no giqapsun_read_4: it is no library of layout 4; bindings/build.sh builds one\n"),
        ]:
            answer = self.run_copy("show", "d.case", GIQAPSUN_LIBRARY=name)
            self.assertEqual(answer, (2, b"", f"case: {what}"))
        status, printed, message = self.run_copy("show", "d.case", GIQAPSUN_LIBRARY="text.so")
        self.assertEqual((status, printed, message.count("\n")), (2, b"", 1))
        self.assertIn("case: the library text.so cannot be loaded: ", message)

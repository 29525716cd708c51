"""Nothing that build reaches divides: over the compiled archive. Divisions put into a copy of it, and into what gcc makes of seeds.c, are
found."""
import re
import subprocess
import tempfile
import unittest
from pathlib import Path

from archive import Archive, findings, objdump
from entries import BUILDS, DIVIDING, LIBRARY, READ, ROOT
from reading import Readings, read_made
from sources import Sources, read_modules

HERE = Path(__file__).resolve().parent
PLANS = Archive(LIBRARY)
DIVIDE = bytes.fromhex("48f7f1")  # div %rcx
DIVISIONS = """divb %cl; divw %cx; divl %ecx; divq (%rsi); idivl %ecx; idivq (%rsi); divss %xmm1, %xmm0; divpd %xmm1, %xmm0
vdivsd %xmm1, %xmm0, %xmm2; vdivps %ymm1, %ymm0, %ymm2; fdivp; fdivrs (%rsi); fidivl (%rsi); fidivrs (%rsi); fprem; fprem1"""
TOLD = {
    **{division.strip(): "divides" for division in re.split("[;\n]", DIVISIONS)},
    ".byte 0xf3; divl %ecx": "divides",
    "nop; .globl next; next: divl %ecx": "divides",
    ".byte 6": "is not read",
    "call divisors": None,
}


class Entries(unittest.TestCase):
    def test_entries_are_those_of_the_sources(self):
        self.assertEqual(PLANS.exported, set(Sources(read_modules(ROOT)).entries()))

    def test_no_entry_divides(self):
        for name in PLANS.exported - set(DIVIDING):
            with self.subTest(name):
                self.assertEqual(findings(PLANS, name), [])

    def test_calls_of_builds_are_followed(self):
        for name in BUILDS:
            with self.subTest(name):
                self.assertGreater(len(PLANS.reached(name) & set(PLANS.functions)), 1)

    def test_compiler_has_read_all_that_is_reached(self):
        readings = Readings(read_made(READ))
        for name, path in Sources(read_modules(ROOT)).entries().items():
            with self.subTest(name):
                functions = {re.sub("::<.*", "", function) for function in PLANS.reached(name) & set(PLANS.functions)}
                self.assertEqual(functions - {name} - readings.reached(path).functions, set())


class Seeds(unittest.TestCase):
    def setUp(self):
        folder = tempfile.TemporaryDirectory()
        self.addCleanup(folder.cleanup)
        self.object = Path(folder.name) / "seeded.o"

    def with_division_in(self, function: str) -> Archive:
        """The archive's code with a division over the first instructions of a function."""
        code = bytearray(subprocess.run(["ar", "p", str(LIBRARY)], check=True, capture_output=True).stdout)
        self.object.write_bytes(code)
        (section,) = PLANS.sections[function]
        fields = re.search(rf" {re.escape(section)} +(.+)$", objdump(self.object, "-h", "-w"), re.MULTILINE).group(1).split()
        start = int(fields[3], 16)
        code[start : start + len(DIVIDE)] = DIVIDE
        self.object.write_bytes(code)
        return Archive(self.object)

    def test_division_in_any_function(self):
        reached = {name: PLANS.reached(name) for name in BUILDS}
        anyway = {name: set(findings(PLANS, name)) for name in BUILDS}
        for function in PLANS.functions:
            changed = self.with_division_in(function)
            for name in BUILDS:
                with self.subTest(function, entry=name):
                    told = {f"{function} divides: div    %rcx"} if function in reached[name] else set()
                    self.assertEqual(set(findings(changed, name)) - anyway[name], told)

    def test_what_gcc_makes(self):
        """Told exactly where each function has a section, as in the archive; in one section a jump table counts as naming all of it."""
        source = (HERE / "seeds.c").read_text()
        seeds = re.findall(r"^/\* told: (.+) \*/\n.*?(\w+)\(", source, re.MULTILINE)
        self.assertEqual(len(seeds), source.count("told: "))
        for options in (["-O0"], ["-O2"], ["-O3", "-mavx2"], ["-O2", "-fno-function-sections"]):
            subprocess.run(["gcc", "-ffunction-sections", *options, "-c", "-o", str(self.object), str(HERE / "seeds.c")], check=True)
            archive = Archive(self.object)
            for told, function in seeds:
                with self.subTest(function, options=options):
                    found = "\n".join(findings(archive, function))
                    kinds = {kind for kind in ("divides", "not followed") if kind in found}
                    expected = set(told.split(", ")) - {"nothing"}
                    self.assertEqual(kinds & expected if "-fno-function-sections" in options else kinds, expected, found)

    def assembled(self, text: str) -> Archive:
        subprocess.run(["gcc", "-x", "assembler", "-c", "-o", str(self.object), "-"], input=text, text=True, check=True)
        return Archive(self.object)

    def test_instructions(self):
        for code, told in TOLD.items():
            with self.subTest(code):
                archive = self.assembled(f'.globl start\nstart: {code}\nret\n.section .text.other, "ax"\n.globl divisors\ndivisors: ret\n')
                self.assertEqual([told in found for found in findings(archive, "start")], [True] if told else [])

    def test_symbols_that_are_hidden(self):
        archive = self.assembled(".globl one, two, three\none: two: three: ret\n.hidden two\n.protected three\n")
        self.assertEqual(archive.exported, {"one", "two", "three"})

    def test_another_processor(self):
        subprocess.run(["objcopy", "-I", "binary", "-O", "elf32-i386", str(HERE / "seeds.c"), str(self.object)], check=True)
        with self.assertRaisesRegex(ValueError, "elf32-i386"):
            Archive(self.object)

"""Which functions a function of a compiled archive reaches, and where these divide: read from objdump's disassembly, symbols and
relocations. Whatever code names counts as called, and so does what is named by data that it names (jump tables). A call that leads out of
the archive, or to a place that the code does not name, is told like a division. Only the instructions of x86-64 are known: an archive for
another processor is refused."""
import os
import re
import subprocess
from collections import defaultdict
from pathlib import Path
from typing import Dict, List, NamedTuple, Set

FORMAT = re.compile(r":\s+file format (\S+)$", re.MULTILINE)
SYMBOL = re.compile(r"^[0-9a-f]+ (.{7}) (\S+)\t[0-9a-f]+ (?:\.\w+ )?(.+)$", re.MULTILINE)
RECORDS = re.compile(r"^RELOCATION RECORDS FOR \[(.+)\]:\nOFFSET.*\n((?:.+\n)*)", re.MULTILINE)
BLOCK = re.compile(r"^[0-9a-f]+ <(.+)>:\n((?:.+\n)*)", re.MULTILINE)
INSTRUCTION = re.compile(r"^ *[0-9a-f]+:\t(.+)$", re.MULTILINE)
RELOCATED = re.compile(r"\bR_X86_64_\w+\s+(.+?)(?:[+-]0x[0-9a-f]+)?$", re.MULTILINE)
POINTED = re.compile(r"<(.+?)(?:\+0x[0-9a-f]+)?>")
DIVISION = re.compile(r"\b(?:i|v|fi?)?div\w*|\bfprem1?\b")
CALL_BY_NUMBER = re.compile(r"\bcallq?\s+\*")
JUMP_BY_NUMBER = re.compile(r"\bjmpq?\s+\*")

# The C library's, for setting and copying bytes: they are no part of the archive.
OUTSIDE = {"memcpy", "memset"}


class Code(NamedTuple):
    instructions: List[str]
    names: Set[str]


def objdump(path: Path, *options: str) -> str:
    plain = {**os.environ, "LC_ALL": "C"}
    return subprocess.run(["objdump", *options, str(path)], check=True, capture_output=True, text=True, env=plain).stdout


class Archive:
    """An archive, or an object file."""

    def __init__(self, path: Path):
        symbols = objdump(path, "-t")
        formats = set(FORMAT.findall(symbols))
        if formats != {"elf64-x86-64"}:
            raise ValueError(f"{path} is for {', '.join(formats) or 'nothing known'}: only the instructions of x86-64 are known here")
        self.exported: Set[str] = set()
        self.sections: Dict[str, Set[str]] = defaultdict(set)
        for flags, section, name in SYMBOL.findall(symbols):
            self.sections[name].add(section)
            if flags[0] == "g":
                self.exported.add(name)
        self.named_by_data: Dict[str, Set[str]] = defaultdict(set)
        for section, records in RECORDS.findall(objdump(path, "-r")):
            self.named_by_data[section].update(RELOCATED.findall(records))
        self.functions: Dict[str, Code] = {}
        for name, text in BLOCK.findall(objdump(path, "-d", "-r", "-w", "--no-show-raw-insn")):
            code = self.functions.setdefault(name, Code([], set()))
            code.instructions.extend(INSTRUCTION.findall(text))
            code.names.update(RELOCATED.findall(text), POINTED.findall(text))

    def within(self, name: str) -> Set[str]:
        """What stands in the section of a name: its functions, for code may go on into the next one, or else what its data names."""
        found = set()
        for section in self.sections[name]:
            code = {function for function in self.functions if section in self.sections[function]}
            found |= code or self.named_by_data[section]
        return found

    def reached(self, root: str) -> Set[str]:
        """All names that calls lead to: functions, data, and what is outside."""
        found: Set[str] = set()
        todo = {root}
        while todo:
            name = todo.pop()
            found.add(name)
            todo |= self.within(name) - found
            if name in self.functions:
                todo |= self.functions[name].names - found
        return found

    def findings_in(self, name: str) -> List[str]:
        """The divisions of one function, and where it goes on without saying where to."""
        code = self.functions[name]
        has_table = any(self.within(other) for other in code.names if other not in self.functions)
        found = []
        for whole in code.instructions:
            instruction = re.sub(r"[<#\t].*", "", whole)
            if DIVISION.search(instruction):
                found.append(f"{name} divides: {whole}")
            if "(bad)" in instruction:
                found.append(f"{name} is not read: {whole}")
            if CALL_BY_NUMBER.search(instruction) or (JUMP_BY_NUMBER.search(instruction) and not has_table):
                found.append(f"{name} is not followed: {whole}")
        return found


def findings(archive: Archive, root: str) -> List[str]:
    """All that a function reaches and that it is not to reach: divisions, and calls that are not followed."""
    found = []
    for name in sorted(archive.reached(root)):
        if name in archive.functions:
            found += archive.findings_in(name)
        elif not archive.sections[name] - {"*UND*"} and name not in OUTSIDE:
            found.append(f"{name} is outside, and is not followed")
    return found

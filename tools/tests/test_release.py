"""The archive and its installing; manual pages, completion and syntax files have all words, options and cards."""

from __future__ import annotations

import argparse
import json
import re
import shutil
import subprocess
import tempfile
import unittest
from pathlib import Path
from typing import Dict, List

from rtm_lib.command import make_parser
from rtm_lib.forms import FORMS
from rtm_lib.program import REPOSITORY

from .support import WithProgram, example_decks

TOOLS = REPOSITORY / "tools"
SHARE = TOOLS / "share"
# What vim colours: a file, a line's pattern, a word on it, and the kind that it has there.
COLOURED = (
    ("cancel.deck", "^UPDATE PROG", "UPDATE", "rtmdeckName"), ("cancel.deck", "^UPDATE PROG", "PROG", "rtmdeckBare"),
    ("cancel.deck", "^ ESTAEX CT,PGM=CLEANUP", "ESTAEX", "rtmdeckOperation"),
    ("cancel.deck", "^ ESTAEX CT,PGM=CLEANUP", "PGM", "rtmdeckKey"),
    ("cancel.deck", "^ ABEND S0C4", "S0C4", "rtmdeckCode"),
    ("cancel.deck", "^ NOP .*here", "here", "rtmdeckRemark"),
    ("cancel.deck", "^\\* A cancel", "cancel", "rtmdeckComment"),
    ("cancel.trace", "^10 ", "LAND", "rtmtraceError"), ("cancel.trace", "^4 ", "ENTER", "rtmtraceVerb"),
    ("cancel.trace", "^RTMTRACE", "RTMTRACE", "rtmtraceEdge"), ("cancel.trace", "^10 ", "CLUP", "rtmtraceVerdict"),
)


def options_of_words() -> Dict[str, List[str]]:
    """Each word of `rtm` with its options."""
    parser = make_parser()
    words = next(action for action in parser._actions if isinstance(action, argparse._SubParsersAction))
    return {name: [option for action in word._actions for option in action.option_strings if option not in ("-h",)]
            for name, word in words.choices.items()}


def told(path: Path) -> str:
    return path.read_text(encoding="utf-8").replace("\\-", "-")


class WordsTest(unittest.TestCase):
    """What is known of the words of both programs."""

    def test_pages_and_completion_have_each_word_and_option(self) -> None:
        page, bash, zsh = told(SHARE / "man" / "rtm.1"), told(SHARE / "bash" / "rtm"), told(SHARE / "zsh" / "_rtm")
        known = {option for options in options_of_words().values() for option in options} | {"--version"}
        for word, options in options_of_words().items():
            self.assertRegex(page, r"(?m)^\.SS %s\b" % word)
            for text in (bash, zsh):
                self.assertRegex(text, r"\b%s\b" % word)
            for option in options:
                for text in (page, bash, zsh):
                    self.assertRegex(text, r"(?<![\w-])%s(?![\w-])" % re.escape(option), (word, option))
        known = {option for options in options_of_words().values() for option in options} | {"--version", "-h"}
        for text in (page, bash, zsh):
            named = set(re.findall(r"(?<![\w-])--[a-z][a-z-]*", text))
            self.assertEqual(named - known, set())

    def test_pages_have_each_status(self) -> None:
        readme = (REPOSITORY / "README.md").read_text(encoding="utf-8")
        for name, source in (("rtmrun", readme.split("| Status |")[1].split("\n\n")[0]),
                             ("rtm", make_parser().epilog or "")):
            known = set(re.findall(r"(?m)^\|? +(\d+) ", source))
            page = told(SHARE / "man" / (name + ".1")).split(".SH EXIT STATUS")[1].split(".SH")[0]
            self.assertEqual(set(re.findall(r"(?m)^\.B (\d+)$", page)), known, name)

    def test_pages_are_formatted_without_a_complaint(self) -> None:
        if not shutil.which("groff"):
            self.skipTest("no groff here, so the manual pages aren't formatted")
        for page in sorted((SHARE / "man").glob("*.1")):
            done = subprocess.run(["groff", "-man", "-Tutf8", "-ww", str(page)], stdout=subprocess.PIPE,
                                  stderr=subprocess.PIPE, check=True)
            self.assertEqual(done.stderr, b"", page)

    def test_bash_completes(self) -> None:
        for line, wanted in (("rtm sw", ["sweep"]), ("rtm sweep x.deck --or", ["--orders"]),
                             ("rtm view cancel.d", ["cancel.deck"]), ("rtm view --sv", ["--svg"]),
                             ("rtm why cancel.deck 3 cancel.t", ["cancel.trace"]), ("rtm sweep --command C", []),
                             ("rtmrun ver", ["verify"]), ("rtmrun ru", ["run"]), ("rtmrun run cancel", ["cancel.deck"]),
                             ("rtmrun verify cancel", ["cancel.deck"]),
                             ("rtmrun verify cancel.deck cancel", ["cancel.trace"]), ("rtmrun load c", [])):
            words = line.split(" ")
            script = "source '%s'; source '%s'; COMP_WORDS=(%s); COMP_CWORD=%d; _%s; echo \"${COMPREPLY[@]}\"" % (
                SHARE / "bash" / "rtmrun", SHARE / "bash" / "rtm", " ".join(words), len(words) - 1, words[0])
            done = subprocess.run(["bash", "-O", "extglob", "-c", script], cwd=REPOSITORY / "examples",
                                  stdout=subprocess.PIPE, check=True)
            self.assertEqual(done.stdout.decode().split(), wanted, line)

    def test_zsh_reads_its_files(self) -> None:
        if not shutil.which("zsh"):
            self.skipTest("no zsh here, so its completion isn't read")
        for name in ("_rtm", "_rtmrun"):
            subprocess.run(["zsh", "-n", str(SHARE / "zsh" / name)], check=True)


class SyntaxTest(unittest.TestCase):
    """What editors colour."""

    def test_each_operation_is_known(self) -> None:
        for place in ("vim/syntax/rtmdeck.vim", "vscode/syntaxes/rtmdeck.tmLanguage.json"):
            words = set(re.findall(r"[A-Z][A-Z0-9]*", (SHARE / place).read_text(encoding="utf-8")))
            self.assertEqual([name for name in FORMS if name not in words], [], place)

    def test_each_line_of_the_examples_is_coloured(self) -> None:
        for kind in ("deck", "trace"):
            place = SHARE / "vscode" / "syntaxes" / ("rtm%s.tmLanguage.json" % kind)
            patterns = [one["match"] for one in json.loads(place.read_text(encoding="utf-8"))["patterns"]]
            for deck in example_decks():
                for line in deck.with_suffix("." + kind).read_text(encoding="utf-8").splitlines():
                    self.assertTrue(any(re.search(pattern, line) for pattern in patterns), line)
        made = json.loads((SHARE / "vscode" / "package.json").read_text(encoding="utf-8"))["contributes"]
        named = [one["path"] for one in made["grammars"]] + [made["languages"][0]["configuration"]]
        self.assertEqual([one for one in named if not (SHARE / "vscode" / one).is_file()], [])

    def test_vim_colours(self) -> None:
        if not shutil.which("vim"):
            self.skipTest("no vim here, so its syntax files aren't tried")
        for file, line, word, kind in COLOURED:
            with tempfile.TemporaryDirectory() as folder:
                out = Path(folder) / "kind"
                subprocess.run(
                    ["vim", "-es", "-u", "NONE", "--cmd", "set nocompatible rtp^=%s" % (SHARE / "vim"),
                     "-c", "filetype on", "-c", "syntax on", "-c", "edit %s" % (REPOSITORY / "examples" / file),
                     "-c", "call search('%s', 'cw')" % line, "-c", "call search('%s', 'c', line('.'))" % word,
                     "-c", "call writefile([synIDattr(synID(line('.'), col('.'), 1), 'name')], '%s')" % out,
                     "-c", "qa!"], stdin=subprocess.DEVNULL, stdout=subprocess.DEVNULL, stderr=subprocess.DEVNULL,
                    timeout=30, check=False)
                self.assertEqual(out.read_text(encoding="utf-8").strip(), kind, (file, word))


class ReleaseTest(WithProgram):
    """The archive, and what it installs."""

    def made(self, folder: Path) -> Path:
        done = subprocess.run([str(TOOLS / "release"), str(folder)], stdout=subprocess.PIPE, stderr=subprocess.PIPE,
                              check=False)
        self.assertEqual(done.returncode, 0, done.stderr)
        archive, summed = map(Path, done.stdout.decode().splitlines())
        subprocess.run(["sha256sum", "--check", "--quiet", summed.name], cwd=str(folder), check=True)
        return archive

    def test_an_archive_is_made_and_installed(self) -> None:
        if not (REPOSITORY / ".git").exists() or not shutil.which("git"):
            self.skipTest("no repository of git here, so no archive is made")
        with tempfile.TemporaryDirectory() as room:
            one, other = self.made(Path(room) / "one"), self.made(Path(room) / "other")
            self.assertEqual(one.read_bytes(), other.read_bytes())
            subprocess.run(["tar", "xzf", str(one), "-C", room], check=True)
            unpacked = Path(room) / one.name.replace(".tar.gz", "")
            # A program that looks for itself beside its own file is put there by a script.
            inner = unpacked / "crates" / "rtmrun" / "out" / "rtmrun"
            inner.write_text('#!/bin/sh\nexec "%s" "$@"\n' % self.rtmrun.path.resolve())
            self.installed(unpacked, Path(room) / "a place")

    def install(self, unpacked: Path, *words: str) -> "subprocess.CompletedProcess[bytes]":
        return subprocess.run([str(unpacked / "install")] + list(words), stdout=subprocess.PIPE,
                              stderr=subprocess.PIPE, check=False)

    def installed(self, unpacked: Path, prefix: Path) -> None:
        for _ in range(2):
            done = self.install(unpacked, "--prefix", str(prefix))
            self.assertEqual(done.returncode, 0, done.stderr)
        examples = prefix / "lib" / "rtmrun" / "examples"
        for words, status in ((["rtmrun", "verify", str(examples / "retry.deck"), str(examples / "retry.trace")], 0),
                              (["rtmrun", "--help"], 0), (["rtm", "lint", str(examples / "retry.deck")], 0),
                              (["rtm", "doctor"], 0), (["rtmrun", "nothing"], 20)):
            done = subprocess.run([str(prefix / "bin" / words[0])] + words[1:], cwd="/", stdout=subprocess.PIPE,
                                  stderr=subprocess.PIPE, env={"PATH": "/usr/bin:/bin"}, check=False)
            self.assertEqual(done.returncode, status, (words, done.stderr))
        for place in ("man/man1/rtmrun.1", "man/man1/rtm.1", "bash-completion/completions/rtm",
                      "bash-completion/completions/rtmrun", "zsh/site-functions/_rtm", "zsh/site-functions/_rtmrun"):
            self.assertTrue((prefix / "share" / place).is_file(), place)
        # What is somebody else's stays.
        (prefix / "bin" / "rtm").unlink()
        (prefix / "bin" / "rtm").write_text("somebody else's\n")
        done = self.install(unpacked, "--prefix", str(prefix))
        self.assertEqual((done.returncode, done.stdout), (2, b""))
        self.assertEqual((prefix / "bin" / "rtm").read_text(), "somebody else's\n")
        self.assertEqual(self.install(unpacked, "--somewhere").returncode, 2)

    def test_without_a_program_there_is_no_archive(self) -> None:
        done = subprocess.run([str(TOOLS / "release"), "/nowhere"], stderr=subprocess.PIPE, check=False,
                              env={"PATH": "/usr/bin:/bin", "RTMRUN": "/nowhere/rtmrun"})
        self.assertEqual(done.returncode, 2)
        self.assertIn(b"--build", done.stderr)
        self.assertEqual(subprocess.run([str(TOOLS / "install")], stderr=subprocess.PIPE, check=False).returncode, 2)

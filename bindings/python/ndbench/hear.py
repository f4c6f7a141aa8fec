"""`nd-hear [FILE ..]`: judges frames, one a line in hexadecimal digits, of files or of standard input (`-`, or no FILE). For each it prints the line
of `ndpctl check` (docs/FORMATS.md): the message with its fields and options, the first reason to drop the frame, or what other packet it is. The exit
status is 0, 2 for a malformed line or a file that cannot be read, and 130 if it is interrupted. All lines before a malformed one are answered."""
from __future__ import annotations

import argparse
import os
import sys
from typing import BinaryIO, List, Optional

import nd
from nd import library

from .hexadecimal import frames_of
from .texts import frame_text, heard_by_its_role

DONE, BAD_INPUT, INTERRUPTED = 0, 2, 130
STANDARD_INPUT = "-"


class BadInput(Exception):
    """An input that cannot be read. The text is for the user."""


def judge_lines(file: BinaryIO, name: str) -> None:
    """Prints what the frame of each line is. Raises BadInput at the first malformed line."""
    for number, frame in enumerate(frames_of(file), 1):
        if frame is None:
            raise BadInput(f"{name}line {number}: malformed")
        print(frame_text(heard_by_its_role(frame)))


def judge_file(path: str) -> None:
    """Prints what the frames of a file, or of standard input, are."""
    if path == STANDARD_INPUT:
        judge_lines(sys.stdin.buffer, "")
        return
    try:
        with open(path, "rb") as file:
            judge_lines(file, f"{path}: ")
    except BrokenPipeError:
        raise
    except OSError as error:
        raise BadInput(f"{path}: {error.strerror}") from error


def main(words: Optional[List[str]] = None) -> int:
    """Runs the command, and returns the exit status."""
    parser = argparse.ArgumentParser(prog="nd-hear", description="Judges frames of IPv6 Neighbor Discovery, one a line in hexadecimal digits.")
    parser.add_argument("files", nargs="*", default=[STANDARD_INPUT], metavar="FILE", help="a file of lines; -, or none: standard input")
    files = parser.parse_args(words).files
    try:
        if not library.is_ready():
            print("nd-hear: compiling nd.c, which takes under a minute and is done once", file=sys.stderr)
        for path in files:
            judge_file(path)
        return DONE
    except (BadInput, nd.LibraryError) as error:
        sys.stdout.flush()
        print(f"nd-hear: {error}", file=sys.stderr)
        return BAD_INPUT
    except BrokenPipeError:  # the reader of the output has ended
        os.dup2(os.open(os.devnull, os.O_WRONLY), sys.stdout.fileno())
        return DONE
    except KeyboardInterrupt:
        return INTERRUPTED


if __name__ == "__main__":
    sys.exit(main())

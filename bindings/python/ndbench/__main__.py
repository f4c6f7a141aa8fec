"""`python3 -m ndbench`: the command line. The exit status is 0, 1 if `compare` finds a difference, 2 for bad input or a bad command line, and 130
if it is interrupted."""
from __future__ import annotations

import argparse
import os
import sys
from typing import Callable, ContextManager, Iterator, List, Optional, Tuple

import nd
from nd import library

from . import compare, judge, picture, replay
from .capture import CaptureError, Packet
from .drawing import Drawing
from .inputs import BadInput, Input
from .live import Interface
from .pcapng import write_capture
from .setup import add_arguments, setup_of
from .texts import counted

DONE, DIFFERENT, BAD_INPUT, INTERRUPTED = 0, 1, 2, 130
LONGEST_MILLISECONDS = 1 << 40  # 34 years: an idle node takes seconds for them
LONGEST_SECONDS = 604_800       # a week
CAPTURE_HELP = "pcap, pcapng, or a frame a line in hexadecimal digits; - is standard input"


def do_judge(arguments: argparse.Namespace) -> int:
    """Prints what each frame is."""
    counts, begin, source = judge.Counts(), None, Input(arguments.capture, arguments.quiet)
    with source.opened() as packets:
        for judgement in judge.judge(packets):
            begin = judgement.packet.time if begin is None else begin
            counts.add(judgement)
            print(judge.json_of(judgement) if arguments.json else judge.text_of(judgement, begin), flush=source.is_standard)
    if not arguments.quiet:
        print(counts.text(), file=sys.stderr)
    return DONE


def do_replay(arguments: argparse.Namespace) -> int:
    """Prints, or writes, what a node sends and reports that hears the capture."""
    made = replay.Replay(setup_of(arguments), arguments.before, arguments.after)
    with Input(arguments.capture, arguments.quiet).opened() as packets:
        events = made.events(packets)
        if arguments.write:
            with open(arguments.write, "wb") as file:
                write_capture(file, replay.capture_of(made, events))
            return DONE
        for event in events:
            print(replay.json_of(made, event) if arguments.json else replay.text_of(made, event))
    if arguments.tables:
        for row in made.rows():
            print(row)
    return DONE


def do_compare(arguments: argparse.Namespace) -> int:
    """Prints the first difference between another stack and the node, or all of them."""
    if arguments.seconds is not None and arguments.interface is None:
        raise BadInput("--seconds is for --interface")
    made, error = compared_live(arguments) if arguments.interface else compared_capture(arguments)
    found = made.differences()
    for difference in found if arguments.all else found[:1]:
        print(compare.json_of(made, difference) if arguments.json else "\n".join(compare.text_of(made, difference)))
    if not arguments.quiet:
        if not made.has_start:
            print(f"ndbench: the capture begins after the start of {arguments.mac}: the node does not know what it heard before", file=sys.stderr)
        print(f"{counted(len(made.stack_messages), 'message')} of the other stack, {counted(len(found), 'difference')}", file=sys.stderr)
    if error is not None:
        raise error
    return DIFFERENT if found else DONE


def compared_capture(arguments: argparse.Namespace) -> Tuple[compare.Comparison, Optional[BadInput]]:
    """Returns the comparison of a capture, and the error that ends it early, or None. It is read twice, and not kept."""
    setup, source = setup_of(arguments), Input(arguments.capture, arguments.quiet, is_kept=True)
    survey = compare.Survey(setup)
    error = passed_to(survey.take, source.opened())
    if survey.first is None:
        raise error or BadInput(f"{source.name}: {arguments.mac} sends no message of Neighbor Discovery")
    made = compare.Comparison(setup, survey, arguments.tolerance, arguments.before)
    error = passed_to(made.take, source.opened(says_skipped=False))
    made.finish()
    return made, error


def compared_live(arguments: argparse.Namespace) -> Tuple[compare.Comparison, Optional[BadInput]]:
    """Hears an interface until the time is over, or until it is interrupted, and returns the comparison."""
    packets: List[Packet] = []
    try:
        with Interface(arguments.interface) as interface:
            if not arguments.quiet:
                how_long = "until it is interrupted" if arguments.seconds is None else f"for {counted(arguments.seconds, 'second')}"
                print(f"ndbench: hears {arguments.interface} {how_long}", file=sys.stderr, flush=True)
            for packet in interface.packets(arguments.seconds):
                packets.append(packet)
    except KeyboardInterrupt:
        pass
    except OSError as error:
        raise BadInput(f"{arguments.interface}: {error.strerror}") from error
    try:
        return compare.compared(packets, setup_of(arguments), arguments.tolerance, arguments.before), None
    except (compare.NothingSent, CaptureError) as error:
        raise BadInput(f"{arguments.interface}: {error}") from error


def passed_to(take: Callable[[Packet], None], capture: ContextManager[Iterator[Packet]]) -> Optional[BadInput]:
    """Passes each packet of a capture, and returns the error that ends it early, or None."""
    try:
        with capture as packets:
            for packet in packets:
                take(packet)
    except BadInput as error:
        return error
    return None


def do_picture(arguments: argparse.Namespace) -> int:
    """Writes the picture of a capture, with a node that hears it if its address is given."""
    source = Input(arguments.capture, arguments.quiet)
    with source.opened() as packets:
        if arguments.mac is None:
            made = picture.picture_of(packets)
        else:
            made = picture.picture_with_node(packets, setup_of(arguments), arguments.before, arguments.after)
    if made.error is None or made.begin is not None:
        write_text(arguments.write, Drawing(made).text())
    if made.error is not None:
        raise BadInput(f"{source.name}: {made.error}")
    return DONE


def write_text(path: Optional[str], text: str) -> None:
    """Writes a text to a file, or to standard output if there is no path."""
    if path is None:
        print(text, end="")
        return
    try:
        with open(path, "w", encoding="utf-8") as file:
            file.write(text)
    except OSError as error:
        raise BadInput(f"{path}: {error.strerror}") from error


def milliseconds(text: str) -> int:
    """Reads a duration, in milliseconds."""
    if not text.isdecimal() or int(text) > LONGEST_MILLISECONDS:
        raise argparse.ArgumentTypeError(f"{text!r} is no number of milliseconds up to {LONGEST_MILLISECONDS}")
    return int(text)


def seconds(text: str) -> int:
    """Reads how long an interface is heard, in seconds."""
    if not text.isdecimal() or not 0 < int(text) <= LONGEST_SECONDS:
        raise argparse.ArgumentTypeError(f"{text!r} is no number of seconds from 1 to {LONGEST_SECONDS}")
    return int(text)


def add_times(command: argparse.ArgumentParser) -> None:
    """Adds the arguments for the time before and after a capture."""
    command.add_argument("--before", default=0, type=milliseconds, metavar="MS", help="the node starts so long before the first packet (0)")
    command.add_argument("--after", default=0, type=milliseconds, metavar="MS", help="it goes on so long after the last packet (0)")


def parser() -> argparse.ArgumentParser:
    """Returns the parser of the command line."""
    made = argparse.ArgumentParser(prog="ndbench", description="A test bench for captures of IPv6 Neighbor Discovery (pcap and pcapng).")
    commands = made.add_subparsers(dest="command", required=True)
    quiet, capture = argparse.ArgumentParser(add_help=False), argparse.ArgumentParser(add_help=False)
    quiet.add_argument("--quiet", action="store_true", help="no progress bar, and no counts")
    capture.add_argument("capture", help=CAPTURE_HELP)
    add_judge(commands.add_parser("judge", parents=[capture, quiet], help="what each frame is, and what is odd in it"))
    add_replay(commands.add_parser("replay", parents=[capture, quiet], help="what a node sends and reports that hears the capture"))
    add_compare(commands.add_parser("compare", parents=[quiet], help="what another host sent, and no router, against what the node sends"))
    add_picture(commands.add_parser("picture", parents=[capture, quiet], help="an SVG of arrows over time"))
    return made


def add_judge(command: argparse.ArgumentParser) -> None:
    """Adds the arguments of `judge`."""
    command.add_argument("--json", action="store_true", help="a line of JSON for each frame")
    command.set_defaults(run=do_judge)


def add_replay(command: argparse.ArgumentParser) -> None:
    """Adds the arguments of `replay`."""
    add_arguments(command)
    add_times(command)
    form = command.add_mutually_exclusive_group()
    form.add_argument("--json", action="store_true", help="a line of JSON for each event")
    form.add_argument("--write", metavar="FILE", help="write what it hears and sends as pcapng, with what it reports as comments")
    form.add_argument("--tables", action="store_true", help="print its tables at the end")
    command.set_defaults(run=do_replay)


def add_compare(command: argparse.ArgumentParser) -> None:
    """Adds the arguments of `compare`."""
    heard = command.add_mutually_exclusive_group(required=True)
    heard.add_argument("capture", nargs="?", help=CAPTURE_HELP)
    heard.add_argument("--interface", metavar="NAME", help="hear this interface now, on Linux, as root")
    command.add_argument("--seconds", type=seconds, metavar="N", help="hear the interface for so long (until it is interrupted)")
    add_arguments(command, is_host=True)
    command.add_argument("--before", type=milliseconds, metavar="MS",
                         help="the node starts so long before the stack's first message (so that the first solicitation of both falls together)")
    command.add_argument("--tolerance", default=compare.TOLERANCE, type=milliseconds, metavar="MS", help="what may lie between both (1500)")
    command.add_argument("--all", action="store_true", help="all differences, and not the first one alone")
    command.add_argument("--json", action="store_true", help="a line of JSON for each difference")
    command.set_defaults(run=do_compare)


def add_picture(command: argparse.ArgumentParser) -> None:
    """Adds the arguments of `picture`."""
    add_arguments(command, needs_mac=False)
    add_times(command)
    command.add_argument("--write", metavar="FILE", help="write the SVG to a file")
    command.set_defaults(run=do_picture)


def main(words: Optional[List[str]] = None) -> int:
    """Runs a command, and returns the exit status."""
    arguments = parser().parse_args(words)
    try:
        if not library.is_ready() and not arguments.quiet:
            print("ndbench: compiling nd.c, which takes under a minute and is done once", file=sys.stderr)
        return int(arguments.run(arguments))
    except (BadInput, nd.LibraryError) as error:
        sys.stdout.flush()
        print(f"ndbench: {error}", file=sys.stderr)
        return BAD_INPUT
    except BrokenPipeError:  # the reader of the output has ended
        os.dup2(os.open(os.devnull, os.O_WRONLY), sys.stdout.fileno())
        return DONE
    except KeyboardInterrupt:
        return INTERRUPTED


if __name__ == "__main__":
    sys.exit(main())

"""A test bench for captures of Neighbor Discovery: `python3 -m ndbench` judges each frame of a capture, lets a node hear it, compares another stack
with the node, and draws what happened. What a frame is, and all that its nodes do, is the answer of `nd`.

A program reads a capture by `read_capture`, or makes each `Packet` itself, of a number, a time in nanoseconds and a frame; `judgement_of` judges one,
and `compared` compares a stack:

    from ndbench import Setup, compared, read_capture

    with open("host.pcap", "rb") as file:
        made = compared(read_capture(file), Setup(nd.Options.host("02:00:00:00:00:0a")))
    assert made.differences() == []

`Interface` hears an interface of Linux."""
from .capture import CaptureError, Packet, read_capture
from .compare import Comparison, Difference, Message, NothingSent, Purpose, compared
from .judge import Judgement, judgement_of
from .live import Interface
from .remarks import Remark
from .setup import Setup

__all__ = ["CaptureError", "Comparison", "Difference", "Interface", "Judgement", "Message", "NothingSent", "Packet", "Purpose", "Remark", "Setup",
           "compared", "judgement_of", "read_capture"]

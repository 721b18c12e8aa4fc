"""MoldUDP64 in Python, over the shared library `libmold.so` of this repository.

It decodes packets, delivers the messages of two lines in order, requests what is missing, publishes, responds to
requests, and checks captures. It opens no socket and reads no clock. `mold.h` states what each call of the library
does. Bytes that a call returns are `bytes`: copies that stay valid. Bytes that are passed may be `bytes`, a `bytearray`
or a `memoryview`; the last two are copied first.

A refusal raises MoldError, and a failed allocation MemoryError. A number that does not fit the type of its parameter in
`mold.h` raises ValueError.

    import mold

    for datagram in mold.read_capture("night.pcap"):
        for number, message in mold.decode(datagram.payload).numbered():
            print(number, message.hex())

The library is the file that the environment variable MOLD_LIBRARY names. Otherwise it is `libmold.so` in the folder of
this package, in the folder that contains the package, in `library/out` of the repository, or in `lib` of a release.
Otherwise it is the prebuilt one of the repository, if that was built from the present sources, and otherwise the one that
the system finds. If there is none, the import raises ImportError.
"""
from .capture import Address, Capture, CaptureError, Datagram, read_capture
from .checker import Checker, Verdict
from .errors import Code, MoldError
from .listener import Line, Listener, Range, Report, Taken
from .native import session_of
from .packets import Kind, Packet, Request, decode, encode, encode_end
from .publisher import Publisher
from .repairer import LineStats, Repairer, RepairOptions, RepairStats
from .server import Server

__all__ = ["Address", "Capture", "CaptureError", "Checker", "Code", "Datagram", "Kind", "Line", "LineStats", "Listener",
           "MoldError", "Packet", "Publisher", "Range", "RepairOptions", "RepairStats", "Repairer", "Report", "Request",
           "Server", "Taken", "Verdict", "decode", "encode", "encode_end", "read_capture", "session_of"]

"""The declarations of the module agree with mold.h, and the codes with its enum."""
import ctypes
import os
import re
import unittest

from mold import Code, errors, native

HEADER = os.path.join(os.path.dirname(os.path.abspath(__file__)), "..", "..", "mold.h")
HANDLES = {"mold_listener", "mold_repairer", "mold_publisher", "mold_server", "mold_checker"}
SCALARS = {"uint16_t": ctypes.c_uint16, "uint32_t": ctypes.c_uint32, "uint64_t": ctypes.c_uint64,
           "size_t": ctypes.c_size_t, "bool": ctypes.c_bool, "void": None}


def header():
    with open(HEADER, encoding="utf-8") as file:
        return file.read()


def declared():
    """The structs that the module declares, each with its name in mold.h."""
    types = {name: it for name, it in vars(native).items() if isinstance(it, type)}
    structs = {name: it for name, it in types.items() if issubclass(it, ctypes.Structure)}
    handle = structs.pop("mold_handle")
    return [*structs.items(), *((name, handle) for name in sorted(HANDLES))]


def type_of(parameter):
    """The type for ctypes of a parameter of mold.h: a number, the bytes to read, or any other pointer."""
    kind = parameter.rpartition(" ")[0]
    if "*" not in parameter and "[" not in parameter:
        return SCALARS[kind]
    is_read = parameter.startswith("const uint8_t")
    return ctypes.c_char_p if is_read else ctypes.c_void_p


class Header(unittest.TestCase):
    def test_layouts(self):
        text = header()
        sizes = dict(re.findall(r"^MOLD_SIZE_\((\w+), (\d+)\);$", text, re.M))
        for name, struct in declared():
            with self.subTest(name):
                self.assertEqual(ctypes.sizeof(struct), int(sizes[name]))
                places = re.findall(rf"^MOLD_FIELD_\({name}, (\w+), (\d+)\);$", text, re.M)
                self.assertEqual([(field, getattr(struct, field).offset) for field, *_ in struct._fields_],
                                 [(field, int(place)) for field, place in places])

    def test_signatures(self):
        text = re.sub(r"/\*.*?\*/", "", header(), flags=re.S)
        found = {name: (result, parameters) for result, name, parameters in
                 re.findall(r"^(\w+) (mold_\w+)\(([^()]*)\);$", text, re.M)}
        for name, (result, parameters) in native.SIGNATURES.items():
            with self.subTest(name):
                wanted = [] if found[name][1] == "void" else re.split(r",\s+", found[name][1])
                self.assertEqual(result, SCALARS[found[name][0]])
                self.assertEqual(list(parameters), [type_of(it) for it in wanted])

    def test_version(self):
        self.assertIn(f"#define MOLD_LIBRARY_VERSION {native.LIBRARY_VERSION}\n", header())

    def test_codes(self):
        enum = header().partition("enum mold_code {")[2].partition("};")[0]
        rows = re.findall(r"^    MOLD_(?:E_)?(\w+) = (\d+),? +/\* (.+) \*/$", enum, re.M)
        self.assertEqual([(code.name, str(code.value), code.text) for code in Code], rows)

    def test_codes_with_a_number(self):
        path = os.path.join(os.path.dirname(HEADER), "..", "docs", "LIBRARY.md")
        with open(path, encoding="utf-8") as file:
            rows = re.findall(r"^\| \d+ \| `MOLD_(?:E_)?(\w+)` \| [^|]+ \|(.*)\|$", file.read(), re.M)
        self.assertEqual({code.name for code in errors.NUMBERED}, {name for name, number in rows if number.strip()})

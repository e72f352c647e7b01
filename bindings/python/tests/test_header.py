"""Numbers, structs and functions are those of include/verity.h, as a C compiler reads it."""

import ctypes
import os
import re
import subprocess
import tempfile
import unittest

import verity
from verity import _errors, _library

ROOT = os.path.abspath(os.path.join(os.path.dirname(__file__), "..", "..", ".."))
HEADER = os.path.join(ROOT, "include", "verity.h")
STRUCTS = {
    "verity_params": _library.VerityParams,
    "fsverity_params": _library.FsverityParams,
    "verity_build": _library.VerityBuild,
    "verity_fed": _library.VerityFed,
}
TYPES = {
    "uint32_t": ctypes.c_uint32,
    "uint64_t": ctypes.c_uint64,
    "size_t": ctypes.c_size_t,
    "int": ctypes.c_int,
    "uint8_t *": ctypes.c_void_p,
    "char *": ctypes.c_void_p,
}
TYPES.update({f"{name} *": ctypes.POINTER(TYPES[name]) for name in ("uint32_t", "uint64_t", "size_t")})
TYPES.update({f"struct {name} *": ctypes.POINTER(kind) for name, kind in STRUCTS.items()})


def header():
    """The header without its comments."""
    with open(HEADER, encoding="ascii") as file:
        return re.sub(r"/\*.*?\*/", "", file.read(), flags=re.S)


def declared(text, body):
    """The words of an enum or the fields of a struct."""
    return re.findall(body, re.search(text + r" \{(.*?)\}", header(), re.S)[1])


def said(lines):
    """The numbers that a C program prints of these expressions."""
    code = [f'    printf("%lld\\n", (long long)({line}));' for line in lines]
    with tempfile.TemporaryDirectory() as folder:
        program = os.path.join(folder, "numbers")
        text = "\n".join(["#include <stdio.h>", "#include <verity.h>", "int main(void)", "{", *code, "}"])
        command = ["cc", "-I", os.path.dirname(HEADER), "-x", "c", "-", "-o", program]
        subprocess.run(command, input=text, text=True, check=True)
        found = subprocess.run([program], capture_output=True, text=True, check=True).stdout
    return [int(line) for line in found.split()]


class Header(unittest.TestCase):
    def test_statuses(self):
        names = declared("enum verity_status", r"VERITY_(\w+) =")
        numbers = said([f"VERITY_{name}" for name in names])
        stated = {name.title().replace("_", ""): number for name, number in zip(names, numbers)}
        self.assertEqual(stated.pop("Ok"), 0)
        found = {kind.__name__: kind.status for kind in verity.Error.__subclasses__()}
        self.assertEqual(found, stated)
        for name, number in stated.items():
            self.assertIs(type(_errors.error(number)), getattr(verity, name))
            self.assertIn(name, verity.__all__)

    def test_constants(self):
        words = ["VERITY_VERSION_MAJOR", "VERITY_MAX_TEXT_SIZE"]
        self.assertEqual(said(words), [_library.MAJOR, _library.MAX_TEXT_SIZE])

    def test_structs(self):
        words, found = [], []
        for name, kind in STRUCTS.items():
            fields = declared(f"struct {name}", r"(\w+)(?:\[\d+\])?;")
            self.assertEqual(fields, [field for field, _ in kind._fields_])
            words += [f"sizeof(struct {name})", f"_Alignof(struct {name})"]
            found += [ctypes.sizeof(kind), ctypes.alignment(kind)]
            for field in fields:
                words += [f"offsetof(struct {name}, {field})", f"sizeof ((struct {name} *)0)->{field}"]
                found += [getattr(kind, field).offset, getattr(kind, field).size]
        self.assertEqual(dict(enumerate(said(words))), dict(enumerate(found)))

    def test_functions(self):
        stated = {}
        for name, words in re.findall(r"VERITY_MUST_CHECK int (\w+)\(([^)]*)\);", header()):
            types = [re.match(r"(.*?[ *])\w+$", word.strip())[1].strip() for word in re.split(r",\s*", words)]
            stated[name] = [TYPES.get(it.replace("const ", "")) for it in types]
        self.assertGreater(len(_library.FUNCTIONS), 20)
        for name, types in _library.FUNCTIONS.items():
            self.assertEqual(list(types), stated[name], name)

    def test_py_buffer(self):
        """The interpreter writes each field of the struct, and nothing behind it."""

        class Longer(_library.View):
            _fields_ = [("behind", ctypes.c_uint8 * 64)]

        found, data = Longer(), b"abc"
        ctypes.memset(ctypes.addressof(found), 0xA5, ctypes.sizeof(found))
        _library._get_buffer(data, found, _library._SIMPLE)
        fields = {name: getattr(found, name) for name, _ in _library.View._fields_}
        self.assertEqual(ctypes.string_at(fields.pop("buf"), 4), b"abc\0")
        self.assertEqual((fields.pop("obj"), fields.pop("length"), fields.pop("itemsize")), (id(data), 3, 1))
        self.assertEqual((fields.pop("readonly"), fields.pop("ndim")), (1, 1))
        nothing = ("format", "shape", "strides", "suboffsets", "internal")
        self.assertEqual(fields, dict.fromkeys(nothing))
        self.assertEqual(bytes(found.behind), b"\xa5" * 64)

    def test_view(self):
        for data in b"abc", bytearray(b"abc"), memoryview(b"abc"), memoryview(bytearray(b"abc")):
            _whole, at, length = _library.view(data)
            self.assertEqual(ctypes.string_at(at, length), b"abc")

    def test_no_address(self):
        """The library is never handed a null pointer, not even for no bytes."""
        for read_only in False, True:
            for length in 0, 3:
                data = memoryview((ctypes.c_char * length).from_address(0))
                data = data.toreadonly() if read_only else data
                if length == 0:
                    self.assertEqual(_library.view(data)[1:], (b"", 0))
                else:
                    with self.assertRaisesRegex(BufferError, "no address"):
                        _library.view(data)

    def test_version(self):
        words = ["VERITY_VERSION_MAJOR", "VERITY_VERSION_MINOR", "VERITY_VERSION_PATCH"]
        version = ".".join(map(str, said(words)))
        with open(os.path.join(ROOT, "bindings", "python", "pyproject.toml"), encoding="ascii") as file:
            self.assertIn(f'version = "{version}"\n', file.readlines())

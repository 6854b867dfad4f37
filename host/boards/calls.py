"""The calls of the library as the Rattle sources have them: crates/rdram/src, and the #[repr(C)] structs of the other crates."""
import glob
import os
import re

ROOT = os.path.join(os.path.dirname(os.path.abspath(__file__)), "..", "..")
C_TYPE = {"u8": "uint8_t", "u16": "uint16_t", "u32": "uint32_t", "u64": "uint64_t", "usize": "size_t", "f32": "float"}
BYTES = {"u8": 1, "u16": 2, "u32": 4, "u64": 8, "f32": 4}


def read(path):
    with open(os.path.join(ROOT, path), encoding="utf-8") as file:
        return file.read()


def without_comments(text):
    return re.sub(r"//[^\n]*", "", text)


def sources(pattern):
    names = sorted(glob.glob(os.path.join(ROOT, pattern)))
    return [without_comments(read(os.path.relpath(name, ROOT))) for name in names]


def structs():
    """{name: [(field, type)]} of all #[repr(C)] structs; an array's type is (type, length)."""
    found = {}
    for text in sources("crates/*/src/**/*.rt") + sources("crates/*/src/*.rt"):
        for name, body in re.findall(r"#\[repr\(C\)\]\s*(?:#\[derive\([\w, ]*\)\]\s*)?pub struct (\w+) \{(.*?)\n\}", text, re.S):
            fields = []
            for field, kind in re.findall(r"pub (\w+): ([^,\n]+),", body):
                array = re.fullmatch(r"\[(\w+); (\d+)\]", kind)
                fields.append((field, (array[1], int(array[2])) if array else kind))
            found[name] = fields
    return found


def size_of(fields):
    """Bytes and alignment of a struct, which are the same on all targets: 64-bit numbers are aligned to 8 on each of them."""
    at, most = 0, 1
    for _, kind in fields:
        unit, count = kind if isinstance(kind, tuple) else (kind, 1)
        step = BYTES[unit]
        most = max(most, step)
        at = (at + step - 1) // step * step + step * count
    return (at + most - 1) // most * most, most


def calls():
    """[(name, [(parameter, type)], answer)], in the order of the files of crates/rdram/src."""
    found = []
    for text in sources("crates/rdram/src/*.rt"):
        for name, inside, answer in re.findall(r'pub extern "C" fn (\w+)\((.*?)\)\s*->\s*(\w+)', text, re.S):
            found.append((name, [(a, b.strip()) for a, b in re.findall(r"(\w+): ([^,\n]+)", inside)], answer))
        exports = text.count("#[unsafe(no_mangle)]")
        if exports != len(re.findall(r'pub extern "C" fn \w+\(.*?\)\s*->\s*\w+', text, re.S)):
            raise SystemExit("calls.py: an export of crates/rdram/src has a form that is not read here")
    return found


def header_text():
    """The headers that declare calls and constants, without comments. The other two are helpers over them."""
    names = sorted(set(glob.glob(os.path.join(ROOT, "host/c/rdram*.h"))) - {os.path.join(ROOT, "host/c", x) for x in ("rdram_debug.h", "rdram_util.h")})
    text = "\n".join(read(os.path.relpath(name, ROOT)) for name in names)
    return re.sub(r"/\*.*?\*/", "", text, flags=re.S)

"""shim.py MODULE.ll BITS OUT: the module of the proved crates for another processor than x86-64.

The module hands answers over as the C ABI of x86-64 says. Two generated files, which are outside the proof, join it to the C ABI of the
target: OUT/core.ll is the module under the target's own data layout with, for each call `rdram_X`, a function `rdram_X_core` that takes
pointers and numbers only and stores the answer through its first argument, and OUT/shim.c has `rdram_X` in C over it, so that the target's
compiler decides how structs travel. The calls are read from crates/rdram/src, and each must have in the module the form that is expected
of it: a new call needs no change here, and one of a new form stops the build."""
import re
import sys

import calls

REGISTERS = 16  # answers of up to so many bytes come in registers on x86-64
WIDTH = {"i8": 1, "i32": 4, "float": 4, "i64": 8, "ptr": 8}  # on x86-64


def expected(parameters, answer, structs):
    """The answer and parameters of a call in the module: [(type, what it is)]."""
    words = []
    size = calls.size_of(structs[answer])[0] if answer in structs else 0
    if size > REGISTERS:
        words.append(("ptr", "answer"))
    for _, kind in parameters:
        if kind in ("&[u8]", "&mut [u8]"):
            words += [("ptr", "word"), ("i64", "size")]
        elif kind == "usize":
            words.append(("i64", "size"))
        elif kind in ("u32", "u64"):
            words.append(("i" + kind[1:], "word"))
        elif kind.startswith("&mut ") and kind[5:] in structs:
            words.append(("ptr", "word"))
        elif kind in structs and calls.size_of(structs[kind])[0] > REGISTERS:
            words.append(("ptr byval([%d x i8]) align 8" % calls.size_of(structs[kind])[0], "word"))
        else:
            raise SystemExit("shim.py: a parameter of type %s has no form here" % kind)
    if answer in structs:
        given = "ptr" if size > REGISTERS else "{ i64, i64 }" if size > 8 else "i64"
    elif answer in ("u32", "u64"):
        given = "i" + answer[1:]
    else:
        raise SystemExit("shim.py: an answer of type %s has no form here" % answer)
    return given, words


def core(name, given, words, bits):
    """The function rdram_X_core of one call. Numbers too are stored: targets differ in how they widen one in a register."""
    taken, lines, passed = ["ptr %out"], [], []
    for i, (kind, what) in enumerate(words):
        if what == "answer":
            passed.append("ptr %out")
        elif what == "size" and bits == 32:
            taken.append("i32 %%p%d" % i)
            lines.append("  %%w%d = zext i32 %%p%d to i64" % (i, i))
            passed.append("i64 %%w%d" % i)
        else:
            taken.append("%s %%p%d" % (kind.split()[0], i))
            passed.append("%s %%p%d" % (kind, i))
    lines.append("  %%r = call %s @%s_module(%s)" % (given, name, ", ".join(passed)))
    if given in ("i32", "i64"):
        lines.append("  store %s %%r, ptr %%out, align 4" % given)
    elif given != "ptr":
        lines += ["  %r0 = extractvalue { i64, i64 } %r, 0", "  %r1 = extractvalue { i64, i64 } %r, 1",
                  "  %next = getelementptr i8, ptr %out, i32 8",
                  "  store i64 %r0, ptr %out, align 4", "  store i64 %r1, ptr %next, align 4"]
    lines.append("  ret void")
    return "define hidden void @%s_core(%s) nounwind {\n%s\n}\n" % (name, ", ".join(taken), "\n".join(lines))


def by_parts(load):
    """A pair loaded by its parts. The module stores them where x86-64 has them, and in a pair of another target they may stand elsewhere:
    after a byte a pointer of 32 bits stands at 4."""
    pair, first, second, place = load.groups()
    at = -(-WIDTH[first] // WIDTH[second]) * WIDTH[second]
    return ("  {0}.first = load {1}, ptr {3}\n  {0}.place = getelementptr i8, ptr {3}, i64 {4}\n  {0}.second = load {2}, ptr {0}.place\n"
            "  {0}.half = insertvalue {{ {1}, {2} }} poison, {1} {0}.first, 0\n"
            "  {0} = insertvalue {{ {1}, {2} }} {0}.half, {2} {0}.second, 1\n").format(pair, first, second, place, at)


def c_names(parameters, header):
    """The parameters in C, and their names as arguments. Where a struct travels by value the core gets its address."""
    taken, passed, core_taken = [], [], []
    for name, kind in parameters:
        if kind in ("&[u8]", "&mut [u8]"):
            pointer = "%suint8_t *%s" % ("" if "mut" in kind else "const ", name)
            taken += [pointer, "size_t %s_len" % name]
            core_taken += [pointer, "size_t %s_len" % name]
            passed += [name, name + "_len"]
        elif kind.startswith("&mut ") and kind[5:] in header:
            taken.append("%s *%s" % (header[kind[5:]], name))
            core_taken.append("void *" + name)
            passed.append(name)
        elif kind in header:
            taken.append("%s %s" % (header[kind], name))
            core_taken.append("const void *" + name)
            passed.append("&" + name)
        else:
            taken.append("%s %s" % (calls.C_TYPE[kind], name))
            core_taken.append("%s %s" % (calls.C_TYPE[kind], name))
            passed.append(name)
    return taken, passed, core_taken


def shim(name, parameters, answer, header):
    taken, passed, core_taken = c_names(parameters, header)
    written = ", ".join(taken) or "void"
    hidden = '__attribute__((visibility("hidden")))'
    kind = header[answer] if answer in header else calls.C_TYPE[answer]
    size = calls.size_of(calls.structs()[answer])[0] if answer in header else calls.BYTES[answer]
    return ("_Static_assert(sizeof(%s) == %d, \"%s\");\nextern %s void %s_core(%s);\n%s %s(%s)\n{\n    %s answered;\n"
            "    %s_core(%s);\n    return answered;\n}\n") % (
        kind, size, kind, hidden, name, ", ".join(["void *answered"] + core_taken), kind, name, written, kind,
        name, ", ".join(["&answered"] + passed))


def header_names(found, structs):
    """The header's name of each struct: of an answer that of the call which gives it, of a parameter's that of the call's parameter."""
    text, names = calls.header_text(), {}
    for name, parameters, answer in found:
        declared = re.search(r"(\w+)\s+%s\(([^;{]*)\)[^;{]*;" % name, text)
        if not declared:
            raise SystemExit("shim.py: rdram.h does not declare " + name)
        if answer in structs:
            names[answer] = declared[1]
        for place, (_, kind) in enumerate(parameters):
            if kind in structs:
                names[kind] = declared[2].split(",")[place].split()[0]
    return names


def main(module, bits, out):
    text, structs, found = open(module, encoding="utf-8").read(), calls.structs(), calls.calls()
    text = re.sub(r"^target (datalayout|triple) = .*\n", "", text, flags=re.M)
    text = re.sub(r'"probe-stack"="inline-asm"|"target-cpu"="[^"]*"', "", text)
    text = re.sub(r"^  (%r\d+) = load \{ (\w+), (\w+) \}, ptr (%r\d+), align \d+\n", by_parts, text, flags=re.M)
    if re.search(r"(load|store) \{|\{ \w+, \w+ \}, ptr", text):
        raise SystemExit("shim.py: a pair is loaded or stored in another form")
    names = header_names(found, structs)
    cores, shims = [], ["/* Made by host/boards/shim.py. */\n#include \"rdram.h\"\n"]
    exported = set(re.findall(r"^define (?!internal)[^@\n]*@([\w.$]+)\(", text, re.M))
    if exported != {name for name, _, _ in found}:
        raise SystemExit("shim.py: the module's exports are not the calls of crates/rdram/src: " +
                         " ".join(sorted(exported ^ {name for name, _, _ in found})))
    for name, parameters, answer in found:
        given, words = expected(parameters, answer, structs)
        line = re.search(r"^define ([^@\n]*?) @%s\((.*)\) #0 \{$" % name, text, re.M)
        had = [re.sub(r" noundef| %a\d+", "", word) for word in line[2].split(", ")] if line and line[2] else []
        if not line or line[1].replace("noundef ", "") != given or had != [word for word, _ in words]:
            raise SystemExit("shim.py: %s has another form in the module: %s" % (name, line and line[0]))
        text = text.replace(line[0], line[0].replace("define ", "define internal ").replace("@" + name, "@%s_module" % name))
        cores.append(core(name, given, words, bits))
        shims.append(shim(name, parameters, answer, names))
    with open(out + "/core.ll", "w", encoding="utf-8") as file:
        file.write(text + "\n" + "\n".join(cores))
    with open(out + "/shim.c", "w", encoding="utf-8") as file:
        file.write("\n".join(shims))


main(sys.argv[1], int(sys.argv[2]), sys.argv[3])

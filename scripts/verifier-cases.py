#!/usr/bin/env python3
"""Cases of the verifier: images of modules, and the first rule that each breaks.

An image is written from ECMA-335 (II.22 to II.25), and its verdict from the rules of verifiable code (II.22, II.19, III.1.7, III.1.8), by a
writer that knows nothing of the crates. Rule 0 is what the machine does not have yet.
`verifier-cases.py images` prints a line for each case, its name and its image in hexadecimal, in runs that `*N` repeats;
`verifier-cases.py verdicts` prints what the verifier says of it. They are the files stdin and stdout of crates/cc_verify_rows.
"""
import re
import struct
import sys

# ---- signatures (II.23.2)

VOID, BOOL, CHAR, I4, I8, STRING, OBJECT = 0x01, 0x02, 0x03, 0x08, 0x0A, 0x0E, 0x1C
STRINGS = (0x1D, 0x0E)


def types(*each):
    out = b""
    for one in each:
        out += bytes(one) if isinstance(one, tuple) else bytes([one])
    return out


def method_signature(result, *parameters, this=False):
    return bytes([0x20 if this else 0, len(parameters)]) + types(result) + types(*parameters)


def locals_signature(*each):
    return bytes([7, len(each)]) + types(*each)


ENTRY = method_signature(I4, STRINGS)

# ---- code (III): a line of instructions with labels, each `label:` or `mnemonic operand`

PLAIN = {
    "nop": 0x00, "ldarg.0": 0x02, "ldarg.1": 0x03, "ldloc.0": 0x06, "ldloc.1": 0x07, "stloc.0": 0x0A, "stloc.1": 0x0B,
    "ldnull": 0x14, "ldc.i4.0": 0x16, "ldc.i4.1": 0x17, "dup": 0x25, "pop": 0x26, "ret": 0x2A, "add": 0x58, "sub": 0x59,
    "mul": 0x5A, "div": 0x5B, "and": 0x5F, "shl": 0x62, "shr": 0x63, "neg": 0x65, "not": 0x66, "conv.i4": 0x69,
    "conv.i8": 0x6A, "throw": 0x7A, "endfinally": 0xDC, "ldlen": 0x8E,
}
PREFIXED = {"ceq": 0x01, "cgt": 0x02, "clt": 0x04, "rethrow": 0x1A}
TOKENED = {"call": 0x28, "callvirt": 0x6F, "newobj": 0x73, "ldstr": 0x72, "newarr": 0x8D, "box": 0x8C}
SHORT = {"br.s": 0x2B, "brfalse.s": 0x2C, "brtrue.s": 0x2D, "leave.s": 0xDE}
LONG = {"br": 0x38, "brfalse": 0x39, "brtrue": 0x3A, "beq": 0x3B, "bge": 0x3C, "bgt": 0x3D, "ble": 0x3E, "blt": 0x3F, "bne.un": 0x40, "leave": 0xDD}
BYTE = {"ldarg.s": 0x0E, "starg.s": 0x10, "ldloc.s": 0x11, "stloc.s": 0x13, "ldc.i4.s": 0x1F}


def assemble(text):
    """The code, and the offsets of its labels. A branch names a label, or a label and bytes behind it, as `out+1`."""
    code, labels, open_branches = b"", {}, []
    for part in text.split(";"):
        words = part.split()
        while words and words[0].endswith(":"):
            labels[words.pop(0)[:-1]] = len(code)
        if not words:
            continue
        name, operand = words[0], words[1] if len(words) > 1 else None
        if name == "byte":
            code += bytes.fromhex(operand)
        elif name in PLAIN:
            code += bytes([PLAIN[name]])
        elif name in PREFIXED:
            code += bytes([0xFE, PREFIXED[name]])
        elif name in TOKENED:
            code += bytes([TOKENED[name]]) + struct.pack("<I", int(operand, 16))
        elif name in BYTE:
            code += bytes([BYTE[name], int(operand)])
        elif name == "ldc.i4":
            code += b"\x20" + struct.pack("<i", int(operand))
        elif name == "ldc.i8":
            code += b"\x21" + struct.pack("<q", int(operand))
        elif name in SHORT:
            code += bytes([SHORT[name], 0])
            open_branches.append((len(code) - 1, 1, operand))
        else:
            code += bytes([LONG[name], 0, 0, 0, 0])
            open_branches.append((len(code) - 4, 4, operand))
    labels["end"] = len(code)
    for at, width, operand in open_branches:
        distance = place(labels, operand) - (at + width)
        code = code[:at] + distance.to_bytes(width, "little", signed=True) + code[at + width:]
    return code, labels


def place(labels, name):
    label, plus, more = name.partition("+")
    label, minus, less = label.partition("-")
    return labels[label] + (int(more) if plus else 0) - (int(less) if minus else 0)


# ---- bodies (II.25.4)

KINDS = {"catch": 0, "finally": 2, "fault": 4}


def clause(labels, text):
    """`catch try past handler past token` or `finally try past handler past`, the ranges by labels."""
    kind, first, past, handler, handler_past, *token = text.split()
    a, b, c, d = (place(labels, name) for name in (first, past, handler, handler_past))
    return KINDS[kind], a, b - a, c, d - c, int(token[0], 16) if token else 0


def body(text, stack=8, local=0, clauses=()):
    code, labels = assemble(text)
    rows = [clause(labels, one) for one in clauses]
    if len(code) < 64 and not local and not rows and stack == 8:
        return bytes([len(code) * 4 + 2]) + code
    flags = 0x3013 | (8 if rows else 0)
    out = struct.pack("<HHII", flags, stack, len(code), local) + code
    if rows:
        out += bytes(-len(out) % 4)
        small = len(rows) <= 20 and all(a <= 0xFFFF and b <= 0xFF and c <= 0xFFFF and d <= 0xFF for _, a, b, c, d, _ in rows)
        if small:
            out += struct.pack("<BBH", 1, 12 * len(rows) + 4, 0)
            out += b"".join(struct.pack("<HHBHBI", *row) for row in rows)
        else:
            out += b"\x41" + (24 * len(rows) + 4).to_bytes(3, "little")
            out += b"".join(struct.pack("<IIIIII", *row) for row in rows)
    return out


# ---- metadata (II.22 and II.24)

ORDER = [0, 1, 2, 4, 6, 8, 9, 0xA, 0xB, 0x11, 0x15, 0x17, 0x18, 0x19, 0x1B, 0x20, 0x23, 0x2A, 0x2B, 0x2C]
CODED = {  # the bits of a tag, the tag of each table, and the tables that count for the width
    "TypeDefOrRef": (2, {2: 0, 1: 1, 0x1B: 2}),
    "MemberRefParent": (3, {2: 0, 1: 1, 0x1B: 4}),
    "MethodDefOrRef": (1, {6: 0, 0xA: 1}),
    "HasConstant": (2, {4: 0}),
    "ResolutionScope": (2, {0x23: 2}),
    "TypeOrMethodDef": (1, {2: 0, 6: 1}),
}


def compressed(number):
    return bytes([number]) if number < 0x80 else bytes([0x80 | number >> 8, number & 255])


def padded(some):
    return some + bytes(-len(some) % 4)


def metadata(tables):
    names, blobs = {b"": 0}, {b"": 0}
    name_heap, blob_heap = b"\0", b"\0"
    for table in ORDER:
        for row in tables.get(table, []):
            for kind, value in row:
                if kind == "S" and value not in names:
                    names[value] = len(name_heap)
                    name_heap += value + b"\0"
                if kind == "B" and value not in blobs:
                    blobs[value] = len(blob_heap)
                    blob_heap += compressed(len(value)) + value
    rows = b""
    for table in ORDER:
        for row in tables.get(table, []):
            for kind, value in row:
                if kind == "1":
                    rows += bytes([value])
                elif kind == "4":
                    rows += struct.pack("<I", value)
                elif kind == "S":
                    rows += struct.pack("<H", names[value])
                elif kind == "B":
                    rows += struct.pack("<H", blobs[value])
                elif kind in CODED:
                    bits, tags = CODED[kind]
                    rows += struct.pack("<H", value[1] << bits | tags[value[0]])
                else:  # a number of two bytes, an index of a table, or of #GUID
                    rows += struct.pack("<H", value)
    there = [table for table in ORDER if tables.get(table)]
    head = struct.pack("<IBBBBQQ", 0, 2, 0, 0, 1, sum(1 << table for table in there), 0x0000140003000A00)
    head += b"".join(struct.pack("<I", len(tables[table])) for table in there)
    streams = [(b"#~\0\0", padded(head + rows)), (b"#Strings\0\0\0\0", padded(name_heap)), (b"#US\0", padded(b"\0")), (b"#GUID\0\0\0", bytes(16)), (b"#Blob\0\0\0", padded(blob_heap))]
    root = bytes.fromhex("42534A42") + struct.pack("<HHII", 1, 1, 0, 12) + b"v4.0.30319\0\0" + struct.pack("<HH", 0, 5)
    at = len(root) + sum(8 + len(name) for name, _ in streams)
    for name, stream in streams:
        root += struct.pack("<II", at, len(stream)) + name
        at += len(stream)
    return root + b"".join(stream for _, stream in streams)


# ---- the file (II.25)

def rounded(number, to):
    return (number + to - 1) // to * to


def file_of(bodies, root, entry):
    section = b"".join(padded(one) for one in bodies)
    used = 72 + len(section) + len(root)
    size = rounded(used, 0x200)
    head = bytes.fromhex("4D5A90000300000004000000FFFF0000B80000000000000040000000")
    head += bytes(0x3C - len(head)) + bytes.fromhex("800000000E1FBA0E00B409CD21B8014CCD21")
    head += b"This program cannot be run in DOS mode.\r\r\n$" + bytes(7) + b"PE\0\0"
    head += struct.pack("<HHIIIHH", 0x14C, 1, 0, 0, 0, 224, 0x102)
    head += struct.pack("<HBBIIIIIIIII", 0x10B, 6, 0, size, 0, 0, 0, 0x2000, 0, 0x400000, 0x2000, 0x200)
    head += struct.pack("<HHHHHHI", 5, 0, 0, 0, 5, 0, 0)
    head += struct.pack("<IIIHHIIIIII", 0x2000 + rounded(used, 0x2000), 0x200, 0, 3, 0, 0x100000, 0x1000, 0x100000, 0x1000, 0, 16)
    for number in range(16):
        head += struct.pack("<II", 0x2000, 72) if number == 14 else bytes(8)
    head += b".text\0\0\0" + struct.pack("<IIIIIIHHI", used, 0x2000, size, 0x200, 0, 0, 0, 0, 0x60000020)
    head += bytes(0x200 - len(head))
    head += struct.pack("<IHHIIII", 72, 2, 5, 0x2048 + len(section), len(root), 1, entry) + bytes(48)
    return head + section + root + bytes(size - used)


# ---- modules: functions of row 1 of TypeDef

class Function:
    """A row of MethodDef. `code` is None for a method without a body."""

    def __init__(self, code="ldc.i4.0; ret", stack=8, local=0, clauses=(), name=b"f", signature=ENTRY, flags=0x16, parameters=1):
        self.body = None if code is None else body(code, stack, local, clauses)
        self.name, self.signature, self.flags, self.parameters = name, signature, flags, parameters


CONSOLE, EXCEPTION, OBJECT_ROW = (b"System", b"Console"), (b"System", b"Exception"), (b"System", b"Object")
WRITE_LINE = (1, b"WriteLine", method_signature(VOID, I4))


def module(*functions, type_refs=(CONSOLE, EXCEPTION, OBJECT_ROW), members=(WRITE_LINE,), local=(), type_defs=None, more=None, entry=0x06000001, library=b"mscorlib"):
    """The image: TypeRef rows are Console, Exception and Object, row 1 of MemberRef is WriteLine(int)."""
    rva, methods, bodies = 0x2048, [], []
    for number, one in enumerate(functions):
        name = one.name if one.name != b"f" else b"f%d" % (number + 1)
        methods.append([("4", 0 if one.body is None else rva), ("2", 0), ("2", one.flags), ("S", name), ("B", one.signature), (8, one.parameters)])
        if one.body is not None:
            bodies.append(one.body)
            rva += rounded(len(one.body), 4)
    own = [("4", 0), ("S", b"<Module>"), ("S", b""), ("TypeDefOrRef", (2, 0)), (4, 1), (6, 1)]
    tables = {
        0: [[("2", 0), ("S", b"program.exe"), ("G", 1), ("G", 0), ("G", 0)]],
        1: [[("ResolutionScope", (0x23, 1)), ("S", name), ("S", space)] for space, name in type_refs],
        2: [own] if type_defs is None else type_defs,
        6: methods,
        0xA: [[("MemberRefParent", (1, parent)), ("S", name), ("B", signature)] for parent, name, signature in members],
        0x11: [[("B", signature)] for signature in local],
        0x20: [[("4", 0x8004), ("2", 0), ("2", 0), ("2", 0), ("2", 0), ("4", 0), ("B", b""), ("S", b"program"), ("S", b"")]],
        0x23: [[("2", 4), ("2", 0), ("2", 0), ("2", 0), ("4", 0), ("B", bytes.fromhex("B77A5C561934E089")), ("S", library), ("S", b""), ("B", b"")]],
    }
    tables.update(more or {})
    return file_of(bodies, metadata(tables), entry)


def type_def(flags=0, name=b"<Module>", extends=(2, 0), fields=1, methods=1):
    return [("4", flags), ("S", name), ("S", b""), ("TypeDefOrRef", extends), (4, fields), (6, methods)]


CASES = []


def right(name, *functions, **more):
    CASES.append((name, module(*functions, **more), "verified"))


def class_rule(rule, row, name, *functions, **more):
    CASES.append((f"class-{rule}-{name}", module(*functions, **more), f"class rule {rule} at row {row}"))


def code_rule(rule, at, name, code, row=1, others=(), **more):
    """The code of the first function; what stands beside it keeps the rules."""
    made = {key: more.pop(key) for key in ("stack", "local", "clauses", "signature") if key in more}
    table = more.pop("sigs", ())
    CASES.append((f"code-{rule}-{name}", module(Function(code, **made), *others, local=table, **more), f"code rule {rule} at {row}:{at}"))


GOOD = Function()
INTS = locals_signature(I4, I8)
EXCEPTION_TOKEN, OBJECT_TOKEN = "01000002", "01000003"

# ---- modules that are right

right("returns-zero", GOOD)
right("prints", Function("ldc.i4.s 42; call 0A000001; ldc.i4.0; ret"))
right("calls-itself", Function("ldc.i4.0; call 06000002; ret"), Function("ldc.i4.1; call 06000002; ret", signature=method_signature(I4, I4)))
right("argument-is-loaded-and-stored", GOOD, Function("ldarg.0; neg; starg.s 0; ldarg.0; ret", signature=method_signature(I4, I4)))
right("locals-of-their-types", Function("ldc.i4.1; stloc.0; ldc.i8 5; stloc.1; ldloc.1; conv.i4; ldloc.0; add; ret", local=0x11000001), local=(INTS,))
right("loop-by-a-backward-branch", Function("ldc.i4.s 10; stloc.0; again: ldloc.0; ldc.i4.1; sub; stloc.0; ldloc.0; brtrue.s again; ldloc.0; ret", local=0x11000001), local=(INTS,))
right("endless-loop", Function("again: br.s again"))
right("code-behind-an-unconditional-branch", Function("br.s over; back: ldc.i4.0; ret; over: br.s back"))
right("code-behind-a-throw", Function("ldnull; throw; ldc.i4.0; ret"))
right("stack-of-two-ways-joined", Function("ldc.i4.0; brtrue.s one; ldc.i4.0; br.s out; one: ldc.i4.1; out: ret"))
right("value-below-a-branch", Function("ldc.i4.1; ldc.i4.0; brfalse out; nop; out: ret"))
right("greatest-stack-just-reached", Function("ldc.i4.0; ldc.i4.1; add; ret", stack=2))
right("long-branches", Function("ldc.i4.0; ldc.i4.1; blt out; ldc.i4.1; ret; out: ldc.i4.0; ret"))
right("references-compared", Function("ldnull; ldnull; ceq; ret"))
right("reference-tested", Function("ldnull; brtrue.s out; ldc.i4.0; ret; out: ldc.i4.1; ret"))
right("long-shifted-by-int", Function("ldc.i8 1; ldc.i4.s 40; shl; conv.i4; ret"))
right("nothing-returned", GOOD, Function("ret", signature=method_signature(VOID)))
right("result-of-a-narrow-type", GOOD, Function("ldc.i4.1; ret", signature=method_signature(BOOL, CHAR)))
right("one-name-two-signatures", GOOD, Function(name=b"g", signature=method_signature(I4)), Function(name=b"g", signature=method_signature(I4, I4)))
right("flags-of-functions", GOOD, Function(flags=0x11), Function(flags=0x14), Function(flags=0x96), Function(flags=0x816))

CATCH = "leave.s out; h: pop; leave.s out; out: ldc.i4.0; ret"
right("catch", Function("t: nop; " + CATCH, clauses=["catch t h h out " + EXCEPTION_TOKEN]))
right("catch-of-object", Function("t: nop; " + CATCH, clauses=["catch t h h out " + OBJECT_TOKEN]))
right("catch-of-the-first-type", Function("t: nop; " + CATCH, clauses=["catch t h h out 02000001"]))
right("finally", Function("t: leave.s out; h: endfinally; out: ldc.i4.0; ret", clauses=["finally t h h out"]))
right("fault", Function("t: leave.s out; h: endfinally; out: ldc.i4.0; ret", clauses=["fault t h h out"]))
right("throw-in-a-try", Function("t: ldnull; throw; h: throw; out: ldc.i4.0; ret", clauses=["catch t h h out " + EXCEPTION_TOKEN]))
right("rethrow", Function("t: ldnull; throw; h: pop; rethrow; out: ldc.i4.0; ret", clauses=["catch t h h out " + EXCEPTION_TOKEN]))
right("two-catches-of-one-try", Function("t: leave.s out; h: pop; leave.s out; i: pop; leave.s out; out: ldc.i4.0; ret", clauses=["catch t h h i " + EXCEPTION_TOKEN, "catch t h i out " + OBJECT_TOKEN]))
right("two-tries-side-by-side", Function("t: leave.s u; h: endfinally; u: leave.s out; i: endfinally; out: ldc.i4.0; ret", clauses=["finally t h h u", "finally u i i out"]))
NESTED = "t: nop; u: leave.s v; h: endfinally; v: leave.s out; i: pop; leave.s out; out: ldc.i4.0; ret"
right("nested-handlers", Function(NESTED, clauses=["finally u h h v", "catch t i i out " + EXCEPTION_TOKEN]))
right("two-clauses-of-nested-tries-that-begin-together", Function("t: leave.s v; h: endfinally; v: leave.s out; i: endfinally; out: ldc.i4.0; ret", clauses=["finally t h h v", "finally t i i out"]))
right("handler-in-a-catch", Function("t: leave.s out; h: pop; u: leave.s w; i: endfinally; w: leave.s out; out: ldc.i4.0; ret", clauses=["finally u i i w", "catch t h h out " + EXCEPTION_TOKEN]))
right("handler-in-a-finally", Function("t: leave.s out; h: nop; u: leave.s w; i: pop; leave.s w; w: endfinally; out: ldc.i4.0; ret", clauses=["catch u i i w " + EXCEPTION_TOKEN, "finally t h h out"]))
right("leave-out-of-two-finallys", Function("t: nop; u: leave.s out; h: endfinally; v: leave.s out; i: endfinally; out: ldc.i4.0; ret", clauses=["finally u h h v", "finally t i i out"]))
right("leave-out-of-a-catch-in-a-try", Function("t: nop; u: leave.s v; h: pop; leave.s out; v: leave.s out; i: endfinally; out: ldc.i4.0; ret", clauses=["catch u h h v " + EXCEPTION_TOKEN, "finally t i i out"]))
right("rethrow-in-a-nested-catch", Function("t: leave.s out; h: pop; u: ldnull; throw; i: pop; rethrow; w: rethrow; out: ldc.i4.0; ret", clauses=["catch u i i w " + EXCEPTION_TOKEN, "catch t h h out " + EXCEPTION_TOKEN]))
right("rethrow-in-a-try-of-a-catch", Function("t: leave.s out; h: pop; u: rethrow; i: endfinally; out: ldc.i4.0; ret", clauses=["finally u i i out", "catch t h h out " + EXCEPTION_TOKEN]))
right("handler-before-its-try", Function("br.s t; h: endfinally; t: leave.s out; out: ldc.i4.0; ret", clauses=["finally t out h t"]))
right("leave-backwards", Function("again: ldc.i4.0; brtrue.s out; t: leave.s again; h: endfinally; out: ldc.i4.0; ret", clauses=["finally t h h out"]))
right("leave-with-values", Function("t: ldc.i4.1; ldc.i4.1; leave.s out; h: endfinally; out: ldc.i4.0; ret", clauses=["finally t h h out"]))
right("leave-outside-all", Function("ldc.i4.1; leave.s out; out: ldc.i4.0; ret"))
right("loop-in-a-try", Function("t: nop; again: ldc.i4.0; brtrue.s again; leave.s out; h: endfinally; out: ldc.i4.0; ret", clauses=["finally t h h out"]))
right("finally-that-never-ends", Function("t: leave.s out; h: br.s h; out: ldc.i4.0; ret", clauses=["finally t h h out"]))
right("handler-at-the-end", Function("t: leave.s out; out: ldc.i4.0; ret; h: endfinally", clauses=["finally t out h end"]))
right("try-at-the-end", Function("ldc.i4.0; brtrue.s t; ldc.i4.0; ret; h: pop; leave.s t; t: br.s t", clauses=["catch t end h t " + EXCEPTION_TOKEN]))
right("clause-of-a-long-try", Function("t: " + "nop; " * 300 + "leave out; h: pop; leave out; out: ldc.i4.0; ret", clauses=["catch t h h out " + EXCEPTION_TOKEN]))

# ---- rules on rows, each broken alone

class_rule(0, 2, "second-type", GOOD, type_defs=[type_def(), type_def(1, b"C", (1, 3), 1, 2)])
class_rule(0, 1, "field", GOOD, more={4: [[("2", 0x16), ("S", b"x"), ("B", b"\x06\x08")]]})
class_rule(0, 2, "parameter-of-a-class", GOOD, Function(signature=method_signature(I4, OBJECT)))
class_rule(0, 2, "generic-function", GOOD, Function(signature=bytes([0x10, 1, 0, I4])))
class_rule(0, 2, "reference-to-an-instance-member", GOOD, members=(WRITE_LINE, (2, b"get_Message", method_signature(STRING, this=True))))
class_rule(0, 2, "local-of-a-string", GOOD, local=(INTS, locals_signature(STRING)))
class_rule(0, 1, "type-spec", GOOD, more={0x1B: [[("B", bytes([0x1D, I4]))]]})
class_rule(1, 1, "first-type-extends", GOOD, type_defs=[type_def(extends=(1, 3))])
class_rule(2, 3, "one-name-and-signature", GOOD, Function(name=b"g"), Function(name=b"g"), Function(name=b"g"))
class_rule(3, 1, "type-flags", GOOD, type_defs=[type_def(flags=0x10)])
class_rule(3, 1, "interface", GOOD, type_defs=[type_def(flags=0xA0)])
class_rule(3, 2, "no-access", GOOD, Function(flags=0x10))
class_rule(3, 2, "access-of-an-assembly", GOOD, Function(flags=0x13))
class_rule(3, 2, "unknown-flag", GOOD, Function(flags=0x216))
class_rule(3, 2, "flag-past-the-last", GOOD, Function(flags=0x2016))
class_rule(3, 2, "not-static", GOOD, Function(flags=0x06))
class_rule(3, 2, "instance-function", GOOD, Function(flags=0x06, signature=method_signature(I4, this=True)))
class_rule(3, 2, "static-with-a-this", GOOD, Function(signature=method_signature(I4, this=True)))
class_rule(3, 2, "static-and-virtual", GOOD, Function(flags=0x56))
class_rule(3, 2, "static-and-abstract", GOOD, Function(flags=0x416))
class_rule(3, 2, "field-for-a-method", GOOD, Function(signature=b"\x06\x08"))
class_rule(3, 2, "locals-for-a-member", GOOD, members=(WRITE_LINE, (1, b"Write", INTS)))
class_rule(3, 1, "method-for-locals", GOOD, local=(method_signature(VOID, I4),))
class_rule(4, 4, "class-that-is-not-there", GOOD, type_refs=(CONSOLE, EXCEPTION, OBJECT_ROW, (b"System", b"Consoles")))
class_rule(4, 2, "class-of-another-namespace", GOOD, type_refs=(CONSOLE, (b"", b"Exception")))
class_rule(4, 1, "another-library", GOOD, library=b"library")
class_rule(4, 1, "functions-begin-at-two", GOOD, Function(), type_defs=[type_def(methods=2)])
class_rule(4, 1, "fields-begin-at-none", GOOD, type_defs=[type_def(fields=0)])
class_rule(4, 1, "no-type", GOOD, Function(), type_defs=[])
class_rule(4, 2, "parameters-begin-past-the-end", GOOD, Function(parameters=2))
class_rule(4, 2, "parameters-begin-at-none", GOOD, Function(parameters=0))
class_rule(4, 2, "parameter-of-void", GOOD, Function(signature=method_signature(I4, VOID)))
class_rule(4, 2, "locals-that-are-not-there", GOOD, Function(local=0x11000002), local=(INTS,))
class_rule(4, 2, "locals-of-another-table", GOOD, Function(local=0x06000001), local=(INTS,))
class_rule(4, 2, "caught-class-that-is-not-there", GOOD, Function("t: nop; " + CATCH, clauses=["catch t h h out 01000004"]))
class_rule(4, 2, "caught-class-of-another-table", GOOD, Function("t: nop; " + CATCH, clauses=["catch t h h out 06000001"]))
class_rule(4, 2, "member-that-is-not-there", GOOD, members=(WRITE_LINE, (1, b"WriteLines", method_signature(VOID, I4))))
class_rule(4, 1, "member-of-another-class", GOOD, members=((3, b"WriteLine", method_signature(VOID, I4)),))
class_rule(4, 1, "member-with-a-result", GOOD, members=((1, b"WriteLine", method_signature(I4, I4)),))
class_rule(4, 1, "local-of-void", GOOD, local=(locals_signature(I4, VOID),))
class_rule(11, 0, "no-entry", GOOD, entry=0)
class_rule(11, 2, "entry-that-is-not-there", GOOD, entry=0x06000002)
class_rule(11, 1, "entry-of-another-table", GOOD, entry=0x0A000001)
class_rule(11, 2, "entry-without-arguments", GOOD, Function(signature=method_signature(I4)), entry=0x06000002)
class_rule(11, 2, "entry-without-a-result", GOOD, Function("ret", signature=method_signature(VOID, STRINGS)), entry=0x06000002)
class_rule(11, 2, "entry-with-two-arguments", GOOD, Function(signature=method_signature(I4, STRINGS, I4)), entry=0x06000002)
class_rule(12, 2, "no-body", GOOD, Function(None))
class_rule(12, 2, "static-constructor", GOOD, Function(flags=0x1816, name=b".ctor"))

# ---- the first of two, by rule, then by table, then by row

class_rule(0, 1, "before-1", GOOD, type_defs=[type_def(extends=(1, 3))], more={0x1B: [[("B", bytes([0x1D, I4]))]]})
class_rule(1, 1, "before-2", Function(name=b"g"), Function(name=b"g"), type_defs=[type_def(extends=(1, 3))])
class_rule(2, 2, "before-3", Function(name=b"g"), Function(name=b"g"), type_defs=[type_def(flags=0x10)])
class_rule(3, 1, "before-4", GOOD, Function(flags=0x10, parameters=0), type_defs=[type_def(flags=0x10, fields=0)])
class_rule(3, 3, "method-before-member", GOOD, Function(), Function(flags=0x10), members=((1, b"Write", INTS),))
class_rule(4, 2, "before-11", GOOD, Function(parameters=0), entry=0)
class_rule(4, 3, "type-before-method", GOOD, Function(parameters=0), type_refs=(CONSOLE, EXCEPTION, (b"", b"Object")))
class_rule(4, 2, "first-row", GOOD, Function(parameters=0), Function(parameters=0))
class_rule(11, 0, "before-12", GOOD, Function(None), entry=0)
class_rule(12, 2, "before-code", Function("ret"), Function(None))

# ---- rules on code, each broken alone

code_rule(0, 0, "string", "ldstr 70000001; pop; ldc.i4.0; ret")
code_rule(0, 0, "argument-of-strings", "ldarg.0; pop; ldc.i4.0; ret")
code_rule(0, 0, "virtual-call", "callvirt 0A000001; ldc.i4.0; ret")
code_rule(1, 1, "unknown-opcode", "ldc.i4.0; byte FF; ret")
code_rule(1, 1, "instruction-that-is-cut", "ldc.i4.0; byte 20; byte 00")
code_rule(1, 0, "branch-into-an-instruction", "br.s over+1; over: ldc.i4 5; ret")
code_rule(1, 0, "branch-past-the-end", "br.s end")
code_rule(1, 0, "branch-before-the-start", "t: br.s t-1")
code_rule(1, 1, "leave-into-an-instruction", "t: nop; leave.s out+1; h: endfinally; out: ldc.i4 5; ret", clauses=["finally t h h out"])
code_rule(1, 1, "try-begins-in-an-instruction", "t: ldc.i4.s 5; pop; leave.s out; h: endfinally; out: ldc.i4.0; ret", clauses=["finally t+1 h h out"])
code_rule(1, 0, "try-ends-in-an-instruction", "t: nop; leave.s out; h: endfinally; out: ldc.i4.0; ret", clauses=["finally t h-1 h out"])
code_rule(1, 0, "handler-ends-past-the-end", "t: leave.s out; out: ldc.i4.0; ret; h: endfinally", clauses=["finally t out h end+1"])
code_rule(2, 1, "too-few-values", "ldc.i4.0; add; ret")
code_rule(2, 0, "nothing-returned", "ret")
code_rule(2, 1, "stack-passes-its-greatest-size", "ldc.i4.0; ldc.i4.0; add; ret", stack=1)
code_rule(2, 0, "no-stack", "ldc.i4.0; ret", stack=0)
code_rule(2, 1, "too-few-arguments", "nop; call 0A000001; ldc.i4.0; ret")
code_rule(2, 2, "handler-without-room", "t: leave.s out; h: pop; leave.s out; out: ldc.i4.0; ret", stack=0, clauses=["catch t h h out " + EXCEPTION_TOKEN])
code_rule(3, 10, "long-and-int", "ldc.i8 5; ldc.i4.1; add; conv.i4; ret")
code_rule(3, 2, "sum-of-references", "ldnull; ldnull; add; ret")
code_rule(3, 1, "number-of-a-reference", "ldnull; conv.i4; ret")
code_rule(3, 2, "result-of-another-type", "ldc.i4.0; conv.i8; ret")
code_rule(3, 2, "more-than-the-result", "ldc.i4.0; ldc.i4.0; ret")
code_rule(3, 9, "long-for-an-int", "ldc.i8 5; call 0A000001; ldc.i4.0; ret")
code_rule(3, 0, "call-of-no-method", "call 01000001; ldc.i4.0; ret")
code_rule(3, 0, "call-of-a-method-that-is-not-there", "call 06000002; ret")
code_rule(3, 0, "local-that-is-not-there", "ldloc.0; ret")
code_rule(3, 1, "argument-that-is-not-there", "ldc.i4.0; starg.s 1; ldc.i4.0; ret")
code_rule(3, 1, "number-thrown", "ldc.i4.0; throw")
code_rule(3, 2, "object-thrown", "t: leave.s out; h: throw; out: ldc.i4.0; ret", clauses=["catch t h h out " + OBJECT_TOKEN])
code_rule(3, 2, "reference-compared-with-a-number", "ldnull; ldc.i4.0; ceq; ret")
code_rule(3, 2, "references-in-order", "ldnull; ldnull; clt; ret")
code_rule(3, 18, "shift-by-a-long", "ldc.i8 1; ldc.i8 1; shl; conv.i4; ret")
code_rule(4, 1, "backward-branch-with-another-stack", "t: ldc.i4.0; br.s t")
code_rule(4, 4, "fallen-into-with-another-stack", "ldc.i4.0; brtrue.s out; ldc.i4.0; out: ldc.i4.0; ret")
code_rule(4, 5, "second-branch-with-another-stack", "ldc.i4.0; brtrue.s out; ldc.i4.0; ldc.i4.0; brtrue.s out; pop; out: ldc.i4.0; ret")
code_rule(4, 15, "another-type-at-a-target", "ldc.i4.0; brtrue.s one; ldc.i8 0; br.s out; one: ldc.i4.0; out: ret")
code_rule(4, 5, "leave-to-a-place-with-a-value", "ldc.i4.0; ldc.i4.0; brtrue.s out; pop; t: leave.s out; h: endfinally; out: ret", clauses=["finally t h h out"])
code_rule(2, 2, "place-behind-a-branch-has-no-value", "br.s over; t: ret; over: ldc.i4.0; br.s t")
code_rule(5, 0, "no-code", "")
code_rule(5, 1, "end-is-reached", "ldc.i4.0; pop")
code_rule(5, 1, "conditional-branch-at-the-end", "t: ldc.i4.0; brtrue.s t")
code_rule(6, 0, "empty-try", "t: nop; h: ldc.i4.0; ret", clauses=["finally t t h end"])
code_rule(6, 0, "empty-handler", "t: leave.s out; h: endfinally; out: ldc.i4.0; ret", clauses=["finally t h h h"])
code_rule(6, 0, "try-and-handler-overlap", "t: leave.s out; h: endfinally; out: ldc.i4.0; ret", clauses=["finally t out h out"])
code_rule(6, 1, "outer-clause-stands-first", NESTED, clauses=["catch t i i out " + EXCEPTION_TOKEN, "finally u h h v"])
code_rule(6, 0, "two-handlers-at-one-place", "t: leave.s out; h: pop; leave.s out; out: ldc.i4.0; ret", clauses=["catch t h h out " + EXCEPTION_TOKEN, "catch t h h out " + OBJECT_TOKEN])
code_rule(6, 2, "catch-entered-in-a-finally", "t: ldnull; throw; u: br.s u; i: endfinally; h: pop; leave.s i", stack=1, clauses=["catch t u h end " + EXCEPTION_TOKEN, "finally u i i end"])
code_rule(7, 1, "branch-into-a-try", "ldc.i4.0; brtrue.s u; t: nop; u: leave.s out; h: endfinally; out: ldc.i4.0; ret", clauses=["finally t h h out"])
code_rule(7, 0, "branch-into-a-handler", "br.s h; t: leave.s out; h: endfinally; out: ldc.i4.0; ret", clauses=["finally t h h out"])
code_rule(7, 0, "fall-into-a-handler", "t: nop; h: endfinally; out: ldc.i4.0; ret", clauses=["finally t h h out"])
code_rule(7, 0, "leave-to-a-handler", "t: leave.s h; h: endfinally; out: ldc.i4.0; ret", clauses=["finally t h h out"])
code_rule(7, 0, "branch-out-of-a-try", "t: br.s out; h: endfinally; out: ldc.i4.0; ret", clauses=["finally t h h out"])
code_rule(7, 0, "fall-out-of-a-try", "t: nop; out: ldc.i4.0; ret; h: endfinally", clauses=["finally t out h end"])
code_rule(7, 1, "return-in-a-try", "t: ldc.i4.0; ret; h: endfinally", clauses=["finally t h h end"])
code_rule(7, 4, "return-in-a-catch", "t: leave.s out; h: pop; ldc.i4.0; ret; out: ldc.i4.0; ret", clauses=["catch t h h out " + EXCEPTION_TOKEN])
code_rule(7, 2, "fall-out-of-a-catch", "t: leave.s out; h: pop; out: ldc.i4.0; ret", clauses=["catch t h h out " + EXCEPTION_TOKEN])
code_rule(7, 2, "leave-out-of-a-finally", "t: leave.s out; h: leave.s out; out: ldc.i4.0; ret", clauses=["finally t h h out"])
code_rule(7, 2, "leave-out-of-a-fault", "t: leave.s out; h: leave.s out; out: ldc.i4.0; ret", clauses=["fault t h h out"])
code_rule(7, 2, "branch-out-of-a-finally", "t: leave.s out; h: br.s out; out: ldc.i4.0; ret", clauses=["finally t h h out"])
code_rule(7, 0, "method-begins-in-a-handler", "h: endfinally; t: br.s t", clauses=["finally t end h t"])
code_rule(7, 1, "try-begins-with-a-value", "ldc.i4.0; t: pop; leave.s out; h: endfinally; out: ldc.i4.0; ret", clauses=["finally t h h out"])
code_rule(7, 0, "endfinally-in-a-try", "t: endfinally; h: endfinally; out: ldc.i4.0; ret", clauses=["finally t h h out"])
code_rule(7, 3, "endfinally-in-a-catch", "t: leave.s out; h: pop; endfinally; out: ldc.i4.0; ret", clauses=["catch t h h out " + EXCEPTION_TOKEN])
code_rule(7, 3, "endfinally-in-a-try-of-a-finally", "t: leave.s out; h: nop; u: endfinally; i: endfinally; w: endfinally; out: ldc.i4.0; ret", clauses=["finally u i i w", "finally t h h out"])
code_rule(8, 0, "endfinally-outside", "endfinally")
code_rule(8, 0, "rethrow-outside", "rethrow")
code_rule(8, 0, "rethrow-in-a-try", "t: rethrow; h: pop; leave.s out; out: ldc.i4.0; ret", clauses=["catch t h h out " + EXCEPTION_TOKEN])
code_rule(8, 5, "rethrow-in-a-finally-of-a-catch", "t: leave.s out; h: pop; u: leave.s w; i: rethrow; w: leave.s out; out: ldc.i4.0; ret", clauses=["finally u i i w", "catch t h h out " + EXCEPTION_TOKEN])
code_rule(11, 2, "long-in-an-int", "ldc.i4.0; conv.i8; stloc.0; ldc.i4.0; ret", local=0x11000001, sigs=(INTS,))
code_rule(11, 1, "null-in-an-int", "ldnull; stloc.0; ldc.i4.0; ret", local=0x11000001, sigs=(INTS,))

# ---- the first of two, by method, clauses, offset, and rule

code_rule(2, 0, "first-method", "ret", others=(Function("ret"),))
CASES.append(("code-5-second-method", module(GOOD, Function("nop")), "code rule 5 at 2:0"))
code_rule(6, 0, "clauses-before-code", "t: ret; h: endfinally", clauses=["finally t t h end"])
code_rule(1, 0, "edges-before-nesting", "t: ldc.i4.s 5; u: leave.s out; h: endfinally; out: ldc.i4.0; ret", clauses=["finally t t+1 h h"])
code_rule(2, 0, "offset-before-rule", "pop; byte FF")
code_rule(0, 0, "before-2", "ldstr 70000001; ret", stack=0)
code_rule(1, 1, "before-2", "ldc.i4.0; beq end+9; ldc.i4.0; ret")
code_rule(2, 9, "before-3", "ldc.i8 1; call 06000002; ret", others=(Function(signature=method_signature(I4, I4, I4)),))
code_rule(4, 2, "before-5", "t: ldc.i4.0; ldc.i4.0; brtrue.s t")
code_rule(5, 8, "before-7", "ldc.i4.0; brtrue.s t; ldc.i4.0; ret; h: pop; leave.s t; t: nop", clauses=["catch t end h t " + EXCEPTION_TOKEN])


def runs(image):
    parts = re.split(rb"(\0{8,})", image)
    return " ".join(f"00*{len(part)}" if part[0] == 0 and len(part) >= 8 and not any(part) else part.hex() for part in parts if part)


def main():
    if sys.argv[1:] == ["images"]:
        for name, image, _ in CASES:
            print(name, runs(image))
    elif sys.argv[1:] == ["verdicts"]:
        for name, _, verdict in CASES:
            print(f"{name}: {verdict}")
    else:
        sys.exit(__doc__)


if __name__ == "__main__":
    main()

#!/usr/bin/env python3
"""retarget FROM TO: writes a module of LLVM's language, made for x86-64 by the kit's compiler, as one for WebAssembly of 32 bits, and prints the names
that it gives to others.

The code keeps every place that the kit has given it: a pointer has 4 bytes now and lies at the start of its slot of 8. So all depends on the types that
hold a pointer, and on each place that LLVM itself would lay out anew. This script knows the forms that the kit writes, and stops at any other.
"""
import re
import sys

TARGETS = {
    'target datalayout = "e-m:e-p270:32:32-p271:32:32-p272:64:64-i64:64-i128:128-f80:128-n8:16:32:64-S128"':
    'target datalayout = "e-m:e-p:32:32-p10:8:8-p20:8:8-i64:64-i128:128-n32:64-S128-ni:1:10:20"',
    'target triple = "x86_64-unknown-linux-gnu"':
    'target triple = "wasm32-unknown-unknown"',
}
# What only a compiler for x86-64 reads.
DROPPED = {'"probe-stack"="inline-asm"', '"stack-probe-size"="3072"', '"target-cpu"="x86-64-v2"', '"target-cpu"="x86-64"'}
ATTRIBUTES = {
    "alwaysinline", "cold", "nobuiltin", "nocallback", "nocreateundeforpoison", "nofree", "noinline", "noreturn", "nosync", "nounwind", "speculatable",
    "willreturn", "memory(none)", "memory(argmem: write)", "memory(argmem: readwrite)", "memory(inaccessiblemem: write)",
}
# What is called and not the module's own: LLVM's functions of any machine, and those of host.c.
DECLARED = {
    "llvm.arithmetic.fence.f64": "double(double)",
    "llvm.cttz.i64": "i64(i64,i1)",
    "llvm.memmove.p0.p0.i64": "void(ptr,ptr,i64,i1)",
    "llvm.memset.p0.i64": "void(ptr,i8,i64,i1)",
    "llvm.trap": "void()",
    "__sysv_signal": "i64(i32,i64)",
    "__write": "i64(i32,ptr,i64)",
    "__x86_get_cpuid_feature_leaf": "ptr(i32)",
    "__xpg_strerror_r": "i32(i32,ptr,i64)",
    "close": "i32(i32)",
    "lseek": "i64(i32,i64,i32)",
    "open": "i32(ptr,i32,...)",
    "rattle_arg": "i64(i64,ptr,i64)",
    "rattle_errno": "i32()",
    "rattle_set_errno": "void(i32)",
    "read": "i64(i32,ptr,i64)",
    "write": "i64(i32,ptr,i64)",
}
# Instructions that mean the same on every machine, and those on memory and pointers, of which the forms are looked at.
SAME = set(
    "add and ashr br call fadd fcmp fdiv fmul fneg fptosi fptoui fsub icmp lshr mul or phi ret sdiv select sext shl sitofp srem sub switch trunc udiv "
    "uitofp unreachable urem xor zext".split()
)
MEMORY = {
    "alloca": r"alloca (\[\d+ x i8\]|i\d+|double), align \d+|alloca ptr, align 8",
    "extractvalue": r"extractvalue \{ [^{}]* \} %[\w.]+, \d",
    "getelementptr": r"getelementptr (inbounds )?(nuw )?i8, ptr .*",
    "load": r"load (ptr|i\d+|double|\{ [^{}]* \}), ptr .*",
    "ptrtoaddr": r"ptrtoaddr ptr %[\w.]+ to i64",
    "store": r"store (ptr|i\d+|double) .*",
}
# Besides instructions: the cases of a switch and its end, labels, ends of functions, comments, metadata.
OTHER = re.compile(r'|    i\d+ -?\d+, label %[\w.]+|  \]|[\w.]+:( +;.*)?|\}|;.*|!.*|source_filename = "rattle"')
BYTES = re.compile(r'@[\w.]+ = private unnamed_addr constant \[\d+ x i8\] (c"[^"]*"|zeroinitializer), align \d+')
AGGREGATE = re.compile(r"<?\{[^{}]*\}>?|\[\d+ x [^][]*\]|<(?:vscale x )?\d+ x [^<>]*>")
WITH_POINTER = {"{ ptr, i64 }", "{ i8, ptr }"}


class Unknown(Exception):
    """A form that the kit was not known to write."""


def require(holds, what):
    if not holds:
        raise Unknown(what)


def parts(pattern, line):
    found = re.fullmatch(pattern, line)
    require(found, "form")
    return found.groups()


def attributes(line):
    number, words = parts(r"attributes (#\d+) = \{ (.*) \}", line)
    words = re.findall(r'"[^"]*"="[^"]*"|\w+\([^)]*\)|\S+', words)
    kept = [word for word in words if word not in DROPPED]
    for word in kept:
        require(word in ATTRIBUTES, f"attribute {word}")
    return f"attributes {number} = {{ {' '.join(kept)} }}"


def declaration(line):
    result, name, given = parts(r"declare (?:noundef )?(\S+) @([\w.]+)\((.*)\)(?: #\d+)?", line)
    form = f"{result}({','.join(word.split()[0] for word in given.split(', ') if word)})"
    require(DECLARED.get(name) == form, f"function {name} of type {form}")
    return line


def without_texts(line):
    """Names in quotation marks may hold anything."""
    return re.sub(r'"[^"]*"', '""', line)


def placed(line):
    """In { i8, ptr } LLVM would put the pointer after 4 bytes, and the kit has put it after 8."""
    bare = without_texts(line)
    for found in AGGREGATE.findall(bare):
        require("ptr" not in found or found in WITH_POINTER, f"type {found}")
    if "extractvalue { i8, ptr }" in line:
        line = re.sub(r", 1$", ", 2", line)
    return line.replace("{ i8, ptr }", "{ i8, [7 x i8], ptr }")


def definition(line):
    return placed(line.replace("@main()", "@main_words()"))


def instruction(line):
    bare = without_texts(line).strip()
    code = re.match(r"(?:%[\w.]+ = )?(?:(?:tail|notail) )?(\w+)", bare)
    require(code and (code[1] in SAME or code[1] in MEMORY), "instruction")
    require(" asm " not in bare, "assembly")
    if code[1] in MEMORY:
        require(re.fullmatch(rf"(%[\w.]+ = )?({MEMORY[code[1]]})", bare), f"form of {code[1]}")
    line = line.replace(" = alloca ptr, align 8", " = alloca [8 x i8], align 8")
    return placed(line.replace(" = ptrtoaddr ptr ", " = ptrtoint ptr "))


def retargeted(line):
    if line.startswith("target "):
        require(line in TARGETS, "another machine")
        return TARGETS[line]
    if line.startswith("attributes "):
        return attributes(line)
    if line.startswith("declare "):
        return declaration(line)
    if line.startswith("define "):
        return definition(line)
    if line.startswith("@"):
        require(BYTES.fullmatch(line), "constant that is no bytes")
        return line
    if OTHER.fullmatch(line):
        return line
    require(line.startswith("  "), "line")
    return instruction(line)


def main(origin, to):
    with open(origin, encoding="utf-8") as it:
        lines = it.read().splitlines()
    with open(to, "w", encoding="utf-8") as out:
        for number, line in enumerate(lines, 1):
            try:
                out.write(retargeted(line) + "\n")
            except Unknown as what:
                sys.exit(f"retarget: {origin}:{number}: unknown {what}: {line}")
    given = (re.match(r"define (?!internal )[^@]*@([\w.]+)\(", line) for line in lines)
    print("\n".join(sorted(it[1] for it in given if it)))


if __name__ == "__main__":
    main(*sys.argv[1:])

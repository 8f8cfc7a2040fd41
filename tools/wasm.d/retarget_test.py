#!/usr/bin/env python3
"""retarget_test: holds that retarget.py stops at each form that it doesn't know, and turns those that it knows."""
import sys

from retarget import Unknown, retargeted

UNKNOWN = """
target triple = "aarch64-unknown-linux-gnu"
attributes #0 = { nounwind "target-features"="+avx" }
attributes #0 = { nounwind naked }
declare i32 @printf(ptr, ...)
declare i64 @write(i32, ptr, i32)
@static.0 = private unnamed_addr constant ptr @static.1, align 8
@static.0 = private unnamed_addr constant { ptr, i64 } { ptr @static.1, i64 3 }, align 8
@static.0 = global [1 x i8] zeroinitializer, align 1
%pair = type { ptr, ptr }
define internal { ptr, ptr } @"a"(ptr noundef %a0) #0 {
  %r1 = load { ptr, ptr }, ptr %r0, align 8
  %r1 = load { ptr, i8 }, ptr %r0, align 8
  %r1 = load { i8, { i8, ptr } }, ptr %r0, align 8
  %r1 = load [2 x ptr], ptr %r0, align 8
  %r1 = load <2 x ptr>, ptr %r0, align 8
  %r1 = alloca { ptr, i64 }, align 8
  %r1 = alloca [2 x ptr], align 8
  %r1 = alloca ptr, align 4
  %r1 = alloca i8, i64 %r0, align 1
  %r1 = getelementptr ptr, ptr %r0, i64 1
  %r1 = getelementptr { i8, ptr }, ptr %r0, i32 0, i32 1
  %r1 = insertvalue { i8, ptr } %r0, ptr %a0, 1
  %r1 = ptrtoaddr ptr %r0 to i32
  %r1 = inttoptr i64 %r0 to ptr
  %r1 = cmpxchg ptr %r0, i64 0, i64 1 seq_cst seq_cst
  store { i8, ptr } %r0, ptr %r1, align 8
  call void asm sideeffect "nop", ""()
""".strip("\n").splitlines()

TURNED = {
    '  %r1 = call { i8, ptr } @"a::<{ ptr, ptr }>"(ptr %r0)': '  %r1 = call { i8, [7 x i8], ptr } @"a::<{ ptr, ptr }>"(ptr %r0)',
    "  %r1 = extractvalue { i8, ptr } %r0, 0": "  %r1 = extractvalue { i8, [7 x i8], ptr } %r0, 0",
    "  %r1 = extractvalue { i8, ptr } %r0, 1": "  %r1 = extractvalue { i8, [7 x i8], ptr } %r0, 2",
    "  %r1 = extractvalue { ptr, i64 } %r0, 1": "  %r1 = extractvalue { ptr, i64 } %r0, 1",
    "  %r1 = alloca ptr, align 8": "  %r1 = alloca [8 x i8], align 8",
    "  %r1 = ptrtoaddr ptr %r0 to i64": "  %r1 = ptrtoint ptr %r0 to i64",
    "define i32 @main() #4 {": "define i32 @main_words() #4 {",
    'attributes #4 = { nounwind "target-cpu"="x86-64" }': "attributes #4 = { nounwind }",
}


def stops(line):
    try:
        retargeted(line)
    except Unknown:
        return True
    return False


def main():
    passed = [line for line in UNKNOWN if not stops(line)]
    other = [line for line, wanted in TURNED.items() if retargeted(line) != wanted]
    for line in passed:
        print(f"retarget_test: passed: {line}", file=sys.stderr)
    for line in other:
        print(f"retarget_test: turned into {retargeted(line)}: {line}", file=sys.stderr)
    sys.exit(bool(passed or other))


main()

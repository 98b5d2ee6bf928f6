"""unbounded.py BOUNDS CLANG: compiles functions whose stack has no bound that can be told, and sees that tools/stack-bounds refuses
each for the reason expected; and one whose bound is known. Ends in 'N passed, M failed'."""
import pathlib
import subprocess
import sys
import tempfile

FLAGS = ["--target=thumbv7em-none-eabi", "-mcpu=cortex-m4", "-mfloat-abi=soft", "--no-default-config", "-ffunction-sections", "-meabi", "gnu"]

# A module, and a part of what is said of it.
MODULES = [
    ("define void @itself() nounwind noinline {\n  call void @itself()\n  ret void\n}", "itself calls itself"),
    (
        "define void @one() nounwind noinline {\n  call void @two()\n  ret void\n}\n"
        "define void @two() nounwind noinline {\n  call void @one()\n  ret void\n}",
        "one calls itself",
    ),
    ("define void @through(ptr %f) nounwind noinline {\n  call void %f()\n  ret void\n}", "a call through a register in through"),
    (
        "define void @sized(i32 %n) nounwind noinline {\n  %a = alloca i8, i32 %n\n  call void @llvm.memset.p0.i32(ptr %a, i8 0, i32 %n, i1 true)\n"
        "  ret void\n}\ndeclare void @llvm.memset.p0.i32(ptr, i8, i32, i1)",
        "the frame of sized has no fixed size",
    ),
    ("define ptr @aim() nounwind noinline {\n  ret ptr @aim\n}", "aim takes the address of aim"),
    (
        "define void @outer() nounwind noinline {\n  %a = alloca [400 x i8], align 8\n  call void @inner(ptr %a)\n  ret void\n}\n"
        "define internal void @inner(ptr %p) nounwind noinline {\n  %a = alloca [200 x i8], align 8\n  store volatile i8 1, ptr %a\n  ret void\n}",
        "outer\t608\touter 408 > inner 200",
    ),
]


def said(bounds, clang, module, folder):
    text, code = folder / "module.ll", folder / "module.o"
    text.write_text(f'target triple = "thumbv7em-unknown-none-eabi"\n{module}\n')
    subprocess.run([clang, *FLAGS, "-O0", "-fstack-usage", "-c", "-x", "ir", "-Wno-override-module", "-o", code, text], check=True)
    run = subprocess.run([bounds, code, folder / "module.su"], capture_output=True, text=True, check=False)
    return run.stdout + run.stderr


def main():
    bounds, clang = sys.argv[1:]
    passed = failed = 0
    with tempfile.TemporaryDirectory() as folder:
        for module, expected in MODULES:
            told = said(bounds, clang, module, pathlib.Path(folder))
            if expected in told:
                passed += 1
            else:
                failed += 1
                print(f"expected '{expected}' of\n{module}\nand was told\n{told}")
    print(f"{passed} passed, {failed} failed")
    sys.exit(failed > 0)


main()

"""Compiles a static library's code to a module for WebAssembly, without imports."""
import os
import re
import shutil
import subprocess

from proving.kit import rtlib, stop

HERE = os.path.dirname(os.path.realpath(__file__))
CLANG, ARCHIVER = f"{rtlib.KIT}/toolchain/bin/clang", f"{rtlib.KIT}/toolchain/bin/llvm-ar"
LINKER = f"{rtlib.KIT}/bin/rattle-link"
TARGET = "wasm64-unknown-unknown"
# As the kit compiles for this target, but with vectors: those of the code itself, as in its reader of JSON, and no
# others.
FLAGS = f"""--target={TARGET} -mcpu=lime1 -msimd128 -fno-vectorize -fno-slp-vectorize
-mllvm -expand-div-rem-bits=64 -mllvm -expand-fp-convert-bits=64 -ffunction-sections -fdata-sections
-mllvm -trap-unreachable -mllvm -disable-machine-licm
-mllvm -disable-postra-machine-licm -mllvm -sink-common-insts=false --no-default-config -no-canonical-prefixes
-fno-crash-diagnostics -Werror""".split()
# Nothing of a C library is there, so no loop is made into a call of it.
OF_C = "-O2 -fwrapv -ffreestanding -fno-builtin -nostdinc -Wall".split()
NO_CALLS = '"no-builtin-bcmp" "no-builtin-memcmp" "no-builtin-strlen"'
# What the linked module may have.
FEATURES = "memory64 bulk-memory sign-ext mutable-globals nontrapping-float-to-int multivalue simd".split()
# The stack lies below all else, so a call beyond it is a trap. compare.mjs has the deepest scripts.
STACK = 1 << 20
# What is for x86-64 alone, and so has no place in the code.
FOREIGN = re.compile(r'llvm\.x86[\w.]*|\basm (?:sideeffect )?"|inteldialect')
OF_X86 = re.compile(r' "(?:target-cpu|target-features|probe-stack|stack-probe-size)"="[^"]*"')
# A line of a module's text that begins an access to a part of a vector: `wasm-opt` doesn't lower its address, which is
# the first operand, on the next lines.
PART_OF_VECTOR = re.compile(r"^ *\(v128\.(?:load\d+(?:x\d+_[su]|_splat|_zero|_lane)|store\d+_lane)\b")
# The head of a function that other code can see: what is before its attributes, its name, and their number.
EXPORTED = re.compile(r"^(define (?!internal)[^@\n]*@([\w.]+)\(.*\) )#(\d+) \{$", re.M)


def run(*words):
    status = subprocess.call(words)
    if status:
        stop(f"{os.path.basename(words[0])} ended with status {status}")


def binaryen():
    """Returns what binaryen's wasm-opt says of its version, or nothing where there is none."""
    path = shutil.which("wasm-opt")
    if not path:
        return ""
    return subprocess.run([path, "--version"], capture_output=True, text=True, check=True).stdout.strip()


def retargeted(text):
    """Returns LLVM's text for WebAssembly, from that for x86-64. Its data and offsets are the same on both."""
    foreign = FOREIGN.search(text)
    if foreign:
        stop(f"the code has {foreign[0]}, which is for x86-64 alone")
    text = re.sub(r"^target datalayout = .*\n", "", text, flags=re.M)
    text = re.sub(r"^target triple = .*$", f'target triple = "{TARGET}"', text, flags=re.M)
    text = OF_X86.sub("", text)
    return re.sub(r"^(attributes #\d+ = \{)(.* nounwind \})$", rf"\1 {NO_CALLS}\2", text, flags=re.M)


def exported(text):
    """Returns LLVM's text in which each function that other code can see is an export of the module."""
    more = []

    def mark(found):
        number, attributes = 1000 + len(more), re.search(rf"^attributes #{found[3]} = \{{(.*)\}}$", text, flags=re.M)[1]
        more.append(f'attributes #{number} = {{{attributes}"wasm-export-name"="{found[2]}" }}')
        return f"{found[1]}#{number} {{"

    marked = EXPORTED.sub(mark, text)
    if not more or len(more) != len(re.findall(r"^define (?!internal)", text, flags=re.M)):
        stop("a function that other code can see has a form that isn't known here")
    return marked + "\n".join(more) + "\n"


class Linker:
    """Makes modules of one static library's code, in a folder for what lies between."""

    def __init__(self, bitcode, room):
        self.room = room
        run(CLANG, "--target=x86_64-unknown-linux-gnu", "-x", "ir", bitcode, "-S", "-emit-llvm", "-Xclang",
            "-disable-llvm-passes", "-o", f"{room}/lowered.ll")
        with open(f"{room}/lowered.ll", encoding="utf-8") as it:
            text = exported(retargeted(it.read()))
        with open(f"{room}/code.ll", "w", encoding="utf-8") as to:
            to.write(text)
        run(CLANG, *FLAGS, "-O3", "-x", "ir", f"{room}/code.ll", "-c", "-o", f"{room}/code.o")

    def link(self, name, heap, *more):
        """Links the code with a heap in C, and with LLVM's text of more. Returns the path of the module."""
        objects = [f"{self.room}/code.o", f"{self.room}/{name}-heap.o"]
        run(CLANG, *FLAGS, *OF_C, "-c", f"{HERE}/{heap}", "-o", objects[1])
        for file in more:
            objects.append(f"{self.room}/{file}.o")
            run(CLANG, *FLAGS, "-O2", "-x", "ir", f"{HERE}/{file}", "-c", "-o", objects[-1])
        archive, module = f"{self.room}/{name}.a", f"{self.room}/{name}-64.wasm"
        run(ARCHIVER, "rcs", archive, *objects)
        # It adds the functions that LLVM calls by name, as for products of 128 bits.
        how = ["--target", TARGET, "--toolchain", f"{rtlib.KIT}/toolchain", "--stack", str(STACK)]
        run(LINKER, *how, "-o", module, archive)
        return module


def with_addresses(lines):
    """Returns the lines of a module's text in which addresses of parts of vectors have 32 bits, as all others have."""
    open_at, made = [], []
    for line, before in zip(lines, ["", *lines]):
        indent = len(line) - len(line.lstrip())
        if PART_OF_VECTOR.match(before):
            made.append(f"{' ' * indent}(i32.wrap_i64\n")
            open_at.append(indent)
        made.append(line)
        # An operand ends with its own line, or with the next one that has its indent.
        is_whole = line.count("(") == line.count(")")
        if open_at and indent == open_at[-1] and (is_whole or line.strip() == ")"):
            made.append(f"{' ' * open_at.pop()})\n")
    return made


def lower(module, to):
    """Makes addresses of 32 bits of those of 64, which not every engine takes. Nothing else of the code changes."""
    features = [f"--enable-{it}" for it in FEATURES]
    stripped = ["--strip-debug", "--strip-producers", "--strip-target-features"]
    # The text is valid when the addresses of parts of vectors are lowered too.
    run("wasm-opt", *features, "--memory64-lowering", *stripped, "--no-validation", module, "-S", "-o", f"{to}.wat")
    with open(f"{to}.wat", encoding="utf-8") as it:
        lines = with_addresses(it.readlines())
    with open(f"{to}.wat", "w", encoding="utf-8") as it:
        it.writelines(lines)
    run("wasm-as", *features, f"{to}.wat", "-o", to)

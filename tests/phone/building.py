"""The three targets of the phone's library: how a program in C is built over each, and run.

What is compiled for another processor than this machine's is run by an emulator: Arm on x86-64, and
x86-64 on Arm. WebAssembly is called from a program for this machine (wasm.c).
"""

import os
import shutil
import subprocess

HERE = os.path.dirname(os.path.realpath(__file__))
ROOT = os.path.dirname(os.path.dirname(HERE))
BUILT = os.path.join(ROOT, "target", "phone")
TARGETS = ("x86_64", "aarch64", "wasm")
WARNINGS = ("-Wall", "-Wextra", "-Wpedantic", "-Werror")
# The emulator then needs no libraries of the other processor, and no loader comes between when the
# stack is measured.
LINKING = ("-static",)


def machine(target):
    """The processor that a test's own code is compiled for."""
    return os.uname().machine if target == "wasm" else target


def cross(target):
    """What stands before a tool's name where it is not for this machine."""
    return "" if machine(target) == os.uname().machine else f"{machine(target)}-linux-gnu-"


def compiler(target, standard):
    """The compiler: of C, or of C++ for the same file."""
    name = "g++" if standard.startswith("c++") else "gcc"
    return cross(target) + name


def runner(target):
    """What runs the program."""
    return [f"qemu-{machine(target)}"] if cross(target) else []


def lacking(targets, standards):
    """The tools that this machine has not."""
    tools = {compiler(target, standard) for target in targets for standard in standards}
    tools |= {tool for target in targets for tool in runner(target)}
    tools |= {"node"} if "wasm" in targets else set()
    return sorted(tool for tool in tools if not shutil.which(tool))


def language(standard):
    """The words that have a file of C taken for C++."""
    return ("-x", "c++") if standard.startswith("c++") else ()


def compiled(target, source, output, standard, *more):
    """Compile one file of this folder; what make wrote lies beside the output."""
    include = (f"-I{os.path.join(ROOT, 'include')}", f"-I{os.path.dirname(output)}")
    subprocess.run([compiler(target, standard), f"-std={standard}", "-O2", *WARNINGS, *include,
                    *more, *language(standard), "-c", os.path.join(HERE, source), "-o", output], check=True)
    return output


def program(target, source, folder, standard, *more):
    """Build a test over a target's library: what to run."""
    name = os.path.join(folder, f"{os.path.splitext(source)[0]}-{target}-{standard}")
    objects = [compiled(target, source, f"{name}.o", standard, *more)]
    if target == "wasm":
        objects.append(compiled(target, "wasm.c", f"{name}-wasm.o", "c99",
                                "-D_POSIX_C_SOURCE=200809L"))
    else:
        objects.append(os.path.join(BUILT, target, "libphone.a"))
    subprocess.run([compiler(target, standard), *LINKING, *objects, "-o", name], check=True)
    return [*runner(target), name]


def build():
    """Prove and build the library."""
    subprocess.run([os.path.join(ROOT, "tools", "phone")], check=True)

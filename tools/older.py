"""Links the program once more, so that it also runs with older versions of the GNU C library than the kit's.

The kit's linker takes the C library of a folder. Here that folder has libraries of our own with no code: they only offer the functions that
the program calls, in versions that the older C library has too. The folder also has a start of our own, with the one function that the older
C library lacks. The object is the one that was proved and linked before, and the kit's other files are used as they are.
"""
import filecmp
import os
import re
import subprocess

from release import TOP, Refused, dotted, output_of

# The C library of Debian 11.
OLDER = (2, 31)
OBJECT = "crates/aerodrome/out/aerodrome.o"
# What runs first. The C library before version 2.34 leaves the functions that run before main to the program (the kit keeps the words of the
# command line in such a function), so its start names a function that calls them. Later versions call that function too, in the place of theirs.
# The kit's main asks a function of version 2.33 for what the processor has: 32 bytes, of which the last 16 are what can be used. The one here
# tells of the features of x86-64-v2 alone, by the instruction cpuid, and of no other.
OWN = ("__x86_get_cpuid_feature_leaf",)
START = """
.text
.globl _start
.type _start, @function
_start:
    endbr64
    xor %ebp, %ebp
    mov %rdx, %r9
    pop %rsi
    mov %rsp, %rdx
    and $-16, %rsp
    push %rax
    push %rsp
    xor %r8d, %r8d
    lea before_main(%rip), %rcx
    mov main@GOTPCREL(%rip), %rdi
    call *__libc_start_main@GOTPCREL(%rip)
    hlt
.type before_main, @function
before_main:
    endbr64
    push %rbx
    push %rbp
    push %r12
    push %r13
    push %r14
    mov %edi, %r12d
    mov %rsi, %r13
    mov %rdx, %r14
    lea __init_array_start(%rip), %rbx
    lea __init_array_end(%rip), %rbp
1:  cmp %rbp, %rbx
    je 2f
    mov %r12d, %edi
    mov %r13, %rsi
    mov %r14, %rdx
    call *(%rbx)
    add $8, %rbx
    jmp 1b
2:  pop %r14
    pop %r13
    pop %r12
    pop %rbp
    pop %rbx
    ret
.globl __x86_get_cpuid_feature_leaf
.type __x86_get_cpuid_feature_leaf, @function
__x86_get_cpuid_feature_leaf:
    endbr64
    push %rbx
    lea leaves(%rip), %r8
    mov $1, %eax
    mov $0x982201, %r9d
    test %edi, %edi
    je 3f
    add $32, %r8
    mov $0x80000001, %eax
    mov $1, %r9d
    cmp $2, %edi
    je 3f
    add $32, %r8
    jmp 4f
3:  xor %ecx, %ecx
    cpuid
    mov %eax, (%r8)
    mov %ebx, 4(%r8)
    mov %ecx, 8(%r8)
    mov %edx, 12(%r8)
    and %r9d, %ecx
    mov %ecx, 24(%r8)
4:  mov %r8, %rax
    pop %rbx
    ret
.local leaves
.comm leaves, 96, 32
.section .rodata.cst4, "aM", @progbits, 4
.globl _IO_stdin_used
_IO_stdin_used: .long 0x20001
.section .note.GNU-stack, "", @progbits
"""
SYMBOL = re.compile(r"^[0-9a-f]+ (.{7}) (\S+)\s+([0-9a-f]+)\s+\(?GLIBC_([\d.]+)\)?\s+(\S+)$")


def kit():
    """The kit's folder."""
    return os.path.dirname(output_of("rt", "doc").splitlines()[0])


def link(toolchain, to):
    """Links the object, as `rt run` does, with the C library of this folder."""
    words = ["--target", "x86_64-unknown-linux-gnu", "--toolchain", toolchain, "-o", to, OBJECT]
    ran = subprocess.run(
        [f"{kit()}/bin/rattle-link", *words, f"{kit()}/c/libos_c.a", f"{kit()}/c/liblibc_c.a"],
        cwd=TOP, stdout=subprocess.PIPE, stderr=subprocess.STDOUT, check=False,
    )
    if ran.returncode:
        raise Refused(f"rattle-link ended with status {ran.returncode}\n{ran.stdout.decode(errors='replace')}")


def symbols(file):
    """The dynamic symbols of a file that have versions: each with its name, its version, whether it is undefined, its kind and size."""
    for line in output_of("objdump", "-T", file).splitlines():
        found = SYMBOL.match(line)
        if found:
            flags, section, size, version, name = found.groups()
            yield name, tuple(map(int, version.split("."))), section == "*UND*", flags[-1], int(size, 16)


def older_versions(program, library):
    """For each function that the program takes from the C library: the version that the older one has, its kind and size."""
    known = {}
    for name, version, _, kind, size in symbols(library):
        known.setdefault(name, []).append((version, kind, size))
    found = {}
    for name, version, is_undefined, _, _ in symbols(program):
        if name in OWN:
            continue
        if not is_undefined:
            raise Refused(f"{name} is copied from the C library, so the program can't be linked for an older one")
        fitting = [it for it in known.get(name, []) if it[0] <= OLDER]
        if not fitting:
            raise Refused(f"the C library has no {name} that is as old as version {dotted(OLDER)}")
        found[name] = max(fitting) if version > OLDER else next(it for it in fitting if it[0] == version)
    return found


def hollow(folder, name, soname, functions):
    """A library without code that has these names in these versions."""
    versions = sorted({version for version, _, _ in functions.values()})
    nodes = [
        f"GLIBC_{dotted(version)} {{ global: {' '.join(f'{it};' for it in sorted(functions) if functions[it][0] == version)} }};\n" for version in versions
    ]
    with open(f"{folder}/{name}.map", "w", encoding="utf-8") as out:
        out.writelines(nodes)
    with open(f"{folder}/{name}.s", "w", encoding="utf-8") as out:
        for it, (_, kind, size) in sorted(functions.items()):
            where, of = (".text", "function") if kind in "F " else (".data", "object")
            out.write(f"{where}\n.globl {it}\n.type {it}, @{of}\n{it}: .zero {max(size, 8)}\n.size {it}, {max(size, 8)}\n")
        out.write('.section .note.GNU-stack,"",@progbits\n')
    script = [f"-Wl,--version-script={folder}/{name}.map"] if nodes else []
    output_of("gcc", "-shared", "-nostdlib", "-o", f"{folder}/lib/{name}", f"-Wl,-soname,{soname}", *script, f"{folder}/{name}.s")


def linked_for_older(program, room):
    """The path of the program that was linked for older versions."""
    if not os.path.exists(f"{TOP}/{OBJECT}"):
        raise Refused(f"no {OBJECT}, which make leaves: WITHOUT=older takes the program as it is, for later C libraries only")
    toolchain = f"{kit()}/toolchain"
    link(toolchain, f"{room}/again")
    if not filecmp.cmp(f"{TOP}/{program}", f"{room}/again", shallow=False):
        raise Refused(f"{program} wasn't linked from {OBJECT}: run make again, or WITHOUT=older takes the program as it is")
    os.makedirs(f"{room}/lib")
    os.symlink(f"{toolchain}/bin", f"{room}/bin")
    for name in os.listdir(f"{toolchain}/lib"):
        if name not in ("Scrt1.o", "libc.so.6", "libm.so.6", "libgcc_s.so.1"):
            os.symlink(f"{toolchain}/lib/{name}", f"{room}/lib/{name}")
    with open(f"{room}/start.s", "w", encoding="utf-8") as out:
        out.write(START)
    output_of("gcc", "-c", "-o", f"{room}/lib/Scrt1.o", f"{room}/start.s")
    functions = older_versions(f"{room}/again", f"{toolchain}/lib/libc.so.6")
    # (before version 2.34 functions of threads were in a library of their own; the linker takes it by the name of one that isn't needed)
    of_threads = {name: it for name, it in functions.items() if name.startswith("pthread_")}
    hollow(room, "libc.so.6", "libc.so.6", {name: it for name, it in functions.items() if name not in of_threads})
    hollow(room, "libm.so.6", "libpthread.so.0", of_threads)
    hollow(room, "libgcc_s.so.1", "libgcc_s.so.1", {})
    link(room, f"{room}/older")
    return f"{room}/older"

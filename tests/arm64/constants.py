"""Writes a C file with an assertion for each constant, structure and field of a structure that these sources of the kit
declare. It compiles if the C library of the compiler has them, with the same values and layouts.

    constants.py FILE..
"""
import pathlib
import re
import sys

C_HEADERS = """errno fcntl limits netdb netinet/in netinet/tcp poll sched stddef sys/epoll sys/eventfd sys/file
sys/resource sys/socket sys/stat sys/wait time unistd""".split()
# Sizes, which are also the alignments. Those of structures are computed from their declarations.
SIZE_BY_TYPE = {"i8": 1, "u8": 1, "i16": 2, "u16": 2, "i32": 4, "u32": 4, "i64": 8, "u64": 8, "usize": 8}


def constant_value(text):
    """The value of an expression that means the same in Python."""
    if not re.fullmatch(r"[-+<|() 0-9a-fox]+", text):
        sys.exit(f"not a number: {text}")
    return eval(text)


def constant_assertions(text):
    for name, _, constant_text in re.findall(r"^(?:pub )?const (\w+): (\w+) = ([^;]+);", text, re.M):
        yield f"{name} == {constant_value(constant_text)}"


def structure_assertions(text):
    """The structures of the C library. `Tried` is skipped: it is the kit's own."""
    size_and_alignment = {kind: (size, size) for kind, size in SIZE_BY_TYPE.items()}
    for name, body in re.findall(r"^pub struct (\w+) \{\n(.*?)^\}", text, re.M | re.S):
        if name == "Tried":
            continue
        c_name = name if name.endswith("_t") else f"struct {name}"
        end_offset, largest_alignment = 0, 1
        for field, kind in re.findall(r"^    pub (\w+): (.+),$", body, re.M):
            element, count = re.fullmatch(r"\[(\w+); (\d+)\]", kind).groups() if kind[0] == "[" else (kind, 1)
            size, alignment = size_and_alignment[element]
            offset = -(-end_offset // alignment) * alignment
            end_offset, largest_alignment = offset + size * int(count), max(largest_alignment, alignment)
            # a field with such a name fills a gap, which may have another name in C
            if not field.startswith("__"):
                yield (f"offsetof({c_name}, {field}) == {offset} && "
                       f"sizeof((({c_name} *)0)->{field}) == {end_offset - offset}")
        size_and_alignment[name] = -(-end_offset // largest_alignment) * largest_alignment, largest_alignment
        yield f"sizeof({c_name}) == {size_and_alignment[name][0]} && _Alignof({c_name}) == {largest_alignment}"


def main():
    text = "".join(pathlib.Path(file).read_text() for file in sys.argv[1:])
    print("#define _GNU_SOURCE", *(f"#include <{name}.h>" for name in C_HEADERS), sep="\n")
    for fact in [*constant_assertions(text), *structure_assertions(text)]:
        print(f'_Static_assert({fact}, "");')


if __name__ == "__main__":
    main()

"""The texts of scale.sh and annotate.sh, written into a folder: python3 scale.py FOLDER [BYTES, in place of a MiB]"""
import sys

LIMIT = 4194304


def accepted(size):
    """Nearly this many bytes: arrays fill them, 512 elements stand in the one loop."""
    loop = "void kernel(void) {\n    for (int i = 1073741823; i < 1073741824; i++) {\n"
    body = ""
    for k in range(8):
        body += "        a0[i - 1073741823] = " + " + ".join(["1073741824 * a%d[i - 1073741823]" % j for j in range(63)]) + ";\n"
    end = "    }\n}\n"
    front, used, number = [], len(loop) + len(body) + len(end), 0
    while True:
        line = "int a%d[16777216];\n" % number
        if used + len(line) > size and number >= 63:
            break
        front.append(line)
        used += len(line)
        number += 1
    return "".join(front) + loop + body + end


def nests(size):
    """Nearly this many bytes: nests of two loops over three arrays, in turn a stencil of three points and a copy."""
    names = ("first", "second", "third")
    head, end = "".join(["int %s[128][128];\n" % name for name in names]) + "void kernel(void) {\n", "}\n"
    parts, used, number = [head], len(head) + len(end), 0
    while True:
        a, b = names[number % 3], names[(number + 1) % 3]
        if number % 2 == 0:
            edge, value = (1, 127), "%s[i][j - 1] + %s[i][j] + %s[i][j + 1]" % (a, a, a)
        else:
            edge, value = (0, 128), "%s[i][j]" % a
        nest = ("    for (int i = %d; i < %d; i++) {\n        for (int j = %d; j < %d; j++) {\n"
                "            %s[i][j] = %s;\n        }\n    }\n") % (edge + edge + (b, value))
        if used + len(nest) > size:
            return "".join(parts) + end
        parts.append(nest)
        used += len(nest)
        number += 1


def references(count):
    """One nest of two loops with so many references, four in each statement: a stencil of three points on a row of its own."""
    lines = ["int first[256][128];\nint second[256][128];\nvoid kernel(void) {\n"
             "    for (int i = 0; i < 128; i++) {\n        for (int j = 1; j < 127; j++) {\n"]
    for row in range(count // 4):
        a = "first[i + %d]" % row
        lines.append("            second[i + %d][j] = %s[j - 1] + %s[j] + %s[j + 1];\n" % (row, a, a, a))
    return "".join(lines) + "        }\n    }\n}\n"


def deep(count, differ):
    """One nest of eight loops with so many references of one array, four in each statement: all with one form, or each with its own.

    The loops have two turns each, and each iteration has an element of its own for each form, so no level carries a pair."""
    iterators = "ijklmnop"
    form = " + ".join(["%d * %s" % (2 ** (7 - k), name) for k, name in enumerate(iterators[:7])] + [iterators[7]])
    lines = ["int first[%d];\nvoid kernel(void) {\n" % (256 * count)]
    for k, name in enumerate(iterators):
        lines.append("    " * (k + 1) + "for (int %s = 0; %s < 2; %s++) {\n" % (name, name, name))
    for statement in range(count // 4):
        elements = ["first[%s + %d]" % (form, 256 * (4 * statement + k) if differ else 0) for k in range(4)]
        lines.append("    " * 9 + "%s = %s;\n" % (elements[0], " + ".join(elements[1:])))
    for k in range(8, -1, -1):
        lines.append("    " * k + "}\n")
    return "".join(lines)


def main():
    folder = sys.argv[1]
    unit = int(sys.argv[2]) if len(sys.argv) > 2 else 1048576
    texts = {"references-512": references(512), "deep-equal": deep(512, False), "deep-different": deep(512, True),
             "nests-small": nests(8192)}
    for times in (1, 2, 4):
        texts["accepted-%d" % times] = accepted(times * unit)
        # refused at its end: the last bracket is a blank
        texts["refused-%d" % times] = texts["accepted-%d" % times][:-2] + " \n"
        texts["nests-%d" % times] = nests(times * unit)
    for name, text in texts.items():
        assert len(text) <= LIMIT
        with open("%s/%s.c" % (folder, name), "w") as file:
            file.write(text)


main()

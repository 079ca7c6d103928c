"""Sets of files at the limits, with what is wanted for the script of the one line `valid`: worked out by hand."""
from .sets import MAIN
from .texts import chain

TAKEN = "no\n.\n"
LEAF = b"features\n\tA\n"


def file_with(imports, *tree, rules=()):
    """The bytes of a file with these lines of imports, a tree and rules."""
    lines = ["imports", *(f"\t{line}" for line in imports), "features", *tree, "constraints", *(f"\t{rule}" for rule in rules)]
    return "".join(f"{line}\n" for line in lines).encode()


def row_of_files(length):
    """Files f0, f1, .. of which each imports the next, but for the last."""
    files = {f"f{number}.uvl": file_with([f"f{number + 1}"], "\tA") for number in range(length - 1)}
    return {**files, f"f{length - 1}.uvl": LEAF}


def doubling(steps, base, rules=()):
    """Files d0, d1, .. of which each places the one before it twice; d0 has these bytes, and the last file these rules."""
    files = {"d0.uvl": base}
    for number in range(1, steps + 1):
        below = f"d{number - 1}"
        tree = "\tA", "\t\toptional", "\t\t\tx.A", "\t\t\ty.A"
        files[f"d{number}.uvl"] = file_with([f"{below} as x", f"{below} as y"], *tree, rules=rules if number == steps else ())
    return files


def twice_two(steps):
    """Files e0, e1, .. of which each behind the first two places both before it twice."""
    files = {"e0.uvl": LEAF, "e1.uvl": LEAF}
    for number in range(2, steps + 1):
        imports = [f"e{number - 1} as x", f"e{number - 1} as y", f"e{number - 2} as v", f"e{number - 2} as w"]
        tree = "\tA", "\t\toptional", "\t\t\tx.A", "\t\t\ty.A", "\t\t\tv.A", "\t\t\tw.A"
        files[f"e{number}.uvl"] = file_with(imports, *tree)
    return files


def importing(count, *more):
    """A main file that imports so many files, and more lines; with these files."""
    files = {f"f{number}.uvl": LEAF for number in range(count)}
    return {**files, MAIN: file_with([*(f"f{number}" for number in range(count)), *more], "\tA")}


def sets_of_many_files():
    yield "17 files in a row", row_of_files(17), "f0.uvl", TAKEN
    yield "18 files in a row", row_of_files(18), "f0.uvl", "fault f16.uvl:2:2 E21 ImportDepth\n"
    lost = {path: data for path, data in row_of_files(18).items() if path != "f17.uvl"}
    yield "the last of 18 missing", lost, "f0.uvl", "fault f16.uvl:2:2 E21 ImportDepth\n"
    again = {**row_of_files(18), "f0.uvl": file_with(["f17 as x", "f1"], "\tA")}
    yield "the last of 18 loaded before", again, "f0.uvl", "fault f16.uvl:2:2 E21 ImportDepth\n"
    last = {"f16.uvl": file_with(["leaf"], "\tA"), "leaf.uvl": LEAF}
    met = {**row_of_files(17), **last, "f0.uvl": file_with(["f16 as x", "f1"], "\tA")}
    yield "first met at depth 1", met, "f0.uvl", TAKEN
    each_later = {f"f{number}.uvl": file_with([f"f{it}" for it in range(number + 1, 17)], "\tA") for number in range(17)}
    yield "17 files of which each imports all behind it", {**each_later, "f16.uvl": LEAF}, "f0.uvl", TAKEN
    yield "256 files", importing(255), MAIN, TAKEN
    yield "256 files, one under two qualifiers", importing(255, "f7 as x"), MAIN, TAKEN
    yield "257 files", importing(256), MAIN, "fault main.uvl:257:2 E26 TooManyFiles\n"
    yield "the last of 257 missing", importing(255, "nowhere"), MAIN, "fault main.uvl:257:2 E26 TooManyFiles\n"
    yield "the last of 257 badly named", importing(255, '"."'), MAIN, "fault main.uvl:257:2 E29 BadImportName\n"
    long = {"sub.uvl": LEAF, MAIN: file_with(["sub"], "\tA"), "big.uvl": b" " * 8388609}
    yield "a file that is too long", {**long, MAIN: file_with(["sub", "big"], "\tA")}, MAIN, "fault big.uvl:1:1 E02 TooLong\n"
    yield "an imported file that is missing", importing(3, "sub"), MAIN, "fault sub.uvl:1:1 E01 Absent\n"


def sets_of_many_features():
    def members(count):
        return "".join(f"\t\t\tF{number}\n" for number in range(count))

    root = "features\n\tR\n\t\toptional\n"
    yield "2,048 features", {MAIN: (root + members(2047)).encode()}, MAIN, TAKEN
    yield "2,049 features", {MAIN: (root + members(2048)).encode()}, MAIN, "fault main.uvl:2051:4 E23 TooManyFeatures\n"
    yield "2,047 placed features", doubling(10, LEAF), "d10.uvl", TAKEN
    yield "4,095 placed features", doubling(11, LEAF), "d11.uvl", "fault d11.uvl:8:4 E23 TooManyFeatures\n"
    # 1, 1, 5, 13, 37, 101, 277, 757 features, and in e8 757 + 757 + 277 + 277 + 1
    yield "757 features of files that place two others twice", twice_two(7), "e7.uvl", TAKEN
    yield "2,069 of these", twice_two(8), "e8.uvl", "fault e8.uvl:12:4 E23 TooManyFeatures\n"
    yield "16 files of which each places two others twice", twice_two(16), "e16.uvl", "fault e8.uvl:12:4 E23 TooManyFeatures\n"
    below = file_with(["deep"], "\tA", "\t\toptional", "\t\t\tB", "\t\t\tdeep.F1")
    files = {"deep.uvl": chain(63, "\n").encode(), MAIN: below}
    yield "a chain of 63 below a root", files, MAIN, TAKEN
    files = {"deep.uvl": chain(64, "\n").encode(), MAIN: below}
    yield "a chain of 64 below a root", files, MAIN, "fault main.uvl:7:4 E24 TooDeep\n"
    files = {"deep.uvl": chain(64, "\n").encode(), MAIN: file_with(["deep"], "\tdeep.F1")}
    yield "a chain of 64 as the root", files, MAIN, TAKEN
    large = b"features\n\tA {constraint !" + b"A|" * 4096 + b"A}\n"
    files = {"large.uvl": large, MAIN: file_with(["large"], "\tA")}
    yield "8,194 nodes in one rule", files, MAIN, "fault large.uvl:2:8208 E17 ExpressionTooLarge\n"
    long = '"' + "q" * 1000000 + '"'
    files = {"sub.uvl": LEAF, MAIN: file_with([f"sub as {long}"], f"\t{long}.A")}
    yield "a qualifier of a million characters", files, MAIN, TAKEN


def sets_of_many_rules():
    many = b"features\n\tA\nconstraints\n" + b"\tA\n" * 128
    yield "65,536 rules", doubling(9, many), "d9.uvl", TAKEN
    yield "65,537 rules", doubling(9, many, ["Z"]), "d9.uvl", "fault d9.uvl:10:2 E31 TooManyRules\n"
    yield "65,537 rules with an operator", doubling(9, many, ["Z & A"]), "d9.uvl", "fault d9.uvl:10:4 E31 TooManyRules\n"
    yield "65,537 rules with an opposite", doubling(9, many, ["!(Z)"]), "d9.uvl", "fault d9.uvl:10:2 E31 TooManyRules\n"
    yield "131,072 rules", doubling(10, many), "d10.uvl", "fault d10.uvl:8:4 E31 TooManyRules\n"
    large = b"features\n\tA\nconstraints\n\t!A" + b"&A" * 4095 + b"\n"
    yield "4,194,304 nodes", doubling(9, large), "d9.uvl", TAKEN
    yield "4,194,305 nodes", doubling(9, large, ["A"]), "d9.uvl", "fault d9.uvl:10:2 E31 TooManyRules\n"
    yield "8,388,608 nodes", doubling(10, large), "d10.uvl", "fault d10.uvl:8:4 E31 TooManyRules\n"


def sets_at_limits():
    """Titles, files, main files and what is wanted."""
    yield from sets_of_many_files()
    yield from sets_of_many_features()
    yield from sets_of_many_rules()

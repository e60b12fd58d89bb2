#!/usr/bin/env python3
"""forms.py [COMMIT]: counts, in src/ of every crate at a commit (HEAD), the places that docs/DESIGN-PASS.md speaks of.

It goes by text, so each number is what one pattern finds, and the page says what the places are. With -v it lists them."""
import re
import subprocess
import sys
from collections import Counter, defaultdict

words = [w for w in sys.argv[1:] if w != "-v"]
commit = words[0] if words else "HEAD"


def git(*args):
    return subprocess.run(["git", *args], capture_output=True, text=True, check=True).stdout


files = [f for f in git("ls-tree", "-r", "--name-only", commit, "crates").split() if re.fullmatch(r"crates/\w+/src/.*\.rt", f)]
source = {f: git("show", f"{commit}:{f}").split("#[cfg(test)]")[0] for f in files}
found = defaultdict(list)


def places(point, pattern, flags=re.M):
    found[point] = []
    for file, text in source.items():
        for m in re.finditer(pattern, text, flags):
            line = text.count("\n", 0, m.start()) + 1
            found[point].append(f"{file}:{line}: {' '.join(m.group(0).split())[:100]}")


places("1 enums shaped like Option or Result", r"^(?:pub )?enum \w+ \{\n(?:    \w+,\n)*    (?:Accepted|Refused|Planned|Found|Answered|"
       r"Report|Stopped|Illegal|Thousandths)\b")
places("1 a bool beside a value in a struct", r"^    (?:pub )?\w+: bool,$")
places("1 a number that is 0 for none, by its comment", r"^ *//.*(?:\b0 (?:where|if|for|at the)\b|of 0 is no|with a size of 0).*$")
places("1 numbers for kinds", r"^const (?:READS|RUNS|TAKES_BACK)\b|^pub const (?:GOAL|HOME|TURN|SETTLED|DOOR)\b")
places("2 the greater or the smaller of two by hand", r"^(?:pub )?fn (?:later|earlier|sooner|larger|smaller)\(x: usize, y: usize\)")
places("2 a refusal passed up by a function of its own", r"^fn passed_up\(")
places("2 a match that packs a Result", r"Refused\(fault, place\)\)? => (?:packing::refusal|refused_value|writers::put_refusal|\{)|"
       r"Err\(refusal\) => (?:packing::refusal|refused_value)\(")
places("3 loops that count by hand", r"^( *)while ([^\n]*) \{\n(?:(?!\1\}).*\n)*?\1 +(\w+) [-+]= 1;\n")
places("3 all while loops", r"^ *while .* \{$")
places("3 for loops and iterators", r"^ *for .* in .* \{$|\.iter\(\)|\.iter_mut\(\)")
places("4 conversions by a function of their own", r"^(?:pub )?fn (?:wide|wide_two|wide_four|wide_16|role_number|role_of|number|case_number)\(")
places("4 equality and copying by hand", r"^(?:pub )?fn (?:same_tables|copy_row|copy_places|copy_cells)\(")
for name, fact in [("Rows n rows", r"\bRows \S+ rows\.now"), ("a plan's tail has k moves", r"6 \* \(move_size named \* \(?k"),
                   ("the log and the tail have room", r"\b(?:Fits|Room|Space) \(?state")]:
    places(f"5 the fact: {name}", r"^ +requires[^\n]*" + fact)
places("5 State and Tally copied field by field", r"written: (?:state|made|tally)\.\w+,|logged: (?:state|made|tally)\.\w+,")
places("6 an array with a count beside it", r"\b(?:step|cycle|circle|at): &(?:mut )?\[u(?:8|16); 64\],\s*(?:c|k|n|size): usize")
places("6 parallel arrays in a struct", r"^(?:pub )?struct \w+ \{\n(?:    .*\n)*?(?:    (?:pub )?\w+: \[u\d+; \d+\],\n){2}")
places("7 a switch by a number", r"^fn choose\(|== \d \{\n +return (?:planner|maker|checker)_")
for point, list_ in found.items():
    print(f"{len(list_):5}  {point}")
    if "-v" in sys.argv:
        print("\n".join("         " + it for it in list_))

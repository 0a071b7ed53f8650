"""Lists the places of docs/DESIGN-PASS.md in crates/*/src: python3 tools/places.py [POINT ..]; with no point, the counts of all."""
import re
import sys
from collections import defaultdict
from pathlib import Path

SOURCES = [p for p in sorted(Path("crates").glob("*/src/*.rt")) if not p.name.endswith("_answers.rt")]


def lines():
    for path in SOURCES:
        for number, line in enumerate(path.read_text().splitlines(), 1):
            code = line.split("//")[0].rstrip()
            if code.strip() and not code.strip().startswith("ghost use"):
                yield path, number, code


def matching(pattern):
    return [f"{p}:{n}: {c.strip()}" for p, n, c in lines() if re.search(pattern, c)]


def functions():
    """Each function: its file, line, name, parameters with types, and its requires clauses."""
    for path in SOURCES:
        text = "\n".join(l.split("//")[0] for l in path.read_text().splitlines())
        for m in re.finditer(r"\bfn (\w+)(?:<[^(]*>)?\(", text):
            depth, at = 1, m.end()
            while depth:
                depth += {"(": 1, ")": -1}.get(text[at], 0)
                at += 1
            inside = re.sub(r"\s+", " ", text[m.end():at - 1])
            parameters = [p.strip() for p in re.split(r",\s*(?![^\[<(]*[\]>)])", inside) if p.strip()]
            head = text[at:text.find("\n{", at) if "\n{" in text[at:] else at]
            stop = re.search(r"\n\s*\{", text[at:])
            head = text[at:at + stop.start()] if stop else ""
            facts = re.findall(r"requires[^{]*\{(.*?)\}\s*(?=\n|$)", head, re.S)
            yield path, text[:m.start()].count("\n") + 1, m.group(1), parameters, facts


def own_sums():
    """Enums of the shape of Option or Result, a verdict or a flag beside a value, and numbers in place of kinds."""
    enums = [f for f in matching(r"\benum (Verdict|PutAnswer|PlanAnswer|HeaderAnswer|ValuesAnswer|Place|\w*Answer)\b")]
    beside = matching(r"^\s+(pub )?(verdict|answer|enough|found|is_\w+): (Verdict|\w+Answer|bool),$")
    taken = matching(r"(let (Verdict|\w+Answer)::|if let Verdict::|(Verdict|PlanAnswer|HeaderAnswer|ValuesAnswer|PutAnswer|Place)::\w+(\(\w+\))? =>)")
    kinds = matching(r"(fn first_field|const MEANINGS|const WIDTHS|16 <= first|if tree_type ==|meaning == \d)")
    return enums + beside + taken + kinds


def index_loops():
    return matching(r"^\s*(while|loop)\b") + matching(r"^\s*for \w+ in \w+\.\.")


def by_hand():
    """Comparing, copying, clearing and converting written out."""
    return (matching(r"fn (copy|clear|copy_column|put_column|put_widths|code|smaller|one_of|is_field_size|has_signature|byte|number16|number32|rot|stand_at|are|of_two)\(")
            + matching(r"if \w+\[[^\]]*\] != ") + matching(r"\(\w+(\(.*\))? % (0x1_?0000(_0000)?|0x100|256|65536|4294967296|0x1_0000_0000)\) as u(8|16|32)")
            + matching(r"std::num::\w+_u\d+\("))


def shared_facts():
    """A fact that stands in the requires of three or more functions, and functions of more than six parameters."""
    facts = defaultdict(list)
    for path, line, name, parameters, requires in functions():
        for clause in requires:
            for fact in re.split(r" × ", clause):
                word = re.match(r"[\s(]*([A-Z]\w+)\b", fact)
                key = word.group(1) if word else re.sub(r"[\s()]+", " ", fact).strip()
                facts[key].append(f"{path}:{line}: {name}")
    found = [f"{key}: {', '.join(w.split(': ')[1] for w in where)} ({where[0].split(':')[0]})" for key, where in sorted(facts.items()) if len(set(where)) > 2]
    wide = [f"{path}:{line}: {name} has {len(p)} parameters" for path, line, name, p, _ in functions() if len(p) > 6]
    return found + wide


def buffers():
    """Arrays of fixed length in structs and parameters: parallel ones, tables with a length or a mark beside them."""
    return matching(r"(: |&mut |& ?'?\w* ?|-> )\[u(8|16|32|64); ?\w+\]")


def steps():
    return matching(r"(\bdyn \w|\bFn(Mut|Once)?\(|: fn\()") + matching(r"fn (stored|published|ends|limits)\(")


def twins():
    """Functions of one crate whose bodies are the same but for words and numbers."""
    shapes = defaultdict(list)
    for path in SOURCES:
        text = path.read_text()
        for m in re.finditer(r"\n( *)(?:pub |pub\(crate\) )?(?:extern \"C\" )?fn (\w+)[\s\S]*?\n\1\{\n([\s\S]*?)\n\1\}", "\n" + text):
            body = re.sub(r"//.*", "", m.group(3))
            shape = re.sub(r"\b\w+\b", "w", re.sub(r"\s+", "", body))
            if len(shape) > 24:
                shapes[shape].append(f"{path}: {m.group(2)}")
    return [" = ".join(where) for where in shapes.values() if len(where) > 1]


POINTS = {"1": own_sums, "2": twins, "3": index_loops, "4": by_hand, "5": shared_facts, "6": buffers, "7": steps}

if __name__ == "__main__":
    for point in sys.argv[1:] or POINTS:
        places = POINTS[point]()
        print(f"point {point}: {len(places)}")
        if sys.argv[1:]:
            print("\n".join(places))

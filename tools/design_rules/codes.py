"""Point 1: enums of the shape of Option or Result, a flag beside a value, numbers for kinds and refusals."""
import re

from read import INTEGERS, flat

REFUSALS = {"refusal", "code", "number", "opening"}
KIND = r"(?:\w+\.)*kind"
NUMERAL = r"\d[\d_]*"
CONSTANT = r"[A-Z][A-Z0-9_]*(?!\w|::)"


def shapes(checkout):
    for type in checkout.types:
        if type.kind != "enum" or len(type.fields) != 2:
            continue
        loads = [load for _, load in type.fields]
        names = " and ".join(name + load for name, load in type.fields)
        if sum(bool(load) for load in loads) == 1:
            yield type.place("a. enum like Option", f"enum of {names}")
        elif all(loads) and loads[0] != loads[1]:
            yield type.place("a. enum like Result", f"enum of {names}")


def fields(checkout):
    for type in checkout.types:
        if type.kind != "struct" or len(type.fields) < 2:
            continue
        for name, kind in type.fields:
            others = ", ".join(other for other, _ in type.fields if other != name)
            if name in REFUSALS and kind in INTEGERS:
                yield type.place("b. number of a refusal beside a value", f"{name}: {kind} beside {others}", f"({name})")
        flags = [name for name, kind in type.fields if kind == "bool"]
        if flags and len(flags) < len(type.fields):
            others = ", ".join(name for name, kind in type.fields if kind != "bool")
            yield type.place("c. flag beside a value", f"{', '.join(flags)} beside {others}", f"({', '.join(flags)})")


def value(constant):
    text = constant.value.replace("_", "")
    return int(text, 0) if re.fullmatch(r"\d+|0x[0-9a-fA-F]+", text) else None


def constants(checkout):
    """Rows of three constants or more that count by one or by doubling; others that are a refusal or a kind."""
    code = {}
    for function in checkout.functions:
        code[function.file] = code.get(function.file, "") + function.body
    every = "\n".join(code.values())
    files = {}
    for constant in checkout.constants:
        if constant.type in INTEGERS and value(constant) is not None:
            files.setdefault(constant.file, []).append(constant)
    for found in files.values():
        rows, row = [], []
        for constant in found:
            if row and value(constant) not in (value(row[-1]) + 1, 2 * value(row[-1]) or None):
                rows.append(row)
                row = []
            row.append(constant)
        rows.append(row)
        for row in rows:
            if len(row) >= 3:
                for constant in row:
                    said = f"{constant.type} = {constant.value}, of a row of {len(row)}"
                    yield constant.place("d. constant that numbers", said)
                continue
            for constant in row:
                name = constant.name.rsplit("::", 1)[-1]
                if re.search(rf"refusal:\s*(?:\w+::)*{name}\b", every):
                    yield constant.place("d. constant that numbers", f"{constant.type} = {constant.value}, a refusal")
                elif re.search(rf"{KIND}\s*(?:<|<=|==|!=)\s*{name}\b|\b{name}\s*(?:<|<=|==|!=)\s*{KIND}\b", every):
                    yield constant.place("d. constant that numbers", f"{constant.type} = {constant.value}, a kind")


def last_calls(function):
    """The calls whose answer the function returns: at its end, behind `return`, and in the arms of its last match."""
    body = function.body.strip()
    out = re.findall(r"(?:\breturn|=>) ((?:[a-z_]\w*::)*[a-z_]\w*)\(", body)
    tail = re.search(r"(?:^|[;}])\s*((?:[a-z_]\w*::)*[a-z_]\w*)\([^;]*\)\s*$", body)
    if tail:
        out.append(tail.group(1))
    return out


def refusing(checkout):
    """The functions that return a refusal as a number: by their text, by what they hand on, and by who does."""
    integers = {f.name: f for f in checkout.functions if f.result in ("u8", "u16", "u32", "u64")}
    names = [place.name.rsplit("::", 1)[-1] for place in constants(checkout) if place.crate == "refusal"]
    numbered = "|".join(names) or "(?!)"
    told = re.compile(rf"\brefusal::(?:{numbered})\b|\b(?:refusal::)?code\(|\.number\(\)|\bRefusal::\w+ as u32|"
                      r"\btested\(|\breturn 24\b|\breturn [\w.]+\.refusal;|= [\w.]+\.refusal;|[\w.]+\.refusal\s*$")
    stated = re.compile(r"\bresult ≡ [Rr]efusal\b|RefusedBy\b|\bTests\b|\(answer_of result|"
                        r"\b(?:refusal|number) = result\b")
    found = set()
    for name, function in integers.items():
        body = re.sub(r"\boutside\([^;{]*\)", "", function.body)
        if told.search(body) or any(stated.search(fact) for fact in function.ensures):
            found.add(name)
    while True:
        more = set()
        for name, function in integers.items():
            handed = {checkout.resolve(function.module, call) for call in last_calls(function)} & set(integers)
            if name in found:
                more |= {other for other in handed if integers[other].result == function.result}
            elif any(other in found and integers[other].result == function.result for other in handed):
                more.add(name)
        if more <= found:
            return found
        found |= more


def functions(checkout):
    found = refusing(checkout)
    for function in checkout.functions:
        if function.name in found:
            yield function.place("e. function that returns a refusal as a number", f"-> {function.result}")
        held = set()
        for bound in re.finditer(r"\blet (?:mut )?(\w+)(?:: \w+)? = ([^;]*);", function.body):
            path = re.match(r"((?:\w+::)*\w+)\(", flat(bound.group(2)))
            if bound.group(2).strip().endswith(".refusal"):
                held.add(bound.group(1))
            elif path and checkout.resolve(function.module, path.group(1)) in found:
                held.add(bound.group(1))
        names = "|".join(sorted(held | {"code"}))
        test = re.compile(rf"(?:\b(?:\w+\.)+refusal|\b(?:{names})|\)|\br\[NUMBER\])\s*(?:==|!=)\s*0\b")
        for hit in test.finditer(function.body):
            if hit.group().startswith(")"):
                before = function.body[: hit.start()]
                depth, k = 1, hit.start() - 1
                while k >= 0 and depth:
                    depth += (function.body[k] == ")") - (function.body[k] == "(")
                    k -= 1
                path = re.search(r"((?:\w+::)*\w+)$", before[: k + 1])
                if not path or checkout.resolve(function.module, path.group(1)) not in found:
                    continue
            yield function.place("g. test of a refusal's number", flat(hit.group()), hit.start())
        for hit in re.finditer(r"\b(refusal|opening): ([^,}]+)", function.body):
            yield function.place("h. answer with a refusal written out", flat(hit.group()), hit.start())
        for hit in re.finditer(r"\breturn 24\b", function.body):
            yield function.place("h. answer with a refusal written out", flat(hit.group()), hit.start())


def lent(checkout):
    for function in checkout.functions:
        if function.result in ("u32", "Frame"):
            for name, kind in function.parameters:
                if re.fullmatch(r"&mut (?:[ui](?:32|size))", kind):
                    yield function.place("k. result put into what is lent beside a refusal", f"{name}: {kind}",
                        detail=f"({name})")


def kinds(checkout):
    than, number = r"\s*(?:==|!=|<=|>=|<|>)\s*", rf"(?:\b{NUMERAL}|\b{CONSTANT})"
    compared = re.compile(rf"\b{KIND}{than}{number}|{number}{than}{KIND}\b")
    for function in checkout.functions:
        for hit in compared.finditer(function.body):
            yield function.place("f. kind compared as a number", flat(hit.group()), hit.start())
        for hit in re.finditer(rf"\bmatch ({KIND}) \{{\s*({CONSTANT}|{NUMERAL})\b", function.body):
            yield function.place("f. kind compared as a number", f"match {hit.group(1)}", hit.start())
        for name, kind in function.parameters:
            if name == "kind" and kind in INTEGERS:
                yield function.place("f. kind passed as a number", f"{name}: {kind}")
    for type in checkout.types:
        for name, kind in type.fields:
            if type.kind == "struct" and name == "kind" and kind in INTEGERS:
                yield type.place("f. kind held as a number", f"{name}: {kind}")


def sentinels(checkout):
    """By the comment above it: an integer, or a struct of integers, that says that there is none."""
    said = re.compile(r"\b\d[\d,]*(?:,? and)? (?:where (?:there is none|none|it is refused|any|no)|for any other)|"
                      r"\b0 where\b|\b65 where none\b|length (?:of the text )?where (?:it does not|none)|"
                      r"\b(?:all of them|32) where (?:none is|it is none)")
    for function in checkout.functions:
        hit = said.search(function.comment)
        if hit and function.result in INTEGERS:
            yield function.place("i. integer that also says that there is none", f"-> {function.result}: \"{hit.group()}\"")
        elif function.result in INTEGERS and re.search(r"\b4_097\b", function.body):
            yield function.place("i. integer that also says that there is none", f"-> {function.result}: 4,097 past a buffer's end")
    for type in checkout.types:
        hit = said.search(type.comment)
        if hit and type.kind == "struct" and not any(name in REFUSALS for name, _ in type.fields):
            yield type.place("i. integer that also says that there is none", f"\"{hit.group()}\"")


def truths(checkout):
    """Integers that are 0 or 1 alone, and parameters that are such integers by their name."""
    for function in checkout.functions:
        body = function.body.strip()
        if function.result in INTEGERS:
            given = re.findall(r"\breturn ([^;]+);|=> ([^{},(]+),|[{;}]\s*((?:(?!=>)[^{};])+?)\s*(?=\}|$)", body)
            given = given or [(body, "", "")]
            given = [flat("".join(one)) for one in given]
            given = [one for one in given if one and not one.startswith("return ")]
            if set(given) >= {"0", "1"} and set(given) <= {"0", "1"} or re.fullmatch(r"[^;{}]*/ \w+ % 2", body):
                yield function.place("j. truth as a number", f"-> {function.result}, 0 or 1")
        for name, kind in function.parameters:
            if name in ("there", "bit", "instant") and kind in INTEGERS:
                yield function.place("j. truth as a number", f"{name}: {kind}", detail=f"({name})")


def codes(checkout):
    for rule in (shapes, fields, constants, functions, kinds, sentinels, truths, lent):
        yield from rule(checkout)

"""A plain reader of rule files, as the manual has them."""

import re


def rules_fault(rules):
    """The line on standard error for a rule file, or none."""
    try:
        rules.decode()
    except UnicodeDecodeError as fault:
        return f"skk: rules byte {fault.start}\n".encode()
    number = first_bad_line(rules_by_line(rules))
    return f"skk: rules line {number}\n".encode() if number else b""


def rules_by_line(content):
    """The fields of each rule, by the number of its line."""
    lines = content.split(b"\n")
    lines = [line.removesuffix(b"\r") for line in lines[:-1]] + [lines[-1]]
    return {number: line.split(b"\t") for number, line in enumerate(lines, 1) if line and line[:1] != b"#"}


def first_bad_line(rules):
    """The number of the first line whose rule is not valid by itself or beside the others, or None."""
    inputs = set()
    for number, rule in rules.items():
        if not is_rule(rule) or rule[0] in inputs:
            return number
        inputs.add(rule[0])
    begun = {each[:length] for each in inputs for length in range(1, len(each))}
    for number, rule in rules.items():
        if rule[1] and (rule[1] not in begun or rule[0] in begun):
            return number
    return None


def is_rule(fields):
    """Whether these are the fields of a rule that is valid by itself."""
    if len(fields) != 4 or not re.fullmatch(rb"[!-@\[-~]{1,8}", fields[0]) or len(fields[1]) > 8:
        return False
    return not any(len(out) > 24 or re.search(rb"[\0- \x7f]", out) for out in fields[2:])

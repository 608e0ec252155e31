"""Measures in the text that Prometheus reads (format 0.0.4): its samples, and what is wrong with it."""

import re

from visiting import ask

NAME = r"[a-zA-Z_:][a-zA-Z0-9_:]*"
LABEL = r'[a-zA-Z_][a-zA-Z0-9_]*="(?:[^"\\]|\\["\\n])*"'
HELP = re.compile(rf"# HELP ({NAME}) (.+)")
TYPE = re.compile(rf"# TYPE ({NAME}) (counter|gauge|histogram|summary|untyped)")
SAMPLE = re.compile(rf"(({NAME})(?:\{{{LABEL}(?:,{LABEL})*,?\}})?) ([^ ]+)")
NUMBER = re.compile(r"[+-]?(?:\d+(?:\.\d*)?(?:[eE][+-]?\d+)?|Inf)|NaN")


class Exposition:
    """The samples of a text by their names with labels, the type of each family, and what is wrong with the text."""

    def __init__(self, text):
        self.samples, self.types, self.helps, self.faults = {}, {}, {}, []
        self.families = []
        if not text.endswith("\n"):
            self.faults.append("the last line does not end")
        for line in text.split("\n")[:-1]:
            fault = self.takes(line)
            if fault:
                self.faults.append(f"{fault}: {line!r}")
        self.faults += [f"{name} has a type and no sample" for name in self.types if name not in self.families]

    def takes(self, line):
        """Takes a line, and tells what is wrong with it."""
        if line.startswith("#"):
            return self.takes_comment(line)
        found = SAMPLE.fullmatch(line)
        if not found or not NUMBER.fullmatch(found.group(3)):
            return "no sample"
        sample, family, number = found.groups()
        if sample in self.samples:
            return "a sample twice"
        self.samples[sample] = float(number)
        family = self.family_of(family)
        if self.families[-1:] != [family]:
            if family in self.families:
                return "a family in two places"
            self.families.append(family)
        return None if family in self.types and family in self.helps else "a sample without HELP and TYPE"

    def family_of(self, name):
        """The family of a sample: those of a histogram have suffixes."""
        base = re.sub("_(bucket|sum|count)$", "", name)
        return base if self.types.get(base) == "histogram" else name

    def takes_comment(self, line):
        for pattern, texts in ((HELP, self.helps), (TYPE, self.types)):
            found = pattern.fullmatch(line)
            if found:
                name, text = found.groups()
                if name in texts or name in self.families:
                    return "it comes twice, or behind a sample"
                texts[name] = text
                return None
        return "neither HELP nor TYPE"


def measures_of(server):
    return Exposition(ask(server.visited, "/metrics").body.decode()).samples

"""Makes man pages: of the help of the program, and of the header of the library. Neither has a sentence of its own that these have."""

from __future__ import annotations

import re
import time
from typing import AnyStr, Iterable


def found_in(text: AnyStr, pattern: AnyStr, flags: int = 0) -> re.Match[AnyStr]:
    """Where a text first has what it must have."""
    found = re.search(pattern, text, flags)
    if not found:
        raise ValueError(f"there is no {pattern!r}")
    return found


def usage(page: str) -> list[str]:
    """The words of each command that the block `usage` of FORMATS lists."""
    return [line.partition("  ")[0] for line in found_in(page, r"^```usage\n(.*?)^```$", re.M | re.S)[1].rstrip("\n").split("\n")]


def roff(text: str) -> str:
    """A text as roff has it. What stands in backquotes is bold."""
    text = text.replace("\\", "\\e").replace("-", "\\-")
    text = re.sub(r"`([^`]+)`", r"\\fB\1\\fP", text)
    return re.sub(r"^([.'])", r"\\&\1", text, flags=re.M)


def literal(lines: Iterable[str]) -> str:
    """Lines that stay as they are."""
    body = "\n".join(line.replace("\\", "\\e").replace("-", "\\-") for line in lines)
    return ".PP\n.RS 4\n.nf\n" + re.sub(r"^([.'])", r"\\&\1", body, flags=re.M) + "\n.fi\n.RE\n"


def paragraphs(text: str) -> str:
    """Paragraphs with blank lines between them. Lines further in are literal, and those that begin with `- ` are items."""
    made = ""
    for part in re.split(r"\n\s*\n", text.strip("\n")):
        lines = part.split("\n")
        inner = [line for line in lines if line.startswith("    ")]
        if len(inner) == len(lines):
            made += literal(line[4:] for line in lines)
        elif lines[0].startswith("- "):
            for item in re.split(r"^- ", part, flags=re.M)[1:]:
                made += ".IP \\(bu 2\n" + roff(re.sub(r"\s*\n\s*", "\n", item.strip())) + "\n"
        elif inner:
            at = lines.index(inner[0])
            made += paragraphs("\n".join(lines[:at])) + paragraphs("\n".join(lines[at:]))
        else:
            made += ".PP\n" + roff("\n".join(line.strip() for line in lines)) + "\n"
    return made


def head(name: str, section: int, epoch: int, version: str, summary: str) -> str:
    date = time.strftime("%Y-%m-%d", time.gmtime(epoch))
    return f'.TH {name.upper()} {section} "{date}" "ordup {version}" "ordup"\n.SH NAME\n{roff(name)} \\- {roff(summary)}\n'


def parts_of(help_text: str) -> tuple[dict[str, str], list[str]]:
    """The parts of a help: those with a heading, such as `Options`, as items, and the others as one text."""
    headed: dict[str, str] = {}
    text = []
    for part in re.split(r"\n\s*\n", help_text.strip("\n")):
        heading = re.match(r"(Usage|Commands|Options|Arguments):(.*)", part, re.S)
        if heading:
            headed[heading[1]] = heading[2].strip("\n")
        else:
            text.append(part)
    return headed, text


def items(lines: str) -> str:
    """Words with what they mean, which two blanks divide."""
    made = ""
    for line in lines.split("\n"):
        words, _, meaning = line.strip().partition("  ")
        made += f".TP\n.B {roff(words)}\n{roff(meaning.strip()) or '.br'}\n"
    return made


def job(words: str, help_text: str) -> str:
    """What the page says of one job: its arguments, and its help."""
    headed, text = parts_of(help_text)
    made = f".SS ordup {words}\n" + paragraphs("\n\n".join(text))
    return made + "".join(items(headed[it]) for it in ("Arguments", "Options") if it in headed)


def page_of_program(helps: dict[str, str], commands: list[str], epoch: int, version: str, summary: str) -> str:
    """ordup(1): `helps` has the help of the program under no word, and that of each job under its name."""
    headed, text = parts_of(helps[""])
    statuses = [it for it in text if it.startswith("Exit statuses:")]
    made = head("ordup", 1, epoch, version, summary) + ".SH SYNOPSIS\n"
    for words in commands:
        made += f".B {roff(words)}\n.br\n"
    made += ".SH DESCRIPTION\n" + paragraphs("\n\n".join(it for it in text if it not in statuses))
    made += ".SH COMMANDS\n" + "".join(job(name, it) for name, it in helps.items() if name)
    made += ".SH OPTIONS\n" + items(headed.get("Options", "\\-\\-help"))
    made += ".SH EXIT STATUS\n" + paragraphs("\n\n".join(statuses))
    made += ".SH FILES\nThe pages and the examples that are named here lie in share/doc/ordup.\n"
    return made + ".SH SEE ALSO\n.BR ordup (3),\n.BR ordup_cluster (3)\n"


def page_of_node(helped: str, helps: dict[str, str], text: str, statuses: list[tuple[str, str]], epoch: int, version: str, summary: str) -> str:
    """ordup-node(1): `helped` is the help of the program, `helps` has that of each command, and `statuses` what each says."""
    closing = helped.strip("\n").split("\n\n")[-1]
    made, commands = head("ordup-node", 1, epoch, version, summary) + ".SH SYNOPSIS\n", ""
    for said in helps.values():
        words, what, options = found_in(said.rstrip("\n"), r"\A(.*?) *\n(.*)\n\n(.*)\Z", re.S).groups()
        made += f".B {roff(words)}\n.br\n"
        commands += f".SS {roff(words)}\n{paragraphs(what[0].upper() + what[1:])}{items(options)}"
    made += f".SH DESCRIPTION\n{paragraphs(text)}{paragraphs(closing)}.SH COMMANDS\n{commands}.SH EXIT STATUS\n"
    made += "".join(f".TP\n.B {status}\n{roff(meaning)}\n" for status, meaning in statuses)
    return made + (".SH FILES\n.TP\n.I /etc/ordup\\-node/settings\nthe settings that the units of systemd name\n"
                   ".TP\n.I /usr/share/doc/ordup\\-node/MACHINES.md\nwhat operators do and see, and what users see of what fails\n"
                   ".TP\n.I /usr/share/doc/ordup\\-node/HOSTS.md\na recipe for three hosts, with certificates and tokens\n"
                   ".TP\n.I /usr/share/doc/ordup\\-node/HTTP.md\nwhat it takes and answers by HTTP\n"
                   ".TP\n.I /usr/share/ordup\\-node/openapi.json\nthe same, for programs\n"
                   ".TP\n.I /usr/share/ordup\\-node/ordup_node.py\na client in Python\n"
                   ".TP\n.I /usr/share/ordup\\-node/prometheus\nalerts for Prometheus, and their tests\n"
                   ".TP\n.I /usr/share/ordup\\-node/grafana\na dashboard for Grafana\n"
                   ".SH SEE ALSO\n.BR ordup (1)\n")


def comment_of(text: str) -> str:
    """The lines of a comment of C, without what makes it one."""
    return "\n".join(re.sub(r"^ \* ?", "", line) for line in text.split("\n"))


def page_of_library(name: str, header: str, epoch: int, version: str) -> str:
    """A page of section 3: each comment of a header, with the declaration that it stands above."""
    summary, opening = found_in(header, r"\A/\* ordup: an? (.*?)\.\s(.*?)\*/", re.S).groups()
    others = [it for it in ("ordup", "ordup_cluster", "ordup_holds") if it != name]
    declared = header.partition('extern "C" {\n#endif\n')[2].partition("#ifdef __cplusplus\n}")[0]
    chunks = re.findall(r"^/\* ?(.*?) ?\*/\n(.*?)(?=^/\*|\Z)", declared, re.M | re.S)
    calls = [re.sub(r"\s+", " ", it) for _, code in chunks for it in re.findall(r"^\w+ ordup_\w+\(.*?;", code, re.M | re.S)]
    made = head(name, 3, epoch, version, comment_of(summary)) + f".SH SYNOPSIS\n.nf\n#include <{name}.h>\n"
    made += "".join(f"\n{roff(it)}" for it in calls)
    made += "\n\ncc FILE.c $(pkg\\-config \\-\\-cflags \\-\\-libs ordup)\n.fi\n.SH DESCRIPTION\n"
    made += paragraphs(comment_of(opening))
    for comment, code in chunks:
        lines = code.strip("\n").split("\n")
        if not code.strip():
            made += f".SS {roff(comment.strip('- '))}\n"
            continue
        named = re.search(r"^(?:#define|typedef struct|\w+) (ORDUP_\w+|ordup_\w+)|^(enum)", lines[0])
        made += f".SS {named and named[1] or 'Statuses'}\n" + literal(lines) + paragraphs(comment_of(comment))
    return made + ".SH SEE ALSO\n.BR ordup (1)" + "".join(f",\n.BR {it} (3)" for it in others) + "\n"

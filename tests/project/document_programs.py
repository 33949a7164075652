"""The rules of documents.py about the programs and libraries in C: their options, messages and variables."""
import re

from document_text import TOP, differences, page, read

DRIVER_PAGE = "docs/man/msgfmt-or-gnu.1"
TROUBLES = "docs/guide/troubleshooting.md"
DRIVER_OPTIONS = "c/driver/or_gnu_words.c"
OPTIONS_IN_C = {"kob-compile": "c/compile/options.c", "kob-msgunfmt": "c/unfmt/options.c"}
COMPLETION = "tools/completion/words"
LEAST_LETTERS = 24  # of a part of a message that isn't about a file, an option or memory


def options_in(text):
    return set(re.findall(r"(?<![\w-])(--?[A-Za-z][\w-]*)", text))


def completed(program, with_value=False):
    """The options of a program that shells complete, all of them or those with a value."""
    lines = re.search(rf"^@?{program}:.*\n((?:-.*\n)+)", read(COMPLETION), re.M)[1].splitlines()
    words = [line.partition("  ")[0] for line in lines]
    return {option for it in words if not with_value or re.search(r"[=A-Z{]", re.sub(r"-\w\b", "", it))
            for option in options_in(it)}


def options_of_the_driver():
    """the options of GNU msgfmt that msgfmt-or-gnu knows: code, man page, completions"""
    code = read(DRIVER_OPTIONS)
    wanted = {f"--{name}" for name in re.findall(r'^    \{"([a-z0-9-]+)",', code, re.M)}
    wanted |= {f"-{letter}" for letter in re.search(r'letters\[\] = "([^"]*)"', code)[1] if letter != ":"}
    table = re.search(r"^option of GNU msgfmt.*?^\.TE$", read(DRIVER_PAGE), re.M | re.S)[0].replace("\\-", "-")
    by_letters = {"--language", "--locale", "--resource", "--properties-input"}  # as the page names them
    in_page = options_in(re.sub(r"\\f[A-Z]", " ", table))
    with_value = {f"--{name}" for name in re.findall(r'^    \{"([a-z0-9-]+)", (?:required|optional)_', code, re.M)}
    with_value |= {f"-{letter}" for letter in re.findall(r"([a-zA-Z]):", re.search(r'letters\[\] = "([^"]*)"', code)[1])}
    return (differences(DRIVER_PAGE, in_page | by_letters, wanted)
            + differences(f"{COMPLETION}, msgfmt-or-gnu", completed("msgfmt-or-gnu") - {"--summary"}, wanted)
            + differences(f"{COMPLETION}, msgfmt-or-gnu, values", completed("msgfmt-or-gnu", True) - {"--summary"}, with_value))


def options_in_c(program):
    """The differences between the options of a program in C: code, help, man page, completions."""
    code, page_name = read(OPTIONS_IN_C[program]), f"docs/man/{program}.1"
    wanted = {f"--{name}" for name in re.findall(r'^    \{"([a-z-]+)", (?!.*FOR_GNU)', code, re.M)}
    wanted |= {f"-{letter}" for letter in re.search(r'getopt_long\(count, words, "([^"]*)"', code)[1] if letter != ":"}
    told = re.search(r"help\[\] =\n(.*?);\n\n", code, re.S)[1]
    heads = re.findall(r'^    "  +(-.*?)(?:  |\\n)', told, re.M)
    manual = re.search(r"^\.SH OPTIONS\n(.*?)^\.SH ", read(page_name), re.M | re.S)[1].replace("\\-", "-")
    in_page = re.sub(r"\\f[A-Z]", "", " ".join(re.findall(r"^\.TP\n\.BI?R? (.*)$", manual, re.M))).replace('"', " ")
    found = [(f"{OPTIONS_IN_C[program]}, its help", " ".join(heads)), (page_name, in_page)]
    letters = re.search(r'getopt_long\(count, words, "([^"]*)"', code)[1]
    with_value = {f"--{name}" for name in re.findall(r'^    \{"([a-z-]+)", required_', code, re.M)}
    with_value |= {f"-{letter}" for letter in re.findall(r"([a-zA-Z]):", letters)}
    return ([why for name, text in found for why in differences(name, options_in(text), wanted)]
            + differences(f"{COMPLETION}, {program}", completed(program), wanted)
            + differences(f"{COMPLETION}, {program}, values", completed(program, True), with_value))


def options_of_programs_in_c():
    """the options of kob-compile and kob-msgunfmt: code, help, man page, completions"""
    return [why for program in OPTIONS_IN_C for why in options_in_c(program)]


def reasons_of_the_driver():
    """the reasons for which msgfmt-or-gnu leaves a text to GNU msgfmt are in its man page"""
    # (one without a blank is a flag, such as objc-format)
    reasons = re.findall(r'needs_gnu_for\(&?scan, "([^"]* [^"]*)"\)', read("c/driver/or_gnu_text.c"))
    missing = sorted(it for it in reasons if it not in page(DRIVER_PAGE))
    return [f"{DRIVER_PAGE} has not: {missing}"] if missing or not reasons else []


def warnings_of_the_driver():
    """the lines of msgfmt that msgfmt-or-gnu looks for"""
    source = read("c/driver/msgfmt_or_gnu.c")
    warning = re.search(r'": (warning: header field \')"', source)
    unwritten = re.search(r'unwritten\[\] = "([^"]*)"', source)
    code = read("crates/msgfmt_steps/src/texts.rt") + read("crates/msgfmt_steps/src/steps.rt")
    return [f"c/driver/msgfmt_or_gnu.c: no text of msgfmt: {found and found[1]}" for found in (warning, unwritten)
            if not found or found[1] not in code]


def texts_of_programs_in_c():
    """the page of troubles has what msgfmt-or-gnu, kob-compile and kob-msgunfmt say beside what is refused"""
    page, missing = read(TROUBLES), set()
    for path in sorted(TOP.glob("c/[cdu]*/*.c")):
        code = path.read_text(encoding="utf-8")
        for text in re.findall(r'"(?:msgfmt-or-gnu|kob-compile|kob-msgunfmt): ([^"\\]*)', code):
            parts = [it.strip(" :(") for it in re.split(r"%\w+", text)]
            missing |= {it for it in parts if len(it) >= LEAST_LETTERS and it not in page}
    return [f"{TROUBLES} has not: {sorted(missing)}"] if missing else []


def variables_of_the_environment():
    """each variable of the environment that C reads is in the man page of its program or library"""
    wrong = []
    for folder, name in (("compile", "kob-compile.1"), ("driver", "msgfmt-or-gnu.1"), ("intl", "libkobdzila-intl.3")):
        code = "".join(path.read_text(encoding="utf-8") for path in sorted(TOP.glob(f"c/{folder}/*.c")))
        names = set(re.findall(r'(?:getenv|variable|is_set)\("(\w+)"\)', code))
        wrong += [f"{name} has not: {it}" for it in sorted(names) if not re.search(rf"\b{it}\b", page(f"docs/man/{name}"))]
    return wrong

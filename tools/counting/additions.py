"""How many files an addition to a closed list touches, by the files in which a present member of the list is named by hand.

A file counts where the member is in the list: a source that names all members or the member's variant, a page or script that names all
members within a few lines, rows that are about the member. A file of the member's own, as its module, is counted apart. All other files
that name it do so by the way, as an example or for a rule of its own: they are listed, and not counted.
"""
import collections
import re

from counting.sources import KINDS, Missing, by_hand, files, kind_of, variants

# `hints` are texts of which a file has one that the rest looks at; `rules` say which files, by their path, have the member in the list;
# `own` says which are the member's own; and `named` finds the files that name it by the way.
Addition = collections.namedtuple("Addition", "key title hints named rules own")
Count = collections.namedtuple("Count", "addition shared own others")

SOURCE = r"^crates/\S*\.(?:rt|antt)$"
TEST = r"^crates/(?:test_)\S*\.rt$"
ROWS = r"\.rows$"
AROUND = r"^(?!crates/)"
NONE = r"(?!)"


def word(text):
    """An expression for a word that is no part of a longer one."""
    return ("(?<![\\w/])" if text[:1].isalnum() else "") + re.escape(text) + "(?!\\w)"


def has(expression):
    """Whether a text has a place that the expression fits."""
    return re.compile(expression, re.M).search


def all_of(words):
    """Whether a text names all of these."""
    wanted = [re.compile(word(one)) for one in words]
    return lambda text: all(one.search(text) for one in wanted)


def near(member, words, reach):
    """Whether a text names all of these within so many lines before or after a line with the member."""
    is_all, is_member = all_of(words), re.compile(word(member))

    def found(text):
        lines = text.split("\n")
        return any(is_all("\n".join(lines[max(0, at - reach):at + reach + 1])) for at, line in enumerate(lines) if is_member.search(line))
    return found


def beside(expression, words, before, after):
    """Whether a text has a place that the expression fits, and on the same line, so many characters before or after it, the words."""
    is_there, is_beside = re.compile(expression), re.compile(words)

    def found(text):
        for place in is_there.finditer(text):
            start = max(text.rfind("\n", 0, place.start()) + 1, place.start() - before)
            end = text.find("\n", place.end())
            if is_beside.search(text[start:min(end if end >= 0 else len(text), place.end() + after)]):
                return True
        return False
    return found


def record_type(key, title, variant, kind, kinds, own):
    """A record type, by its variant, its text in capitals, and its kind of field among all kinds, if it has one of its own."""
    members = variants("RecordType")
    texts, text = [one.upper() for one in members], variant.upper()
    hints = [variant, text, *kind]
    return Addition(key, title, hints, "|".join(map(word, hints)), [
        (SOURCE, all_of(members)), (SOURCE, all_of(texts)), *([(SOURCE, all_of(kinds))] if kinds else []),
        (AROUND, near(text, texts, 3)), (AROUND, has(rf"^\| `?{text}`? \|")),
        (ROWS, near(text, texts, 3)), (ROWS, has(rf"^(?:type|data) {text}\b")),
    ], own)


def of_known_fields():
    """A record type whose fields are of kinds that others have: SRV."""
    return record_type("type", "a record type of known kinds of fields (SRV)", "Srv", [], [], r"/cmp_srv/")


def of_own_kind():
    """A record type whose kind of field is its own: TXT."""
    return record_type("kind", "a record type with a kind of field of its own (TXT)", "Txt", ["Strings"], ["End", "Strings", "Digest"],
                       r"^crates/dns_data/\S*(?:[Ss]tring|cmp_txt)")


def request():
    """A read request with its reply: the changes of a zone."""
    variant = r"\b(?:Query|Reading|Route|queries|readings|routes)(?:::|\.)Changes\b|\bin-Changes\b"
    declared = r"^pub(?:\(crate\))? enum (?:Query|Reading|Route) \{\n(?:[ \n].*\n|\n)*?    Changes\b"
    told = near("`changes", ["`list", "`file", "`delegations", "`changes"], 3)
    return Addition("request", "a read request with its reply (changes)", ["Changes", "changes"], rf"{variant}|/changes/|`changes\b|^changes\b", [
        (SOURCE, has(f"{variant}|{declared}")), (r"^docs/", told), (TEST, told), (AROUND, has(r"/changes/(?:FROM|\{from\})")),
        (AROUND, near("/changes", ["/updates", "/delegations", "/records", "/file", "/changes"], 8)),
        (ROWS, has(r"^\| GET \S+/changes/|^changes \S+ \S+ \d|^= \{\"changes\":")),
    ], r"^crates/office_core/(?:src|proofs)/changes[./]")


def command():
    """A command: `plan`."""
    variant = r"\b(?:Command|TextJob|StoreJob|command|text_job|store_job)(?:::|\.)Plan\b(?!\.)|^ +Plan(?:,|\(Plan<'a>\),)$"
    declared = r"^(?:pub )?mod plan;$|^pub mod Plan$|^pub use commands::\{[^}]*\bPlan\b"
    words = [one.lower() for one in variants("Command")]
    return Addition("command", "a command, beside its own module (plan)", ["Plan", "plan"], rf"{variant}|\b[Pp]lan\b|\bdo_plan\b", [
        (SOURCE, has(f"{variant}|{declared}")), (TEST, has(r'^ +"plan"|`plan CALLER`')),
        (AROUND, near("plan", words, 15)), (ROWS, has(r"^(?:job )?plan\b|^= +plan +\w")),
    ], r"^crates/(?:cli_core|cli_text|office_core|test_commands)/.*/[Pp]lan(?:s|_fault|Lemmas)?[./]")


def refusal():
    """A refusal of data: a quoted item, number 20."""
    number = r"\b20 if (?:wrongly )?quoted|\b11 to 20\b"
    return Addition("refusal", "a refusal of data (QuotedItem, 20)", ["QuotedItem", "9.20", "d 20", '"20"', "20  q", "20 if", "to 20", "(20)", "fault: 20"],
                    r"\bQuotedItem\b|\b[12]9\.20\b|\brefused 20\b|\(20\)\.?\*\*|\bfault: 20\b", [
                        (SOURCE, all_of(variants("DataFault"))), (SOURCE, has(r'^ *"20",$')), (AROUND, has(number)),
                        (ROWS, has(r"^= refused 20\b|\b20  quoted item")),
                    ], NONE)


def default():
    """A default: 30 seconds of patience."""
    stated = beside(r"\b30\b(?!\.)", r"(?i:patience|waits? for|waited for|waiting for|silent)", 80, 40)
    return Addition("default", "a default (--patience, 30)", ["30", "patience"], r"--patience\b|\bpatience_(?:of|in)\b|\bArgument::Patience\b", [
        (r"^crates/(?!test_|refuse_).*/(?:src|specs|proofs)/", stated), (SOURCE, has(r"\bpatience_in given = seconds_in 30\b")),
        (r"^(?!crates/|acceptance/|bench/)", stated), (ROWS, stated),
    ], NONE)


MAKERS = (of_known_fields, of_own_kind, request, command, refusal, default)


def is_shared(addition, path, text):
    """Whether the member is in its list here."""
    return any(re.search(where, path) and fits(text) for where, fits in addition.rules)


def counted(addition):
    """The files in which the member is in its list, those of its own, and those that name it by the way."""
    named = re.compile(addition.named, re.M)
    shared, own, others = [], [], []
    for path in files():
        if not kind_of(path):
            continue
        text = by_hand(path)
        if re.search(addition.own, path):
            own.append(path)
        elif not any(hint in text for hint in addition.hints):
            continue
        elif is_shared(addition, path, text):
            shared.append(path)
        elif named.search(text):
            others.append(path)
    if not shared:
        raise Missing(f"no file names {addition.title}")
    return Count(addition, shared, own, others)


def counts():
    """The counts of all additions."""
    return [counted(maker()) for maker in MAKERS]


def by_kind(paths):
    """How many of the files each kind has."""
    kinds = collections.Counter(kind_of(path) for path in paths)
    return {kind: kinds[kind] for kind in KINDS}

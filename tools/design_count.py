#!/usr/bin/env python3
"""design_count.py [--list]: counts the places of the sources that are written without a form that the language has.

Run at the top of a checkout. Reads the tracked crates/*/src/**/*.rt and the proof files, and prints a table in Markdown: the
point, the places, how they are counted. --list prints each place of each point too. What a rule can find is found by a rule;
what only a reader finds stands in the lists below by name, and a name that is gone counts no more.
"""

import collections
import glob
import re
import subprocess
import sys
import textwrap

NUMBER = r"(?:u8|u16|u32|u64|usize)"

# 1. Enums: an arm of one of these names, and an arm that holds a value.
ARMS = {"Accepted", "Clear", "Completed", "Denied", "Failed", "Malformed", "None", "Refused", "Shut", "Unread"}
# Fields that say which other fields of the struct mean something.
FLAGS = {
    "machine::Failure.host": "false: no address but that of a translation exception",
    "machine::Sought.stage": "None: entry means nothing",
    "storage::Segment.index": "4096: found means nothing",
    "text::Reading.failed": "failure, or text",
    "execute::Reached.shut": "the operand, or done alone",
    "interruptions::Done.register": "16: value means nothing",
    "interruptions::Frames.count": "how many of first, second mean something",
    "interruptions::Interruption.long": "address means something",
    "lap::Step.register": "16: value means nothing",
    "lap::Step.want": "a, or register and value",
    "lap::Landing.good": "at means something",
    "lap::Lap.want": "a means something",
    "special::Single.want": "a, or left and right",
    "turns::Stand.want": "a means something",
    "ticking::Step.completed": "end means something, or clock",
    "case::Input.ended": "count means something",
}
# Parameters of which the first says whether the others mean something.
BESIDE = [("timed", "residue"), ("timed", "request"), ("long", "address")]
# Constants, in groups of what they number. A pattern is of names; a name with its crate is out.
NUMBERS = [
    ("a magic value", r"NO_[A-Z_]+|NOWHERE|OUTSIDE|STOPPED|MALFORMED|listings::NOT_VALID|interruptions::NONE"),
    ("a refusal", r"WRONG_[A-Z_]+|RESERVED_USED|OUT_OF_REACH|ENTANGLED|SHORT_WORKSPACE|ALREADY_VALID|NOT_VALID|FRAME_OUTSIDE"),
    ("a kind of answer", r"REFUSED|INTERCEPTED|HOST_FAULT|BUDGET_USED|EXCEPTION|GOOD|replies::NONE"),
    ("an interruption, program or interception code", r"OPERATION|PRIVILEGED_OPERATION|(TRANSLATION_)?SPECIFICATION|PROTECTION"
        r"|ADDRESSING|SEGMENT(_TRANSLATION)?|PAGE(_TRANSLATION)?|OVERFLOW|VALIDITY|cpu::(COMPARATOR|TIMER|INTERVAL)"
        r"|charging::INTERVAL"),
    ("a kind of access", r"INSTRUCTION_FETCH|inspect::STORE"),
    ("an operation or a want", r"(lap|special|single|turns)::(DONE|JUMPED|FETCH|STORE|OTHER|SPECIAL|LAP|TESTS|AREA|CALM|CALLED"
        r"|CHANGED|DENIED|REST|SVC|LPSW|STCTL|LCTL|STCK|SPT|STPT)"),
]
NOT_NUMBERS = {"entry::PAGE"}
# Functions that answer a number past the range, or its end, for "none", without a name for it.
ENDS = ["backing::valid_pages", "backing::first_unbacked", "prefixing::excepted"]

# 2. Twins: what the functions of a group differ in, and the functions.
TWINS = [
    ("width", "words::half_at words::word_at words::double_at records::word_of records::double_of backing::bytes_at"),
    ("width", "words::put_half words::put_word words::put_double"),
    ("width", "writer::put_word_part writer::put_double_part"),
    ("width", "writer::put_word_operand writer::put_double_operand"),
    ("width", "reader::operand_word reader::operand_double reader::operand_psw"),
    ("direction", "reader::get_part writer::put_bytes"),
    ("bit of the key", "marks::mark_fetched marks::mark_stored"),
    ("bit of the key", "marks::mark_operand_fetched marks::mark_operand_stored"),
    ("sum or difference", "adder::add adder::subtract"),
    ("sum or difference", "adder::sum_overflows adder::difference_overflows"),
    ("sum or difference", "sums::add sums::subtract"),
    ("sum or difference", "registers::add registers::subtract"),
    ("sum or difference", "ahead::adds ahead::subtracts"),
    ("width of the address", "address::wrapped cpu::wrapped cpu::wrapped_xa lap::wrapped"),
    ("mode", "cpu::with_address_370 cpu::with_address_xa"),
    ("mode", "cpu::instruction_address cpu::instruction_address_xa"),
    ("mode", "cpu::advanced cpu::advanced_xa"),
    ("mode", "cpu::malformed cpu::malformed_370"),
    ("mode", "cpu::not_installed cpu::not_installed_370"),
    ("bit of control register 0", "cpu::comparator_interrupts cpu::timer_interrupts cpu::interval_interrupts"),
    ("bit of control register 0", "calm::comparator_lasting calm::timer_lasting"),
    ("one unit or many", "clocks::clock_after calm::clock_after"),
    ("one unit or many", "clocks::timer_after calm::timer_after"),
    ("one unit or many", "interval::residue_after calm::residue_after"),
    ("where the words stand", "loads::controls controls::load_words"),
    ("where the words stand", "stores::put_controls controls::store_words"),
    ("type", "cpu::range_count controls::count_of"),
    ("where the operand stands", "loads::load_control controls::load_control"),
    ("where the operand stands", "stores::store_control controls::store_control"),
    ("where the operand stands", "loads::load_psw special::load_psw"),
    ("where the operand stands", "loads::set_timer special::set_timer"),
    ("where the operand stands", "stores::store_clock special::store_clock"),
    ("where the operand stands", "stores::store_timer special::store_timer"),
    ("what is read", "loads::load loads::load_psw loads::set_timer loads::load_control"),
    ("what is stored", "stores::store stores::store_timer stores::store_clock stores::store_control"),
    ("fetch or store", "places::fetch_place places::store_place lap::load_step lap::store_step"),
    ("fetch or store", "denials::fetches denials::stores"),
    ("operand's address", "ahead::reaches_indexed ahead::reaches_based"),
    ("change", "drevokas::drevokas_add_page drevokas::drevokas_remove_page drevokas::drevokas_protect_page"),
    ("stage", "faults::host_segment faults::host_page sought::guest_segment sought::guest_page"),
    ("type", "guard::prefixed prefixing::virtual_of"),
    ("type", "guard::segment_leads guard::page_leads"),
    ("type", "guard::entry_of guard::page_of storage::page_of_found address::place_of"),
    ("type", "address::by_segment storage::segment_by_word"),
    ("type", "address::by_page storage::page_by_word tables::says_valid backing::valid_at"),
    ("type", "storage::segment_found tables::segment_at faults::host_sought"),
    ("type", "address::dat_on guard::dat_on inspect::translates prefixing::addressing_left"),
    ("type", "interval::word_in interruptions::interrupt_at"),
    ("entry's test", "inspect::translate_xa inspect::translate_other"),
    ("size of the record", "refusals::short_verdict refusals::long_verdict"),
    ("size of the record", "refusals::reserved_verdict refusals::short_reserved"),
    ("size of the record", "refusals::after_storage refusals::short_after_storage"),
    ("size of the record", "refusals::after_head refusals::short_after_head"),
    ("size of the record", "refusals::translate_verdict refusals::short_translate_verdict"),
    ("step behind", "refusals::reserved_after refusals::access_after refusals::first_refusal"),
    ("field", "records::request_of records::residue_of records::request_in records::residue_in"),
    ("text or none", "records::put_fields records::put_plain"),
    ("operation", "paging::change_accepted paging::list_accepted paging::unbacked_accepted"),
    ("operation", "paging::change paging::list paging::first_unbacked"),
    ("type of the answer", "replies::pack_call replies::pack_listing replies::pack_found inspections::pack_check"),
    ("test of a segment", "sharing::shares survey::entries_marked survey::mark_pages listings::list backing::first_unbacked"),
    ("field", "text::with_second text::with_third"),
    ("halfword", "text::fetch_second text::fetch_third"),
    ("halfword", "text::second_page text::third_page"),
    ("field", "interruptions::with_psw interruptions::with_general interruptions::with_timer interruptions::with_controls"),
    ("where the area is", "interruptions::put_areas calls::put_areas"),
    ("where the area is", "interruptions::take calls::take"),
    ("where the area is", "registers::supervisor_call calls::call"),
    ("index", "single::operand lap::total"),
    ("code", "execute::intercepts_operation exceptions::intercepted"),
    ("letter", "lines::put_refusal lines::put_end"),
    ("text", "text::unfetched unit::unfetched"),
    ("size", "cases::room case::room"),
    ("part", "cases::record_of cases::keys_of cases::storage_of"),
]

# 4. Lines that are printed by hand.
PRINTED = ["lines::put_byte", "lines::put_text", "lines::put_decimal", "lines::put_refusal", "lines::put_end",
           "lines::put_line", "case::case_line", "case::print_line"]

# 6. Functions and the parameters of which one is a buffer and another its length or the place in it, or a list that is
# searched; arrays whose entries belong together.
BUFFERS = [
    ("lines::put_byte line at", "a buffer and how much of it is used"),
    ("lines::put_text line at", "a buffer and how much of it is used"),
    ("lines::put_decimal line at", "a buffer and how much of it is used"),
    ("lines::put_refusal line", "a buffer, and the answer is how much of it is used"),
    ("lines::put_end line", "a buffer, and the answer is how much of it is used"),
    ("lines::put_line line", "a buffer, and the answer is how much of it is used"),
    ("case::case_line line", "a buffer, and the answer is how much of it is used"),
    ("case::read_input file", "a buffer, and the answer has how much of it is used"),
    ("cases::record_of file", "an array for the most bytes; record_size is beside it"),
    ("cases::keys_of count", "an array for the most bytes; count is beside it"),
    ("cases::storage_of count", "an array for the most bytes; count is beside it"),
    ("records::registers_at r a", "a slice and the place in it"),
    ("records::put_registers r a", "a slice and the place in it"),
    ("reader::get_part storage at", "a slice and the place in it"),
    ("reader::get_operand bytes count", "a buffer and a length"),
    ("writer::put_operand bytes count", "a buffer and a length"),
    ("writer::put_part storage at", "a slice and the place in it"),
    ("interruptions::put_psw part at", "a slice and the place in it"),
    ("loads::controls bytes n", "a buffer and a length"),
    ("loads::operand_controls n", "an array for the most bytes; n is beside it"),
    ("stores::put_controls bytes n", "a buffer and a length"),
    ("stores::put_control_operand n", "an array for the most bytes; n is beside it"),
    ("controls::load_words bytes n", "a buffer and a length"),
    ("controls::store_words part n", "a buffer and a length"),
    ("listings::copy_entries words at count", "a slice, the place in it and a length"),
    ("listings::show_words words at count", "a slice, the place in it and a length"),
    ("listings::hide_words words at count", "a slice, the place in it and a length"),
    ("listings::list_table words at count", "a slice, the place in it and a length"),
    ("survey::mark_entries entries count", "a buffer and a length"),
    ("decode::decode first", "a list of packed numbers, searched by an index"),
    ("pages::spare kept", "entries searched by an index"),
    ("cpu::intercepts_lctl i n", "bits searched by an index"),
    ("backing::valid_pages from count", "entries searched by an index"),
]
PARALLEL = [("kept", r"&(mut )?\[u32; 32\]", "four tables of eight in one array"), ("ones", r"&\[u32; 16\]", "beside words")]
# 7. Switches whose calls stand deeper than a rule looks.
SWITCHES = {"streaks::run_streak": "what the stand wants next", "single::with_controls": "the kind of the operation"}


class Function:
    """A function: name with its crate, place, parameters, result, clauses of the contract, body, and the body's line."""

    def __init__(self, crate, place, name, parameters, result, clauses, body, first):
        self.crate, self.place, self.short, self.name = crate, place, name, crate + "::" + name
        self.parameters, self.result, self.clauses, self.body, self.first = parameters, result, clauses, body, first

    def place_of(self, at):
        """The file and the line of a place in the body."""
        return f"{self.place.rsplit(':', 1)[0]}:{self.first + self.body.count(chr(10), 0, at)}"


def blank(text):
    """The source without comments, in as many lines; quoted characters are letters."""
    text = re.sub(r"//[^\n]*", "", text)
    text = re.sub(r"b?'(\\.|[^'\\])'", "'c'", text)
    return re.sub(r'"(\\.|[^"\\])*"', '"s"', text)


def closing(text, at):
    """The place behind the bracket that closes the one at a place."""
    depth = 0
    for i in range(at, len(text)):
        depth += (text[i] in "([{") - (text[i] in ")]}")
        if depth == 0:
            return i + 1
    return len(text)


def split(text, mark):
    """The parts of a text between marks that stand in no bracket."""
    parts, depth, last = [], 0, 0
    for i, c in enumerate(text):
        depth += (c in "([{") - (c in ")]}")
        if c == mark and depth == 0:
            parts.append(text[last:i])
            last = i + 1
    return [p for p in (" ".join(p.split()) for p in parts + [text[last:]]) if p]


def functions_in(crate, path, text):
    for m in re.finditer(r"\bfn\s+(\w+)\s*(<[^(]*>)?\s*(?=\()", text):
        end = closing(text, m.end())
        parameters = []
        for p in split(text[m.end() + 1:end - 1], ","):
            name, _, kind = p.partition(":")
            parameters.append((name.replace("mut ", "").strip(), kind.strip()))
        rest = re.compile(r"\s*(?:->\s*([^{]*?))?\s*(?=\{|;|\brequires\b|\bensures\b)").match(text, end)
        result, at, clauses = (rest[1] or "").strip() if rest else "", rest.end() if rest else end, []
        while True:
            clause = re.compile(r"\s*(requires|ensures)\b\s*(\w+)?\s*(?=\{)").match(text, at)
            if not clause:
                break
            at = closing(text, clause.end())
            clauses.append((clause[1], text[clause.end() + 1:at - 1]))
        start = text.find("{", at)
        body = text[start + 1:closing(text, start) - 1] if start >= 0 else ""
        yield Function(crate, f"{path}:{line(text, m.start())}", m[1], parameters, result, clauses, body, line(text, start))


def line(text, at):
    return text.count("\n", 0, at) + 1


def flat(text):
    return " ".join(text.split())


def parts_of(crate, path, text):
    """Constants, structs and enums: kind, name with its crate, place, what it holds."""
    for m in re.finditer(r"\b(?:const|static)\s+(\w+)\s*:\s*([^=;]+?)\s*=\s*([^;]+);", text):
        yield "const", f"{crate}::{m[1]}", f"{path}:{line(text, m.start())}", (m[2], flat(m[3]))
    for m in re.finditer(r"\b(struct|enum)\s+(\w+)[^{;(]*\{", text):
        fields = split(text[m.end():closing(text, m.end() - 1) - 1], ",")
        yield m[1], f"{crate}::{m[2]}", f"{path}:{line(text, m.start())}", [f.replace("pub ", "") for f in fields]


def tracked(pattern):
    """Files of the repository; those of out/ are copies."""
    listed = subprocess.run(["git", "ls-files"], capture_output=True, text=True)
    files = set(listed.stdout.split()) if listed.returncode == 0 else None
    found = sorted(glob.glob(pattern, recursive=True))
    return [f for f in found if f in files] if files else [f for f in found if "/out/" not in f]


def read():
    functions, parts = [], []
    for path in tracked("crates/*/src/**/*.rt"):
        crate = path.split("/")[1]
        with open(path, encoding="utf-8") as file:
            text = blank(file.read())
        short = path.replace("crates/", "", 1)
        functions += functions_in(crate, short, text)
        parts += parts_of(crate, short, text)
    return functions, parts


def own_enums(parts):
    for kind, name, place, arms in parts:
        names = {re.match(r"\w+", a)[0]: a for a in arms if re.match(r"\w", a)}
        if kind == "enum" and ARMS & set(names) and any("(" in a or "{" in a for a in names.values()):
            yield place, f"{name}: {', '.join(arms)}"


def flags(functions, parts):
    for kind, name, place, fields in parts:
        for field in fields if kind == "struct" else []:
            said = FLAGS.get(f"{name}.{field.split(':')[0].strip()}")
            if said:
                yield place, f"{name}.{field.split(':')[0]}: {said}"
    for f in functions:
        names = dict(f.parameters)
        for first, second in BESIDE:
            if names.get(first) == "bool" and second in names:
                yield f.place, f"{f.name}: {first} says whether {second} means something"


def number_constants(parts):
    for kind, name, place, held in parts:
        if kind != "const" or name in NOT_NUMBERS:
            continue
        for what, pattern in NUMBERS:
            if re.fullmatch(pattern, name) or re.fullmatch(pattern, name.split("::")[1]):
                yield place, f"{name}: {held[0]} = {held[1]}: {what}"
                break


def magic_answers(functions, parts):
    """Functions of a number whose result may be a magic value: one that names it there, or calls a function that does."""
    magic = {n for k, n, _, _ in parts if k == "const" and
             (re.fullmatch(NUMBERS[0][1], n) or re.fullmatch(NUMBERS[0][1], n.split("::")[1]))}
    found = set(ENDS)
    while True:
        more = {f.name for f in functions if re.fullmatch(NUMBER, f.result) and answers_magic(f, magic, found)}
        if more <= found:
            break
        found |= more
    for f in functions:
        if f.name in found:
            yield f.place, f"{f.name}: {f.result}"


def answers_magic(f, magic, found):
    """A result names a magic value, other than in a comparison or a division, or calls one of the functions."""
    body = re.sub(r"(<|>=|%|/|==|!=|(?<!=)>) (\w+::)?[A-Z_]{2,}\b", "", flat(f.body))
    names = {m[1]: m[2] for m in re.finditer(r"\blet (?:mut )?(\w+)[^=]*= ([^;]*);", body)}
    results = re.findall(r"\breturn ([^;]*);", body) + [re.split(r"[;}]", body)[-1]] + re.findall(r"=> ([^,{]*),", body)
    results += [names[r.strip()] for r in results if r.strip() in names]
    for r in results:
        for name in re.finditer(r"((?:\w+::)?)(\w+)", r):
            full = (name[1].rstrip(":") or f.crate) + "::" + name[2]
            if full in magic or full in found and not name.start() and r[name.end():].startswith("("):
                return True
    return False


def listed_twins(functions):
    by = {f.name: f for f in functions}
    for what, names in TWINS:
        there = [n for n in names.split() if n in by]
        if len(there) > 1:
            yield by[there[0]].place, f"{', '.join(there)}: {what}", len(there)


def alike(functions):
    """Groups of functions with one body: of one name or another, but for types and numbers."""
    groups = collections.defaultdict(list)
    for f in functions:
        body = re.sub(r"\b%s\b" % NUMBER, "N", flat(f.body))
        body = re.sub(r"\b(0x)?[0-9][0-9a-f_]*\b", "0", body)
        for i, (name, _) in enumerate(f.parameters):
            body = re.sub(r"\b%s\b" % re.escape(name), f"p{i}", body)
        groups[(len(f.parameters), body)].append(f)
    for fs in groups.values():
        names = {f.short for f in fs}
        if len(fs) > 1 and (len(names) == 1 or len(flat(fs[0].body)) >= 40):
            yield fs[0].place, ", ".join(f.name for f in fs), len(fs)


def value(text):
    plain = text.replace("_", "")
    return str(int(plain, 0)) if re.fullmatch(r"0x[0-9a-fA-F]+|[0-9]+", plain) else text


def twin_constants(parts):
    groups = collections.defaultdict(list)
    for kind, name, place, held in parts:
        if kind == "const":
            groups[(name.split("::")[1], value(held[1]))].append((place, name, held[0]))
    for (name, held), cs in sorted(groups.items()):
        if len(cs) > 1:
            yield cs[0][0], f"{name} = {held}: {', '.join(n.split('::')[0] + ' (' + t + ')' for _, n, t in cs)}", len(cs)


def loops(functions, counted):
    for f in functions:
        for m in re.finditer(r"\bwhile\s+([^{]*)\{", f.body):
            body = f.body[m.end():closing(f.body, m.end() - 1)]
            tested = [w for w in re.findall(r"\b[a-z_]\w*\b", m[1])]
            by_hand = any(re.search(r"\b%s [+-]= 1;" % w, body) for w in tested)
            if by_hand == counted:
                yield f.place_of(m.start()), f"{f.name}: while {flat(m[1])}"


def matches(body):
    """The arms of each match: pattern and what it answers."""
    for m in re.finditer(r"\bmatch\s+[^{]*\{", body):
        inside = body[m.end():closing(body, m.end() - 1) - 1]
        arms, at = [], 0
        while True:
            arrow = inside.find("=>", at)
            if arrow < 0:
                break
            start = arrow + 2 + len(inside[arrow + 2:]) - len(inside[arrow + 2:].lstrip())
            if inside[start:start + 1] == "{":
                end = closing(inside, start)
            else:
                end, depth = start, 0
                while end < len(inside) and (depth or inside[end] != ","):
                    depth += (inside[end] in "([{") - (inside[end] in ")]}")
                    end += 1
            arms.append((flat(inside[at:arrow]).lstrip(", "), flat(inside[start:end]).strip("{} ")))
            at = end + 1 if inside[end:end + 1] == "," else end
        yield arms


def conversions(functions):
    for f in functions:
        for arms in matches(f.body):
            left = [a[0] for a in arms if a[0] != "_"]
            right = [a[1] for a in arms]
            if len(arms) > 1 and all(re.match(r"\w+::\w+", p) for p in left) and all(re.fullmatch(r"[0-9]+", r) for r in right):
                yield f.place, f"{f.name}: a number for each arm of an enum"
            elif len(left) > 1 and all(re.fullmatch(r"[0-9a-fx_]+", p) for p in left) and \
                    all(re.fullmatch(r"\w+::\w+|[A-Z_]+|of_\w+\(\w+\)", r) for r in right):
                yield f.place, f"{f.name}: an arm, or a number with a name, for each number"
            elif len(arms) > 1 and set(right) == {"true", "false"}:
                yield f.place, f"{f.name}: a match that is matches!"
        if re.fullmatch(r"\s*\w+ as \w+\s*", f.body):
            yield f.place, f"{f.name}: a name for `as`"


def handed_on(functions):
    shut = "Refused|Failed|Unread|Denied|Shut|Malformed|Excepted"
    for f in functions:
        for arms in matches(f.body):
            for pattern, answer in arms:
                if re.fullmatch(r"\w+::(%s)\((\w+)\)" % shut, pattern) and \
                        re.fullmatch(r"(return )?\w+::(%s)\(\w+\);?" % shut, answer):
                    yield f.place, f"{f.name}: {pattern} => {answer}"


def own_logic(functions):
    """Functions of a bool with a constant that is returned early, and those that are an operator."""
    for f in functions:
        early = len(re.findall(r"\breturn (?:true|false);", f.body))
        if f.result == "bool" and (early or f.short in ("both", "either")):
            yield f.place, f"{f.name}: {early} early", max(early, 1)
        elif f.result == "bool" and re.fullmatch(r"if (\w+) \{ return .*; \} (true|false)", flat(f.body)):
            yield f.place, f"{f.name}: an operator", 1


def paths(functions):
    for f in functions:
        for m in re.finditer(r"\bstd::num::(\w+)\(", f.body):
            yield f.place, f"{f.name}: std::num::{m[1]}"


def least(functions):
    for f in functions:
        if re.search(r"if (\w+) < (\w+) \{ return \1; \} \2 ?$", flat(f.body)) or \
                re.search(r"if (.+) < (\w+) \{ return \1; \} \2 ?$", flat(f.body)):
            yield f.place, f"{f.name}: min"


def copies(functions):
    """Literals of structs with two or more fields that are those of one value."""
    for f in functions:
        for m in re.finditer(r"\b([A-Z]\w*(?:::\w+)?)\s*\{(?=\s*\w+\s*[:,])", f.body):
            fields = split(f.body[m.end():closing(f.body, m.end() - 1) - 1], ",")
            parted = [re.fullmatch(r"(\w+): ((?:\w+\.)*\w+)\.(\w+)", field) for field in fields]
            for source, n in collections.Counter(x[2] for x in parted if x and x[1] == x[3]).items():
                if n > 1:
                    yield f.place, f"{f.name}: {m[1]}, {n} fields of {source}"


def by_bytes(functions):
    for f in functions:
        body = flat(f.body)
        if re.search(r"\[[^]]*\+ 1\]", body) and re.search(r"[*/] (256|65536)\b", body):
            yield f.place, f"{f.name}: bytes put together or taken apart"


def printed(functions):
    for f in functions:
        if f.name in PRINTED:
            yield f.place, f.name


def facts(functions):
    found = collections.defaultdict(list)
    for f in functions:
        mine = set()
        for kind, text in f.clauses:
            for fact in split(text, "×"):
                fact = re.sub(r"\.(old|now)\b", "", fact)
                while fact.startswith("(") and closing(fact, 0) == len(fact):
                    fact = fact[1:-1].strip()
                mine.add((kind, fact))
        for fact in mine:
            found[fact].append(f)
    for (kind, fact), fs in sorted(found.items(), key=lambda x: (-len(x[1]), x[0])):
        if len(fs) > 2:
            yield fs[0].place, f"{kind} {fact}: {len(fs)} ({', '.join(sorted({f.crate for f in fs}))})", len(fs)


def parameter_groups(functions):
    """Sets of three or more parameters that stand together in three or more functions: of all such sets again and again the one
    with the most parameters in all its functions, which then are out, so that a function counts once."""
    left = {f: frozenset(f.parameters) for f in functions if len(f.parameters) > 2}
    groups = set(left.values())
    while True:
        more = {a & b for a in groups for b in set(left.values()) if len(a & b) > 2} - groups
        if not more:
            break
        groups |= more
    while True:
        users = {g: sum(g <= p for p in left.values()) for g in groups}
        groups = {g for g in groups if users[g] > 2}
        if not groups:
            break
        best = max(groups, key=lambda g: (users[g] * len(g), sorted(g)))
        fs = [f for f in left if best <= left[f]]
        order = [n + ": " + t for n, t in fs[0].parameters if (n, t) in best]
        yield fs[0].place, f"{', '.join(order)}: {', '.join(f.name for f in fs)}", len(fs)
        for f in fs:
            del left[f]


def buffers(functions):
    by = {f.name: f for f in functions}
    for named, what in BUFFERS:
        name, *wanted = named.split()
        if name in by and set(wanted) <= {n for n, _ in by[name].parameters}:
            yield by[name].place, f"{name} ({', '.join(wanted)}): {what}"


def parallel(functions):
    for f in functions:
        for name, kind in f.parameters:
            for wanted, pattern, what in PARALLEL:
                if name == wanted and re.fullmatch(pattern, kind):
                    yield f.place, f"{f.name}: {name}, {what}"


def switches(functions):
    call = r"(?:return )?([a-z_]\w*(?:::\w+)?)\((.*)\);?"
    for f in functions:
        chains = [[a[1] for a in arms] for arms in matches(f.body)]
        ends = re.findall(r"\bif [^{]*\{ return ([^;{}]*); \}", flat(f.body))
        tail = re.split(r"[;}]", flat(f.body))[-1].strip()
        chains.append(ends + ([tail] if ends and tail else []))
        for chain in chains:
            calls = [re.fullmatch(call, c, re.S) for c in chain]
            calls = [(c[1], split(c[2], ",")) for c in calls if c]
            same = [c for c in calls if any(c[0] != d[0] and len({*c[1]} & {*d[1]}) >= max(2, len(c[1]) - 1) for d in calls)]
            if len({c[0] for c in same}) > 1:
                yield f.place, f"{f.name}: {', '.join(sorted({c[0] for c in same}))}"
        if f.name in SWITCHES:
            yield f.place, f"{f.name}: {SWITCHES[f.name]}"


def tables_of_functions(functions, parts):
    for kind, name, place, held in parts:
        if kind == "const" and re.search(r"\[\s*fn\b|\bfn\s*\(", held[0]):
            yield place, name


def proofs():
    counts = collections.defaultdict(lambda: collections.defaultdict(lambda: [0, 0]))
    for path in tracked("crates/*/proofs/**/*.antt"):
        name = path.rsplit("/", 1)[1]
        kind = name if name in ("Answers.antt", "Invariants.antt", "Proof.antt") else "others"
        with open(path, encoding="utf-8") as file:
            n = sum(1 for _ in file)
        for crate in (path.split("/")[1], "all"):
            counts[crate][kind][0] += 1
            counts[crate][kind][1] += n
    return counts


def three(found):
    return [x if len(x) == 3 else (*x, 1) for x in found]


def points(functions, parts):
    """Number of the point, what is counted, how, the places."""
    return [
        ("1", "own enums of the shape of Option or Result", "enums with an arm of the names in ARMS and an arm with a value",
         own_enums(parts)),
        ("1", "a flag with a value beside it", "fields in FLAGS; functions with the parameters in BESIDE",
         flags(functions, parts)),
        ("1", "numbers for kinds, refusals, codes, magic values", "constants whose names are in NUMBERS",
         number_constants(parts)),
        ("1", "functions that answer a number with a magic value", "the result names one, or calls such a function; ENDS",
         magic_answers(functions, parts)),
        ("2", "twins: functions that differ in a type, a size, a constant", "groups in TWINS, functions in them",
         listed_twins(functions)),
        ("2", "functions of one body", "functions whose bodies are one but for types and numbers", alike(functions)),
        ("2", "constants of one name and value", "constants that stand in two crates or more", twin_constants(parts)),
        ("3", "loops that count an index by hand", "`while` whose tested variable goes up or down by 1",
         loops(functions, True)),
        ("3", "other loops by `while`", "all others", loops(functions, False)),
        ("4", "conversion and equality by hand", "matches of an enum and numbers or of bools; a name for `as`",
         conversions(functions)),
        ("4", "a refusal handed on by a match", "arms that answer with what they match, where `?` would", handed_on(functions)),
        ("4", "`&&` and `||` by hand", "early `return true` and `return false` of functions of a bool; operators",
         own_logic(functions)),
        ("4", "arithmetic by the path of its function", "calls of `std::num::`", paths(functions)),
        ("4", "`min` by hand", "`if a < b { return a; } b`", least(functions)),
        ("4", "copying by hand", "literals with two or more fields of one value", copies(functions)),
        ("4", "bytes of words by hand", "functions with `[a + 1]` and 256 or 65536", by_bytes(functions)),
        ("4", "printing by hand", "functions in PRINTED", printed(functions)),
        ("5", "facts in three or more contracts", "clauses split at ×, without `.old` and `.now`; contracts with them",
         facts(functions)),
        ("5", "parameters that travel together", "sets of three or more that three or more functions share",
         parameter_groups(functions)),
        ("6", "buffers with a length or a place beside, lists searched by hand", "functions in BUFFERS", buffers(functions)),
        ("6", "parallel arrays", "parameters in PARALLEL", parallel(functions)),
        ("7", "switches on which step to run", "arms or early returns that call different functions with the same arguments",
         switches(functions)),
        ("7", "tables of functions", "constants of functions", tables_of_functions(functions, parts)),
    ]


def main():
    functions, parts = read()
    counted = [(n, what, how, three(found)) for n, what, how, found in points(functions, parts)]
    print("| Point | What | Places | How counted |")
    print("|---|---|---|---|")
    for number, what, how, found in counted:
        total = sum(x[2] for x in found)
        shown = str(total) if total == len(found) else f"{total} in {len(found)}"
        print(f"| {number} | {what} | {shown} | {how} |")
    counts = proofs()
    kinds = ("Answers.antt", "Invariants.antt", "Proof.antt", "others")
    for kind in kinds:
        print(f"| 8 | proof files: {kind} | {counts['all'][kind][0]}, {counts['all'][kind][1]} lines | files of proofs/ |")
    if sys.argv[1:] != ["--list"]:
        return
    wrapped = textwrap.TextWrapper(128, subsequent_indent="  ", break_long_words=False, break_on_hyphens=False)
    for number, what, how, found in counted:
        print(f"\n### {number}. {what[0].upper()}{what[1:]}\n")
        for place, said, _ in found:
            print(wrapped.fill(f"- `{place}` {said}"))
    print("\n### 8. Proof files, by crate: files and lines\n")
    print("| Crate | " + " | ".join(kinds) + " |\n|---|---|---|---|---|")
    for crate in sorted(c for c in counts if c != "all"):
        print(f"| {crate} | " + " | ".join(", ".join(map(str, counts[crate][k])) for k in kinds) + " |")


if __name__ == "__main__":
    if sys.argv[1:] not in ([], ["--list"]):
        sys.exit(__doc__)
    main()

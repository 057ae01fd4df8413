"""Differences that are known, by a machine's version, each looked into by hand, and how to tell a case of
each. docs/conformance.md has a table of them, with the sections of the standard that decide.
"""
import judge
from nesthv_tools.csrs import NUMBERS as CSRS

IMPLICIT = "3000"


def codes(found):
    return judge.outcome_of(found.expected), judge.outcome_of(found.actual)


def value(values, name):
    return int(values.get(name, values.get("~" + name, "0")), 16)


def is_class(found, *names):
    return judge.class_of(found.head.split()[0]) in names


def status(found, name):
    words = found.head.split()
    return int(words[words.index(name) + 1], 16) if name in words else 0


def reads_first(found):
    expected, actual = codes(found)
    return is_class(found, "amo") and expected in ("7", "15", "23") and actual in ("5", "13", "21")


def uses(found):
    """The two accesses of a case of `fences`, or nothing."""
    words = found.head.split()
    return words[2:4] if words[3:5] and words[4] == "level" else []


def has_access_code(found):
    is_first = [name for name, _, _ in found.values] == ["first"] and uses(found)[:1] == ["hlv"]
    is_second = is_class(found, "hlv", "hlvx", "hsv") or uses(found)[1:] == ["hlv"]
    return is_first and value(found.actual, "first") == 0x500 or (
        is_second and codes(found) in (("13", "5"), ("15", "7")))


def has_guest_code(found):
    return codes(found) in (("5", "21"), ("7", "23"), ("1", "20"), ("7", "21"))


def refuses_top_bit(found):
    htval_bit = (49 if "sv48x4" in found.head.split() else 40) - 2
    return codes(found)[1] in ("20", "21", "23") and value(found.actual, "htval") >> htval_bit & 1 == 1 and (
        value(found.expected, "htval") == 0)


def has_load_code(found):
    return codes(found) in (("20", "21"), ("23", "21")) and found.expected.get("~htinst") == IMPLICIT


def reads_tables_by_mxr(found):
    return found.expected.get("~htinst") == IMPLICIT and status(found, "vsstatus") & 1 << 19 != 0


def takes_other_mxr(found):
    has_mxr = (status(found, "sstatus") | status(found, "vsstatus")) & 1 << 19 != 0
    return is_class(found, "load", "lr", "hlv") and has_mxr and codes(found) in (
        ("done", "13"), ("done", "5"), ("done", "21"), ("21", "done"), ("21", "13"), ("21", "5"), ("5", "13"))


def leaves_out_guest_mxr(found):
    return found.head.split()[0] == "flag" and uses(found)[1:] == ["hlv"] and codes(found) == ("done", "5")


def wants_read(found):
    return is_class(found, "hlvx") and codes(found) in (
        ("done", "5"), ("done", "21"), ("13", "done"), ("13", "21"), ("21", "done"), ("21", "5"))


def leaves_out_sum(found):
    return is_class(found, "hlv", "hlvx", "hsv") and codes(found)[0] in ("13", "15") and (
        codes(found)[1] in ("done", "5", "7", "21", "23")) and status(found, "vsstatus") & 1 << 18 == 0 and (
        status(found, "hstatus") & 1 << 8 != 0)


def number_of(words):
    """The number of the register that a case names, or 0."""
    if words[2:3] == ["register"]:
        return int(words[3], 16)
    return int(words[3], 16) >> 20 if words[0].startswith("csrr") and words[2:3] == ["word"] else 0


def register_of(found):
    """The number of the register that a case reaches, or 0; those of S are those of VS in VS and VU."""
    words = found.head.split()
    number = number_of(words)
    return number + 0x100 if number >> 8 == 1 and words[1] in ("VS", "VU") else number


def is_illegal_in_vu(found):
    words = found.head.split()
    return words[1:2] == ["VU"] and number_of(words) >> 8 == 1 and codes(found) == ("22", "2")


def holds_more(found):
    names = {name.lstrip("~") for name, _, _ in found.values}
    return register_of(found) == CSRS["vsstatus"] and names <= {"reads", "other", "holds", "besides", "before"}


def written(found):
    """The name of the interrupt register that a case of `aliases` writes, or an empty text."""
    words = found.head.split()
    return {("VS", "sie"): "vsie", ("VS", "sip"): "vsip"}.get((words[1], words[2]), words[2])


def sets_bit_below(found):
    names = {name for name, _, _ in found.values}
    if register_of(found) in (CSRS["vsie"], CSRS["vsip"]):
        is_one = names <= {"holds", "~besides"}
    else:
        is_one = written(found) in ("vsie", "vsip") and names & {"hie", "hip"} and names <= {
            "hie", "vsie", "hip", "hvip", "vsip", "reads", "cause", "epc", "vscause", "vsepc"}
    return is_one and status(found, "value") & 0x444 != 0


def hides_pending(found):
    names = {name for name, _, _ in found.values}
    return names and names <= {"vsip", "reads"} and value(found.actual, "vsip") & 0x220 == 0


def takes_lowest(found):
    expected, actual = codes(found)
    return expected[0] == "i" == actual[0] and int(actual[1:]) < int(expected[1:])


def has_older_word(found):
    return codes(found) in (("2", "2"), ("22", "22")) and is_class(found, "hlv", "hlvx", "hsv") and (
        [name for name, _, _ in found.values] in (["tval"], ["vstval"]))


def has_code_below(found):
    return value(found.actual, "vscause") == 1 and codes(found)[0] in ("2", "22") and (
        status(found, "hedeleg") & 4 != 0)


def is_illegal_instruction_in_vu(found):
    return found.head.split()[1:2] == ["VU"] and codes(found) == ("22", "2") and (
        found.head.split()[0] in ("sret", "sfence.vma", "hfence.vvma", "hfence.gvma"))


def has_code_of_other_mode(found):
    return is_class(found, "hlv", "hlvx", "hsv") and codes(found) in (("2", "22"), ("22", "2"))


def leaves_out_vtvm(found):
    return found.head.split()[1:4] == ["VS", "register", "180"] and codes(found) == ("22", "done")


def keeps_old_root(found):
    names = [name for name, _, _ in found.values]
    return found.head.split()[0] == "bare" and uses(found)[1:] == ["hlv"] and names == ["seen"]


def writes_and_fails(found):
    words = found.head.split()
    return words[0] == "size" and words[3:7] == ["bytes", "8", "bytes", "4"] and (
        value(found.actual, "agrees") == 0 and value(found.actual, "failed") == 1)


def reads_through_second_stage(found):
    is_at_data = found.expected.get("~htinst") != IMPLICIT
    return is_class(found, "amo") and is_at_data and codes(found) in (("15", "23"), ("15", "7"), ("23", "7"))


def reads_executable_tables(found):
    """Not a fault: 8.5.1 has implicit reads checked as though for a load, and leaves open whether MXR counts."""
    return found.expected.get("~htinst") == IMPLICIT and status(found, "sstatus") & 1 << 19 != 0


def has_fetch_code(found):
    return is_class(found, "hlvx") and codes(found) in (("13", "12"), ("21", "12"), ("5", "1"))


def refuses_user_pages(found):
    return is_class(found, "hlvx") and codes(found) in (("done", "12"), ("5", "12")) and (
        status(found, "vsstatus") & 1 << 18 != 0 and status(found, "hstatus") & 1 << 8 != 0)


def clears_gva(found):
    return is_class(found, "ebreak") and [name for name, _, _ in found.values] == ["hstatus"] and (
        value(found.expected, "hstatus") ^ value(found.actual, "hstatus") == judge.GVA)


def has_older_word_of_mret(found):
    return is_class(found, "mret") and [name for name, _, _ in found.values] in (["tval"], ["vstval"])


def is_illegal_sret_in_vu(found):
    return found.head.split()[:2] == ["sret", "VU"] and (
        2 in (value(found.actual, "cause"), value(found.actual, "vscause")))


def shows_more_of_hvip(found):
    names = {name.lstrip("~") for name, _, _ in found.values}
    if register_of(found) == CSRS["hvip"]:
        return names <= {"reads", "other", "holds", "besides", "before"}
    return names <= {"hvip", "reads"} and value(found.expected, "hvip") ^ value(found.actual, "hvip") == 2


def shows_timer(found):
    names = {name.lstrip("~") for name, _, _ in found.values}
    bit = {CSRS["vsip"]: 0x20, CSRS["hip"]: 0x40}.get(register_of(found), 0)
    return names <= {"reads", "holds", "before", "besides"} and (
        (value(found.actual, "reads") | value(found.actual, "holds")) & bit != 0)


REASONS = {
    "QEMU 7.2": [
        ("amo", reads_first), ("hlv-code", has_access_code), ("guest-code", has_guest_code),
        ("top-bit", refuses_top_bit), ("implicit", has_load_code), ("hlv-sum", leaves_out_sum),
        ("mxr", takes_other_mxr), ("mxr", reads_tables_by_mxr), ("hlvx", wants_read),
        ("vu", is_illegal_in_vu), ("vsstatus", holds_more), ("vsip", hides_pending), ("vsie", sets_bit_below),
        ("priority", takes_lowest), ("stval", has_older_word), ("code-1", has_code_below),
        ("vu", is_illegal_instruction_in_vu), ("old-block", has_code_of_other_mode),
        ("vtvm", leaves_out_vtvm), ("mxr", leaves_out_guest_mxr), ("vsatp", keeps_old_root),
        ("sc-size", writes_and_fails)],
    "QEMU 10.0": [
        ("amo-stage", reads_through_second_stage), ("hlvx-code", has_fetch_code),
        ("hlvx-sum", refuses_user_pages), ("mxr", reads_executable_tables), ("gva", clears_gva),
        ("stval", has_older_word_of_mret),
        ("vu", is_illegal_sret_in_vu), ("vu", is_illegal_in_vu),
        ("hvip", shows_more_of_hvip), ("vstip", shows_timer), ("vsie", sets_bit_below),
        ("priority", takes_lowest), ("vsstatus", holds_more), ("sc-size", writes_and_fails)]}


def reason(machine, found):
    """The name of the known difference that this is one of, or an empty text."""
    for version, reasons in REASONS.items():
        if machine.startswith(version + "."):
            return next((name for name, is_one in reasons if is_one(found)), "")
    return ""

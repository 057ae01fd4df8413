"""What `look` shows of states, as values for JSON and as lines."""
import struct
from collections.abc import Iterator
from typing import Any

from nesthv_tools import registers, reports, saves, walks
from nesthv_tools.guest_runs import Guest
from nesthv_tools.symbols import Disassembler
from nesthv_tools.world_symbols import Symbols

Value = dict[str, Any]

CSRS = list(saves.REGISTERS)
NEAR = 256  # bytes of instructions that are put into words at once


def instruction_of(saved: saves.Saved, symbols: Symbols, disassembler: Disassembler) -> Value:
    """The next instruction of a state: its word, its symbol and its text, or why it cannot be fetched."""
    pc = saved.numbers["pc"]
    word, physical, why = walks.fetched(saved)
    if word is None or physical is None:
        return {"word": None, "symbol": "", "text": "", "why": why}
    if word not in disassembler.known:
        disassembler.learn([word, *words_near(saved, physical)])
    return {"word": word, "symbol": symbols.symbol_of(word, pc, physical, saved.mode()),
            "text": disassembler.text_of(word, pc), "why": ""}


def words_near(saved: saves.Saved, physical: int) -> list[int]:
    """The words around one in RAM that are instructions of 32 bits by their length: the next steps may need
    them."""
    at = (physical - saves.RAM) // NEAR * NEAR
    words = struct.unpack(f"<{NEAR // 4}I", saved.ram[at:at + NEAR])
    return [word for word in words if word & 3 == 3 and word & 28 != 28]


def line_of_instruction(pc: int, found: Value) -> str:
    """The place of an instruction and the instruction, in words."""
    if found["word"] is None:
        return f"{pc:016x}  cannot be fetched: {found['why']}"
    return "  ".join(filter(None, [f"{pc:016x}", found["symbol"], f"{found['word']:08x}", found["text"]]))


def state_of(saved: saves.Saved, guest: Guest, symbols: Symbols, disassembler: Disassembler) -> Value:
    """All of a state but its RAM."""
    number = saved.numbers
    stale = walks.stale_entries(saved)
    first = {"entries": len(saved.first), "stale": len(walks.stale_first_entries(saved))}
    return {
        "guest": guest.name, "step": number["steps"], "status": saves.STATUSES[number["status"]],
        "mode": saved.mode(), "V": int(saved.mode() in ("VS", "VU")), "pc": number["pc"],
        "instruction": instruction_of(saved, symbols, disassembler), "clock": number["clock"],
        "timer": None if number["timer"] == registers.NEVER else number["timer"],
        "pending": dict(registers.lines_of_pending(saved)),
        "registers": {registers.INTEGER[index]: number[f"x{index}"] for index in range(1, 32)},
        "csrs": {name: {"value": number[name], "meaning": registers.meaning_of(name, number[name])}
                 for name in CSRS},
        "reservation": {"address": number["reservation address"], "width": number["reservation width"]}
        if number["reservation width"] else None,
        "device": number["device"], "console": saved.console.decode("latin-1"),
        "unread_inputs": len(saved.inputs),
        "next_input": list(saved.inputs[0]) if saved.inputs else None,
        "spaces": [{"key": key, "entries": len(entries), "stale": sum(each[0] == key for each in stale)}
                   for key, entries in saved.spaces],
        "first_stage": first if saved.has_first() else None}


def lines_of_registers(values: dict[str, int]) -> list[str]:
    cells = [f"{name:>4} {value:016x}" for name, value in values.items()]
    return ["  ".join(cells[at:at + 4]) for at in range(0, len(cells), 4)]


def lines_of_state(state: Value) -> list[str]:
    timer = "none" if state["timer"] is None else state["timer"]
    comes = f"{state['next_input'][1]} at {state['next_input'][0]}" if state["next_input"] else "none"
    lines = [f"{state['guest']} at step {state['step']}: {state['status']} in {state['mode']}, V = "
             f"{state['V']}",
             "pc " + line_of_instruction(state["pc"], state["instruction"]),
             f"clock {state['clock']}, timer {timer}, unread inputs {state['unread_inputs']}, next {comes}"]
    lines += [f"pending {name}: {words}" for name, words in state["pending"].items()] \
        or ["nothing is pending"]
    lines += lines_of_registers(state["registers"])
    lines += [f"{name:<10} {each['value']:016x}  {each['meaning']}".rstrip()
              for name, each in state["csrs"].items()]
    if state["reservation"]:
        lines.append(f"reservation of {state['reservation']['width']} bytes at "
                     f"{state['reservation']['address']:x}")
    lines += [f"space {each['key']:016x}: {each['entries']} entries, {each['stale']} stale"
              for each in state["spaces"]]
    if state["first_stage"]:
        first = state["first_stage"]
        lines.append(f"first stage: {first['entries']} entries, {first['stale']} stale")
    lines.append(f"device page at {saves.DEVICE:x}" if state["device"] else "no device page")
    console = state["console"].encode("latin-1")
    return [*lines, f"console {len(console)} bytes: {reports.quoted(console)}"]


def fault_words(answer: walks.Answer, kind: str) -> str:
    """What a refused access comes to, in words."""
    code = walks.CODES[answer.fault][kind]
    return f"{registers.EXCEPTIONS[code]} ({code})"


def device_of(answer: walks.Answer, kind: str) -> Value | None:
    """Where on the device page an access leads, and what is served there, in words; or none."""
    if answer.device is None:
        return None
    width, does = walks.SERVED.get((kind, answer.device), (0, ""))
    other = walks.CODES["access"][kind]
    words = does and f"of {width} byte{'s' * (width > 1)} it {does}, and any other is a " \
        f"{registers.EXCEPTIONS[other]} ({other})"
    return {"offset": answer.device, "bytes": width, "words": words}


def met_of(met: walks.Met) -> Value:
    """An entry that a walk met."""
    return {"level": met.level, "place": met.place, "value": met.value,
            "bits": None if met.value is None else walks.letters_of(met.value),
            "frame": None if met.value is None else walks.frame_of(met.value) << 12, "wrong": met.wrong,
            "reached": second_of(met.reached) if met.reached else None}


def walk_of(walk: walks.Walk | None) -> Value | None:
    return {"entries": [met_of(met) for met in walk.met], "wrong": walk.wrong} if walk else None


def second_of(second: walks.Second) -> Value:
    """A guest physical address at the second stage."""
    cached = second.cached and {"frame": second.cached[0] << 12, "rights": walks.rights_of(second.cached[1]),
                                "level": second.cached[1] >> 3, "stale": second.stale}
    return {"address": second.address, "walk": walk_of(second.walk), "cached": cached}


def first_cached_of(translation: walks.Translation) -> Value | None:
    """The cached translation of the first stage, and the second stage of what it gives, where the walk gives
    another address."""
    if not translation.cached:
        return None
    (frame, flags), second = translation.cached, translation.cached_second
    return {"frame": frame << 12, "rights": walks.first_rights_of(flags), "level": flags >> 3 & 3,
            "stale": translation.stale,
            "second": second_of(second) if second is not None and second is not translation.second else None}


def translation_of(translation: walks.Translation, saved: saves.Saved) -> Value:
    """An address as a mode sees it."""
    view = translation.view
    answers = {kind: {"address": answer.address, "cached": answer.is_cached,
                      "first_cached": answer.by_first, "wrong": answer.wrong,
                      "fault": fault_words(answer, kind) if answer.wrong else "",
                      "device": device_of(answer, kind)}
               for kind, answer in translation.answers.items()}
    return {"address": translation.address, "mode": view.mode, "step": saved.numbers["steps"],
            "first": {"table": registers.translation_of("vsatp" if view.is_nested else "satp", view.atp),
                      "walk": walk_of(translation.first), "cached": first_cached_of(translation)},
            "second": {"table": registers.translation_of("hgatp", saved.numbers["hgatp"]),
                       **(second_of(translation.second) if translation.second else {})}
            if view.is_nested else None, "answers": answers}


def lines_of_met(met: Value, indent: int) -> Iterator[str]:
    front = f"{' ' * indent}level {met['level']}  {met['place']:x}"
    if met["reached"]:
        yield from lines_of_second(met["reached"], indent + 4, f"entry at guest physical {met['place']:x}")
    if met["value"] is None:
        yield f"{front}  {met['wrong']}"
        return
    line = f"{front}  {met['value']:016x}  {met['bits']}  {met['frame']:x}"
    yield line + (f"  not usable: {met['wrong']}" if met["wrong"] else "")


def lines_of_walk(walk: Value, indent: int) -> Iterator[str]:
    if walk["wrong"] and not walk["entries"]:
        yield f"{' ' * indent}no walk: {walk['wrong']}"
    for met in walk["entries"]:
        yield from lines_of_met(met, indent)


def shown_page(frame: int) -> str:
    """What stands after the address of a frame that is cached, where it is the device page: a guest without
    the page has no such frame."""
    return "  the device page" if frame == saves.DEVICE else ""


def lines_of_second(second: Value, indent: int, what: str) -> Iterator[str]:
    yield f"{' ' * indent}{what}, second stage:"
    if second["walk"] is None:
        yield f"{' ' * indent}  Bare"
        return
    yield from lines_of_walk(second["walk"], indent + 2)
    cached = second["cached"]
    if cached:
        yield f"{' ' * indent}  cached   {second['address'] >> 12 << 12:x} -> {line_of_cached(cached)}"


def line_of_cached(cached: Value) -> str:
    """Where a cached translation leads, and how it is stale."""
    return f"{cached['frame']:x} {cached['rights']} level {cached['level']}" + shown_page(cached["frame"]) \
        + (f"  stale: {cached['stale']}" if cached["stale"] else "")


def lines_of_translation(found: Value) -> list[str]:
    lines = [f"{found['address']:x} in {found['mode']} at step {found['step']}",
             f"first stage: {found['first']['table']}"]
    if found["first"]["walk"]:
        lines += lines_of_walk(found["first"]["walk"], 2)
    cached = found["first"]["cached"]
    if cached:
        lines.append(f"  cached   {found['address'] >> 12 << 12:x} -> {line_of_cached(cached)}")
    second = found["second"]
    if second:
        lines.append(f"second stage: {second['table']}")
        if cached and cached["second"]:
            what = f"guest physical {cached['second']['address']:x}, as cached"
            lines += lines_of_second(cached["second"], 2, what)
        if "address" in second:
            lines += lines_of_second(second, 2, f"guest physical {second['address']:x}")
    for kind, answer in found["answers"].items():
        if answer["wrong"]:
            lines.append(f"{kind}: {answer['fault']}: {answer['wrong']}")
        else:
            place = f"{answer['address']:x}{by_what(answer)}"
            lines.append(f"{kind}: {place}{line_of_device(answer['device'])}")
    return lines


def by_what(answer: Value) -> str:
    """By which cached translations an access goes, after its address."""
    if answer["first_cached"] and answer["cached"]:
        return ", by the cached translations of both stages"
    if answer["first_cached"]:
        return ", by the cached translation of the first stage"
    return ", by the cached translation" if answer["cached"] else ""


def line_of_device(device: Value | None) -> str:
    """What is served at a place of the device page, after its address."""
    return f", on the device page, offset {device['offset']:x}: {device['words']}" if device else ""


def ranges_of(found: walks.Map) -> list[Value]:
    return [{"start": each.start, "size": each.size, "to": each.to, "rights": each.rights,
             "wrong": each.wrong, "is_device": each.is_device} for each in found.ranges]


def maps_of(saved: saves.Saved) -> Value:
    """The address spaces: that of HS, that of each hgatp that is cached or set, and that of VS."""
    number = saved.numbers
    stale = walks.stale_entries(saved)
    keys = [key for key, _ in saved.spaces]
    keys += [number["hgatp"]] if number["hgatp"] and number["hgatp"] not in keys else []
    made = [map_of("HS and U", "satp", number["satp"], walks.map_of(saved, number["satp"]))]
    made[0].update(first_of(saved, (0, 0, number["satp"])))
    for key in keys:
        each = map_of("guest physical", "hgatp", key, walks.map_of(saved, key, True))
        each["is_present"] = key == number["hgatp"]
        each["cached"] = cached_entries(saved, key)
        each["stale"] = [{"page": page, "words": words} for held, page, words, _ in stale if held == key]
        made.append(each)
    made.append(map_of("VS and VU", "vsatp", number["vsatp"], walks.nested_map(saved)))
    made[-1].update(first_of(saved, (1, number["hgatp"], number["vsatp"])))
    present = ((0, 0, number["satp"]), (1, number["hgatp"], number["vsatp"]))
    others = dict.fromkeys(entry[:3] for entry in saved.first if entry[:3] not in present)
    return {"step": number["steps"], "maps": made, "others": [other_of(saved, key) for key in others]}


def first_of(saved: saves.Saved, key: walks.Key) -> Value:
    """The cached translations of the first stage for these accesses, and which of them are stale."""
    cached = [{"page": page, "frame": frame << 12, "rights": walks.first_rights_of(flags),
               "level": flags >> 3 & 3}
              for page, (frame, flags) in walks.first_cached_of(saved, key).items()]
    stale = [{"page": entry.page, "words": words} for entry, words, _ in walks.stale_first_entries(saved)
             if entry[:3] == key]
    return {"cached": cached, "stale": stale}


def other_of(saved: saves.Saved, key: walks.Key) -> Value:
    """Those of the first stage for accesses under other values of the registers than the state has."""
    v, hgatp, atp = key
    register = "vsatp" if v else "satp"
    return {"register": register, "value": atp, "table": registers.translation_of(register, atp),
            "hgatp": hgatp if v else None, **first_of(saved, key)}


def cached_entries(saved: saves.Saved, key: int) -> list[Value]:
    return [{"page": page, "frame": frame << 12, "rights": walks.rights_of(flags), "level": flags >> 3}
            for page, (frame, flags) in walks.cached_of(saved, key).items()]


def map_of(what: str, register: str, value: int, found: walks.Map) -> Value:
    return {"what": what, "register": register, "value": value,
            "table": registers.translation_of(register, value), "ranges": ranges_of(found),
            "cut": found.is_cut}


def lines_of_maps(found: Value) -> list[str]:
    lines = [f"step {found['step']}"]
    for each in found["maps"]:
        present = {True: ", present", False: ", not present"}.get(each.get("is_present"), "")
        lines.append(f"{each['what']}, by {each['register']}: {each['table']}{present}")
        for part in each["ranges"]:
            wrong = f"  not usable: {part['wrong']}" if part["wrong"] else ""
            lines.append(f"  {part['start']:016x} {part['size']:>9x}  {part['rights']}  -> {part['to']:x}"
                         + (shown_page(part["to"]) if part["is_device"] else wrong))
        if each["cut"]:
            lines.append("  and more: it has too many tables or ranges to be shown")
        lines += lines_of_cached(each)
    for each in found["others"]:
        under = "" if each["hgatp"] is None else f", hgatp {each['hgatp']:x}"
        lines.append(f"first stage by {each['register']}: {each['table']}{under}, not present")
        lines += lines_of_cached(each)
    return lines


def lines_of_cached(each: Value) -> list[str]:
    """The cached translations of a table, and how they are stale."""
    lines = [f"  cached {entry['page'] << 12:x} -> {entry['frame']:x} {entry['rights']} level "
             f"{entry['level']}" + shown_page(entry["frame"]) for entry in each.get("cached", [])]
    return lines + [f"  stale {entry['page'] << 12:x}: {entry['words']}" for entry in each.get("stale", [])]


def line_of_trap(trap: Value) -> str:
    code = trap["cause"] & 2**63 - 1
    line = f"{trap['words']} ({code}) to {trap['to']}"
    if not trap["cause"] >> 63:
        line += f", {'vstval' if trap['to'] == 'VS' else 'stval'} {trap['tval']:x}"
    if trap["htval"]:
        line += f", htval {trap['htval']:x} (guest physical {trap['htval'] << 2:x})"
    if trap["htinst"]:
        line += f", htinst {trap['htinst']:x} (of an entry of the first stage)"
    return line

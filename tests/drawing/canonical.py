"""The canonical text of a machine, as `write` must print it."""
from legality.drawn import cards


def statement(operation, operands):
    return cards(" ".join([f"{'':9}{operation}", ",".join(operands)] if operands else [f"{'':9}{operation}"]))


def carried_texts(carried):
    return [text if keyword is None else f"{keyword}={text}" for keyword, text in carried]


def name_list(names):
    return f"({','.join(names)})" if names else "0"


def by_css(groups):
    return "(" + ",".join(f"(CSS({css}),{','.join(items)})" for css, items in groups) + ")"


def grouped(table):
    """The values of a table with keys (css, place), by css; a place that isn't there is None."""
    groups = {}
    for css, place in sorted(table):
        groups.setdefault(css, {})[place] = table[css, place]
    return sorted(groups.items())


def resource(machine):
    if not (machine.images or machine.limits or machine.resource):
        return ""
    operands = []
    if machine.images:
        images = [(css, [f"({name},{mif:X})" for mif, name in of.items()]) for css, of in grouped(machine.images)]
        operands.append("PARTITION=" + by_css(images))
    if machine.limits:
        limits = [(css, [str(of.get(at, "")) for at in range(max(of) + 1)]) for css, of in grouped(machine.limits)]
        operands.append("MAXDEV=" + by_css(limits))
    return statement("RESOURCE", operands + carried_texts(machine.resource))


def path_statement(css, number, path):
    lists = f"{name_list(path.access)},{name_list(path.candidates)}" + (",REC" if path.kind == "rec" else "")
    operands = [f"PATH=(CSS({css}),{number:02X})"] + ["SHARED"] * (path.kind == "shared") + [f"PARTITION=({lists})"]
    return statement("CHPID", operands + carried_texts(path.carried))


def unit_statement(number, unit):
    operands = [f"CUNUMBR={number:04X}"]
    if unit.paths:
        operands.append("PATH=" + by_css([(css, [f"{path:02X}" for path in paths]) for css, paths in unit.paths]))
    operands.append("UNITADD=(" + ",".join(f"({start:02X},{count})" for start, count in unit.ranges) + ")")
    if unit.links:
        operands.append("LINK=" + by_css(unit.links))
    if unit.cuadd is not None:
        operands.append(f"CUADD={unit.cuadd:02X}")
    return statement("CNTLUNIT", operands + carried_texts(unit.carried))


def device_runs(devices):
    """Maximal runs: numbers and unit addresses each one more, all else equal. Each is its first key, and a count."""
    runs = []
    for key, device in sorted(devices.items()):
        if runs:
            first, count = runs[-1]
            last = devices[first]._replace(address=devices[first].address + count)
            if key == (first[0], first[1] + count) and device == last:
                runs[-1] = (first, count + 1)
                continue
        runs.append((key, 1))
    return runs


def device_statement(key, count, device):
    operands = [f"ADDRESS=({key[1]:04X},{count})"]
    if device.units:
        operands.append("CUNUMBR=(" + ",".join(f"{unit:04X}" for unit in device.units) + ")")
    operands += [f"UNITADD={device.address:02X}"] + [f"SCHSET={key[0]}"] * bool(key[0])
    if device.candidates is not None:
        operands.append(f"PARTITION={name_list(device.candidates)}")
    return statement("IODEVICE", operands + carried_texts(device.carried))


def remarks(machine):
    """The comments on paths that are online otherwise than the access lists say."""
    listed = {(css, number, name) for (css, number), path in machine.paths.items() for name in path.access}
    text = ""
    for css, number, name in sorted(listed ^ machine.online):
        verb = "is" if (css, number, name) in machine.online else "isn't"
        text += f"* path {css}.{number:02X} {verb} online to {name}\n"
    return text


def written(machine):
    """The deck of a machine in canonical order and forms."""
    text = statement("ID", carried_texts(machine.identity)) if machine.identity is not None else ""
    text += resource(machine)
    text += "".join(path_statement(*key, path) for key, path in sorted(machine.paths.items()))
    text += "".join(unit_statement(number, unit) for number, unit in sorted(machine.units.items()))
    runs = device_runs(machine.devices)
    return text + "".join(device_statement(key, count, machine.devices[key]) for key, count in runs)

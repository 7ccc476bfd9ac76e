#!/usr/bin/env python3
"""svd-to-map.py FILE.svd OUTDIR: writes one map a peripheral, OUTDIR/NAME.map, for `regmap build`. Python's standard library alone.
svd-to-map.py --check MAP..: lints maps: offsets of one width, names in the order of addresses, descriptors that agree, overlaps.

A register's name begins with its offset in hex, at one fixed width, so that the order of names is the order of addresses and a hole
can be proved; a field's is its register's with `/` and its lowest bit: `008.CTRL` and `008.CTRL/04.ENABLE`. A descriptor has 8 bytes,
as in examples/uart.map:
  register  offset in the block (2), width in bits (1), access (1), reset value (4)
  field     lowest bit (1), width in bits (1), access (1), 0 (1), reset value of the field (4)
Access: 01 read, 02 write, 03 both, 07 both and a written 1 clears.
derivedFrom (peripherals, clusters, registers, fields), dim arrays and lists, clusters, and size, access, resetValue inherited from
device, peripheral and cluster are read as CMSIS-SVD 1.3 has them. What does not fit a descriptor or a store is said, with status 1."""
import copy, os, re, sys
import xml.etree.ElementTree as xml

MOST = 1024  # registers in a store
faults = []

def fault(text):
    faults.append(text)
    print("svd-to-map: " + text, file=sys.stderr)

def number(text):  # 0x.., #binary, decimal; x in a binary number counts as 0
    text = text.strip().lower().lstrip("+")
    if text.startswith("#"): return int(text[1:].replace("x", "0"), 2)
    if text.startswith("0b"): return int(text[2:].replace("x", "0"), 2)
    return int(text, 16) if text.startswith("0x") else int(text, 10)

def get(element, tag, default=None):
    found = element.find(tag)
    return default if found is None or found.text is None else found.text.strip()

DIM = ("dim", "dimIncrement", "dimIndex", "dimName", "dimArrayIndex")
INNER = ("register", "cluster", "field")

def merged(base, own):
    """`own` with what it leaves out taken from `base`: a tag that `own` has stands alone; of registers and fields, those of another name."""
    result = copy.deepcopy(own)
    for child in base:
        if child.tag == "name" or child.tag in DIM: continue
        if child.tag in ("registers", "fields") and result.find(child.tag) is not None:
            here = result.find(child.tag)
            names = {get(each, "name") for each in here}
            here.extend(copy.deepcopy(each) for each in child if get(each, "name") not in names)
        elif child.tag in INNER:
            if get(child, "name") not in {get(each, "name") for each in result.findall(child.tag)}: result.append(copy.deepcopy(child))
        elif result.find(child.tag) is None: result.append(copy.deepcopy(child))
    return result

def derived(element, near, everywhere, chain=()):
    """The element with what it is derived from filled in. A plain name is looked for beside it first, a dotted path anywhere."""
    path = element.get("derivedFrom")
    if path is None: return element
    if path in chain: raise ValueError(f"{path} is derived from itself")
    found = [each for each in near if get(each, "name") == path and each is not element] or everywhere.get((element.tag, path), [])
    if not found: raise ValueError(f"{get(element, 'name')} is derived from {path}, which is not there")
    return merged(derived(found[0], near, everywhere, chain + (path,)), element)

def places(element):
    """Each copy of an array or a list: its name, and how far it lies from the first."""
    name, dim = get(element, "name"), get(element, "dim")
    if dim is None: return [(name.replace("%s", ""), 0)]
    count, step = number(dim), number(get(element, "dimIncrement"))
    index = get(element, "dimIndex")
    if index is None or "[%s]" in name: each = [str(i) for i in range(count)]
    elif re.fullmatch(r"\d+-\d+", index): each = [str(i) for i in range(int(index.split("-")[0]), int(index.split("-")[1]) + 1)]
    elif re.fullmatch(r"[A-Z]-[A-Z]", index): each = [chr(c) for c in range(ord(index[0]), ord(index[2]) + 1)]
    else: each = [part.strip() for part in index.split(",")]
    if len(each) != count: raise ValueError(f"{name}: dim is {count} and dimIndex has {len(each)}")
    return [(name.replace("[%s]", part).replace("%s", part), i * step) for i, part in enumerate(each)]

ACCESS = {"read-only": 1, "write-only": 2, "read-write": 3, "writeOnce": 2, "read-writeOnce": 3}

def inherit(above, element):
    mine = dict(above)
    for tag in ("size", "access", "resetValue", "modifiedWriteValues"):
        if get(element, tag) is not None: mine[tag] = get(element, tag)
    return mine

def access(defaults):
    code = ACCESS[defaults.get("access", "read-write")]
    return 7 if code == 3 and defaults.get("modifiedWriteValues") == "oneToClear" else code

def bits(field):  # lowest bit and width, by any of the three ways
    if get(field, "bitRange"): high, low = map(int, get(field, "bitRange").strip("[]").split(":"))
    elif get(field, "lsb"): low, high = number(get(field, "lsb")), number(get(field, "msb"))
    else: low = number(get(field, "bitOffset")); high = low + number(get(field, "bitWidth", "1")) - 1
    return low, high - low + 1

def registers(parent, offset, prefix, defaults, everywhere, rows):
    inner = [each for each in parent if each.tag in ("register", "cluster")]
    for each in inner:
        each = derived(each, inner, everywhere)
        mine = inherit(defaults, each)
        for name, step in places(each):
            at = offset + number(get(each, "addressOffset", "0")) + step
            if each.tag == "cluster": registers(each, at, prefix + name + ".", mine, everywhere, rows); continue
            fields = []
            box = each.find("fields")
            for one in [] if box is None else list(box):
                one = derived(one, list(box), everywhere)
                theirs = inherit({k: v for k, v in mine.items() if k != "modifiedWriteValues" or get(each, k)}, one)
                low, width = bits(one)
                fields += [(title, low + far, width, access(theirs)) for title, far in places(one)]
            rows.append((at, prefix + name, number(mine.get("size", "32")), access(mine), number(mine.get("resetValue", "0")), fields))

def index_of(device):
    found = {}
    def walk(element, path):
        for each in element:
            if each.tag in ("peripherals", "registers", "fields"): walk(each, path)
            elif each.tag in INNER + ("peripheral",):
                here = path + [get(each, "name")]
                found.setdefault((each.tag, ".".join(here)), []).append(each)
                found.setdefault((each.tag, here[-1]), []).append(each)
                walk(each, here)
    walk(device, [])
    return found

def export(source, folder):
    device = xml.parse(source).getroot()
    everywhere = index_of(device)
    peripherals = device.find("peripherals")
    os.makedirs(folder, exist_ok=True)
    for block in peripherals:
        block = derived(block, list(peripherals), everywhere)
        rows = []
        box = block.find("registers")
        if box is not None: registers(box, 0, "", inherit(inherit({}, device), block), everywhere, rows)
        rows.sort(key=lambda row: (row[0], row[1]))
        width = max([3] + [len(f"{row[0]:x}") for row in rows])
        for name, _ in places(block):
            path, lines = os.path.join(folder, name + ".map"), []
            for at, title, size, code, reset, fields in rows:
                where = f"{name}: {title}"
                if at > 0xFFFF or size > 255 or reset > 0xFFFFFFFF:
                    fault(f"{where}: offset, size or reset value does not fit its descriptor")
                    continue
                label = f"{at:0{width}x}.{title}"
                lines.append((label, f"{at:04x}{size:02x}{code:02x}{reset:08x}"))
                for sub, low, wide, may in sorted(fields, key=lambda f: f[1]):
                    value = reset >> low & (1 << wide) - 1
                    lines.append((f"{label}/{low:02d}.{sub}", f"{low:02x}{wide:02x}{may:02x}00{value:08x}"))
            for label, _ in lines:
                if len(label) > 48: fault(f"{path}: {label} is longer than 48 bytes")
            if len(lines) > MOST: fault(f"{path}: {len(lines)} entries; a store takes {MOST}")
            with open(path, "w") as out:
                out.write(f"# {name}, from {os.path.basename(source)} by svd-to-map.py\n")
                out.write(f"# {len(lines)} register{'' if len(lines) == 1 else 's'}\n")
                out.writelines(f"{label} {value}\n" for label, value in lines)
            print(f"{path}: {len(rows)} registers, {len(lines) - len(rows)} fields")

def check(path):
    """Lints one map. Names with no offset before a dot are left alone, and counted."""
    before, widths, other, ends, seen = None, set(), 0, (0, ""), set()
    for at, line in enumerate(open(path, encoding="ascii", errors="replace"), 1):
        words = line.split("#", 1)[0].split() if not line.lstrip().startswith("#") else []
        if len(words) != 2: continue
        name, value = words
        here = f"{path}:{at}: {name}"
        if name in seen: fault(here + " stands twice")
        seen.add(name)
        found = re.match(r"([0-9a-f]+)\.[^/]*(/(\d+)\.)?", name)
        if not found: other += 1; continue
        offset, field = int(found[1], 16), found[2] is not None
        widths.add(len(found[1]))
        place = (offset, int(found[3]) + 1 if field else 0)
        if before and (name.encode() < before[1].encode()) != (place < before[0]):
            fault(f"{here}: the order of names is not the order of addresses: {before[1]}")
        before = (place, name)
        if not re.fullmatch("[0-9a-fA-F]{16}", value): continue
        if field: continue
        if int(value[:4], 16) != offset: fault(f"{here}: its descriptor says offset {int(value[:4], 16):x}")
        if offset < ends[0]: fault(f"{here} overlaps {ends[1]}")
        ends = max(ends, (offset + int(value[4:6], 16) // 8, name))
    if len(widths) > 1: fault(f"{path}: offsets of {' and '.join(map(str, sorted(widths)))} digits: the order of names is not that of addresses")
    print(f"{path}: {len(seen)} entries" + (f", {other} without an offset" if other else ""))

if __name__ == "__main__":
    words = sys.argv[1:]
    if words in (["--help"], ["-h"]): print(__doc__); sys.exit(0)
    if len(words) >= 2 and words[0] == "--check":
        for each in words[1:]: check(each)
    elif len(words) == 2 and not words[0].startswith("-"):
        try: export(*words)
        except (ValueError, KeyError, xml.ParseError, TypeError, AttributeError) as wrong: fault(f"{words[0]}: {wrong}")
    else: sys.exit(__doc__)
    sys.exit(1 if faults else 0)

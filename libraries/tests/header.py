"""That temolunai.h and the Python package declare what the crate exports: the same calls, each with the same values, and the
same structs, each with the same fields in the same order."""

import re
import sys

# What each type of Rattle is in C: one parameter, or for a slice two.
NUMBERS = {"u8": "uint8_t", "u32": "uint32_t", "u64": "uint64_t", "usize": "size_t", "bool": "bool"}
STRUCTS = {
    "Reading": "temolunai_reading",
    "LabelRead": "temolunai_label_read",
    "Range": "temolunai_range",
    "RangeRead": "temolunai_range_read",
    "UmidRead": "temolunai_umid_read",
    "Place": "temolunai_place",
    "Event": "temolunai_event",
    "ListRead": "temolunai_list",
    "Written": "temolunai_written",
}

def in_c(kind):
    """A value's type in C, without the word struct."""
    return NUMBERS.get(kind) or STRUCTS[kind]


def parameters_in_c(kind):
    slice_of = re.fullmatch(r"&(mut )?\[(\w+)\]", kind)
    if kind == "Global":
        return []
    if slice_of:
        return [f"{'' if slice_of[1] else 'const '}{in_c(slice_of[2])} *", "size_t"]
    return [in_c(kind)]


def exported(sources):
    """The calls that the crate exports, each with what it gives and takes in C; and its structs, each with its fields."""
    text = re.sub(r"//[^\n]*", "", "\n".join(sources))
    calls, structs = {}, {}
    for name, taken, given in re.findall(r'pub extern "C" fn (\w+)\s*\((.*?)\)\s*->\s*(\w+)', text, re.DOTALL):
        kinds = [it.partition(":")[2].strip() for it in taken.split(",") if it.strip()]
        calls[name] = (in_c(given), [part for kind in kinds for part in parameters_in_c(kind)])
    form = r"#\[repr\(C\)\]\s*#\[derive\(Clone, Copy\)\]\s*pub struct (\w+) \{(.*?)\n\}"
    for name, fields in re.findall(form, text, re.DOTALL):
        structs[STRUCTS[name]] = [(it, in_c(kind)) for it, kind in re.findall(r"pub (\w+): (\w+)", fields)]
    return calls, structs


def declared(header):
    """The same of a header."""
    text = re.sub(r"/\*.*?\*/", "", header, flags=re.DOTALL).replace("struct ", "struct@")
    calls, structs = {}, {}
    for given, name, taken in re.findall(r"^([\w@]+) (temolunai_\w+)\(([^)]*)\);", text, re.MULTILINE):
        kinds = []
        for it in taken.split(","):
            words = re.match(r"\s*(const )?([\w@]+) (\*?)\w+\s*$", it)
            kinds.append(f"{words[1] or ''}{words[2].replace('struct@', '')}{' *' if words[3] else ''}")
        calls[name] = (given.replace("struct@", ""), kinds)
    for name, fields in re.findall(r"^struct@(\w+) \{(.*?)\n\};", text, re.DOTALL | re.MULTILINE):
        rows = re.findall(r"^\s*([\w@]+) (\w+);", fields, re.MULTILINE)
        structs[name] = [(it, kind.replace("struct@", "")) for kind, it in rows]
    return calls, structs


def python_kind(kind):
    """What a type of ctypes is in C."""
    names = {"c_ubyte": "uint8_t", "c_uint": "uint32_t", "c_ulong": "size_t", "c_bool": "bool", "List": "temolunai_list"}
    name = kind.__name__
    return names.get(name) or STRUCTS.get(name) or "*"


def python_differs(native, calls, structs):
    """Where the package's calls and structs differ from these, where all pointers are alike and so are 64-bit numbers."""
    plain = lambda kind: "*" if kind.endswith("*") else "size_t" if kind == "uint64_t" else kind
    ours = {f"temolunai_{name}": (python_kind(gives), [python_kind(it) for it in takes])
            for name, (gives, takes) in native.CALLS.items()}
    wanted = {name: (plain(gives), [plain(it) for it in takes]) for name, (gives, takes) in calls.items()}
    differs = [f"Python: {name}: {ours.get(name)}, and not {wanted.get(name)}" for name in {*ours, *wanted}
               if ours.get(name) != wanted.get(name)]
    for kind, name in {**STRUCTS, "List": "temolunai_list"}.items():
        if hasattr(native, kind):
            fields = [(it, python_kind(of)) for it, of in getattr(native, kind)._fields_]
            if fields != structs[name]:
                differs.append(f"Python: {kind}: {fields}, and not {structs[name]}")
    return differs


def differences(sources, header):
    """Where the header differs from the crate, one line each."""
    calls, structs = exported(sources)
    their_calls, their_structs = declared(header)
    said = []
    for ours, theirs in ((calls, their_calls), (structs, their_structs)):
        said += [f"{name}: {theirs.get(name)}, and not {ours.get(name)}" for name in sorted({*ours, *theirs})
                 if ours.get(name) != theirs.get(name)]
    return said


if __name__ == "__main__":
    sys.exit("this is a module of .ci/libraries")

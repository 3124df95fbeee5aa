"""The text of dbp_protocol.c: which functions load and store shared words, how, and what the file doesn't use."""

import re

# The access of each step; a whole one is of an order or a value.
STEPS = {
    "load": ("dbp_seen", "dbp_start", "dbp_look"),
    "load_whole": ("dbp_hear", "dbp_take"),
    "store": ("dbp_open_gate", "dbp_shut", "dbp_done", "dbp_end"),
    "store_whole": ("dbp_aim", "dbp_claim", "dbp_put"),
}
ACCESS_OF = {step: [access] for access, steps in STEPS.items() for step in steps}
BEGINS = ("dbp_begin", "fill_first_slot")  # before the first step
HEADERS = {"stdint.h", "stdbool.h", "stddef.h", "stdatomic.h"}
ACCESSES = {
    "load": "return atomic_load_explicit(&it->words[address], memory_order_seq_cst);",
    "store": "atomic_store_explicit(&it->words[address], (dbp_plain_word)value, memory_order_seq_cst);",
}
WHOLE = {
    "load_whole": "const uint64_t low = load(it, address);"
    " return DBP_WORDS_OF_VALUE == 1 ? low : low | load(it, address + 1) << HALF;",
    "store_whole": "store(it, address, value); if (DBP_WORDS_OF_VALUE == 2) { store(it, address + 1, value >> HALF); }",
}
# Words that stand in no function: other ways to a shared word, numbers that aren't whole, and memory.
UNUSED = r"\b(__(?!cplusplus\b)\w+|volatile|asm|float|double|malloc|calloc|realloc|free|memcpy|goto)\b"


def code_of(text):
    """Returns C without its comments."""
    return re.sub(r"/\*.*?\*/", " ", text, flags=re.S)


def functions_of(code):
    """Returns the bodies of the functions of a C file, by their names; each begins and ends at a line's start."""
    found = re.findall(r"(?m)^\w[\w \*]*?(\w+)\([^;{}]*\)\n\{\n(.*?)^\}", code, re.S)
    return dict(found)


def calls_in(body, names):
    """Returns the functions that a body calls, each as often as it does."""
    return [name for name in re.findall(r"\b(\w+)\(", body) if name in names]


def access_fault(functions):
    """Returns which function's accesses to shared words aren't as they must be, or nothing."""
    for name, body in functions.items():
        found, wanted = calls_in(body, STEPS), ACCESS_OF.get(name, [])
        if name in WHOLE and " ".join(body.split()) != WHOLE[name]:
            return f"{name} is {' '.join(body.split())}"
        if name not in (*BEGINS, *WHOLE) and found != wanted:
            return f"{name} has the accesses {found}, and {wanted} is wanted"
        if (re.search(r"\bwords\b", body) or "atomic" in body) and " ".join(body.split()) != ACCESSES.get(name):
            return f"{name} has another way to a shared word: {' '.join(body.split())}"
    missing = {*ACCESS_OF, *BEGINS, *ACCESSES, *WHOLE} - {*functions}
    return f"it lacks {sorted(missing)}" if missing else None


def order_fault(texts):
    """Returns another memory order, or another atomic operation, that the files of the protocol name, or nothing."""
    code = " ".join(map(code_of, texts))
    orders = re.findall(r"\bmemory_order\w*", code)
    operations = re.findall(r"\batomic_\w+", code)
    if orders != ["memory_order_seq_cst"] * 2 or sorted(operations) != ["atomic_load_explicit", "atomic_store_explicit"]:
        return f"the memory orders are {orders}, and the operations {operations}"
    return None


def recursive_function(functions):
    """Returns a function that may call itself, or nothing."""
    called = {name: set(calls_in(body, functions)) for name, body in functions.items()}
    while called:
        done = [name for name, others in called.items() if not others & {*called}]
        if not done:
            return min(called)
        for name in done:
            del called[name]
    return None


def text_fault(source, header):
    """Returns what the text of the protocol has that it mustn't, or nothing."""
    functions = functions_of(code_of(source))
    code = code_of(source + header)
    headers = set(re.findall(r"#include <(.*)>", code))
    words = re.findall(UNUSED, code)
    if headers != HEADERS or words:
        return f"it uses {sorted(headers)} and {words}"
    variables = re.findall(r"(?m)^static (?!const)[^(]*;", code_of(source))
    if variables:
        return f"it has the variables {variables}"
    recursive = recursive_function(functions)
    if recursive:
        return f"{recursive} may call itself"
    return access_fault(functions) or order_fault([source, header])


def diagram_fault(body, name):
    """Returns how the file of a diagram names its shared words, besides as those of its system, or nothing."""
    code = code_of(body)
    uses = [line.strip() for line in code.splitlines() if re.search(rf"\b{name}_words\b", line)]
    is_right = len(uses) == 2 and uses[0].startswith(f"static dbp_word {name}_words[")
    if not is_right or "atomic" in code or re.search(UNUSED, code):
        return f"its shared words stand in {uses}"
    return None

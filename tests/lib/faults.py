"""Each call of a run fails in turn."""
import re

# what is told of a call that failed
TOLD = {"open": re.compile(rb"(left|right|old|records|file \d+) no file\n([^\n]+ \(os error \d+\)\n)?"), "read": re.compile(rb"((left|right|old|records|file \d+) )?read fault\n"),
        "write": re.compile(rb"write fault\n")}


def wants_memory(seen, ample):
    """Whether the run reports that memory ran out, after a prefix of what it writes with ample memory."""
    line = b"want of memory\n"
    return (seen[0] == 3 and ample[1].startswith(seen[1]) and seen[2].endswith(line)
            and ample[2].startswith(seen[2].removesuffix(line)))


def each_allocation(program, results, name, words, octets=b"", refused=wants_memory):
    """Each allocation fails in turn: the run reports it, or does without. Past the last it gives what ample memory gives."""
    ample = program.run(words, octets)
    allocations = program.counts(words, octets).malloc
    reported = 0
    for n in range(1, allocations + 3):
        seen = program.run(words, octets, program.failing(malloc=n))
        told = n <= allocations and refused(seen, ample)
        reported += told
        results.check(f"{name}: allocation {n} of {allocations}", told or seen == ample, str(seen))
    results.check(f"{name}: an allocation that fails is reported", reported > 0, str(reported))


def failed(kind, seen, whole):
    """Whether the run reports that a call of the kind failed, after a prefix of what it writes without."""
    told = TOLD[kind].search(seen[2]) is not None and whole[2].startswith(TOLD[kind].sub(b"", seen[2]))
    return seen[0] == 2 and whole[1].startswith(seen[1]) and told


def each_call(program, results, name, words, octets, inputs):
    """Each open, each read of the inputs and each write of the output fails, is short or is interrupted in turn."""
    whole = program.run(words, octets)
    for kind, descriptors in ("open", [None]), ("read", inputs), ("write", [1]):
        for descriptor in descriptors:
            alone = {} if descriptor is None else {"fd": descriptor}

            def chosen(**call):
                return program.run(words, octets, program.failing(**alone, **call))

            made = getattr(program.counts(words, octets, **alone), kind)
            for n in range(1, made + 1):
                label = f"{name}: {kind} {n} of {made}, descriptor {descriptor},"
                seen = chosen(**{kind: n})
                results.check(f"{label} fails", failed(kind, seen, whole), str(seen))
                if kind != "open":
                    results.same(f"{label} is short", chosen(**{f"{kind}_short": n}), whole)
                if kind == "read":
                    seen = chosen(read_again=n)
                    results.check(f"{label} is interrupted", seen == whole or failed(kind, seen, whole), str(seen))
            results.same(f"{name}: past the last {kind} of {descriptor}", chosen(**{kind: made + 1}), whole)

"""What the gate says of release/ and of the program that it has built."""
import gzip
import shutil
import subprocess
from pathlib import Path

from results import clone, lacking, name_sources, run

OUT = "crates/syslogbox/out"
OF_TESTS = ["fault_injection", "store_trial"]


def compare(folder):
    status, said = run(["sh", "scripts/compare.sh"], cwd=folder)
    return status, said.splitlines()[-1], said


def with_octet(octets, at):
    """The octets, and one of them another."""
    return octets[:at] + bytes([octets[at] ^ 1]) + octets[at + 1:]


def write_sums(folder):
    """Makes the checksums those of the object as it is."""
    release = folder / "release"
    objects = sorted(packed.name.removesuffix(".gz") for packed in release.glob("*.o.gz"))
    for name in objects:
        (folder / name).write_bytes(gzip.decompress((release / f"{name}.gz").read_bytes()))
    of_object = run(["sha256sum", *objects], cwd=folder)[1]
    of_archives = run(["sha256sum", "libos_c.a", "liblibc_c.a"], cwd=release)[1]
    (release / "SHA256SUMS").write_text(of_object + of_archives)


def built_by_rt(folder):
    """What rt would leave in out/ of the object in release/."""
    kit = Path(run(["rt", "doc"])[1].strip()).parent
    (folder / OUT).mkdir()
    made = folder / OUT / "syslogbox.o"
    made.write_bytes(gzip.decompress((folder / "release/syslogbox.o.gz").read_bytes()))
    words = ["--target", "x86_64-unknown-linux-gnu", "--toolchain", kit / "toolchain", "-o", made.with_suffix(""), made]
    subprocess.run([kit / "bin/rattle-link", *words, kit / "c/libos_c.a", kit / "c/liblibc_c.a"], check=True, capture_output=True)
    for name in OF_TESTS:
        built_alike(folder, name, made)
    return made


def built_alike(folder, name, made):
    """Has the release and rt have the program of the tests as well: the octets of another."""
    shutil.copy(folder / "release/syslogbox.o.gz", folder / f"release/{name}.o.gz")
    other = folder / f"crates/{name}/out"
    other.mkdir()
    shutil.copy(made, other / f"{name}.o")
    shutil.copy(made.with_suffix(""), other / name)
    write_sums(folder)


def programs_of_tests(folder, results):
    """Each program of the tests is compared, and one whose checksum is there has to be in the release."""
    for name in OF_TESTS:
        for file, text in [(folder / f"crates/{name}/out/{name}.o", "object of"), (folder / f"crates/{name}/out/{name}", "program"),
                           (folder / f"release/{name}.o.gz", "lacks")]:
            octets = file.read_bytes()
            if text == "lacks":
                file.unlink()
            else:
                file.write_bytes(with_octet(octets, len(octets) // 2))
            status, _, said = compare(folder)
            told = "its checksums" if text == "lacks" else f"{text} {name}"
            results.check(f"a release is compared: {text} {name}", status == 1 and told in said, said)
            file.write_bytes(octets)


def library(folder, results):
    """The library that rt built beside that of release/."""
    made = folder / "crates/c_library/out"
    made.mkdir()
    whole = gzip.decompress((folder / "release/libsyslogbox.o.gz").read_bytes())
    for octets, right, text in [(whole, 0, "it is what"), (with_octet(whole, len(whole) // 2), 1, "library is not the one")]:
        (made / "c_library.o").write_bytes(octets)
        subprocess.run(["ar", "rc", "libc_library.a", "c_library.o"], cwd=made, check=True)
        status, _, said = compare(folder)
        results.check(f"the library is compared: {text}", status == right and text in said, said)
    for file in made.iterdir():
        file.unlink()


def comparing(room, results):
    if lacking("rt"):
        results.skip("the comparing of release/", "there is no rt")
        return
    folder = clone(room / "clone")
    release = folder / "release"
    name_sources(folder)
    (release / "KIT").write_text(run(["rt", "version"])[1])
    made = built_by_rt(folder)
    whole, packed = made.read_bytes(), (release / "syslogbox.o.gz").read_bytes()
    status, last, said = compare(folder)
    results.check("a release of these sources passes", (status, last) == (0, "1 passed, 0 failed"), said)
    # an octet of code, with the checksums as they were and with its own, where rt left the object and where it did not
    changed = with_octet(whole, whole.index(b"\x55\x41\x57") + 1)
    (release / "syslogbox.o.gz").write_bytes(gzip.compress(changed, mtime=0))
    status, last, said = compare(folder)
    results.check("an octet that is changed fails by its checksum", status == 1 and "checksums" in said, said)
    write_sums(folder)
    status, last, said = compare(folder)
    results.check("an octet that is changed fails by the program", status == 1 and "program syslogbox is not the one" in said, said)
    # an octet of the section names' table, which no program has
    changed = with_octet(whole, whole.index(b".comment\0"))
    (release / "syslogbox.o.gz").write_bytes(gzip.compress(changed, mtime=0))
    write_sums(folder)
    status, last, said = compare(folder)
    results.check("an octet of the object alone fails", status == 1 and "is not the one that these sources give" in said, said)
    (release / "syslogbox.o.gz").write_bytes(packed)
    write_sums(folder)
    made.unlink()
    status, last, said = compare(folder)
    results.check("without the object, its program is compared", (status, last) == (0, "1 passed, 0 failed"), said)
    library(folder, results)
    programs_of_tests(folder, results)
    (release / "KIT").write_text("another kit\n")
    status, last, said = compare(folder)
    results.check("under another toolchain nothing is compared", (status, last) == (0, "0 passed, 0 failed") and "not compared" in said, said)
    (folder / "crates.txt").write_text((folder / "crates.txt").read_text() + "# changed\n")
    status, last, said = compare(folder)
    results.check("a release of other sources fails", status == 2 and "'make release'" in said, said)

"""The packages: the same octets wherever they are made, and installed, run and removed in a clean root."""
import gzip
import os
import re
import subprocess
import sys
import tarfile
import zipfile

from first import converts
from installing import in_c, units, with_units
from results import ROOT, clone, lacking, name_sources, run

LINK = re.compile(r"\]\(([^)#:\s]+)(?:#[^)\s]*)?\)")
OF_THE_TARBALL = ["README.md", "CHANGELOG.md", "docs/*.md", "docs/pictures/*", "contrib/*.conf", "contrib/*.yml", "contrib/*.json", "examples/*", "include/*.h", "python/*.py", "python/*.c",
                  "python/*.toml", "python/syslogbox/*", "go/*", "cluster/*.*", "cluster/slurm/*"]
OF_THE_PACKAGE = {"README.md": "", "docs/*.md": "", "docs/pictures/*": "pictures", "contrib/*.conf": "examples", "contrib/*.yml": "examples", "contrib/*.json": "examples",
                  "cluster/*.*": "examples/cluster", "cluster/slurm/*": "examples/cluster/slurm"}
OF_THE_LIBRARY = {"docs/LIBRARY.md": "", "examples/*": "examples", "python/*.*": "examples/python",
                  "python/syslogbox/*": "examples/python/syslogbox", "go/*": "examples/go"}


def made(folder, **environment):
    """What `make dist` makes in a folder, by name."""
    status, said = run(["make", "-s", "dist"], cwd=folder, env={**os.environ, **environment})
    files = sorted((folder / "build/dist").iterdir()) if status == 0 else []
    return {file.name: file for file in files}, said


def version_of(program):
    return subprocess.run([program, "--version"], capture_output=True, text=True).stderr.strip()


def manual(share, suffix, unpacked, results):
    """Each page of the manual is in the folder of its section below `share`."""
    for page in sorted((ROOT / "man").iterdir()):
        file = share / f"man/man{page.suffix[1:]}/{page.name}{suffix}"
        results.check(f"{file.name} is installed", file.is_file() and unpacked(file.read_bytes()) == page.read_bytes(), str(file))


def packages(room, results):
    missing = lacking("gcc", "make", "objdump")
    if missing:
        results.skip("the packages", f"there is no {missing}")
        return
    folder, another = with_units(clone(room / "one")), with_units(clone(room / "another's, in a longer path"))
    for it in [folder, another]:
        name_sources(it)
    subprocess.run(["chmod", "-R", "go=", str(another)], check=True)
    version = run(["sh", "scripts/version.sh"], cwd=folder)[1].strip()
    files, said = made(folder)
    other, _ = made(another, TZ="Asia/Tokyo", LC_ALL="C.UTF-8", CDPATH="/:/usr")
    endings = ["-linux-x86_64.tar.gz", f"syslogbox-{version}.tar.gz", ".whl"]
    made_all = all(any(name.endswith(ending) for name in files) for ending in endings)
    results.check("make dist makes its packages", made_all, said)
    results.check("twice the same packages", list(files) == list(other), f"{list(files)} {list(other)}")
    for name in files.keys() & other.keys():
        results.check(f"twice the same octets: {name}", files[name].read_bytes() == other[name].read_bytes())
    lines = (folder / "CHANGELOG.md").read_text().splitlines()
    entries = [line for line in lines if line.startswith("## ") and line != "## Unreleased"]
    results.check("the first release of CHANGELOG.md is the version", entries[0].startswith(f"## {version} ("), entries[0])
    for name, file in files.items():
        if name.endswith("-linux-x86_64.tar.gz"):
            tarball(file, version, room, results)
    packed = {name.split("_")[0]: file for name, file in files.items() if name.endswith(".deb")}
    if packed:
        debian(packed, room / "root", results, lambda root: installed(root, version, room, results))
    with open(folder / "crates.txt", "a", encoding="utf-8") as crates:
        crates.write("# changed\n")
    results.check("make dist refuses a release of other sources", "built from other sources" in made(folder)[1])


def tarball(file, version, room, results):
    with tarfile.open(file) as archive:
        archive.extractall(room)
    folder = room / f"syslogbox-{version}"
    status, said = run(["sha256sum", "--quiet", "-c", "SHA256SUMS"], cwd=folder)
    results.check("the checksums in the tarball hold", status == 0, said)
    program = folder / "bin/syslogbox"
    results.check("its program converts the first record", converts(program))
    results.check("its program tells its version", version_of(program) == f"syslogbox {version}", version_of(program))
    results.check("its program is static", b"/lib64/ld-linux" not in program.read_bytes())
    manual(folder / "share", "", bytes, results)
    there("the tarball", folder, {pattern: os.path.dirname(pattern) for pattern in OF_THE_TARBALL}, results)
    linked("the tarball", folder, results)
    units("the tarball", folder, "/usr/local/bin/syslogbox", results)
    libraries = {"LD_LIBRARY_PATH": str(folder / "lib")}
    in_c("the tarball", room, results, {"PKG_CONFIG_PATH": str(folder / "lib/pkgconfig")}, libraries)
    wheel(folder, results)
    downloads = folder / "goproxy/cupolachive.example/syslogbox/@v"
    names = {path.name for path in downloads.iterdir()} if downloads.is_dir() else set()
    right = {"list", *(f"v{version}.{suffix}" for suffix in ("info", "mod", "zip"))}
    results.check("the tarball has the module of Go", names == right, str(names))


def wheel(folder, results):
    """pip finds the library in the tarball: what it calls puts it into the wheel."""
    script = "import backend; print(backend.build_wheel('..'))"
    status, said = run([sys.executable, "-B", "-c", script], cwd=folder / "python")
    if status:
        results.check("the wheel is built in the tarball", False, said)
        return
    with zipfile.ZipFile(folder / said.strip()) as made:
        same = made.read("syslogbox/libsyslogbox.so.0") == (folder / "lib/libsyslogbox.so.0").read_bytes()
    results.check("the wheel that is built in the tarball has the library", same)


def there(name, folder, wanted, results):
    """Below a folder are the files of the repository of these patterns, each in the folder below it that is named."""
    for pattern, to in wanted.items():
        files = [file for file in ROOT.glob(pattern) if file.is_file()]
        results.check(f"{name}: {pattern} names files", files)
        for file in files:
            copy = folder / to / file.name
            same = copy.is_file() and os.access(copy, os.X_OK) == os.access(file, os.X_OK)
            results.check(f"{name}: {to}/{file.name} is there", same, str(copy))


def linked(name, folder, results):
    """What the documents below a folder link to is there."""
    links = [(page, link) for page in sorted(folder.rglob("*.md")) for link in LINK.findall(page.read_text())]
    results.check(f"{name}: its documents have links", len(links) > 30, str(len(links)))
    for page, link in links:
        results.check(f"{name}: {page.relative_to(folder)}: {link} is there", (page.parent / link).exists(), link)


def debian(packed, root, results, look):
    """Packages have no error, are installed in a clean root and looked at there, and leave nothing."""
    packages = sorted(packed)
    if lacking("lintian"):
        results.skip("lintian has no error", "there is no lintian")
    else:
        for name in packages:
            status, said = run(["lintian", "--allow-root", "--fail-on", "error", str(packed[name])])
            results.check(f"lintian has no error in {name}", status == 0, said)
    if os.geteuid():
        results.skip("the packages in a clean root", "only root installs them")
        return
    for name in ["info", "updates"]:
        (root / "var/lib/dpkg" / name).mkdir(parents=True)
    # the one package that they depend on, as this machine has it
    (root / "var/lib/dpkg/status").write_text(run(["dpkg", "-s", "libc6"])[1] + "\n")
    before = files_of(root)
    named = " and ".join(packages)
    dpkg = {"env": {**os.environ, "PATH": f"{os.environ['PATH']}:/usr/sbin:/sbin"}}
    status, said = run(["dpkg", f"--root={root}", "--install", *(str(packed[name]) for name in packages)], **dpkg)
    results.check(f"dpkg installs {named}", status == 0, said)
    if status == 0:
        look(root)
    status, said = run(["dpkg", f"--root={root}", "--purge", *packages], **dpkg)
    results.check(f"dpkg removes {named}", status == 0, said)
    results.check(f"nothing of {named} is left behind", files_of(root) == before, str(files_of(root) ^ before))


def installed(root, version, room, results):
    program, documents = root / "usr/bin/syslogbox", root / "usr/share/doc"
    results.check("the installed program converts the first record", converts(program))
    results.check("the installed program tells its version", version_of(program) == f"syslogbox {version}")
    manual(root / "usr/share", ".gz", gzip.decompress, results)
    units("the package", root / "usr", "/usr/bin/syslogbox", results)
    there("the package", documents / "syslogbox", OF_THE_PACKAGE, results)
    there("the package of the library", documents / "libsyslogbox-dev", OF_THE_LIBRARY, results)
    linked("the packages", documents, results)
    folder = root / "usr/lib/x86_64-linux-gnu"
    told = {"PKG_CONFIG_PATH": str(folder / "pkgconfig"), "PKG_CONFIG_SYSROOT_DIR": str(root)}
    in_c("the packages", room, results, told, {"LD_LIBRARY_PATH": str(folder)})
    if not lacking("pkg-config"):
        of_version = run(["pkg-config", "--modversion", "syslogbox"], env={**os.environ, **told})[1].strip()
        results.check("pkg-config tells the version", of_version == version, of_version)


def files_of(root):
    """All below a root but the notes of dpkg itself."""
    return {path.relative_to(root) for path in root.rglob("*") if path.relative_to(root).parts[:3] != ("var", "lib", "dpkg")}

"""tools/package: the packages of a program that only tells its version, and what they contain. tools/check-package ends
with all that it runs side by side."""
import concurrent.futures
import os
import pathlib
import re
import shutil
import subprocess
import sys
import threading
from typing import Any

import pytest
from conftest import ROOT, eventually, script, tool

sys.path[:0] = [str(ROOT / "packaging"), str(ROOT / "plant" / "src")]
import documents  # noqa: E402
import hilpoven  # noqa: E402
import versions  # noqa: E402
from checking.parts import packages_of  # noqa: E402
from packages import RUNNING, Failed, end_all, output  # noqa: E402

LIBRARIES = pathlib.Path("/opt/rattle/rattle")
USAGE = f"toll {hilpoven.VERSION}, office format {hilpoven.OFFICE_VERSION}"


def stub(folder: pathlib.Path, usage: str = USAGE) -> pathlib.Path:
    """A program that stands in for toll."""
    return script(folder / "program", f"printf '%s\\n' '{usage}' usage: >&2; exit 2")


@pytest.fixture(scope="module")
def packages(tmp_path_factory: pytest.TempPathFactory) -> pathlib.Path:
    """The current folder, which gets the packages if none is given."""
    top = tmp_path_factory.mktemp("package")
    done = tool("package", "--program", stub(top), cwd=top, timeout=900)
    assert done.returncode == 0, done.stderr
    return top


@pytest.fixture(scope="module")
def unpacked(packages: pathlib.Path) -> pathlib.Path:
    """What the packages of a single plant install, and the tarball beside it in /usr/local."""
    root = packages / "root"
    for package in set(packages.glob("*.deb")) - set(packages.glob("hilpoven-group_*.deb")):
        subprocess.run(["dpkg-deb", "-x", package, root], check=True)
    local = root / "usr/local"
    local.mkdir()
    subprocess.run(["tar", "-C", local, "--strip-components=1", "-xzf", *packages.glob("*-x86_64.tar.gz")], check=True)
    return root


def printed(*words: object) -> str:
    return subprocess.run([*map(str, words)], capture_output=True, text=True, check=True).stdout


def fields(package: pathlib.Path) -> dict[str, str]:
    """The fields of a package by their names."""
    return dict(re.findall(r"(?m)^([\w-]+): (.*)$", printed("dpkg-deb", "-f", package)))


def test_the_folder_gets_the_packages_and_nothing_else(packages: pathlib.Path) -> None:
    names = (file.name for file in packages.iterdir() if file.is_file())
    files = {re.sub(r"[\d.]+(-\d+)?(?=[._-])", "V", name, count=1) for name in names}
    made_of_source = {f"hilpoven_V.{end}" for end in ("dsc", "orig.tar.gz", "debian.tar.xz")}
    binary = {"toll_V_amd64.deb", "hilpoven_V_all.deb", "hilpoven-papers_V_all.deb", "toll-V-x86_64.tar.gz"}
    binary |= {f"hilpoven-{name}_V_all.deb" for name in ("desk", "group", "persons")}
    assert files == {"program"} | binary | made_of_source
    assert not [file for file in packages.iterdir() if file.name.startswith((".", "package"))]


def test_the_source_package_has_the_tracked_files(packages: pathlib.Path) -> None:
    source = packages / "source"
    printed("dpkg-source", "--no-check", "--skip-patches", "-x", *packages.glob("*.dsc"), source)
    listed = printed("git", "-c", f"safe.directory={ROOT}", "-C", ROOT, "ls-files").splitlines()
    tracked = {path for path in listed if (ROOT / path).exists()}
    packed = {str(path.relative_to(source)) for path in source.rglob("*") if not path.is_dir()}
    assert packed == tracked and "debian/README.source" in tracked


# Documents


def test_pages_have_the_names_that_are_installed(unpacked: pathlib.Path) -> None:
    pages = {page: page.read_text() for page in (unpacked / "usr/share").rglob("*.md")}
    assert len(pages) > 10
    assert {path: names for path, text in pages.items() if (names := documents.named_in_sources(text))} == {}
    forms = r"(?<![\w.])(/usr/(?:share/doc/toll/examples|lib/systemd/system)/[\w@./-]*\w)"
    named = {path for text in pages.values() for path in re.findall(forms, text)}
    assert {path for path in named if not os.path.exists(f"{unpacked}{path}")} == set()
    assert ".Xr hilpoven 1" in (ROOT / "docs" / "toll.1").read_text()


def test_the_pages_of_engineers_stay_in_the_sources(unpacked: pathlib.Path) -> None:
    theirs = {page.name for page in (ROOT / "docs/engineering").iterdir()}
    assert {"PROVED.md", "testing.md"} <= theirs
    assert [page for page in unpacked.rglob("*") if page.name in theirs | {"engineering"}] == []


def test_what_a_page_links_to_is_packaged(unpacked: pathlib.Path) -> None:
    """Pages and their pictures, and what /owner/ serves."""
    share = unpacked / "usr/share"
    form = r"\]\(([^)#\s]+)|(?:href|src)=\"([^\"#]+)\""
    pages = [file for file in share.rglob("*") if file.suffix in (".md", ".html")]
    links = [(page, "".join(target)) for page in pages for target in re.findall(form, page.read_text())]
    inner = [(page, os.path.normpath(page.parent / target)) for page, target in links if "://" not in target]
    assert len(inner) > 30 and [(page, target) for page, target in inner if not os.path.exists(target)] == []
    cited = set(re.findall(r"\]\(([\w-]+\.(?:md|yaml))", (share / "toll/page/http.md").read_text()))
    assert {"commands.md", "openapi.yaml"} <= cited <= set(os.listdir(share / "toll/page"))


def test_a_link_to_what_is_not_installed_is_its_words() -> None:
    text = "See [a](b.md), [c](../d.md#e), ![f](g/h.png) and [i](https://j.example/k.md)."
    assert documents.linked(text, "docs", {"docs/b.md", "docs/g/h.png"}) == text.replace("[c](../d.md#e)", "c")
    assert documents.linked("[a](docs/b.md#c), [d](e.md)", ".", {"docs/b.md"}) == "[a](docs/b.md#c), d"


INSTALLED = {
    "`plant/bin/hilpoven status`": "`hilpoven status`",
    "`plant/tests`": "`SOURCES/plant/tests`",
    "$ ./toll --db": "$ toll --db",
    "toll() { ./toll --db": "toll() { command toll --db",
    "apt-get install ./toll_*.deb": "apt-get install ./toll_*.deb",
    "`demo/run day`": "`/usr/share/doc/toll/examples/demo day`",
    "`tools/check-docs`": "`SOURCES/tools/check-docs`",
    "`packaging/toll@.service`": "`/usr/lib/systemd/system/toll@.service`",
    "`docs/engineering/PROVED.md`": "`SOURCES/docs/engineering/PROVED.md`",
}


@pytest.mark.parametrize("source, installed", INSTALLED.items())
def test_a_name_becomes_that_which_is_installed(source: str, installed: pathlib.Path) -> None:
    assert documents.installed(source) == installed


# One version

USED = {
    "crates/toll_programs/src/task.rt": r'USAGE: &str = "toll (\S+), office format (\d+)\n',
    "crates/toll_programs/src/laws.rt": r'codes "toll (\S+), office format (\d+)\\n',
    "crates/toll_programs/src/version.rt": r'VERSION: &str = "(\S+), office format (\d+)"',
    "docs/commands.md": r"(?m)^toll (\S+), office format (\d+)$",
}


@pytest.mark.parametrize("file", USED)
def test_the_program_has_the_version_of_all(file: str) -> None:
    assert re.findall(USED[file], (ROOT / file).read_text()) == [(hilpoven.VERSION, str(hilpoven.OFFICE_VERSION))]


USAGES = [(USAGE, hilpoven.VERSION), ("toll 0.9, office format 2", "0.9"), ("", "no version")]


@pytest.mark.parametrize("usage, version", USAGES)
def test_each_file_has_one_version_and_a_program_that_of_its_usage(
    tmp_path: pathlib.Path, usage: str, version: str
) -> None:
    program = str(stub(tmp_path, usage))
    files = (versions.VERSION_FILE, "CHANGELOG.md", "debian/changelog")
    assert versions.versions(program) == {**dict.fromkeys(files, hilpoven.VERSION), program: version}


def test_the_packages_and_the_command_have_the_version(packages: pathlib.Path, unpacked: pathlib.Path) -> None:
    assert {re.sub(r"-\d+$", "", fields(deb)["Version"]) for deb in packages.glob("*.deb")} == {hilpoven.VERSION}
    assert (unpacked / f"usr/lib/python3/dist-packages/hilpoven-{hilpoven.VERSION}.dist-info").is_dir()


def test_no_other_page_or_file_says_a_version() -> None:
    form = r"(?:toll|hilpoven|papers)[_-]\d+\.\d[\w.-]*"
    pages = [ROOT / "README.md", *(ROOT / "docs").rglob("*.md")]
    named = {page.name: names for page in pages if (names := re.findall(form, page.read_text()))}
    assert named == {"packages.md": ["toll_1.0-1_amd64.deb"]}


def test_a_program_of_another_version_is_not_packaged(tmp_path: pathlib.Path) -> None:
    program = stub(tmp_path, "no usage")
    done = tool("package", "--program", program, tmp_path)
    wanted = f"package: {versions.VERSION_FILE} has version {hilpoven.VERSION}, but {program} has no version\n"
    assert (done.returncode, done.stdout, done.stderr, os.listdir(tmp_path)) == (2, "", wanted, ["program"])
    step = ["make", "-f", "debian/rules", "execute_before_dh_auto_configure", f"TOLL={program}"]
    direct = subprocess.run(step, cwd=ROOT, capture_output=True)
    assert direct.returncode and b"has no version" in direct.stderr


# Of each package


def test_the_gate_installs_what_a_build_needs() -> None:
    provided = dict.fromkeys(["debhelper-compat", "dh-sequence-installsysusers"], "debhelper")
    provided["dh-sequence-python3"] = "dh-python"
    control = (ROOT / "debian/control").read_text()
    (listed,) = re.findall(r"(?m)^Build-Depends: ((?:.*,\n)*.*)$", control)
    names = [package.split()[0] for package in listed.split(",")]
    assert {provided.get(package, package) for package in names} <= set(packages_of("build"))


def test_a_server_and_its_command_need_no_compiler(packages: pathlib.Path) -> None:
    """WeasyPrint brings one. If it is there, apt keeps it, because an installed package suggests it."""
    command, papers = (fields(*packages.glob(f"{name}_*.deb")) for name in ("hilpoven", "hilpoven-papers"))
    needed, suggested, of_papers = (
        {package.split()[0] for package in packages_named.split(", ")}
        for packages_named in (f"{command['Depends']}, {command['Recommends']}", command["Suggests"], papers["Depends"])
    )
    heavy = {"weasyprint", "graphviz"}
    assert not heavy & needed and heavy | {"hilpoven-papers"} <= suggested and heavy | {"hilpoven"} <= of_papers


def test_a_single_plant_installs_nothing_of_a_group(packages: pathlib.Path, unpacked: pathlib.Path) -> None:
    (package,) = packages.glob("hilpoven-group_*.deb")
    listed = subprocess.run(["dpkg-deb", "-c", package], capture_output=True, text=True, check=True).stdout.split("\n")
    named = {
        line.split()[-1].removeprefix("./usr/lib/python3/dist-packages/") for line in listed if line.startswith("-")
    }
    source = ROOT / "group/src"
    files = {str(file.relative_to(source)) for file in (source / "hilpoven_group").glob("*.*") if file.suffix != ".pyc"}
    assert files == {name for name in named if name.startswith("hilpoven_group/")} and len(files) > 10
    assert {"hilpoven", "python3-psycopg2"} <= {name.split()[0] for name in fields(package)["Depends"].split(", ")}
    assert not list(unpacked.rglob("hilpoven_group")) and not list(unpacked.rglob("toll-publish*"))
    others = [
        fields(*packages.glob(f"{name}_*.deb")).get("Depends", "") for name in ("toll", "hilpoven", "hilpoven-papers")
    ]
    assert not any("psycopg2" in depends or "postgresql" in depends for depends in others)


def test_debians_command_is_isolated(unpacked: pathlib.Path) -> None:
    """Behind sudo no module comes from a member's environment or folder, and there is no other script."""
    (command,) = [program for program in (unpacked / "usr/bin").iterdir() if program.name != "toll"]
    assert re.fullmatch(r"#! ?/usr/bin/python3 -IB", command.read_text().splitlines()[0]) and command.name == "hilpoven"


@pytest.mark.parametrize("folder", ["usr/lib/python3/dist-packages", "usr/local/share/hilpoven/src"])
def test_each_file_of_the_command_is_packaged(unpacked: pathlib.Path, folder: str) -> None:
    def modules(top: pathlib.Path) -> set[pathlib.Path]:
        files = (file for file in (top / "hilpoven").rglob("*") if file.is_file())
        return {file.relative_to(top) for file in files if "__pycache__" not in file.parts}

    files, packaged = modules(ROOT / "plant/src"), modules(unpacked / folder)
    assert packaged == files and len(files) > 50 and not list(unpacked.rglob("__pycache__"))


def test_the_command_runs_from_the_tarball(unpacked: pathlib.Path) -> None:
    local = unpacked / "usr/local"
    done = subprocess.run([local / "bin/hilpoven", "--version"], capture_output=True, text=True)
    assert (done.returncode, done.stdout, done.stderr) == (0, f"hilpoven, version {hilpoven.VERSION}\n", "")
    assert (local / "bin/toll").is_file() and not list(local.rglob("__pycache__"))


# Units of packages that are Debian's alone
OF_DEBIAN = ("toll-desk@", "toll-passwords", "toll-persons@", "toll-notify@")


def test_the_tarball_has_what_the_packages_have(unpacked: pathlib.Path) -> Any:
    """Except what is Debian's alone. The settings of /etc are examples there."""

    def files(top: pathlib.Path, *left_out: str) -> set[str]:
        paths = {str(file.relative_to(top)) for file in top.rglob("*") if not file.is_dir()}
        return {path for path in paths if not path.startswith(left_out)}

    debians = ["local/", "lib/python3/", "share/lintian/", "share/doc/hilpoven-papers/"]
    debians += [f"share/{folder}hilpoven-{name}/" for folder in ("", "doc/") for name in ("desk", "persons")]
    debians += [f"lib/systemd/system/{unit}" for unit in OF_DEBIAN]
    packaged = {path for path in files(unpacked / "usr", *debians) if not path.endswith("changelog.Debian.gz")}
    examples = {f"share/doc/hilpoven/examples/{path}" for path in files(unpacked / "etc", "pam.d/")}
    assert len(examples) == 3 and files(unpacked / "usr/local", "share/hilpoven/") == packaged | examples


def test_the_rule_of_sudo_is_one_that_sudo_reads(unpacked: pathlib.Path, tmp_path: pathlib.Path) -> None:
    rule = pathlib.Path(shutil.copy(unpacked / "etc/sudoers.d/hilpoven", tmp_path))
    assert rule.stat().st_mode & 0o777 == 0o440
    if shutil.which("visudo"):
        assert subprocess.run(["visudo", "-c", "-f", rule], capture_output=True).returncode == 0


# Licences


def linked_libraries() -> Any:
    """The toolchain's libraries that crates.txt names, and those that they use."""
    names = set(re.findall(r"\w+", re.sub(r"(?m)^#.*", "", (ROOT / "crates.txt").read_text())))
    linked: set[str] = set()
    while reached := {name for name in names - linked if (LIBRARIES / name / "src").is_dir()}:
        linked |= reached
        sources = (source for library in reached for source in (LIBRARIES / library / "src").rglob("*.rt"))
        texts = (source.read_text(errors="replace") for source in sources)
        names = {name for text in texts for name in re.findall(r"\b([a-z_]\w*)::", text)}
    return linked


def test_the_licences_of_all_linked_libraries_are_in_the_copyright() -> Any:
    """By the library's name, each holder, and the licence's last sentence; of Apache-2.0 Debian has the text."""

    def plain(text: str) -> Any:
        return " ".join(re.sub(r"(?m)^ \.$", "", text).split())

    copyright_text, wrong = plain((ROOT / "debian/copyright").read_text()), []
    for library in sorted(linked_libraries()):
        for file in sorted((LIBRARIES / library).glob("LICENSE*")):
            if file.name == "LICENSE-APACHE" and (LIBRARIES / library / "LICENSE-MIT").exists():
                continue  # one of the two is to be chosen
            text = file.read_text()
            holders = re.findall(r"(?mi)^ *copyright (?:\(c\)|©) (?:20\d\d,? )?(.*)$", text)
            end = "Apache-2.0" if "Apache License" in text[:100] else plain(text)[-400:]
            wrong += [(file, words) for words in (library, *holders, end) if words not in copyright_text]
    assert wrong == []


# The steps that tools/check-package runs side by side


def test_what_threads_wait_for_ends_with_its_children_and_nothing_more_begins(
    tmp_path: pathlib.Path, monkeypatch: pytest.MonkeyPatch
) -> None:
    monkeypatch.setattr("packages.ENDING", threading.Event())
    lines = f"sleep 300 & echo $! > {tmp_path}/new; mv {tmp_path}/new {tmp_path}/pid; wait"
    with concurrent.futures.ThreadPoolExecutor() as pool:
        waiting = pool.submit(output, "sh", "-c", lines)
        assert eventually((tmp_path / "pid").exists)
        end_all()
        with pytest.raises(Failed, match="status -15"):
            waiting.result(60)
    child = pathlib.Path("/proc", (tmp_path / "pid").read_text().strip(), "status")
    assert not RUNNING and eventually(lambda: not child.exists() or "zombie" in child.read_text())
    with pytest.raises(Failed, match="it was ended"):
        output("true")

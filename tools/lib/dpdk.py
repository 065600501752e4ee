"""DPDK's source and programs, for tools/try-dpdk: where they come from, how they are built, how a program is run."""
import concurrent.futures
import glob
import os
import re
import shlex
import shutil
import subprocess
import sys

TOP = os.path.dirname(os.path.dirname(os.path.dirname(os.path.abspath(__file__))))
C = os.path.join(TOP, "c")
SHIM = os.path.join(C, "dpdk")
CASES = os.path.join(SHIM, "tests")
OUT = os.path.abspath(os.environ.get("OUT", os.path.join(TOP, "out", "dpdk")))
LIBRARY = os.path.abspath(os.environ.get("LIBRARY", os.path.join(TOP, "out", "c", "libhokhtura.a")))
EAL = ["--no-huge", "--no-pci", "-m", "512", "--no-shconf", "--no-telemetry"]
NEEDED = ["apt-get", "dpkg-source", "gcc", "pkg-config", "dpdk-test", "dpdk-testpmd"]
PACKAGES = "dpdk dpdk-dev libdpdk-dev dpkg-dev gcc pkg-config"
SEARCHED = """Types: deb-src
URIs: http://deb.debian.org/debian
Suites: {suite}
Components: main
Signed-By: /usr/share/keyrings/debian-archive-keyring.gpg
"""
# Files of cases, and the header that each is compiled with.
SHOWN = {"cases.c": None, "ring_cases.c": "hokhtura_rte.h", "stress_cases.c": "hokhtura_rte.h",
         "ring_perf_cases.c": "hokhtura_rte.h", "lpm_cases.c": "hokhtura_rte_lpm.h",
         "reorder_cases.c": "hokhtura_rte_reorder.h", "mempool_cases.c": None, "mempool_perf_cases.c": None}
# A function of DPDK's tests.
FUNCTION = re.compile(r"^(int32_t\n(\w+)\(void\)\n\{\n)(.*?)^\}\n", re.M | re.S)


def run(words, **options):
    """The status of a command and what it said, on both streams."""
    env = {**options.pop("env", os.environ), "LC_ALL": "C"}
    done = subprocess.run(words, stdout=subprocess.PIPE, stderr=subprocess.STDOUT, text=True, errors="replace",
                          check=False, env=env, **options)
    return done.returncode, done.stdout


def must(words, **options):
    status, said = run(words, **options)
    if status != 0:
        sys.exit(f"try-dpdk: {shlex.join(words)} ends with status {status}\n{said}")
    return said


def check_tools():
    missing = [tool for tool in NEEDED if not shutil.which(tool)]
    if missing:
        sys.exit(f"try-dpdk: there is no {missing[0]}: apt-get install {PACKAGES}")


def source():
    """The folder of DPDK's source, of the version that is installed. It is fetched once."""
    version = must(["dpkg-query", "-W", "-f", "${source:Version}", "libdpdk-dev"])
    folder = os.path.join(OUT, "source")
    found = glob.glob(os.path.join(folder, version, "dpdk-*", "app", "test"))
    if not found:
        state = os.path.join(folder, version)
        os.makedirs(os.path.join(state, "lists", "partial"), exist_ok=True)
        suite = must(["sh", "-c", ". /etc/os-release && printf %s $VERSION_CODENAME"])
        with open(os.path.join(state, "searched.sources"), "w", encoding="utf-8") as file:
            file.write(SEARCHED.format(suite=suite))
        apt = ["apt-get", "-q", "-o", f"Dir::Etc::sourcelist={state}/searched.sources",
               "-o", "Dir::Etc::sourceparts=/nonexistent", "-o", f"Dir::State::lists={state}/lists"]
        must([*apt, "update"])
        must([*apt, "source", f"dpdk={version}"], cwd=state)
        found = glob.glob(os.path.join(state, "dpdk-*", "app", "test"))
    return os.path.dirname(os.path.dirname(found[0])), version


def flags(dpdk):
    """How DPDK's tests are compiled. Some of their headers aren't installed."""
    return [*must(["pkg-config", "--cflags", "libdpdk"]).split(), "-DALLOW_EXPERIMENTAL_API", "-DALLOW_INTERNAL_API",
            "-I", C, "-I", SHIM, "-I", CASES, "-I", os.path.join(dpdk, "app", "test"),
            *(word for folder in ("eal/include", "ethdev", "eventdev")
              for word in ("-idirafter", os.path.join(dpdk, "lib", folder)))]


def without_readers(dpdk, name, reads, folder):
    """A copy of a file of tests in that folder, in which each test that reads a structure's inside says so. Returns
    what these tests read."""
    with open(os.path.join(dpdk, "app", "test", name), encoding="utf-8") as file:
        text = file.read()
    found = {}

    def instead(function):
        read = re.search(reads, function[3])
        if not read:
            return function[0]
        found[function[2]] = f"reads {read[0]}"
        return function[1] + "\treturn CASE_CANT_BE;\n}\n"
    os.makedirs(folder, exist_ok=True)
    with open(os.path.join(folder, name), "w", encoding="utf-8") as file:
        file.write(FUNCTION.sub(instead, text))
    return found


def compile_all(jobs):
    """Runs compilers side by side: pairs of a file and its words. Returns those that failed, with what they said."""
    with concurrent.futures.ThreadPoolExecutor(2) as pool:
        done = pool.map(lambda job: (job[0], run(job[1])), jobs)
        return [(file, said) for file, (status, said) in done if status != 0]


def build_cases(dpdk, over_dpdk, out):
    """The program of all cases, and for those that aren't there why."""
    stress = sorted(glob.glob(os.path.join(dpdk, "app", "test", "test_ring_*_stress*.c")))
    files = {os.path.join(CASES, name): shim for name, shim in SHOWN.items()}
    files.update((name, "hokhtura_rte.h") for name in stress)
    changed, cant_be = os.path.join(out, "changed"), {}
    if not over_dpdk:
        cant_be = without_readers(dpdk, "test_lpm.c", r"lpm->tbl(?:24|8)\b", changed)
    jobs, objects = [], []
    for file, shim in files.items():
        objects.append(os.path.join(out, os.path.basename(file) + ".o"))
        shown = ["-include", shim] if shim and not over_dpdk else []
        jobs.append((file, ["gcc", "-O3", "-g", "-w", "-I", changed, *flags(dpdk), *shown, "-c", file, "-o",
                            objects[-1]]))
    for file, said in compile_all(jobs):
        sys.exit(f"try-dpdk: {file} doesn't compile\n{said}")
    program = os.path.join(out, "cases")
    libraries = must(["pkg-config", "--libs", "libdpdk"]).split()
    must(["gcc", *objects, *([] if over_dpdk else [LIBRARY]), *libraries, "-lpthread", "-o", program])
    return program, cant_be


def build_driver():
    """The driver, and the one for all pools."""
    must(["make", "-s", "-C", SHIM, f"LIBRARY={LIBRARY}", f"OUT={OUT}"])
    return [os.path.join(OUT, f"librte_mempool_hokhtura{end}.so") for end in ("", "_all")]

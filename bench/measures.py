"""The common part of the scripts of this folder: their words, the program, a run's time and memory, and packages of a few
tables."""
import os
import shutil
import subprocess
import sys
import time

TOP = os.path.dirname(os.path.dirname(os.path.realpath(__file__)))
MEGABYTE = 1 << 20
SMALL = "--small" in sys.argv[1:]
WORDS = [word for word in sys.argv[1:] if word != "--small"]


def sized(large, small):
    """Returns what a script uses: the second with the word --small."""
    return small if SMALL else large


def word(place, otherwise):
    """Returns the script's word at this place, or else the other."""
    return WORDS[place] if len(WORDS) > place else otherwise


def given_program():
    """Returns the path of msi_run: what MSI_RUN names, or else what the repository has built. No script builds it: bench/all
    does, and then runs the scripts."""
    path = os.path.abspath(os.environ.get("MSI_RUN") or f"{TOP}/crates/msi_run/out/msi_run")
    if not os.access(path, os.X_OK):
        sys.exit(f"no program msi_run: MSI_RUN names none, and bench/all hasn't built one (bench/all {os.path.basename(sys.argv[0])})")
    return path


PROGRAM = given_program()


def compiled_loops(folder):
    """Compiles the plain loops into the folder, and returns the path; ends the script as skipped where there is no compiler."""
    if not shutil.which("cc"):
        print("skipped: no cc")
        sys.exit(0)
    subprocess.run(["cc", "-O2", "-o", f"{folder}/plain", f"{TOP}/bench/plain.c"], check=True)
    return f"{folder}/plain"


def run(*words, wanted="Result: Done", folder=None):
    """Returns the seconds of a run, and the most memory that it held, in bytes, but no less than what this process holds, some
    15 MB. Its last line has to begin with the wanted one."""
    start = time.monotonic()
    child = subprocess.Popen([PROGRAM, *words], cwd=folder, stdout=subprocess.PIPE)
    last = child.stdout.read().decode().splitlines()[-1:] or [""]
    _, _, usage = os.wait4(child.pid, 0)
    child.returncode = 0
    if not last[0].startswith(wanted):
        sys.exit(f"{' '.join(words)}: {last[0]}, not {wanted}")
    return time.monotonic() - start, usage.ru_maxrss * 1024


def apart(write, *given):
    """Calls a function that writes files, in a process apart: what this one holds counts as held by each run that it starts."""
    child = os.fork()
    if child == 0:
        status = 1
        try:
            write(*given)
            status = 0
        finally:
            os._exit(status)
    if os.waitpid(child, 0)[1] != 0:
        sys.exit("the package wasn't written")


def size_of(folder):
    """Returns how many bytes the tables in a folder have."""
    return sum(entry.stat().st_size for entry in os.scandir(folder) if entry.name.endswith(".idt"))


def tell_load():
    print("load of the machine: %.1f" % os.getloadavg()[0])


def write_table(folder, name, lines):
    with open(f"{folder}/{name}.idt", "wb") as file:
        file.writelines(line.encode() + b"\r\n" for line in lines)


# ---- packages of a few tables

CODE = "{7C9E6679-7425-40DE-944B-E07FC1F90AE7}"
UNKNOWN = "Result: Refused UnknownProduct " + CODE  # what /x says, once the package is loaded, of a product that isn't recorded
HEADS = {
    "Property": ("Property\tValue", "s72\tl0", "Property"),
    "Directory": ("Directory\tDirectory_Parent\tDefaultDir", "s72\tS72\tl255", "Directory"),
    "Feature": ("Feature\tFeature_Parent\tTitle\tDescription\tDisplay\tLevel\tDirectory_\tAttributes",
                "s38\tS38\tL64\tL255\tI2\ti2\tS72\ti2", "Feature"),
    "Component": ("Component\tComponentId\tDirectory_\tAttributes\tCondition\tKeyPath", "s72\tS38\ts72\ti2\tS255\tS72", "Component"),
    "FeatureComponents": ("Feature_\tComponent_", "s38\ts72", "Feature_\tComponent_"),
    "File": ("File\tComponent_\tFileName\tFileSize\tVersion\tLanguage\tAttributes\tSequence", "s72\ts72\tl255\ti4\tS72\tS20\tI2\ti2", "File"),
    "Registry": ("Registry\tRoot\tKey\tName\tValue\tComponent_", "s72\ti2\tl255\tL255\tL0\ts72", "Registry"),
    "LaunchCondition": ("Condition\tDescription", "s255\tl255", "Condition"),
    "CustomAction": ("Action\tType\tSource\tTarget", "s72\ti2\tS72\tS255", "Action"),
    "InstallExecuteSequence": ("Action\tCondition\tSequence", "s72\tS255\tI2", "Action"),
}
SEQUENCE = {
    "LaunchConditions": 100, "CostInitialize": 800, "FileCost": 900, "CostFinalize": 1000, "InstallInitialize": 1500,
    "ProcessComponents": 1600, "RemoveRegistryValues": 2600, "RemoveFiles": 3500, "InstallFiles": 4000, "WriteRegistryValues": 5000,
    "PublishProduct": 6400, "InstallFinalize": 6600,
}


def package():
    """Returns the rows of a small package, by their tables: a feature with a component, and the usual actions."""
    rows = {table: [] for table in HEADS}
    rows["Property"] = [("Manufacturer", "Acme"), ("ProductCode", CODE), ("ProductLanguage", "1033"), ("ProductName", "Bench"),
                        ("ProductVersion", "1.0")]
    rows["Directory"] = [("TARGETDIR", "", "SourceDir")]
    rows["Feature"] = [("Main", "", "", "", "1", "1", "", "0")]
    rows["Component"] = [("C", "{AAAAAAAA-0000-0000-0000-000000000001}", "TARGETDIR", "0", "", "")]
    rows["FeatureComponents"] = [("Main", "C")]
    rows["InstallExecuteSequence"] = [(action, "", str(place)) for action, place in SEQUENCE.items()]
    return rows


def write_package(folder, rows):
    """Writes the tables of a package, in place of one that is there."""
    shutil.rmtree(folder, ignore_errors=True)
    os.makedirs(folder)
    for table, (columns, kinds, keys) in HEADS.items():
        write_table(folder, table, [columns, kinds, f"{table}\t{keys}", *("\t".join(row) for row in rows[table])])

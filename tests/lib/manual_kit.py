"""The common part of tests/manual: the page, packages with rows in all tables, the machine folder, commands and what they answer."""
import os, re, shutil, struct, subprocess, sys

top, room = sys.argv[1], os.getcwd()
page = open(top + '/docs/MANUAL.md').read()
seen = set()      # program, status and last line of each command
followed = set()  # the answers for which what the page says was done, and the run was done then


class Tally:
    count = wrong = 0
    group = None  # its title, and both numbers where it begins


def check(what, holds):
    Tally.count += 1
    if not holds:
        Tally.wrong += 1
        print('wrong:', what, flush=True)


def group(title):
    if Tally.group:
        name, count, wrong = Tally.group
        print(f'{name}: {Tally.count - count} checks, {Tally.wrong - wrong} wrong', flush=True)
    Tally.group = (title, Tally.count, Tally.wrong)


def end():
    group('')
    print(f'{Tally.wrong} of {Tally.count} checks wrong')
    sys.exit(Tally.wrong > 0)


# ---- the page

def section(title):
    return page.split(f'\n## {title}\n')[1].split('\n## ')[0]


# The rows of a section's tables, cell by cell, without the first.
def rows_of(title):
    return [line[2:-2].split(' | ') for line in section(title).split('\n') if line.startswith('| ')][1:]


class Column:
    def __init__(self, text):
        self.name, key, to, self.kind, null = re.match(r'(\w+)(\*?) (>?)(\w+)(\??)', text).groups()
        self.key, self.null, self.target = key == '*', null == '?', self.kind if to else None


layout = {cells[0]: [Column(text) for text in cells[1].split(', ')] for cells in rows_of('The tables')}

# ---- packages; the fields of a row are parted by `/`

BASE = {
    'Property': ['Manufacturer/Acme', 'ProductCode/{11111111-1111-1111-1111-111111111111}', 'ProductLanguage/1033',
                 'ProductName/Demo', 'ProductVersion/1.0'],
    'Directory': ['TARGETDIR//SourceDir', 'ProgramFilesFolder/TARGETDIR/.', 'APPDIR/ProgramFilesFolder/App'],
    'Component': ['CFile/{AAAAAAAA-0000-0000-0000-000000000001}/APPDIR/0/VersionNT/FTool',
                  'CReg/{AAAAAAAA-0000-0000-0000-000000000002}/APPDIR/4//RVer'],
    'Feature': ['Main////1/1//0', 'Docs/Main/Title/Text/1/1/APPDIR/0'],
    'FeatureComponents': ['Main/CFile', 'Main/CReg'],
    'Condition': ['Docs/1/VersionNT'],
    'File': ['FTool/CFile/TOOL~1.TXT|tool.txt/5///0/1', 'FHelp/CFile/help.txt/4/FTool/1033/0/2'],
    'MsiFileHash': ['FTool/0/708854109/1982483388/-1851952711/-1832577264'],
    'RemoveFile': ['XOld/CFile/*.old/APPDIR/1'],
    'CreateFolder': ['APPDIR/CFile'],
    'DuplicateFile': ['DCopy/CFile/FTool/copy.txt/APPDIR'],
    'Registry': ['RVer/2/Software\\Acme/Ver/1/CReg'],
    'RemoveRegistry': ['XKey/2/Software\\Old/Ver/CReg'],
    'Environment': ['EVar/=-ACME/[APPDIR]/CReg'],
    'Shortcut': ['STool/APPDIR/Tool/CFile/[#FTool]/-v/Text/0/Icon/0/1/APPDIR'],
    'LaunchCondition': ['VersionNT >= 600/Too old'],
    'CustomAction': ['SetX/51/PROPX/[VersionNT]', 'Unused/1/Code/Entry'],
    'InstallExecuteSequence': [
        'LaunchConditions//100', 'SetX/NOT NoSuch/950', 'CostFinalize//1000', 'InstallInitialize//1500', 'ProcessComponents//1600',
        'RemoveRegistryValues//2600', 'RemoveShortcuts//3200', 'RemoveEnvironmentStrings//3300', 'RemoveDuplicateFiles//3400',
        'RemoveFiles//3500', 'RemoveFolders//3600', 'CreateFolders//3700', 'InstallFiles//4000', 'DuplicateFiles//4210',
        'CreateShortcuts//4500', 'WriteRegistryValues//5000', 'WriteEnvironmentStrings//5200', 'PublishProduct//6400',
        'InstallFinalize//6600', 'ValidateProductID//700'],
    'Upgrade': ['{BBBBBBBB-0000-0000-0000-000000000001}/1.0/2.0/1033/1/ALL/OLDFOUND'],
    '_SummaryInformation': ['15/0', '2/A title'],
}


class Package:
    def __init__(self):
        self.heads = {t: [[c.name for c in cs], ['I4' if c.kind == 'i' else 'L0' for c in cs],
                          [t] + [c.name for c in cs if c.key]] for t, cs in layout.items()}
        self.rows = {t: [fields.split('/') for fields in BASE[t]] for t in layout}
        self.files = {'App/tool.txt': b'hello', 'App/help.txt': b'help'}
        self.raw = {}  # whole texts of tables; None is no file

    def set(self, table, row, column, value):
        self.rows[table][row - 1][[c.name for c in layout[table]].index(column)] = value
        return self

    def add(self, table, *rows):
        self.rows[table] += [fields.split('/') for fields in rows]
        return self

    def head(self, table, names=None, kinds=None, keys=None, rows=None):
        old = self.heads[table]
        self.heads[table] = [names or old[0], kinds or old[1], old[2] if keys is None else keys]
        self.rows[table] = self.rows[table] if rows is None else rows
        return self

    def as_text(self, table, text):
        self.raw[table] = text
        return self

    def text(self, table):
        if table in self.raw:
            return self.raw[table]
        return ''.join('\t'.join(line) + '\r\n' for line in self.heads[table] + self.rows[table]).encode()

    def write(self, folder='pkg'):
        shutil.rmtree(folder, ignore_errors=True)
        os.makedirs(folder + '/App')
        for path, data in [(t + '.idt', self.text(t)) for t in {**self.rows, **self.raw}] + list(self.files.items()):
            if data is not None:
                with open(f'{folder}/{path}', 'wb') as file:
                    file.write(data)
        return self


# ---- the machine folder

def path_of(name, folder='machine'):
    digits = name.encode().hex()
    return folder + '/' + '+/'.join(digits[at:at + 200] for at in range(0, len(digits), 200))


def put(name, data):
    os.makedirs(os.path.dirname(path_of(name)), exist_ok=True)
    with open(path_of(name), 'wb') as file:
        file.write(data)


def tree(folder='machine'):
    return {os.path.join(at, name)[len(folder) + 1:]: open(os.path.join(at, name), 'rb').read()
            for at, _, names in os.walk(folder) for name in names}


def names_of(folder='machine'):
    return {bytes.fromhex(path.replace('+/', '')).decode(): data for path, data in tree(folder).items()}


def fresh(former=None):
    shutil.rmtree('machine', ignore_errors=True)
    if former:
        shutil.copytree(former, 'machine')


def text(value):  # of a record
    return struct.pack('>I', len(value.encode())) + value.encode()


# ---- commands

def run(*words, program='msi_run', before=(), **how):
    how.setdefault('stdout', subprocess.PIPE)
    done = subprocess.run([*before, f'{room}/{program}', *words], stdin=subprocess.DEVNULL, stderr=subprocess.PIPE, timeout=100, **how)
    lines = (done.stdout or b'').decode(errors='replace').splitlines()
    seen.add((program, done.returncode, lines[-1] if lines else ''))
    return done.returncode, lines


def answers(what, status, result, *words, **how):
    found, lines = run(*words, **how)
    last = lines[-1] if lines else ''
    check(f'{what}: wanted {status} {result!r}, found {found} {last[:200]!r}', (found, last) == (status, result))
    return (found, last) == (status, result)


def is_done(what, *words, **how):
    return answers(what, 0, 'Result: Done', *(words or ('/i', 'pkg')), **how)


def refused(what, fault, *words, status=11):
    return answers(what, status, 'Result: Refused ' + ('Table ' if status == 11 else '') + fault, *(words or ('/i', 'pkg')))


# Whether a package is loaded without a fault is seen without writing anything.
def is_taken(what, package):
    package.write()
    is_done(what, '/i', 'pkg', 'REMOVE=ALL')


def is_refused(what, fault, package):
    package.write()
    refused(what, fault)
    check(f'{what}: something was written', not os.path.exists('machine') or not tree())


# ---- words of tests/manual

P = Package


def row(table, *fields):
    return P().add(table, '/'.join(fields))


def shown(value):
    return repr(value if len(value) < 60 else f'{value[:20]}.. of {len(value)} bytes')


HEAD = ['Registry\tRoot\tKey\tName\tValue\tComponent_', 's72\ti2\tl255\tL255\tL0\ts72', 'Registry\tRegistry']
ROW, OTHER = 'RVer\t2\tSoftware\\Acme\tVer\t{}\tCReg', 'R\t2\tK\tN\t1\tCReg'
VALUE = 'v/20013software\\acmever'


# Registry in these lines, with a further column where there are its name, definition and field, and with this third line.
def registry(*rows, more=None, third=HEAD[2]):
    lines = [*HEAD[:2], third, *(rows or [ROW.format(1)])]
    if more:
        lines = [line if at == 2 else line + '\t' + more[min(at, 2)] for at, line in enumerate(lines)]
    return ('\r\n'.join(lines) + '\r\n').encode()


def fault(fault, broken, mended, value=None):
    fresh()
    is_refused(fault, 'Idt Registry ' + fault, P().as_text('Registry', broken))
    P().as_text('Registry', mended).write()
    if is_done(fault + ', mended'):
        followed.add(fault.split()[0])
    if value is not None:
        check(f'{fault}: the value is {value!r}', names_of().get(VALUE) == text('Ver') + b'\1' + text(value))


def taken(what, whole):
    is_taken(what, P().as_text('Registry', whole))


# A run of `broken` is refused by this answer and changes nothing; where what is said is done, it is done.
def follow(answer, broken, mended, words=(), again=(), status=11):
    fresh()
    broken.write()
    refused(answer, answer, '/i', 'pkg', *words, status=status)
    check(answer + ': something has changed', not os.path.exists('machine') or not tree())
    mended.write()
    if is_done(answer + ', mended', '/i', 'pkg', *again):
        followed.add(answer.split()[0])


# The sequence with an action at another place, or with one more.
def moved(action, place):
    package = P()
    next(fields for fields in package.rows['InstallExecuteSequence'] if fields[0] == action)[2] = str(place)
    return package


def more(action, place, condition=''):
    return row('InstallExecuteSequence', action, condition, str(place))


def stopped(what, status, result):
    was = tree()
    for words in [['/i', 'pkg'], ['/x', 'pkg'], ['/f', 'pkg'], ['/clients'], ['/products'], ['/recover'], ['/selftest', '1']]:
        answers(f'{what}, {words[0]}', status, result, *words)
    check(what + ': something has changed', tree() == was)


def variables(what, **values):
    for name, value in values.items():
        found = names_of().get(f'n/{int(name == "SYS")}{name.lower()}')
        check(f'{what}: {name} is {found!r}', found == (value and text(name) + text(value)))


def long_file(size):
    package = row('File', 'FLong', 'CFile', 'x' * (size - 21), '1', '', '', '0', '3')
    package.files['App/' + 'x' * (size - 21)] = b'x'
    return package


# A repair meets a disk that fails at this name from its first write in place on.
def failing(name, *how):
    fresh('former')
    done = subprocess.run(['strace', '-q', '-o', 'trace', '-P', path_of(name), '-e', 'trace=openat', *how, room + '/msi_run', '/famus', 'pkg'],
                          stdin=subprocess.DEVNULL, stdout=subprocess.PIPE, stderr=subprocess.PIPE)
    return done.returncode, done.stdout.decode().splitlines()[-1]

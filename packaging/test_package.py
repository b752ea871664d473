#!/usr/bin/env python3
"""Builds the package and installs it below a folder of its own. Looks at its files, its pages and its unit, and starts the server as the
unit does, and the shell over it. The program is the one in the environment variable GUARDDB, or else tests/fake_guarddb.py.
"""
import gzip
import os
import re
import shlex
import shutil
import stat
import struct
import subprocess
import sys
import tempfile
import unittest

TOP = os.path.dirname(os.path.dirname(os.path.realpath(__file__)))
sys.dont_write_bytecode = True
sys.path.insert(0, os.path.join(TOP, 'tests'))
from program import PATIENCE, PROGRAM       # noqa: E402
import guarddb      # noqa: E402

STARTS = f'#!/bin/sh\nexec {shlex.quote(PROGRAM)} "$@"\n'     # what is packed, since the program may find its parts by its own path
PRESENT = [('usr/bin/guarddb', 0o755), ('usr/bin/guarddb-shell', 0o755), ('usr/lib/python3/dist-packages/guarddb.py', 0o644),
           ('usr/lib/python3/dist-packages/guarddb_syntax.py', 0o644), ('usr/lib/python3/dist-packages/guarddb_layout.py', 0o644),
           ('usr/share/guarddb/shell.py', 0o644), ('usr/share/guarddb/alter.py', 0o644), ('usr/share/guarddb/shell_display.py', 0o644),
           ('usr/share/guarddb/password.py', 0o644), ('usr/share/doc/guarddb/passwords.md', 0o644),
           ('usr/share/guarddb/ping.py', 0o755), ('usr/share/guarddb/may_open.py', 0o755), ('usr/bin/guarddb-ping', 0o755),
           ('usr/share/guarddb/backup.py', 0o644), ('usr/bin/guarddb-backup', 0o755),
           ('usr/lib/systemd/system/guarddb@.service', 0o644), ('usr/lib/sysusers.d/guarddb.conf', 0o644),
           ('etc/guarddb/example.conf.sample', 0o644), ('usr/share/man/man1/guarddb.1.gz', 0o644),
           ('usr/share/man/man1/guarddb-shell.1.gz', 0o644), ('usr/share/doc/guarddb/copyright', 0o644),
           ('usr/share/doc/guarddb/reliability.md', 0o644)]
# Lines that the unit does not go without.
HARDENING = ['NoNewPrivileges=yes', 'ProtectSystem=strict', 'PrivateNetwork=yes', 'RestrictAddressFamilies=AF_UNIX', 'CapabilityBoundingSet=',
             'User=guarddb']
MEBIBYTE = {'K': 1 / 1024, 'M': 1, 'G': 1024}


def run(*words, **how):
    return subprocess.run(words, text=True, capture_output=True, **how)


def modules_of(root):
    """The environment in which the modules that are installed below a folder are found."""
    return {**os.environ, 'PYTHONPATH': os.path.join(root, 'usr/lib/python3/dist-packages'), 'PYTHONDONTWRITEBYTECODE': '1'}


@unittest.skipUnless(shutil.which('dpkg-deb'), 'there is no dpkg-deb')
class Package(unittest.TestCase):
    @classmethod
    def setUpClass(cls):
        cls.held = tempfile.TemporaryDirectory(prefix='guarddb-package-test.')
        cls.folder = cls.held.name
        program = os.path.join(cls.folder, 'program')
        with open(program, 'w') as file:
            file.write(STARTS)
        os.chmod(program, 0o755)
        built = run(os.path.join(TOP, 'package'), '--out', cls.folder, program)
        assert built.returncode == 0, built.stderr
        cls.deb = built.stdout.strip()
        cls.root = os.path.join(cls.folder, 'root')
        unpacked = run('dpkg-deb', '-x', cls.deb, cls.root)
        assert unpacked.returncode == 0, unpacked.stderr

    @classmethod
    def tearDownClass(cls):
        cls.held.cleanup()

    def read(self, path):
        with open(os.path.join(self.root, path), 'rb') as file:
            content = file.read()
        return (gzip.decompress(content) if path.endswith('.gz') else content).decode()

    def unit(self):
        return self.read('usr/lib/systemd/system/guarddb@.service')

    def test_files_are_there_with_their_modes(self):
        for path, mode in PRESENT:
            with self.subTest(path):
                self.assertEqual(stat.S_IMODE(os.stat(os.path.join(self.root, path)).st_mode), mode)

    def test_the_program_is_the_given_one(self):
        self.assertEqual(self.read('usr/bin/guarddb'), STARTS)

    def test_files_belong_to_root(self):
        for line in run('dpkg-deb', '-c', self.deb).stdout.splitlines():
            self.assertEqual(line.split()[1], 'root/root', line)

    def test_control_names_version_and_architecture(self):
        fields = dict(line.split(': ', 1) for line in run('dpkg-deb', '-f', self.deb).stdout.splitlines() if re.match(r'\w', line))
        with open(os.path.join(TOP, 'crates', 'cli', 'src', 'texts.rt'), encoding='utf-8') as file:
            version = re.search(r'VERSION_NUMBER: &str = "([^"]*)"', file.read())[1]
        self.assertEqual(fields['Package'], 'guarddb')
        self.assertEqual(fields['Version'], f'{version}-1')
        self.assertEqual(fields['Architecture'], run('dpkg', '--print-architecture').stdout.strip())

    def test_sums_are_those_of_the_files(self):
        control = os.path.join(self.folder, 'control')
        run('dpkg-deb', '-e', self.deb, control)
        summed = run('md5sum', '-c', '--quiet', os.path.join(control, 'md5sums'), cwd=self.root)
        self.assertEqual((summed.returncode, summed.stdout), (0, ''))
        for name in ('postinst', 'prerm', 'postrm'):
            self.assertEqual(run('sh', '-n', os.path.join(control, name)).stderr, '')

    def test_the_shell_starts(self):
        environment = {**os.environ, 'PYTHONPATH': os.path.join(self.root, 'usr/lib/python3/dist-packages')}
        said = run(sys.executable, '-B', os.path.join(self.root, 'usr/share/guarddb/shell.py'), '--help', env=environment)
        self.assertEqual(said.returncode, 0, said.stderr)

    def installed(self):
        """The folder below which the package is installed: by dpkg, which only root may do, or else unpacked."""
        if os.geteuid() or not shutil.which('dpkg'):
            return self.root
        root = os.path.join(self.folder, 'installed')
        for name in ('info', 'updates', 'triggers'):
            os.makedirs(os.path.join(root, 'var/lib/dpkg', name), exist_ok=True)
        for name in ('status', 'available'):
            with open(os.path.join(root, 'var/lib/dpkg', name), 'w', encoding='utf-8'):
                pass
        done = run('dpkg', f'--root={root}', f'--log={root}/log', '--force-depends', '--force-bad-path', '--no-triggers', '--unpack', self.deb)
        self.assertEqual(done.returncode, 0, done.stderr)
        self.assertRegex(run('dpkg-query', f'--admindir={root}/var/lib/dpkg', '-W').stdout, r'\Aguarddb\s')
        return root

    def started_by(self, root, place, name='ExecStart'):
        """The words and the environment of a line with which the unit starts something, below a folder, for another socket. As in a unit
        ${NAME} is one word, and $NAME as many as stand in it."""
        unit = self.unit().replace('%i', 'shop').replace('/run/guarddb/shop/sock', place)
        environment = dict(pair.split('=', 1) for line in re.findall(r'(?m)^Environment=(.*)$', unit) for pair in shlex.split(line))
        line = re.search(rf'(?m)^{name}=(.*)$', unit)[1]
        line = re.sub(r'\$(\w+)', lambda found: environment[found[1]], line)
        words = [re.sub(r'\$\{(\w+)\}', lambda found: environment[found[1]], word) for word in line.split()]
        return [root + words[0], *words[1:]], {**modules_of(root), **environment}

    def test_it_is_installed_and_started(self):
        """As packaging/README.md has it: a database is made, the unit's server started, and the shell run over it."""
        root, state, place = self.installed(), os.path.join(self.folder, 'state'), os.path.join(self.folder, 'sock')
        os.mkdir(state)
        words, environment = self.started_by(root, place)
        made = run(words[0], 'format', 'shop.db', '--pages', '64', '--admin', 'root', cwd=state)
        self.assertEqual((made.returncode, made.stdout), (0, 'ok FORMAT\n'), made.stderr)
        before, _ = self.started_by(root, place, 'ExecStartPre')
        self.assertEqual(run(*before, cwd=state, env=environment).returncode, 0)
        server = subprocess.Popen(words, cwd=state, env=environment, stdout=subprocess.DEVNULL, stderr=subprocess.DEVNULL)
        try:
            behind, _ = self.started_by(root, place, 'ExecStartPost')
            said = run(*behind, env=environment)
            self.assertEqual((said.returncode, said.stdout), (0, 'ok PING\n'), said.stderr)
            with guarddb.connect(place, wait=PATIENCE, timeout=PATIENCE) as connection:
                connection.open('root').ask('CREATE TABLE t (k BIGINT PRIMARY KEY)')
            with open(os.path.join(root, 'usr/bin/guarddb-shell'), encoding='utf-8') as file:
                text = file.read().replace('/usr/', f'{root}/usr/')
            said = run('sh', '-c', text, 'guarddb-shell', place, 'root', '-c', 'SELECT current_user, count FROM t', '-c', 'SELECT 1', env=environment)
            self.assertEqual((said.returncode, said.stdout), (3, ''), said.stderr)
            self.assertIn('42703', said.stderr)
            said = run('sh', '-c', text, 'guarddb-shell', place, 'root', '-A', '-c', 'SELECT current_user, 1 FROM t', '-c', 'SELECT count(*) FROM t',
                       env=environment)
            self.assertEqual((said.returncode, said.stdout, said.stderr), (0, '0\n', ''))
        finally:
            server.terminate()
            server.wait(PATIENCE)
        self.assertEqual(run(words[0], 'check', 'shop.db', cwd=state).stdout, 'ok CHECK\n')

    def test_a_file_of_format_1_is_opened_where_that_was_said(self):
        path, before = os.path.join(self.folder, 'old.db'), os.path.join(self.root, 'usr/share/guarddb/may_open.py')
        for formats, may_open in (((1, 1), False), ((2, 1), True), ((1, 2), False), ((3, 2), True), ((4, 3), True)):
            with self.subTest(formats=formats):
                # The root of number 3, of sector 1, is newer than that of number 2, of sector 0.
                sectors = [struct.pack('>8sIIQ', b'GUARDDB1', kind, 64, number).ljust(512, b'\0') for number, kind in zip((2, 3), formats[::-1])]
                with open(path, 'wb') as file:
                    file.write(b''.join(sectors))
                said = run(before, path, 'no', env=modules_of(self.root))
                self.assertEqual(said.returncode, 0 if may_open else 4)
                self.assertEqual('MIGRATE=yes' in said.stderr, not may_open)
                self.assertEqual(run(before, path, 'yes', env=modules_of(self.root)).returncode, 0)
        none = os.path.join(self.folder, 'none')
        self.assertEqual([run(before, *words, env=modules_of(self.root)).returncode for words in ((none, 'no'), (path,))], [0, 2])

    def test_what_the_installation_does(self):
        """It makes the user, and the folder for that user alone. Programs that stand in for those that it calls tell of it."""
        control, tools = os.path.join(self.folder, 'scripts'), os.path.join(self.folder, 'tools')
        run('dpkg-deb', '-e', self.deb, control)
        os.mkdir(tools)
        for name in ('systemd-sysusers', 'install', 'systemctl'):
            with open(os.path.join(tools, name), 'w', encoding='utf-8') as file:
                file.write('#!/bin/sh\necho "${0##*/} $*"\n')
            os.chmod(file.name, 0o755)
        done = run('sh', os.path.join(control, 'postinst'), 'configure', env={'PATH': f'{tools}:{os.environ["PATH"]}'})
        self.assertEqual(done.returncode, 0, done.stderr)
        self.assertEqual(done.stdout.split('\n')[:2],
                         ['systemd-sysusers guarddb.conf', 'install -d -m 0700 -o guarddb -g guarddb /var/lib/guarddb'])

    def test_the_manual_has_each_command(self):
        page = self.read('usr/share/man/man1/guarddb.1.gz')
        for command in ('format', 'run', 'serve', 'check', 'describe', 'explain', 'copy', 'journal'):
            self.assertRegex(page, rf'(?m)^\.B {command} ')
        for title in ('NAME', 'SYNOPSIS', 'COMMANDS', 'OPTIONS', 'EXIT STATUS', 'FILES'):
            self.assertIn(f'.SH {title}\n', page)

    @unittest.skipUnless(shutil.which('groff'), 'there is no groff')
    def test_the_manuals_are_roff(self):
        for name in ('guarddb', 'guarddb-shell'):
            said = run('groff', '-man', '-Tutf8', '-ww', input=self.read(f'usr/share/man/man1/{name}.1.gz'))
            self.assertEqual(said.stderr, '')
            self.assertIn('SYNOPSIS', re.sub(r'\x1b\[[0-9;]*m|.\x08', '', said.stdout))

    def test_the_unit_is_hardened(self):
        lines = self.unit().splitlines()
        for line in HARDENING:
            self.assertIn(line, lines)
        stack = re.search(r'(?m)^LimitSTACK=(\d+)([KMG])$', self.unit())
        self.assertGreaterEqual(int(stack[1]) * MEBIBYTE[stack[2]], 1)
        self.assertRegex(self.unit(), r'(?m)^MemoryMax=\d+[MG]$')

    @unittest.skipUnless(shutil.which('systemd-analyze'), 'there is no systemd-analyze')
    def test_the_unit_is_verified(self):
        said = run('systemd-analyze', 'verify', '--man=no', f'--root={self.root}', 'guarddb@shop.service')
        # The folder has none of the units of a whole system, which `verify` names.
        wrong = [line for line in said.stderr.splitlines() if 'guarddb' in line and 'not found' not in line]
        self.assertEqual(wrong, [])
        exposed = run('systemd-analyze', 'security', '--offline=true', '--threshold=10', f'--root={self.root}', 'guarddb@shop.service')
        self.assertEqual(exposed.returncode, 0, exposed.stdout[-300:])      # at most 1.0 of 10


if __name__ == '__main__':
    unittest.main()

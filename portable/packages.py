"""Debian's packages, for the tests alone."""
import os
import shutil
import subprocess

from targets import TARGETS


def missing(names):
    """The packages of some machines that are not there."""
    wanted = sorted({package for name in names for package in TARGETS[name].needs})
    if not shutil.which('dpkg-query'):
        return wanted
    there = subprocess.run(['dpkg-query', '-W', '-f', '${Package} ${db:Status-Status}\n', *wanted], stdout=subprocess.PIPE, stderr=subprocess.DEVNULL,
                           encoding='utf-8', check=False).stdout.splitlines()
    return [package for package in wanted if f'{package} installed' not in there]


def install(names):
    """Installs what is missing, where this is Debian and we may; a machine whose packages are not there fails its test with their names."""
    packages = missing(names)
    if not packages or os.geteuid() != 0 or not shutil.which('apt-get'):
        return
    known = dict(os.environ, DEBIAN_FRONTEND='noninteractive')
    words = ['apt-get', '-o', 'DPkg::Lock::Timeout=600', '-q', '-y']
    for more in ['update'], ['install', '--no-install-recommends', *packages]:
        subprocess.run([*words, *more], stdout=subprocess.DEVNULL, stderr=subprocess.DEVNULL, env=known, check=False)

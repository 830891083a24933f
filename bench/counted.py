#!/usr/bin/env python3
"""Measures `orca play` on a machine whose clock counts instructions: bench/counted.py KERNEL [PROGRAM] [OPTION..]

An emulated machine (qemu-system-x86_64) starts this kernel, has the program, this folder and the Python that runs this
script in its memory, and runs `bench/live.py --short` with the options. Its clock goes on by a nanosecond at each
instruction, and goes to the next timer where there is nothing to do. So nothing else ever runs there, and no host can stop
it: what is late, the program is itself late. It has one processor, of a thousand million instructions a second, so it is
slower than a real one, and it writes to no disk. KERNEL is a compressed image of Linux, as /boot has it. PROGRAM is
crates/orca/out/orca if it is not given. The packages qemu-system-x86, busybox-static and cpio of Debian are needed.
"""
import os
import re
import shutil
import subprocess
import sys
import sysconfig
import tempfile

from built import program_of

HERE = os.path.dirname(os.path.abspath(__file__))
MACHINE = ['qemu-system-x86_64', '-accel', 'tcg', '-icount', 'shift=0,sleep=off', '-cpu', 'max', '-smp', '1', '-m', '1024',
           '-nographic', '-no-reboot', '-nodefaults', '-serial', 'stdio', '-append', 'console=ttyS0 quiet panic=-1']


def init(libraries, python, options):
    """What the machine does once it has started."""
    return f'''#!/bin/busybox sh
/bin/busybox --install -s /bin
export PATH=/bin LD_LIBRARY_PATH={libraries}
mount -t proc proc /proc
mount -t devtmpfs dev /dev
mount -t tmpfs tmp /tmp
ip link set lo up
cd /tmp
{python} -S /bench/live.py /bin/orca --short {options} 2>&1
poweroff -f
'''


def put(root, path):
    """Copies a file to the same place below the root."""
    os.makedirs(root + os.path.dirname(path), exist_ok=True)
    shutil.copy(path, root + path)


def fill(root, program, options):
    """Puts below the root what the machine needs."""
    for folder in ('bin', 'dev', 'proc', 'tmp'):
        os.makedirs(f'{root}/{folder}')
    shutil.copy(shutil.which('busybox'), root + '/bin/busybox')
    shutil.copy(program, root + '/bin/orca')
    shutil.copytree(HERE, root + '/bench', ignore=shutil.ignore_patterns('__pycache__'))
    python, modules = os.path.realpath(sys.executable), sysconfig.get_path('stdlib')
    skipped = shutil.ignore_patterns('__pycache__', 'site-packages', 'dist-packages', 'test', 'config-*')
    shutil.copytree(modules, root + modules, ignore=skipped)
    put(root, python)
    libraries = subprocess.run(['ldd', python, program], capture_output=True, text=True, check=True).stdout
    found = set(re.findall(r'(/\S+) \(0x', libraries))
    for path in found:
        put(root, path)
    with open(root + '/init', 'w') as file:
        file.write(init(':'.join(sorted({os.path.dirname(path) for path in found})), python, ' '.join(options)))
    os.chmod(root + '/init', 0o755)


def main():
    if len(sys.argv) < 2:
        sys.exit(__doc__)
    kernel, words = sys.argv[1], sys.argv[2:]
    program = program_of(words)
    if words and not words[0].startswith('--'):
        words.pop(0)
    for tool in MACHINE[0], 'busybox', 'cpio':
        if not shutil.which(tool):
            sys.exit(f"the command {tool} isn't on the path: install it")
    with tempfile.TemporaryDirectory() as folder:
        root, image = folder + '/root', folder + '/image'
        fill(root, program, words)
        with open(image, 'wb') as file:
            names = subprocess.run(['find', '.'], cwd=root, capture_output=True, check=True).stdout
            subprocess.run(['cpio', '-o', '-H', 'newc', '--quiet'], cwd=root, input=names, stdout=file, check=True)
        subprocess.run([*MACHINE, '-kernel', kernel, '-initrd', image], stdin=subprocess.DEVNULL, check=True)


if __name__ == '__main__':
    main()
